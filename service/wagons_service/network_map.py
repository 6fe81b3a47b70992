"""The places and lines of the network in force, with names and coordinates, as `wagons map` prints them."""

import re
from collections.abc import Iterator, Sequence
from typing import NamedTuple

# A place begins with its code, has its name in the first line of its label, and ends with where it lies, if that is said.
PLACE = re.compile(
    r'^  "([A-Z]{2}[0-9]{5})" \[label=<<TABLE [^\n]*\n    <TR><TD COLSPAN="4"><B>\1</B>(?: ([^\n]*))?</TD></TR>\n(?:    [^\n]*\n)*?'
    r'  </TABLE>>(?:, pos="([^,"]+),([^"]+)", pin=true)?\];$', re.M)
LINE = re.compile(
    r'^  "(line [0-9]+)" \[label="([0-9]+) km\\n([0-9]+) min"[^\n]*\n  "(\w+)" -> "\1" -> "(\w+)" \[len=([0-9.]+)(, dir=none)?\];$', re.M)
NETWORK = re.compile(r"Network ([0-9]+) is in force")
# Places behind this aren't in the network.
OUTSIDE = '  node [style="rounded,filled,dashed"];\n'
ESCAPES = (("\\\\", "\\"), ("&lt;", "<"), ("&gt;", ">"), ("&amp;", "&"))


class Place(NamedTuple):
    code: str
    name: str
    at: tuple[float, float] | None
    is_outside: bool


class Line(NamedTuple):
    start: str
    end: str
    km: int
    minutes: int
    is_both_ways: bool
    # How long the program would have it drawn.
    length: float


class NetworkMap(NamedTuple):
    network: int
    places: Sequence[Place]
    lines: Sequence[Line]


def read_map(text: str) -> NetworkMap:
    found = NETWORK.search(text)
    inside, mark, outside = text.partition(OUTSIDE)
    if not found or not mark:
        raise ValueError("`wagons map` printed what is no map")
    places = [*_places(inside, False), *_places(outside, True)]
    lines = [Line(start, end, int(km), int(minutes), bool(both), 2 * float(half)) for _, km, minutes, start, end, half, both in LINE.findall(outside)]
    return NetworkMap(int(found[1]), places, lines)


def _places(text: str, is_outside: bool) -> Iterator[Place]:
    for code, name, x, y in PLACE.findall(text):
        yield Place(code, _unescaped(name), (float(x), float(y)) if x else None, is_outside)


def _unescaped(name: str) -> str:
    for escape, character in ESCAPES:
        name = name.replace(escape, character)
    return name
