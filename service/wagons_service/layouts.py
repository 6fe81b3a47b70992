"""Where Graphviz sets the places of a network of which not all have coordinates.

Each network is laid out once. What failed is remembered, so that nothing waits for it again.
"""

import asyncio
import math
from collections import OrderedDict
from typing import NamedTuple

from .answers import Refusal
from .processes import run
from .network_map import NetworkMap

# `neato` compares each place with each other one, which takes long for more; `sfdp` leaves out what is far. Only in this mode
# `neato` leaves places where they lie.
MOST_FOR_NEATO = 600
NEATO, SFDP, NEATO_THAT_LEAVES = ["neato"], ["sfdp"], ["neato", "-Gmode=KK", "-Gnotranslate=true"]
MOST_LAYOUTS = 16

Points = dict[str, tuple[float, float]]


class Layout(NamedTuple):
    """Where places are set; or, where that failed, why."""

    points: Points
    words: str = ""


class Layouts:
    def __init__(self) -> None:
        self._made: OrderedDict[bytes, asyncio.Task[Layout]] = OrderedDict()
        # One at a time, so that whoever looks doesn't take the machine from those who send.
        self._turn = asyncio.Lock()

    def find(self, shown: NetworkMap) -> Layout | None:
        """The layout of a network, or `None` while it is made."""
        unit = unit_of(shown)
        graph = graph_of(shown, unit)
        made = self._made.get(graph)
        if made is None:
            made = self._made[graph] = asyncio.create_task(self._make(words_for(shown), graph, unit))
            if len(self._made) > MOST_LAYOUTS:
                self._made.popitem(last=False)
        return made.result() if made.done() else None

    async def _make(self, words: list[str], graph: bytes, unit: float) -> Layout:
        async with self._turn:
            try:
                return Layout(read_points(await run(["nice", "-n", "10", *words, "-Tplain"], graph), unit))
            except Refusal as fault:
                return Layout({}, str(fault))


def words_for(shown: NetworkMap) -> list[str]:
    if any(place.at for place in shown.places):
        return NEATO_THAT_LEAVES
    return NEATO if len(shown.places) <= MOST_FOR_NEATO else SFDP


def unit_of(shown: NetworkMap) -> float:
    """How much of the coordinates' own unit stands for an inch: a line between two places that have some is an inch long."""
    at = {place.code: place.at for place in shown.places if place.at}
    lengths = [math.dist(at[line.start], at[line.end]) / line.length for line in shown.lines if line.start in at and line.end in at]
    return sum(lengths) / len(lengths) if sum(lengths) else 1.0


def graph_of(shown: NetworkMap, unit: float) -> bytes:
    """The network as Graphviz reads it: places that lie somewhere stay there."""
    rows = ["graph {", "node [shape=point];"]
    for place in shown.places:
        position = f' [pos="{place.at[0] / unit:.6f},{place.at[1] / unit:.6f}!"]' if place.at else ""
        rows.append(f"{place.code}{position};")
    rows += [f"{line.start} -- {line.end} [len={line.length:g}];" for line in shown.lines if line.start != line.end]
    return "\n".join([*rows, "}"]).encode()


def read_points(plain: bytes, unit: float) -> Points:
    """The places of Graphviz's plain text, in the coordinates' own unit."""
    words = [row.split(" ") for row in plain.decode().splitlines()]
    return {word[1].strip('"'): (float(word[2]) * unit, float(word[3]) * unit) for word in words if word[0] == "node"}
