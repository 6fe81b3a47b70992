#!/usr/bin/env python3
"""Lines that nobody writes by accident: scripts cut after every byte, every byte replaced, random lines, and reused message
ids. The model of office.py judges every reply."""

import json
import os
import random
import re
from collections.abc import Iterator, Sequence
from typing import Any

import judge
import office
from memory import ENTRIES, KEPT, new_office
from program import HOSTILE, NOT_JUDGED, Table, office_words, run, script, written

RANDOM_LINES = int(os.environ.get("HOSTILE_RANDOM_LINES", 100_000))
LINES_A_SCRIPT = 250


def tried(word: str, given: bytes, entries: int = ENTRIES) -> str | None:
    """What is wrong with the program's answer to a script."""
    words = ["check"] if word == "check" else office_words(word, entries, KEPT)
    if word == "feed":
        return fed(words, given)
    outcome = run(words, given)
    if outcome.fault() or outcome.status == 2:
        return f"status {outcome.status} and {outcome.err!r}"
    try:
        if word == "check":
            replies = judge.judge_check(given, outcome.out)
        else:
            replies = judge.Run(new_office(entries)).judge(given, outcome.out)
    except judge.Lost as lost:
        return str(lost)
    except judge.Unjudged:
        return NOT_JUDGED
    return None if outcome.status == int(replies.refused > 0) else f"status {outcome.status}"


def fed(words: Sequence[str], given: bytes) -> str | None:
    with written(given) as path:
        outcome = run([*words, path])
    if outcome.fault() or outcome.status == 2:
        return f"status {outcome.status} and {outcome.err!r}"
    ways = list(judge.all_fed(new_office, given))
    if outcome.out.decode() not in [one.report() for one in ways]:
        return NOT_JUDGED if ways[0].in_doubt else f"{outcome.out.decode()!r} where {ways[0].report()!r} is right"
    return None if outcome.status == int(ways[0].refused > 0) else f"status {outcome.status}"


def cut(case: tuple[str, str, int]) -> str | None:
    word, name, length = case
    return tried(word, script(name)[:length])


def replaced(case: tuple[str, str, int, int]) -> str | None:
    word, name, at, byte = case
    text = script(name)
    return tried(word, text[:at] + bytes([byte]) + text[at + 1:])


def csv_replaced(case: tuple[str, int, int]) -> str | None:
    """A byte of the roster or a network: the program says what is wrong, or opens an office that has no other form."""
    option, at, byte = case
    name = f"{option}.csv"
    text = script(name)
    with written(text[:at] + bytes([byte]) + text[at + 1:]) as path:
        words = office_words("run", roster=path) if option == "roster" else office_words("run", networks=[path])
        outcome = run(words, b'{"type":"sheet"}')
    if outcome.fault():
        return outcome.fault()
    if outcome.status == 2:
        return None if FILE_FAULT.fullmatch(outcome.err) and not outcome.out else f"{outcome.err!r}"
    return None if outcome.status == 0 and SHEET.fullmatch(outcome.out) else f"{outcome.out!r}"


FILE_FAULT = re.compile(rb"wagons: (41 [0-9]+|78 [0-9]+|51 [0-9]{12})\n")
SHEET = re.compile(rb"1 sheet 0\n(wagon [0-9]{12} [A-Za-z]{1,12} [0-9]+ [a-z_]+ [A-Z]{2}[0-9]{5} [0-9TZ:-]{20} - -\n)*(network 1\n)?")


# The limits of an input.

MOST_LINES, MOST_BYTES = 1_000_000, 65_536


def limit(case: tuple[str, bytes, str | None]) -> str | None:
    word, given, fault = case
    words = ["check"] if word == "check" else office_words(word)
    if word != "feed":
        outcome = run(words, given)
        if outcome.status != (2 if fault else 0) or outcome.out or outcome.err.decode() != (f"wagons: {fault}\n" if fault else ""):
            return f"status {outcome.status} and {outcome.err!r}"
        return None
    with written(given) as path:
        outcome = run([*words, path])
    row = f"file 1 failed {fault.split()[0]}\n" if fault else "file 1 accepted 0 repeated 0 refused 0\n"
    if outcome.status != (2 if fault else 0) or not outcome.out.startswith(row.encode()) or outcome.err:
        return f"status {outcome.status} and {outcome.out[:80]!r}"
    return None


def limits() -> list[tuple[str, bytes, str | None]]:
    """Inputs at each limit and just past it, all of them blank."""
    blank = b" " * MOST_BYTES
    inputs: list[tuple[bytes, str | None]] = [
        (b"\n" * MOST_LINES, None), (b"\n" * MOST_LINES + b"\n", f"91 {MOST_LINES + 1}"), (b"\n" * MOST_LINES + b" ", f"91 {MOST_LINES + 1}"),
              (blank, None), (blank + b"\n" + blank, None), (blank + b" ", "92 1"), (b"\n" + blank + b" \n", "92 2")]
    return [(word, given, fault) for word in ("check", "run", "feed") for given, fault in inputs]


def sizes() -> Iterator[tuple[str, list[dict[str, Any]]]]:
    """Orders that want 500 wagons in all, and more; tables of 500 orders or wagons that orders lack, and more."""
    order: dict[str, Any] = {"type": "order", "place": "DE00001", "classes": ["Eanos"], "load": 1, "latest": "2026-03-02T23:00:00Z", "penalty": 1, "wagons": 20}
    lines = [order | {"order": f"O{k}"} for k in range(26)] + [{"type": "withdraw", "order": "O0"}, order | {"order": "O25"}, {"type": "sheet"}]
    yield "run", lines
    for count, lack in (25, 20), (26, 20), (500, 1), (501, 1), (499, 2):
        yield "check", [{"wagons": [], "orders": [f"O{k}" for k in range(count)], "cells": [], "penalties": [1] * count,
                         "lacks": [lack] * count, "pairs": [], "u": [], "v": [1] * count}]
    for count in 1000, 1001:
        wagons = [wagon for wagon in map(str, range(318053700000, 318053720000)) if is_wagon(wagon)][:count]
        yield "check", [{"wagons": wagons, "orders": [], "cells": [[]] * count, "penalties": [], "pairs": [], "u": [0] * count, "v": []}]


def is_wagon(text: str) -> bool:
    try:
        return bool(office.wagon_of(text))
    except office.Refused:
        return False


def size(case: tuple[str, list[dict[str, Any]]]) -> str | None:
    word, lines = case
    return tried(word, "".join(json.dumps(line) + "\n" for line in lines).encode(), 1000)


# Random lines.

NUMBERS = ["0", "1", "-0", "-1", "7", "20", "21", "255", "500", "501", "65535", "65536", "200000", "200001", "999999", "1000000", "1000001",
           "1000000000", "1000000001", "2147483647", "2147483648", "4294967295", "4294967296", "9223372036854775807",
           "9223372036854775808", "18446744073709551615", "18446744073709551616", "340282366920938463463374607431768211455",
           "1.0", "0.5", "1e0", "1E2", "1e-7", "1.5e300"]
NO_NUMBERS = ["00", "01", "+1", ".5", "1.", "1e", "0x10", "NaN", "Infinity", "-", "1e+", "1e400", "9" * 400, "nul", "True"]
TEXTS = ["", "a", "\\u0000", "\\n", "\\\\", "\\\"", "\\/", "\\u00e9", "\\ud83d\\ude82", "\\ud83d", "\\ude82", "\\uD83D\\u0041", "\\x41", "\\u12",
         "\u00e9", "\U0001f682", "DE00001", "DE0000", "de00001", "DE000012", "0080", "008", "00800", "A-1", "A-1 ", "a-1", "A" * 16, "A" * 17,
         "Eanos", "Falns", "Habbins", "Abcdefghijkl", "Abcdefghijklm", "Ea nos", "318053700015", "3180 5370 001-5", "318053700016",
         "31805370001", "31805370001x", "318127710016", "315466400019", "2026-03-02T01:00:00Z", "2026-03-02T03:00:00+02:00",
         "2026-03-02T01:00:00.9Z", "1999-12-31T23:59:59Z", "2000-01-01T00:00:00Z", "2099-12-31T23:59:59Z", "2100-01-01T00:00:00Z",
         "2026-02-29T00:00:00Z", "2026-03-02T24:00:00Z", "2026-03-02T01:00:00", "type", "order", "O1", "O2"]
KINDS = ["release", "departure", "yard_arrival", "yard_departure", "exception", "arrival", "delivery", "order", "withdraw", "begin",
         "plan", "commit", "network", "sheet", "Sheet", "", "check"]
MEMBERS = {
    "company": ["1001", "1002", "0080"], "wagon": ["318053700015", "318053700023", "315466400019", "318127710016", "338447961008"],
    "place": ["DE00001", "DE00002", "DE00003", "CZ00001", "XX99999"], "moment": ["2026-03-02T05:00:00Z", "2026-03-02T06:30:00Z"],
    "order": ["A-1", "B-1", "C-1", "D-1"], "latest": ["2026-03-02T23:00:00Z"], "at": ["2026-03-02T05:00:00Z", "2026-03-02T06:00:00Z"],
}
RUN_MEMBERS = ["company", "number", "wagon", "place", "moment", "hold", "order", "classes", "load", "latest", "penalty", "wagons", "at",
               "version", "pairs", "u", "v", "revision"]
TABLE_MEMBERS = ["wagons", "orders", "cells", "penalties", "lacks", "pairs", "u", "v"]


class Dice(random.Random):
    def value(self, depth: int = 0) -> str:
        turn = self.random()
        if depth < 4 and turn < 0.15:
            return "[" + ",".join(self.value(depth + 1) for _ in range(self.randrange(5))) + "]"
        if depth < 4 and turn < 0.25:
            return "{" + ",".join(f"{self.text()}:{self.value(depth + 1)}" for _ in range(self.randrange(4))) + "}"
        if turn < 0.27:
            depth = self.choice([3, 60, 126, 127, 128, 129, 1000])
            opening, closing = self.choice([("[", "]"), ('{"a":', "}")])
            return opening * depth + "1" + closing * (depth - self.choice([0, 0, 0, 1]))
        if turn < 0.6:
            return self.choice(NUMBERS) if self.random() < 0.6 else str(self.randrange(30))
        if turn < 0.7:
            return self.choice(["null", "null", "true", "false", self.choice(NO_NUMBERS)])
        return self.text()

    def text(self) -> str:
        return '"' + self.choice(TEXTS) + '"'

    def member(self, name: str, kind: str) -> str:
        """A member, mostly of the kind that it must be."""
        turn = self.random()
        if turn < 0.04:
            return self.value()
        if name == "type":
            return f'"{kind}"'
        if name in MEMBERS:
            return f'"{self.choice(MEMBERS[name])}"'
        if name == "hold":
            return self.choice(["true", "false"])
        if name == "classes":
            return json.dumps([self.choice(["Eanos", "Falns", "Habbins"]) for _ in range(self.choice([0, 1, 1, 2, 8, 9]))])
        if name == "pairs":
            return json.dumps([[self.choice(MEMBERS["wagon"]), self.choice(MEMBERS["order"])] for _ in range(self.randrange(3))])
        if name in ("u", "v"):
            return "[" + ",".join(self.choice(["0"] * 100 + NUMBERS) for _ in range(self.randrange(5))) + "]"
        if name in ("load", "wagons", "number", "version", "revision"):
            return str(self.choice([0, 1, 2, 3, 20, 21, 1000, self.randrange(50)]))
        return self.choice(NUMBERS + ["7"] * 40)

    def command(self) -> str:
        kind = self.choice(KINDS)
        known = [name for name, *_ in office.FIELDS.get(kind, [])]
        names = [name for name in ["type"] + known if self.random() < 0.97] + self.sample(RUN_MEMBERS, self.choice([0, 0, 0, 1, 3]))
        if self.random() < 0.3:
            self.shuffle(names)
        if self.random() < 0.1:
            names.append(self.choice(names or ["type"]))
        if self.random() < 0.1:
            names.insert(0, self.choice(["", "x", "Type", "type "]))
        return "{" + ",".join(f'"{name}":{self.member(name, kind)}' for name in names) + "}"

    def table(self) -> str:
        wagons, orders = self.randrange(4), self.randrange(4)
        numbers = ["338447961008", "218124712173", "338447961040", "33 84 4796 100-8"]
        members = {
            "wagons": json.dumps(numbers[:wagons] if self.random() < 0.9 else [self.choice(numbers) for _ in range(wagons)]),
            "orders": json.dumps([f"O{j}" for j in range(orders)]),
            "cells": json.dumps([[self.choice([None, 0, 5, 10, 1_000_000_000, 1_000_000_001][:5 + (self.random() < 0.05)]) for _ in range(orders)]
                                 for _ in range(wagons)]),
            "penalties": json.dumps([self.choice([0, 5, 10, 1_000_000_000]) for _ in range(orders)]),
            "pairs": json.dumps([[self.choice(numbers[:wagons]), f"O{self.randrange(orders)}"] for _ in range(self.randrange(3))]
                                if wagons and orders else []),
            "u": json.dumps([self.choice([0, 0, 5, 2**64 - 1]) for _ in range(wagons)]),
            "v": json.dumps([self.choice([0, 0, 5, 10]) for _ in range(orders)]),
        }
        if self.random() < 0.3:
            members["lacks"] = json.dumps([self.choice([1, 1, 2, 20, 21]) for _ in range(orders)])
        for name in TABLE_MEMBERS:
            if self.random() < 0.03:
                members[name] = self.value()
            if self.random() < 0.02:
                members.pop(name, None)
        return "{" + ",".join(f'"{name}":{value}' for name, value in members.items()) + "}"

    def line(self, word: str) -> bytes:
        turn = self.random()
        if turn < 0.1:
            text = self.value()
        elif turn < 0.13:
            text = "".join(self.choice('[]{}",:0123456789.eE+-\\/untrfals \t') for _ in range(self.randrange(80)))
        else:
            text = self.table() if word == "check" else self.command()
        hurt = bytearray(text.encode().replace(b"\n", b""))
        for _ in range(self.choice([0, 0, 0, 0, 0, 1, 2])):
            if hurt:
                self.hurt(hurt)
        return bytes(hurt).replace(b"\n", b" ")

    def hurt(self, text: bytearray) -> None:
        at = self.randrange(len(text))
        turn = self.random()
        if turn < 0.4:
            text[at] = self.randrange(256)
        elif turn < 0.6:
            del text[at]
        elif turn < 0.8:
            text.insert(at, self.choice(HOSTILE))
        else:
            del text[at:]


def random_lines(case: tuple[str, int]) -> str | None:
    word, seed = case
    dice = Dice(f"{word} {seed}")
    return tried(word, b"\n".join(dice.line(word) for _ in range(LINES_A_SCRIPT)) + b"\n", 1_000_000)


# Message ids.


def reused_ids() -> Iterator[bytes]:
    """For each message of the script, each variant of it behind it: one member changed, or the same message written in
    another way. Of the same company and number only the same message is `repeated`."""
    text = script("office.jsonl").splitlines()
    others: dict[str, list[Any]] = {"company": ["1003", "ABCD"], "number": [0, 77, 4294967295], "place": ["DE00001", "CZ00001", "XX00000"],
              "wagon": ["318053700015", "318053700031", "338447961008"], "moment": ["2026-03-02T00:00:00Z", "2026-03-02T23:00:00Z"],
              "hold": [True, False], "type": list(office.KINDS)}
    for at, line in enumerate(text):
        command = judge.read(line)
        if not isinstance(command, tuple) or command[0] not in office.KINDS:
            continue
        fields = json.loads(line)
        changed = [fields | {name: value} for name in others for value in others[name] if name != "hold" or "hold" in fields]
        changed += [{"unknown": [fields]} | fields, dict(reversed(fields.items())), fields | {"wagon": spaced(fields["wagon"])},
                    fields | {"moment": fields["moment"][:-1] + ".25Z"}, fields | {"moment": east(fields["moment"])}]
        for variant in changed:
            if variant.get("type") == "exception":
                variant.setdefault("hold", True)
            yield b"\n".join(text[:at + 1] + [json.dumps(variant).encode()] + text[at + 1:]) + b"\n"


def spaced(wagon: str) -> str:
    return f"{wagon[:4]} {wagon[4:8]} {wagon[8:11]}-{wagon[11]}"


def east(moment: str) -> str:
    """The same instant, told an hour further east."""
    return f"{moment[:11]}{int(moment[11:13]) + 1:02}{moment[13:19]}+01:00"


def reused_id(given: bytes) -> str | None:
    return tried("run", given, 1000)


def main() -> None:
    table = Table()
    table.row("scripts cut after every byte")
    scripts = [("check", "tables.jsonl"), ("run", "office.jsonl"), ("feed", "office.jsonl")]
    for word, name in scripts:
        table.try_all(f"`{word}`: its script cut after every byte", cut, [(word, name, n) for n in range(len(script(name)) + 1)])
    table.row(f"every byte of scripts, a roster and a network replaced, mostly by each of {len(HOSTILE)}")
    for word, name in scripts[:2]:
        cases = [(word, name, at, byte) for at in range(len(script(name))) for byte in HOSTILE]
        table.try_all(f"`{word}`: every byte of its script replaced by each of {len(HOSTILE)} bytes", replaced, cases)
    cases = [("feed", "office.jsonl", at, byte) for at in range(len(script("office.jsonl"))) for byte in (0x00, 0x22, 0x39)]
    table.try_all("`feed`: every byte of its script replaced by each of 3 bytes", replaced, cases)
    table.try_all(f"every byte of the roster and of a network replaced by each of {len(HOSTILE)} bytes", csv_replaced,
                  [(option, at, byte) for option in ("roster", "network") for at in range(len(script(f"{option}.csv"))) for byte in HOSTILE])
    table.row("random lines; message ids reused with one member changed")
    for word in "check", "run":
        table.try_all(f"`{word}`: random lines", random_lines, [(word, seed) for seed in range(RANDOM_LINES // LINES_A_SCRIPT)], LINES_A_SCRIPT)
    table.try_all("message ids reused, one member changed", reused_id, list(reused_ids()))
    table.row("inputs, orders and tables at their limits, and past them")
    table.try_all("inputs at their limits of lines and bytes, and past them", limit, limits())
    table.try_all("orders and tables at their limits of size, and past them", size, sizes())
    table.end()


if __name__ == "__main__":
    main()
