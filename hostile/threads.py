#!/usr/bin/env python3
"""Sixteen files at once, many times, while the machine is busy: counts add up with the sheet's version, each wagon's row is the
one that its own file gives, no wagon is promised twice, and a file alone gives what `run` gives."""

import functools
import multiprocessing
import os
import random
import sys
import tempfile
from collections.abc import Sequence
from multiprocessing.synchronize import Event

import judge
import office
from memory import counts_add_up
from program import PROCESSES, ROOT, Table, office_words, run

sys.path.append(f"{ROOT}/tools")
import made_up  # noqa: E402
from made_up import place  # noqa: E402

TURNS = int(os.environ.get("HOSTILE_TURNS", 200))
FILES, WAGONS, PLACES, LINES = 16, 4, 40, 300
KINDS = ["Ea", "Eb", "Ec", "Ed", "Ee", "Ef", "Eg", "Eh", "Ei", "Ej", "Ek", "El", "Em", "En", "Eo", "Ep"]
MIDNIGHT = 1772409600


def wagon_number(k: int) -> str:
    return made_up.wagon_number(f"31805370{k:03}")


class Sender:
    """Writes one file: messages of its own wagons, most of them right, its own orders, and plans where they are asked for."""

    def __init__(self, k: int, seed: int, with_plans: bool) -> None:
        self.k, self.dice, self.with_plans = k, random.Random(f"{seed} {k}"), with_plans
        self.company, self.number, self.now = f"{2000 + k}", 0, MIDNIGHT
        self.wagons = [office.Wagon(wagon_number(k * WAGONS + w), KINDS[k], 60000, "empty", place(w), MIDNIGHT) for w in range(WAGONS)]
        self.first_rows = [[wagon.number, wagon.kind, "60000", "empty", wagon.place, office.moment_text(MIDNIGHT)] for wagon in self.wagons]

    def lines(self) -> str:
        lines: list[str] = []
        for n in range(LINES):
            self.now += 60
            if n % 60 == 0:
                lines.append(self.order(n // 60))
            if n % 50 == 49 and self.with_plans:
                lines.append(f'{{"type":"plan","at":"{office.moment_text(self.now)}"}}')
            if n % 97 == 96:
                lines.append(self.dice.choice(["", "{", '{"type":"sheet"}', '{"type":"withdraw","order":"NONE"}', "[]"]))
            lines.append(self.dice.choice(lines[-20:]) if lines and self.dice.random() < 0.03 else self.message())
        return "\n".join(lines) + "\n"

    def order(self, n: int) -> str:
        fields = f'"order":"K{self.k}-{n}","place":"{place(n)}","classes":["{KINDS[self.k]}"],"load":50000'
        return f'{{"type":"order",{fields},"latest":"2026-03-05T00:00:00Z","penalty":100000,"wagons":2}}'

    def message(self) -> str:
        """A loaded wagon is delivered, an empty one goes on without a delivery: so promises change no status."""
        wagon = self.dice.choice(self.wagons)
        self.number += 1
        if self.dice.random() < 0.1:
            return self.text("exception", wagon.number, wagon.place, self.dice.random() < 0.4)
        kind, status, anywhere = {
            "empty": ("departure", "journey_empty", False), "journey_empty": ("yard_arrival", "yard_empty", True),
            "yard_empty": ("yard_departure", "journey_empty", False),
        }[wagon.status]
        where = place(self.dice.randrange(PLACES)) if anywhere else wagon.place
        if self.dice.random() < 0.05:
            return self.text("release", wagon.number, where)
        wagon.status, wagon.place = status, where
        return self.text(kind, wagon.number, where)

    def text(self, kind: str, wagon: str, where: str, hold: bool | None = None) -> str:
        more = "" if hold is None else f',"hold":{str(hold).lower()}'
        return (f'{{"type":"{kind}","company":"{self.company}","number":{self.number},"wagon":"{wagon}","place":"{where}",'
                f'"moment":"{office.moment_text(self.now)}"{more}}}')


class Day:
    """Files of a roster, a network and senders, in a folder."""

    def __init__(self, folder: str, seed: int, with_plans: bool, files: int = FILES) -> None:
        self.folder, senders = folder, [Sender(k, seed, with_plans) for k in range(files)]
        self.texts = [sender.lines() for sender in senders]
        self.roster = [row for sender in senders for row in sender.first_rows]
        self.write("roster.csv", "wagon,class,load,status,place,moment\n" + "".join(",".join(row) + "\n" for row in self.roster))
        lines = "".join(f"{place(k)},{place((k + 1) % PLACES)},{k % 7 + 3},10,both\n" for k in range(PLACES))
        self.write("network.csv", "from,to,km,minutes,way\n" + lines)
        self.paths = [self.write(f"{k}.jsonl", text) for k, text in enumerate(self.texts)]

    def write(self, name: str, text: str) -> str:
        path = os.path.join(self.folder, name)
        with open(path, "w") as file:
            file.write(text)
        return path

    def words(self, word: str, files: Sequence[str] = ()) -> list[str]:
        return office_words(word, 1_000_000, 64, 2, f"{self.folder}/roster.csv", [f"{self.folder}/network.csv"]) + list(files)

    def office(self) -> office.Office:
        return office.Office(self.roster, [office.distances(f"{self.folder}/network.csv")], 1_000_000, 64)


def rows_of(text: str, word: str) -> dict[str, list[str]]:
    """The rows of a sheet by wagon or order."""
    rows = (row.split() for row in text.splitlines() if row.startswith(word))
    return {row[1]: row for row in rows}


# The folders of the days below, which are removed at the end.
FOLDERS: list["tempfile.TemporaryDirectory[str]"] = []


@functools.cache
def day_of(seed: int, with_plans: bool) -> tuple[Day, list[judge.Fed]]:
    """A day's files, and what each of them gives alone by the model."""
    FOLDERS.append(tempfile.TemporaryDirectory())
    day = Day(FOLDERS[-1].name, seed, with_plans)
    return day, [judge.Fed(day.office(), without_plans(text).encode()) for text in day.texts]


def without_plans(text: str) -> str:
    return "".join(line + "\n" for line in text.split("\n")[:-1] if '"plan"' not in line)


def sixteen(turn: int) -> str | None:
    """No plans: the whole report is known but for the order in which orders were placed."""
    day, alone = day_of(turn % 5, False)
    outcome = run(day.words("feed", day.paths))
    text = outcome.out.decode()
    lost = outcome.fault() or counts_add_up(text, outcome.status)
    if lost:
        return lost
    for k, fed in enumerate(alone):
        if text.splitlines()[k] != f"file {k + 1} {fed.counts()}":
            return f"{text.splitlines()[k]!r} where {fed.counts()!r} is right"
        own = {row[0] for row in day.roster[k * WAGONS:(k + 1) * WAGONS]}
        for word, names in ("wagon ", own), ("order ", set(fed.office.orders)):
            right = rows_of(fed.office.sheet(), word)
            if any(rows_of(text, word).get(name) != right[name] for name in names):
                return f"a {word}of file {k + 1} isn't as its file says"
    return None


def sixteen_planning(turn: int) -> str | None:
    """With plans: who promises what is open. But each line is counted once, promises agree on both sides, and all but
    promises is as each file says."""
    day, alone = day_of(turn % 5, True)
    outcome = run(day.words("feed", day.paths))
    text = outcome.out.decode()
    lost = outcome.fault() or counts_add_up(text, outcome.status)
    if lost:
        return lost
    wagons, orders = rows_of(text, "wagon "), rows_of(text, "order ")
    for k, fed in enumerate(alone):
        row = text.splitlines()[k].split()
        plans = day.texts[k].count('"plan"')
        if sum(map(int, row[3::2])) != fed.accepted + fed.repeated + fed.refused + plans or row[5] != str(fed.repeated):
            return f"file {k + 1}: {row}"
        right = rows_of(fed.office.sheet(), "wagon ")
        for name in (roster[0] for roster in day.roster[k * WAGONS:(k + 1) * WAGONS]):
            if wagons[name][:8] != right[name][:8]:
                return f"wagon {name}: {wagons[name]} where {right[name]} is right"
    return promises_agree(wagons, orders)


def promises_agree(wagons: dict[str, list[str]], orders: dict[str, list[str]]) -> str | None:
    for name, row in orders.items():
        promised = [] if row[7] == "-" else row[7].split(",")
        if sorted(promised) != sorted(wagon for wagon, other in wagons.items() if other[8] == name):
            return f"order {name}: {row}"
        if len(promised) > int(row[6]) or row[5] != ("promised" if len(promised) == int(row[6]) else "waiting"):
            return f"order {name}: {row}"
    return None


def alone(turn: int) -> str | None:
    """One file: its sheet is that of `run` on the same lines, each plan's certificate sent back behind it."""
    with tempfile.TemporaryDirectory() as folder:
        day = Day(folder, turn, True, 1)
        fed = run(day.words("feed", day.paths))
        lines: list[str] = []
        for line in day.texts[0].splitlines():
            lines.append(line)
            if '"plan"' in line:
                asked = run(day.words("run"), "\n".join(lines).encode())
                lines.append([row for row in asked.out.decode().splitlines() if row.startswith("{")][-1])
        ran = run(day.words("run"), "\n".join([*lines, '{"type":"sheet"}']).encode())
    sheet = ran.out.decode().rsplit(" sheet ", 1)[1]
    if fed.fault() or counts_add_up(fed.out.decode(), fed.status):
        return fed.fault() or counts_add_up(fed.out.decode(), fed.status)
    right = fed.out.decode().split("\nsheet ", 1)[1]
    return None if sheet == right else f"run says {sheet!r}, feed {right!r}"


def contested(turn: int) -> str | None:
    """Two files plan for the same order at once: it is placed and promised once."""
    order = '{"type":"order","order":"O1","place":"DE00001","classes":["Ea"],"load":1,"latest":"2026-03-05T00:00:00Z","penalty":100000}\n'
    plan = '{"type":"plan","at":"2026-03-02T00:00:00Z"}\n'
    with tempfile.TemporaryDirectory() as folder:
        day = Day(folder, turn, False, 1)
        paths = [day.write(f"plan_{k}.jsonl", order + plan) for k in range(2)]
        outcome = run(day.words("feed", paths))
    text = outcome.out.decode()
    lost = outcome.fault() or counts_add_up(text, outcome.status)
    if lost:
        return lost
    wagons, orders = rows_of(text, "wagon "), rows_of(text, "order ")
    counted = sum(int(count) for row in text.splitlines()[:2] for count in row.split()[3::2])
    if counted != 4 or list(orders) != ["O1"] or orders["O1"][5] != "promised":
        return text
    return promises_agree(wagons, orders)


def busy(stop: Event) -> None:
    while not stop.is_set():
        sum(range(10_000))


def main() -> None:
    table = Table()
    table.row("`feed` of many files under load, of two files that plan for one order, of one beside `run`")
    stop = multiprocessing.Event()
    load = [multiprocessing.Process(target=busy, args=(stop,)) for _ in range(PROCESSES)]
    for process in load:
        process.start()
    try:
        table.try_all("`feed` of 16 files under load", sixteen, range(TURNS))
        table.try_all("`feed` of 16 files that plan, under load", sixteen_planning, range(TURNS))
        table.try_all("`feed` of two files that plan for one order", contested, range(TURNS))
        table.try_all("`feed` of one file beside `run`", alone, range(max(1, TURNS // 10)))
    finally:
        stop.set()
        for process in load:
            process.join()
    table.end()


if __name__ == "__main__":
    main()
