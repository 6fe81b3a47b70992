#!/usr/bin/env python3
"""Times `wagons run --notes FILE` beside `wagons run` on one journal: the messages, orders, plan lines and commits of bench/run. The
two take turns, and change which comes first; a turn stays on one processor, and the next one goes to the next. The replies must
be the same, and the notes those of `wagons review --json`. WAGONS=FILE times another build than out/wagons.

bench/notes/run.py [MESSAGES [TURNS] | --smoke]: 300,000 messages and ten turns where nothing is said; --smoke takes few messages
once, and prints no time.
"""

import contextlib
import filecmp
import os
import subprocess
import sys
import tempfile

HERE = os.path.dirname(os.path.abspath(__file__))
RUN = os.path.join(HERE, "..", "run")
sys.path.append(os.path.join(HERE, "..", "..", "tools"))
import programs  # noqa: E402

LIMIT = 1.15


class Bench:
    """A journal in a folder, and what each way writes there."""

    def __init__(self, wagons: str, folder: str, messages: int) -> None:
        subprocess.run([sys.executable, f"{RUN}/day.py", wagons, folder, str(messages)], check=True)
        self.folder, self.lines = folder, f"{folder}/lines.jsonl"
        options = ["--roster", f"{folder}/roster.csv", "--network", f"{folder}/network.csv", "--entries", "1000000"]
        self.words = {"plain": [wagons, "run", *options], "noted": [wagons, "run", "--notes", f"{folder}/notes", *options],
                      "review": [wagons, "review", "--json", *options]}

    def timed(self, which: str) -> float:
        """How long a way takes, in ms. What it wrote in the turn before goes first, since to empty a file takes time."""
        for name in {"plain": ["plain"], "noted": ["noted", "notes"], "review": ["review"]}[which]:
            with contextlib.suppress(FileNotFoundError):
                os.remove(f"{self.folder}/{name}")
        return programs.timed(self.words[which], self.lines, f"{self.folder}/{which}")

    def turn(self, number: int) -> tuple[float, float]:
        """The times of `run` and of `run --notes`, on one processor."""
        processors = sorted(os.sched_getaffinity(0))
        os.sched_setaffinity(0, {processors[number % len(processors)]})
        try:
            order = ["plain", "noted"] if number % 2 else ["noted", "plain"]
            times = {which: self.timed(which) for which in order}
        finally:
            os.sched_setaffinity(0, processors)
        return times["plain"], times["noted"]

    def compare(self) -> int:
        """How many notes there are, where both ways wrote what they must."""
        self.timed("review")
        for one, other in (("plain", "noted"), ("review", "notes")):
            if not filecmp.cmp(f"{self.folder}/{one}", f"{self.folder}/{other}", shallow=False):
                raise SystemExit(f"bench/notes: {one} and {other} differ")
        with open(f"{self.folder}/notes", "rb") as file:
            return sum(1 for _ in file)


def main(arguments: list[str]) -> None:
    if arguments == ["--smoke"]:
        with open(os.devnull, "w", encoding="utf-8") as nowhere, contextlib.redirect_stdout(nowhere):
            notes = measure(2_000, 1)
        print(f"bench/notes: the replies of run, and beside them the {notes} notes of review --json")
        return
    messages, turns = [int(word) for word in (arguments + ["300000", "10"][len(arguments):])]
    measure(messages, turns)


def measure(messages: int, turns: int) -> int:
    wagons = programs.wagons()
    with tempfile.TemporaryDirectory(prefix="wagons-notes-") as folder:
        bench = Bench(wagons, folder, messages)
        times = [bench.turn(number) for number in range(turns)]
        notes = bench.compare()
        with open(f"{folder}/turns", "w", encoding="ascii") as file:
            file.write("".join(f"{plain * 10:.0f} {noted * 10:.0f}\n" for plain, noted in times))
        ratio = subprocess.run([sys.executable, f"{RUN}/ratios.py", f"{folder}/turns", "1", "-", "0", "-"], check=True, capture_output=True, text=True)
        plain, noted = (min(column) for column in zip(*times))
        print(f"{messages:,} messages, {notes:,} notes: wagons run {plain:,.1f} ms, run --notes {noted:,.1f} ms; limit of the ratio {LIMIT}")
        print(f"of the time of wagons run it takes {ratio.stdout.strip()}")
    return notes


if __name__ == "__main__":
    main(sys.argv[1:])
