#!/usr/bin/env python3
"""Times `wagons save` over a long journal beside the same journal replayed by `wagons run`, and a start from a checkpoint of
1,000 wagons and 500 orders beside one from a roster of 1,000 wagons. WAGONS=FILE times another build than out/wagons.

bench/save/run.py [MESSAGES [TURNS] | --smoke]: 990,000 messages, with which some 993,000 events are accepted, and nine turns
where nothing is said; --smoke takes few messages once, and prints no time.
"""

import contextlib
import json
import os
import subprocess
import sys
import tempfile

HERE = os.path.dirname(os.path.abspath(__file__))
DAY = os.path.join(HERE, "..", "run", "day.py")
sys.path.append(os.path.join(HERE, "..", "..", "tools"))
import programs  # noqa: E402


def least(turns: int, words: list[str], given: str) -> float:
    return min(programs.timed(words, given) for _ in range(turns))


def orders(folder: str) -> str:
    """500 orders, each for one wagon."""
    path = f"{folder}/orders.jsonl"
    with open(path, "w", encoding="utf-8") as out:
        for k in range(500):
            fields = {"type": "order", "order": f"OPEN-{k}", "place": f"DE{k % 200:05}", "classes": ["Eanos", "Falns"], "load": 50000,
                      "latest": "2026-06-01T00:00:00Z", "penalty": 900, "wagons": 1}
            out.write(json.dumps(fields, separators=(",", ":")) + "\n")
    return path


def main(arguments: list[str]) -> None:
    if arguments == ["--smoke"]:
        with open(os.devnull, "w", encoding="utf-8") as nowhere, contextlib.redirect_stdout(nowhere):
            measure(1_000, 1)
        print("bench/save: a journal saved and replayed, starts from a roster and from a checkpoint")
        return
    messages, turns = [int(word) for word in (arguments + ["990000", "9"][len(arguments):])]
    measure(messages, turns)


def measure(messages: int, turns: int) -> None:
    wagons = programs.wagons()
    with tempfile.TemporaryDirectory(prefix="wagons-save-") as folder:
        subprocess.run([sys.executable, DAY, wagons, folder, str(messages)], check=True)
        network = ["--network", f"{folder}/network.csv", "--entries", "1000000"]
        by_roster = ["--roster", f"{folder}/roster.csv", *network]
        lines = f"{folder}/lines.jsonl"
        replay = least(3, [wagons, "run", *by_roster], lines)
        save = least(3, [wagons, "save", *by_roster], lines)
        checkpoint = f"{folder}/checkpoint.jsonl"
        programs.timed([wagons, "save", *by_roster], lines, checkpoint)
        with open(lines, encoding="utf-8") as file:
            count = sum(1 for _ in file)
        print(f"{count:,} lines: replayed in {replay:,.0f} ms, saved in {save:,.0f} ms ({save / replay:.2f}), {os.path.getsize(checkpoint):,} bytes")
        empty = f"{folder}/empty.jsonl"
        open(empty, "w", encoding="utf-8").close()
        programs.timed([wagons, "save", *by_roster], orders(folder), checkpoint)
        roster, start = least(turns, [wagons, "run", *by_roster], empty), least(turns, [wagons, "run", "--from", checkpoint, *network], empty)
        print(f"start with 1,000 wagons by a roster: {roster:.1f} ms; with 500 orders too by a checkpoint: {start:.1f} ms ({start - roster:+.1f} ms)")
        print(f"the checkpoint in place of replaying the long journal: {start / replay:.4f} of its time")


if __name__ == "__main__":
    main(sys.argv[1:])
