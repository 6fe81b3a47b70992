#!/usr/bin/env python3
"""Prints the table of docs/HOSTILE.md from what the parts tried: table.py FOLDER PART.., and on which commit and program.

FOLDER has a file for each part that came to its end, with its rows as JSON (program.py). Status 1 where a part didn't.
"""

import json
import os
import subprocess
import sys
import time

HERE = os.path.dirname(os.path.abspath(__file__))


def rows_of(folder: str, part: str) -> list[tuple[str, int, int, int]]:
    """The rows of a part: what was tried, how often, how much of it wasn't judged to the end, and how much was lost."""
    try:
        with open(f"{folder}/{part}", encoding="utf-8") as file:
            return [(what, times, unjudged, lost) for what, times, unjudged, lost in json.load(file)]
    except FileNotFoundError:
        return [("this part didn't come to its end", 0, 0, 1)]


def commit() -> str:
    """The commit of this tree, and whether something has changed since."""
    name = subprocess.run(["git", "describe", "--always", "--abbrev=8", "--dirty=, changed since"], cwd=HERE, capture_output=True, text=True, check=False)
    return name.stdout.strip() or "unknown"


def main() -> int:
    folder, *parts = sys.argv[1:]
    tables = {part: rows_of(folder, part) for part in parts}
    rows = [row for table in tables.values() for row in table]
    has_lost = any(lost for _, _, _, lost in rows)
    print("| Part | What was tried | How often | Lost |" if has_lost else "| Part | What was tried; nothing was lost | How often |")
    print("|---|---|---|---|" if has_lost else "|---|---|---|")
    for part, table in tables.items():
        for number, (what, times, _, lost) in enumerate(table):
            cells = ["" if number else f"`{part}`", what, f"{times:,}", *([f"{lost:,}" if lost else "nothing"] if has_lost else [])]
            print("|" + "|".join(f" {cell} " if cell else " " for cell in cells) + "|")
    unjudged = sum(row[2] for row in rows)
    left = f"; {unjudged:,} were not judged to the end" if unjudged else ""
    print(f"\nOf one run on {time.strftime('%Y-%m-%d')}, commit {commit()}{left}.")
    return 0 if all(os.path.exists(f"{folder}/{part}") for part in parts) else 1


if __name__ == "__main__":
    sys.exit(main())
