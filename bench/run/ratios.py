#!/usr/bin/env python3
"""Prints how two times compare over some turns: by the least of each, and by the median of the turns' own ratios.

ratios.py FILE A B C D reads a line of times for each turn, and compares A - B to C - D, the numbers of columns; "-" stands for
nothing to take off. The machine's pace changes within a run, and less within a turn.
"""

import statistics
import sys


def time_of(row: list[int], column: str) -> int:
    return 0 if column == "-" else row[int(column)]


def ratio(row: list[int], columns: list[str]) -> float:
    """The ratio of these times, or of the least ones; it is nothing where the pace changed within the turn."""
    over, under = (time_of(row, columns[k]) - time_of(row, columns[k + 1]) for k in (0, 2))
    return over / under if under > 0 else float("nan")


def main() -> None:
    with open(sys.argv[1], encoding="ascii") as file:
        rows = [[int(word) for word in line.split()] for line in file]
    columns = sys.argv[2:6]
    least = ratio([min(column) for column in zip(*rows)], columns)
    turns = [found for found in (ratio(row, columns) for row in rows) if found == found]
    print(f"{least:.2f} by the least of the turns, {statistics.median(turns or [least]):.2f} by their median")


if __name__ == "__main__":
    main()
