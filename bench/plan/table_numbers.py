"""Turns a table line from standard input into the numbers that simplex.cpp reads, on standard output."""
import json
import sys
from typing import Any


def numbers_of(line: dict[str, Any]) -> str:
    """How many wagons, orders and cells; the penalties and the lacks; then the wagon, the order and the cost of each cell."""
    rows, penalties = line["cells"], line["penalties"]
    cells = [(i, j, cost) for i, row in enumerate(rows) for j, cost in enumerate(row) if cost is not None]
    head = " ".join(map(str, (len(rows), len(penalties), len(cells), *penalties, *line["lacks"])))
    return head + "\n" + "".join(f"{i} {j} {cost}\n" for i, j, cost in cells)


if __name__ == "__main__":
    sys.stdout.write(numbers_of(json.load(sys.stdin)))
