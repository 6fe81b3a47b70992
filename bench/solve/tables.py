"""Writes table lines without plans from a seed: 1,000 of some hundred cells, and ten that are near the limit of a line.

With the words `lacks N`: N of some twenty cells, whose orders lack up to three wagons. With `full`: one of 1,000 wagons
and 500 orders.
"""
import json
import os
import random
import sys
from collections.abc import Iterator
from typing import Any

sys.path.append(os.path.join(os.path.dirname(os.path.abspath(__file__)), "..", "..", "tools"))
from made_up import wagon_number  # noqa: E402


def table(wagons: int, orders: int) -> dict[str, Any]:
    """Costs up to 9,999 km, a tenth of the pairs not allowed, a penalty that is seldom worth it."""
    cells = [
        [None if random.random() < 0.1 else random.randint(1, 9_999) for _ in range(orders)] for _ in range(wagons)
    ]
    return {
        "wagons": [wagon_number(str(33_847_961_000 + serial)) for serial in range(wagons)],
        "orders": [f"O{number}" for number in range(orders)],
        "cells": cells,
        "penalties": [20_000] * orders,
    }


def small_table() -> dict[str, Any]:
    """A table whose orders lack up to three wagons."""
    orders = random.randint(2, 6)
    return table(random.randint(3, 8), orders) | {"lacks": [random.randint(1, 3) for _ in range(orders)]}


def tables(kind: str = "", count: str = "0") -> Iterator[dict[str, Any]]:
    if kind == "full":
        yield table(1_000, 500)
    elif kind == "lacks":
        yield from (small_table() for _ in range(int(count)))
    else:
        for k in range(1_010):
            # A full line has 10,000 cells: with its plan it has some 60,000 bytes, and 65,536 are the most.
            yield table(*(100, 100) if k % 101 == 100 else (random.randint(10, 30), random.randint(10, 20)))


if __name__ == "__main__":
    random.seed(20_260_301)
    for made in tables(*sys.argv[1:]):
        json.dump(made, sys.stdout, separators=(",", ":"))
        print()
