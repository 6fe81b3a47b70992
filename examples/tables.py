#!/usr/bin/env python3
"""Turns assignment problems into table lines for `wagons solve`, and plans back into the problem's own names.

    tables.py csv NAMES < costs.csv | wagons solve | tables.py names NAMES

FORMAT is `csv`, `dimacs` (an assignment problem: `p asn`, `n`, `a`) or `orlib` (a count n, then n times n costs). What serves
becomes wagons, what is served becomes orders; their numbers and names are made up, and NAMES keeps which is which.

A CSV file has a header with the orders behind its first field, and a record for each wagon: its name, then the cost of each
order, empty where it may not serve it. A record `penalty` says what each order costs that is missed, and a record `wanted` how
many wagons it wants, 1 where it is missing. Where no penalties are said, they are so high that as many as can be are served.

`tables.py names NAMES` reads a line that `wagons solve` printed, and prints its plan as CSV: wagon, order, cost; then a record
`missing` for each order with a penalty that the plan pays, and the record `sum`.
"""

import csv
import json
import sys
from collections.abc import Iterator
from dataclasses import dataclass, field
from typing import Any, TextIO

from fleet import wagon_number

MOST_COST = 1_000_000_000


@dataclass
class Problem:
    """Who serves, who is served, and what each pair costs that may be; penalties are none where the problem has none."""

    wagons: list[str] = field(default_factory=list)
    orders: list[str] = field(default_factory=list)
    costs: dict[tuple[int, int], int] = field(default_factory=dict)
    wanted: list[int] = field(default_factory=list)
    penalties: list[int] | None = None

    def all_penalties(self) -> list[int]:
        """The penalties; where the problem has none, each is above what all orders together can cost."""
        if self.penalties is not None:
            return self.penalties
        highest = 1 + sum(self.wanted) * max(self.costs.values(), default=0)
        if highest > MOST_COST:
            raise ValueError(f"costs are too high to make penalties above them: say them, at most {MOST_COST}")
        return [highest] * len(self.orders)

    def line(self) -> str:
        """The table line, with made-up numbers and names."""
        cells = [[self.costs.get((i, j)) for j in range(len(self.orders))] for i in range(len(self.wagons))]
        return json.dumps({
            "wagons": [wagon_number(i) for i in range(len(self.wagons))],
            "orders": [f"T{j + 1}" for j in range(len(self.orders))],
            "cells": cells, "penalties": self.all_penalties(), "lacks": self.wanted,
        })


def numbers(texts: list[str], wagon: str) -> list[int | None]:
    """The costs of a record, none for an empty field."""
    try:
        return [int(text) if text.strip() else None for text in texts]
    except ValueError as fault:
        raise ValueError(f"{wagon}: {fault}") from None


def from_csv(file: TextIO) -> Problem:
    (_, *orders), *records = csv.reader(file)
    problem = Problem(orders=orders, wanted=[1] * len(orders))
    for name, *fields in records:
        found = numbers(fields, name)
        if len(found) != len(orders):
            raise ValueError(f"{name}: {len(found)} fields for {len(orders)} orders")
        if name in ("penalty", "wanted"):
            said = [number if number is not None else 1 for number in found]
            problem.penalties, problem.wanted = (said, problem.wanted) if name == "penalty" else (problem.penalties, said)
        else:
            problem.costs |= {(len(problem.wagons), j): cost for j, cost in enumerate(found) if cost is not None}
            problem.wagons.append(name)
    return problem


def from_dimacs(file: TextIO) -> Problem:
    nodes: list[str] = []
    wagons: list[str] = []
    arcs: list[tuple[str, str, int]] = []
    for words in map(str.split, file):
        match words:
            case ["p", "asn", count, _]:
                nodes = [str(node) for node in range(1, int(count) + 1)]
            case ["n", node]:
                wagons.append(node)
            case ["a", start, end, cost]:
                arcs.append((start, end, int(cost)))
            case ["c", *_] | []:
                pass
            case _:
                raise ValueError(f"not a line of an assignment problem: {' '.join(words)}")
    rows = {node: i for i, node in enumerate(wagons)}
    orders = [node for node in nodes if node not in rows]
    columns = {node: j for j, node in enumerate(orders)}
    lost = next((arc for arc in arcs if arc[0] not in rows or arc[1] not in columns), None)
    if lost:
        raise ValueError(f"an arc from {lost[0]} to {lost[1]}, which leads from no node that serves to one that is served")
    return Problem(wagons, orders, {(rows[start], columns[end]): cost for start, end, cost in arcs}, [1] * len(orders))


def from_orlib(file: TextIO) -> Problem:
    count, *costs = map(int, file.read().split())
    if len(costs) != count * count:
        raise ValueError(f"{len(costs)} costs where {count * count} must stand")
    names = [str(k) for k in range(1, count + 1)]
    return Problem(names, names, {divmod(k, count): cost for k, cost in enumerate(costs)}, [1] * count)


def plan(solved: dict[str, Any], names: dict[str, dict[str, str]]) -> Iterator[tuple[object, ...]]:
    """The records of a plan, by the problem's own names."""
    wagons = {number: i for i, number in enumerate(solved["wagons"])}
    orders = {name: j for j, name in enumerate(solved["orders"])}
    missing, total = list(solved.get("lacks", [1] * len(orders))), 0
    for number, order in solved["pairs"]:
        cost = solved["cells"][wagons[number]][orders[order]]
        missing[orders[order]] -= 1
        total += cost
        yield names["wagons"][number], names["orders"][order], cost
    for order, j in orders.items():
        if missing[j]:
            total += missing[j] * solved["penalties"][j]
            yield "missing", names["orders"][order], missing[j] * solved["penalties"][j]
    yield "sum", "", total


READERS = {"csv": from_csv, "dimacs": from_dimacs, "orlib": from_orlib}


def main(words: list[str]) -> None:
    if len(words) != 2 or words[0] not in (*READERS, "names"):
        sys.exit(__doc__)
    if words[0] == "names":
        solved = json.load(sys.stdin)  # In a pipe, the names are written before this line comes.
        with open(words[1], encoding="utf-8") as file:
            csv.writer(sys.stdout, lineterminator="\n").writerows(plan(solved, json.load(file)))
        return
    try:
        problem = READERS[words[0]](sys.stdin)
        line = problem.line()
    except ValueError as fault:
        sys.exit(f"tables.py: {fault}")
    with open(words[1], "w", encoding="utf-8") as file:
        json.dump({"wagons": {wagon_number(i): name for i, name in enumerate(problem.wagons)},
                   "orders": {f"T{j + 1}": name for j, name in enumerate(problem.orders)}}, file)
    print(line)


if __name__ == "__main__":
    main(sys.argv[1:])
