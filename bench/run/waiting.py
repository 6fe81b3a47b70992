#!/usr/bin/env python3
"""Makes scripts of 300 waiting orders over the fleet of day.py, all of whose wagons are free when it begins.

waiting.py FOLDER LINES reads roster.csv and network.csv in FOLDER, and writes into it orders.jsonl, the orders alone;
begins.jsonl and plans.jsonl, the orders and then so many `begin` or `plan` lines, a second apart; changed_begins.jsonl
and changed_plans.jsonl, the same with a message of a wagon before each, so that each is of another version; and
table.json, the table that each of these lines plans, as a table line.
"""

import csv
import heapq
import random
import sys
from typing import Any

from day import CLASSES, PLACES
from made_up import line, place

ORDERS = 300


def order(k: int) -> dict[str, Any]:
    fields: dict[str, Any] = {"type": "order", "order": f"P{k}", "place": place(random.randrange(PLACES))}
    fields |= {"classes": [random.choice(CLASSES)], "load": 50000}
    return fields | {"latest": "2026-04-03T00:00:00Z", "penalty": 1000000}


def kilometres_from(lines: dict[str, list[tuple[str, int]]], start: str) -> dict[str, int]:
    """The kilometres to each place that can be reached."""
    found: dict[str, int] = {}
    heap = [(0, start)]
    while heap:
        km, at = heapq.heappop(heap)
        if at not in found:
            found[at] = km
            for there, more in lines.get(at, []):
                heapq.heappush(heap, (km + more, there))
    return found


def table(folder: str, orders: list[dict[str, Any]]) -> str:
    """Who is in time for which order: here every wagon of the order's class, since its latest moment is far off."""
    lines: dict[str, list[tuple[str, int]]] = {}
    with open(f"{folder}/network.csv") as file:
        for line_of in csv.DictReader(file):
            ends = line_of["from"], line_of["to"]
            lines.setdefault(ends[0], []).append((ends[1], int(line_of["km"])))
            if line_of["way"] == "both":
                lines.setdefault(ends[1], []).append((ends[0], int(line_of["km"])))
    with open(f"{folder}/roster.csv") as file:
        wagons = sorted(csv.DictReader(file), key=lambda wagon: wagon["wagon"])
    away = {at: kilometres_from(lines, at) for at in {wagon["place"] for wagon in wagons}}
    cells = [
        [away[wagon["place"]].get(one["place"]) if wagon["class"] in one["classes"] else None for one in orders]
        for wagon in wagons
    ]
    penalties = [one["penalty"] for one in orders]
    fields: dict[str, Any] = {"wagons": [], "orders": [], "cells": cells, "penalties": penalties}
    return line(fields | {"lacks": [1] * len(orders), "pairs": [], "u": [], "v": []})


def ask(kind: str, k: int) -> str:
    return line({"type": kind, "at": f"2026-03-03T00:{k // 60:02}:{k % 60:02}Z"})


def asks(kind: str, lines: int) -> str:
    return "".join(f"{ask(kind, k)}\n" for k in range(lines))


def asks_after_messages(folder: str, kind: str, lines: int) -> str:
    """A message that a wagon isn't held, which makes it ready at that moment, before each line."""
    with open(f"{folder}/roster.csv") as file:
        wagons = list(csv.DictReader(file))
    message: dict[str, Any] = {"type": "exception", "company": "9999", "moment": "2026-03-03T00:00:00Z", "hold": False}
    told = [
        line(message | {"number": k, "wagon": wagons[k]["wagon"], "place": wagons[k]["place"]}) for k in range(lines)
    ]
    return "".join(f"{told[k]}\n{ask(kind, k)}\n" for k in range(lines))


def main() -> None:
    folder, lines = sys.argv[1], int(sys.argv[2])
    random.seed(2)
    waiting = [order(k) for k in range(ORDERS)]
    with open(f"{folder}/table.json", "w") as out:
        out.write(table(folder, waiting) + "\n")
    orders = "".join(f"{line(it)}\n" for it in waiting)
    scripts = [("orders", ""), ("begins", asks("begin", lines)), ("plans", asks("plan", lines))]
    scripts += [(f"changed_{kind}s", asks_after_messages(folder, kind, lines)) for kind in ("begin", "plan")]
    for name, more in scripts:
        with open(f"{folder}/{name}.jsonl", "w") as out:
            out.write(orders + more)


if __name__ == "__main__":
    main()
