#!/usr/bin/env python3
"""Makes a fleet to be drawn: fleet.py PROGRAM FOLDER [WAGONS PLACES ORDERS]

FOLDER gets `roster.csv` (1,000 wagons of three classes, some free and others at work), `network.csv` (150 places, each with
lines to its neighbours), `places.csv` (their names, and where they lie, in kilometres) and `fleet.jsonl`, with 150 orders. A plan
of the first two thirds of them is committed, so PROGRAM is asked for it; the others wait. The same numbers give the same files.

    fleet.py wagons out/fleet
    cd out/fleet
    wagons map --places places.csv --roster roster.csv --network network.csv < fleet.jsonl > fleet.dot
    font=Arial,sans-serif
    neato -Gsep=+0 -Goverlap_scaling=-6 -Gfontname=$font -Nfontname=$font -Efontname=$font -Nmargin=0.02,0.01 -Tdot fleet.dot \\
        | neato -s100 -Goverlap=vpsc -Gsize=16.1,11.3 -Tsvg > fleet.svg

The second `neato` draws the map a quarter smaller and sets its boxes as near to each other as they go. So it fits on a sheet of
A3, with letters of 6 points.
"""

import json
import math
import os
import random
import subprocess
import sys
import time
from collections.abc import Iterator

CLASSES = ["Eanos", "Falns", "Habbins"]
# What a wagon does that isn't free, by the word of a roster.
AT_WORK = ["loading", "ready", "journey_loaded", "journey_empty", "yard_loaded", "arrived_loaded", "unloading"]
# The first and the second half of a place's name.
FIRST = ["Ahorn", "Birken", "Buchen", "Eichen", "Erlen", "Eschen", "Fichten", "Hasel", "Kiefern", "Linden", "Pappel", "Tannen", "Ulmen", "Weiden"]
SECOND = ["au", "bach", "berg", "dorf", "feld", "furt", "hain", "heim", "hof", "ried", "stein", "tal"]
START = 1772409600  # 2026-03-02T00:00:00Z
MOST_OPEN_WAGONS = 500
FIELD = 600  # how many kilometres the field has from south to north


def wagon_number(k: int) -> str:
    """The number of wagon k, with its check digit."""
    eleven = f"3180537{k:04}"
    total = sum(sum(map(int, str(int(c) * (2 - i % 2)))) for i, c in enumerate(eleven))
    return eleven + str(-total % 10)


def place(k: int) -> str:
    return f"DE{k:05}"


def name(k: int) -> str:
    """The name of place k, as `Lindenau`; from place 168 on with a number behind it."""
    again, k = divmod(k, len(FIRST) * len(SECOND))
    return FIRST[k % len(FIRST)] + SECOND[k // len(FIRST)] + (f" {again + 1}" if again else "")


def moment(seconds: int) -> str:
    return time.strftime("%Y-%m-%dT%H:%M:%SZ", time.gmtime(seconds))


def points(count: int) -> list[tuple[float, float]]:
    """Points in a field, none too near to another."""
    least = 0.6 / math.sqrt(count)
    found: list[tuple[float, float]] = []
    while len(found) < count:
        point = (random.random() * 1.5, random.random())
        if all(math.dist(point, other) > least for other in found):
            found.append(point)
    return found


def lines(at: list[tuple[float, float]]) -> Iterator[tuple[int, int, int]]:
    """The pairs of neighbours, to both of which no third point is nearer, and their kilometres."""
    reach = 4 / math.sqrt(len(at))
    for a, here in enumerate(at):
        near = [(math.dist(here, other), b) for b, other in enumerate(at) if math.dist(here, other) < reach and b != a]
        for far, b in near:
            if b < a and not any(max(to, math.dist(at[b], at[c])) < far for to, c in near if c != b):
                yield b, a, max(5, round(far * FIELD))


def write_roster(path: str, wagons: int, places: int) -> None:
    with open(path, "w", encoding="utf-8") as file:
        file.write("wagon,class,load,status,place,moment\n")
        for k in range(wagons):
            status = "empty" if random.random() < 0.45 else random.choice(AT_WORK)
            file.write(f"{wagon_number(k)},{random.choice(CLASSES)},60000,{status},{place(random.randrange(places))},{moment(START)}\n")


def write_network(path: str, at: list[tuple[float, float]]) -> None:
    with open(path, "w", encoding="utf-8") as file:
        file.write("from,to,km,minutes,way\n")
        for a, b, km in lines(at):
            file.write(f"{place(a)},{place(b)},{km},{km + 10},both\n")


def write_places(path: str, at: list[tuple[float, float]]) -> None:
    with open(path, "w", encoding="utf-8") as file:
        file.write("place,name,x,y\n")
        for k, (x, y) in enumerate(at):
            file.write(f"{place(k)},{name(k)},{x * FIELD:.1f},{y * FIELD:.1f}\n")


def order(k: int, places: int, most: int) -> str:
    """The line of order k, for at most so many wagons."""
    fields: dict[str, object] = {"type": "order", "order": f"O{k + 1}", "place": place(random.randrange(places))}
    fields |= {"classes": random.sample(CLASSES, random.choice([1, 1, 1, 2])), "load": 50000}
    fields |= {"latest": moment(START + random.randint(8, 96) * 3600), "penalty": 1000, "wagons": random.randint(1, most)}
    return json.dumps(fields, separators=(",", ":"))


def certificate(program: str, folder: str, journal: list[str]) -> str:
    """The certificate of the plan that ends a journal."""
    words = [program, "run", "--roster", f"{folder}/roster.csv", "--network", f"{folder}/network.csv"]
    replies = subprocess.run(words, input="\n".join(journal) + "\n", capture_output=True, text=True).stdout
    return next(line for line in replies.splitlines() if line.startswith("{"))


def main() -> None:
    if len(sys.argv) not in (3, 6):
        sys.exit(__doc__)
    program, folder = sys.argv[1], sys.argv[2]
    wagons, places, orders = map(int, sys.argv[3:6]) if sys.argv[3:] else (1000, 150, 150)
    random.seed(1)
    os.makedirs(folder, exist_ok=True)
    write_roster(f"{folder}/roster.csv", wagons, places)
    at = points(places)
    write_network(f"{folder}/network.csv", at)
    write_places(f"{folder}/places.csv", at)
    most = max(1, min(3, MOST_OPEN_WAGONS // orders))
    placed = [order(k, places, most) for k in range(orders)]
    planned = placed[:orders * 2 // 3] + [json.dumps({"type": "plan", "at": moment(START)}, separators=(",", ":"))]
    journal = planned + [certificate(program, folder, planned)] + placed[orders * 2 // 3:]
    with open(f"{folder}/fleet.jsonl", "w", encoding="utf-8") as file:
        file.write("\n".join(journal) + "\n")


if __name__ == "__main__":
    main()
