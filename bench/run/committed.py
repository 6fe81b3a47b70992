#!/usr/bin/env python3
"""Makes scripts whose plans are committed, over the fleet of day.py, all of whose wagons are free when they begin.

committed.py PROGRAM FOLDER ROUNDS reads roster.csv and network.csv in FOLDER, and writes into it committed.jsonl: 270 orders
that no plan serves, since a wagon that misses them costs less than the nearest one, and then so many rounds of 30 orders
that are served, a plan line and a commit of that plan. Behind it the 30 orders are withdrawn, and a message of each of their
wagons makes it ready at another moment. planned.jsonl is the same without commits: what changes between two plan lines is
the same. uncommitted.jsonl has no plans either. last.jsonl has the lines before the last plan line, and standard output gets
its moment: `wagons table` makes its table of them.
"""

import csv
import json
import random
import subprocess
import sys
from collections.abc import Sequence

from day import CLASSES, PLACES, answer
from made_up import line, place

WAITING = 270
SERVED = 30


def order(name: str, place: str, kind: str, penalty: int) -> str:
    fields = {"type": "order", "order": name, "place": place, "classes": [kind], "load": 50000}
    return line(fields | {"latest": "2026-04-03T00:00:00Z", "penalty": penalty})


def anywhere() -> tuple[str, str]:
    return place(random.randrange(PLACES)), random.choice(CLASSES)


def waiting(wagons: Sequence[dict[str, str]]) -> list[str]:
    """Orders at places where no wagon of their class stands: lines have 5 kilometres at least, and these pay for 4."""
    taken = {(wagon["place"], wagon["class"]) for wagon in wagons}
    free = [(place(k), kind) for k in range(PLACES) for kind in CLASSES if (place(k), kind) not in taken]
    return [order(f"P{k}", *random.choice(free), 4) for k in range(WAITING)]


def freed(number: str, place: str, k: int) -> str:
    """A message that a wagon isn't held, which makes it ready at that moment."""
    message = {"type": "exception", "company": "9999", "number": k, "wagon": number, "place": place}
    return line(message | {"moment": f"2026-03-03T00:{k // 3600 % 60:02}:{k // 60 % 60:02}Z", "hold": False})


def main() -> None:
    program, folder, rounds = sys.argv[1], sys.argv[2], int(sys.argv[3])
    random.seed(3)
    with open(f"{folder}/roster.csv") as file:
        wagons = list(csv.DictReader(file))
    places = {wagon["wagon"]: wagon["place"] for wagon in wagons}
    words = [program, "run", "--roster", f"{folder}/roster.csv", "--network", f"{folder}/network.csv"]
    office = subprocess.Popen(words, stdin=subprocess.PIPE, stdout=subprocess.PIPE, text=True)
    assert office.stdin and office.stdout
    scripts = {name: open(f"{folder}/{name}.jsonl", "w") for name in ("committed", "planned", "uncommitted")}

    def write(lines: Sequence[str], names: Sequence[str] = tuple(scripts)) -> None:
        for name in names:
            scripts[name].write("".join(f"{it}\n" for it in lines))

    lines = waiting(wagons)
    write(lines)
    told, before, at = 0, list(lines), ""
    for turn in range(rounds):
        came = [order(f"Q{turn}-{k}", *anywhere(), 1000000) for k in range(SERVED)]
        at = f"2026-03-03T{turn // 60:02}:{turn % 60:02}:59Z"
        plan = line({"type": "plan", "at": at})
        before += came
        if turn + 1 == rounds:
            with open(f"{folder}/last.jsonl", "w") as out:
                out.write("".join(f"{it}\n" for it in before))
        certificate = answer(office.stdin, office.stdout, [*lines, *came, plan]).rstrip("\n")
        pairs = json.loads(certificate)["pairs"]
        lines = [line({"type": "withdraw", "order": f"Q{turn}-{k}"}) for k in range(SERVED)]
        for number, _ in pairs:
            told += 1
            lines.append(freed(number, places[number], told))
        write(came)
        write([plan], ("committed", "planned"))
        write([certificate], ("committed",))
        write(lines)
        before += [plan, certificate, *lines]
        lines = [certificate, *lines]
    print(at)
    office.stdin.write("".join(f"{it}\n" for it in lines))
    office.stdin.close()
    office.stdout.read()
    office.wait()


if __name__ == "__main__":
    main()
