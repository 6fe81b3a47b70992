#!/usr/bin/env python3
"""Makes a fleet, a network and a script of messages for `wagons run`, from a seed.

day.py PROGRAM FOLDER MESSAGES writes roster.csv (1,000 wagons in three classes), network.csv (200 places) and
lines.jsonl into FOLDER. After each 1,000 messages stand an order for three wagons, a plan and a commit. A commit is the
certificate of its plan, so the program itself is asked for it: it reads the lines as they are made.
"""

import json
import os
import random
import subprocess
import sys
from typing import IO

sys.path.append(os.path.join(os.path.dirname(os.path.abspath(__file__)), "..", "..", "tools"))
import made_up  # noqa: E402
from made_up import line, moment, place  # noqa: E402

PLACES = 200
WAGONS = 1000
CLASSES = ["Eanos", "Falns", "Habbins"]
COMPANIES = ["1001", "1002", "1003", "1004", "1005"]
START = 1772409600  # 2026-03-02T00:00:00Z
SECONDS_A_MESSAGE = 10


class Wagon:
    def __init__(self, k: int) -> None:
        self.number = made_up.wagon_number(f"31805370{k:03}")
        self.kind = CLASSES[k % len(CLASSES)]
        self.place = place(random.randrange(PLACES))
        self.status = "empty"
        self.held = False
        self.goal: str | None = None  # the place of the order that it is promised to


class Day:
    """The lines, made so that nearly all of them are accepted."""

    def __init__(self) -> None:
        self.wagons = [Wagon(k) for k in range(WAGONS)]
        self.by_number = {wagon.number: wagon for wagon in self.wagons}
        self.numbers = {company: 0 for company in COMPANIES}
        self.now = START
        self.last = ""

    def message(self, kind: str, wagon: Wagon, where: str, hold: bool | None = None) -> str:
        company = random.choice(COMPANIES)
        self.numbers[company] += 1
        fields: dict[str, object] = {"type": kind, "company": company, "number": self.numbers[company], "wagon": wagon.number}
        fields |= {"place": where, "moment": moment(self.now)}
        if hold is not None:
            fields["hold"] = hold
        return line(fields)

    def next_message(self) -> str:
        self.now += SECONDS_A_MESSAGE
        turn = random.random()
        if turn < 0.01 and self.last:
            return self.last  # sent twice
        wagon = random.choice(self.wagons)
        if turn < 0.015 and wagon.status.startswith("journey"):
            return self.message("release", wagon, wagon.place)  # its status doesn't allow it
        if turn < 0.02 and not wagon.goal:
            wagon.held = not wagon.held
            self.last = self.message("exception", wagon, wagon.place, wagon.held)
            return self.last
        self.last = self.step(wagon)
        return self.last

    def step(self, wagon: Wagon) -> str:
        word, _, load = wagon.status.partition("_")
        anywhere = place(random.randrange(PLACES))
        if word == "empty":
            return self.move("departure", wagon, wagon.place, "journey_empty")
        if word == "loading":
            return self.move("release", wagon, wagon.place, "ready")
        if word == "ready":
            return self.move("departure", wagon, wagon.place, "journey_loaded")
        if word == "journey" and random.random() < 0.5:
            return self.move("yard_arrival", wagon, anywhere, f"yard_{load}")
        if word == "journey":
            return self.move("arrival", wagon, wagon.goal or anywhere, f"arrived_{load}")
        if word == "yard":
            return self.move("yard_departure", wagon, wagon.place, f"journey_{load}")
        if word == "arrived" and load == "loaded":
            return self.move("delivery", wagon, wagon.place, "unloading")
        if word == "arrived" and wagon.goal:
            wagon.goal = None
            return self.move("delivery", wagon, wagon.place, "loading")
        if word == "arrived":
            return self.move("delivery", wagon, wagon.place, "empty")
        return self.move("release", wagon, wagon.place, "empty")

    def move(self, kind: str, wagon: Wagon, where: str, status: str) -> str:
        text = self.message(kind, wagon, where)
        wagon.place, wagon.status = where, status
        return text


def write_files(folder: str, day: Day) -> None:
    with open(f"{folder}/roster.csv", "w") as out:
        out.write("wagon,class,load,status,place,moment\n")
        for wagon in day.wagons:
            out.write(f"{wagon.number},{wagon.kind},60000,empty,{wagon.place},{moment(START)}\n")
    with open(f"{folder}/network.csv", "w") as out:
        out.write("from,to,km,minutes,way\n")
        for k in range(PLACES):
            for other in {(k + 1) % PLACES, random.randrange(PLACES)}:
                km = random.randint(5, 60)
                out.write(f"{place(k)},{place(other)},{km},{km + 10},both\n")


def main() -> None:
    program, folder, messages = sys.argv[1], sys.argv[2], int(sys.argv[3])
    random.seed(1)
    day = Day()
    write_files(folder, day)
    words = [program, "run", "--roster", f"{folder}/roster.csv", "--network", f"{folder}/network.csv", "--entries", "1000000"]
    office = subprocess.Popen(words, stdin=subprocess.PIPE, stdout=subprocess.PIPE, text=True)
    assert office.stdin and office.stdout
    with open(f"{folder}/lines.jsonl", "w") as out:
        for hour in range(messages // 1000):
            lines = [day.next_message() for _ in range(1000)]
            goal = place(random.randrange(PLACES))
            order: dict[str, object] = {"type": "order", "order": f"O{hour}", "place": goal, "classes": [random.choice(CLASSES)], "load": 50000}
            lines.append(line(order | {"latest": moment(day.now + 30 * 86400), "penalty": 1000000, "wagons": 3}))
            lines.append(line({"type": "plan", "at": moment(day.now)}))
            certificate = answer(office.stdin, office.stdout, lines)
            for number, _ in json.loads(certificate)["pairs"]:
                day.by_number[number].goal = goal
            office.stdin.write(certificate)
            out.write("\n".join(lines) + "\n" + certificate)
    office.stdin.close()
    office.stdout.read()
    office.wait()


def answer(given: IO[str], replies: IO[str], lines: list[str]) -> str:
    """Hands lines to an office, and returns the certificate that it answers."""
    given.write("".join(f"{it}\n" for it in lines))
    given.flush()
    for reply in replies:
        if reply.startswith("{"):
            return reply
    sys.exit("the office ended before its certificate")


if __name__ == "__main__":
    main()
