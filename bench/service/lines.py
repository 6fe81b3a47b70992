#!/usr/bin/python3
"""Makes a fleet, a network and the messages of several senders: lines.py FOLDER SENDERS LINES.

roster.csv has 1,000 wagons, network.csv 200 places. sender_K.jsonl has LINES messages of wagons that sender K alone
moves, round and round: each leaves, arrives and is delivered empty. So each line is accepted, however the senders'
lines come between each other.
"""

import os
import sys

sys.path.append(os.path.join(os.path.dirname(os.path.abspath(__file__)), "..", "..", "tools"))
import made_up  # noqa: E402
from made_up import line, moment  # noqa: E402

PLACES = 200
WAGONS = 1000
START = 1772409600  # 2026-03-02T00:00:00Z
ROUND = ["departure", "arrival", "delivery"]


def wagon_number(k: int) -> str:
    return made_up.wagon_number(f"31805370{k:03}")


def place(k: int) -> str:
    """The place of this number, round and round."""
    return made_up.place(k % PLACES)


def messages(sender: int, senders: int, lines: int) -> list[str]:
    wagons = range(sender, WAGONS, senders)
    made = []
    for n in range(lines):
        turn, step = divmod(n, len(wagons))
        wagon = wagons[step]
        # A wagon begins at the place of its number, and each round leads it one place on.
        at = place(wagon + turn // len(ROUND) + (turn % len(ROUND) > 0))
        fields = {"type": ROUND[turn % len(ROUND)], "company": f"S{sender:03}", "number": n, "wagon": wagon_number(wagon), "place": at}
        made.append(line(fields | {"moment": moment(START + 60 * turn)}))
    return made


def main() -> None:
    folder, senders, lines = sys.argv[1], int(sys.argv[2]), int(sys.argv[3])
    with open(f"{folder}/roster.csv", "w") as out:
        out.write("wagon,class,load,status,place,moment\n")
        for k in range(WAGONS):
            out.write(f"{wagon_number(k)},Eanos,60000,empty,{place(k)},{moment(START)}\n")
    with open(f"{folder}/network.csv", "w") as out:
        out.write("from,to,km,minutes,way\n")
        for k in range(PLACES):
            out.write(f"{place(k)},{place(k + 1)},{10 + k % 50},{20 + k % 50},both\n")
    for sender in range(senders):
        with open(f"{folder}/sender_{sender}.jsonl", "w") as out:
            out.write("".join(f"{it}\n" for it in messages(sender, senders, lines)))


if __name__ == "__main__":
    main()
