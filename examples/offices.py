#!/usr/bin/env python3
"""Cuts a fleet into offices: offices.py OFFICES ROSTER FOLDER < JOURNAL

OFFICES is a CSV file with the header `office,class,region`: wagons of that class whose first place begins with that region
belong to that office; an empty field fits all, and the first record that fits counts. FOLDER gets a folder for each office
with its `roster.csv` and its part of the journal, `journal.jsonl`.

A movement message goes to the office of its wagon. An order goes to the first office of its place's region that has one of
its classes, and its withdrawal goes there too. `begin`, `plan`, `network` and `sheet` go to all offices. What has no office,
a line that is no JSON object, and commits, which each office answers for itself, are named on standard error; status 1 then.
"""

import csv
import json
import os
import sys


def fits(record: dict[str, str], kind: str, place: str) -> bool:
    return record["class"] in ("", kind) and place.startswith(record["region"])


def office_of(records: list[dict[str, str]], kinds: list[str], place: str) -> str | None:
    """The office of the first record that fits one of these classes at this place."""
    return next((record["office"] for record in records if any(fits(record, kind, place) for kind in kinds)), None)


def plain(number: str) -> str:
    """A wagon's number without its spaces and hyphens."""
    return number.replace(" ", "").replace("-", "")


def cut_roster(records: list[dict[str, str]], path: str) -> tuple[dict[str, list[list[str]]], dict[str, str | None]]:
    """The lines of the roster of each office, and the office of each wagon."""
    with open(path, encoding="utf-8", newline="") as file:
        header, *rows = csv.reader(file)
    rosters = {record["office"]: [header] for record in records}
    wagons: dict[str, str | None] = {}
    for row in rows:
        office = office_of(records, [row[1]], row[4])
        wagons[plain(row[0])] = office
        if office:
            rosters[office].append(row)
        else:
            print(f"no office for wagon {row[0]}", file=sys.stderr)
    return rosters, wagons


def offices_of(line: str, records: list[dict[str, str]], wagons: dict[str, str | None], orders: dict[str, str | None]) -> list[str]:
    """The offices that a line of the journal goes to."""
    said = json.loads(line)
    kind, everyone = said["type"], list(dict.fromkeys(record["office"] for record in records))
    if kind in ("begin", "plan", "network", "sheet"):
        return everyone
    if kind == "order":
        orders[said["order"]] = office_of(records, said["classes"], said["place"])
    found = orders.get(said["order"]) if kind in ("order", "withdraw") else wagons.get(plain(said["wagon"]))
    return [found] if found else []


def main() -> int:
    if len(sys.argv) != 4:
        sys.exit(__doc__)
    offices, roster, folder = sys.argv[1:]
    with open(offices, encoding="utf-8", newline="") as file:
        records = list(csv.DictReader(file))
    rosters, wagons = cut_roster(records, roster)
    journals: dict[str, list[str]] = {office: [] for office in rosters}
    orders: dict[str, str | None] = {}
    lost = None in wagons.values()
    for number, line in enumerate(sys.stdin, 1):
        try:
            found = offices_of(line, records, wagons, orders)
        except (AttributeError, KeyError, TypeError, ValueError):
            found = []
        if not found:
            lost = True
            print(f"no office for line {number}", file=sys.stderr)
        for office in found:
            journals[office].append(line)
    for office, rows in rosters.items():
        os.makedirs(f"{folder}/{office}", exist_ok=True)
        with open(f"{folder}/{office}/roster.csv", "w", encoding="utf-8", newline="") as file:
            csv.writer(file, lineterminator="\n").writerows(rows)
        with open(f"{folder}/{office}/journal.jsonl", "w", encoding="utf-8") as file:
            file.writelines(journals[office])
    return 1 if lost else 0


if __name__ == "__main__":
    sys.exit(main())
