#!/usr/bin/env python3
"""Cuts the script of bench/run (day.py) into files for `wagons feed`, one for each sender.

cut.py FOLDER reads FOLDER/lines.jsonl and writes FOLDER/N_K.jsonl, file K of N, for N of 1, 2, 4 and 8. There each message
has the company of its train, chosen at random; here each wagon has one of eight companies, so that a wagon's messages stand
in one file in their order, and a file has the companies that its number leads to. The plans and commits of the script
are left out; a plan line stands after each 100 messages of a file.
"""

import json
import sys
from typing import Any

COMPANIES = 8
MESSAGES_A_PLAN = 100


class Companies:
    """Gives each wagon a company, and each message that company's next number; the same message keeps its number."""

    def __init__(self) -> None:
        self.company: dict[str, int] = {}
        self.numbers: dict[tuple[str, int], int] = {}
        self.last = [0] * COMPANIES

    def of_wagon(self, wagon: str) -> int:
        return self.company.setdefault(wagon, len(self.company) % COMPANIES)

    def renumber(self, fields: dict[str, Any]) -> tuple[int, dict[str, Any]]:
        old = fields["company"], fields["number"]
        k = self.of_wagon(fields["wagon"])
        if old not in self.numbers:
            self.last[k] += 1
            self.numbers[old] = self.last[k]
        return k, fields | {"company": f"{2001 + k}", "number": self.numbers[old]}


class Cut:
    """The files of one cut, as they are written."""

    def __init__(self, folder: str, files: int) -> None:
        self.out = [open(f"{folder}/{files}_{k + 1}.jsonl", "w") for k in range(files)]
        self.messages = [0] * files

    def line(self, company: int, fields: dict[str, Any]) -> None:
        self.out[company % len(self.out)].write(json.dumps(fields, separators=(",", ":")) + "\n")

    def message(self, company: int, fields: dict[str, Any]) -> None:
        self.line(company, fields)
        k = company % len(self.out)
        self.messages[k] += 1
        if self.messages[k] % MESSAGES_A_PLAN == 0:
            self.line(company, {"type": "plan", "at": fields["moment"]})


def main() -> None:
    folder = sys.argv[1]
    companies, orders = Companies(), 0
    cuts = [Cut(folder, files) for files in (1, 2, 4, 8)]
    with open(f"{folder}/lines.jsonl") as lines:
        for text in lines:
            fields = json.loads(text)
            if fields["type"] == "order":
                orders += 1
                for cut in cuts:
                    cut.line(orders % COMPANIES, fields)
            elif "wagon" in fields:
                company, message = companies.renumber(fields)
                for cut in cuts:
                    cut.message(company, message)


if __name__ == "__main__":
    main()
