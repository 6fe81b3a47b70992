#!/usr/bin/env python3
"""Memory that is refused: the first, the second, the third .. request alone, all from each one on, and some at random.

Each line must be answered as ever or by `refused 1`, and has then done nothing; what follows must be what the model of
office.py answers without those lines. A start without memory says `wagons: 1`, or `wagons: 46` where it was the start of a
thread that was refused.
"""

import functools
import itertools
from collections.abc import Callable, Sequence

import judge
import office
import program
from program import NETWORKS, NOT_JUDGED, ROSTER, Outcome, Table, office_words, run, script

# Which requests for memory are refused (faults.c), in small letters.
Refusals = dict[str, int]
ENTRIES, KEPT = 21, 4
ALL = 10**9
ODDS = [2, 3, 5, 10, 20, 50, 100, 200, 500, 1000, 2000]
SEEDS = 60
FILES = ["feed_1.jsonl", "feed_2.jsonl", "feed_3.jsonl"]
STARTS = [b"wagons: 1\n", b"wagons: 46\n"]


@functools.cache
def networks() -> list[office.Distances]:
    return [office.distances(path) for path in NETWORKS]


def new_office(entries: int = ENTRIES) -> office.Office:
    return office.Office(office.read_rows(ROSTER), networks(), entries, KEPT)


def started(outcome: Outcome) -> bool:
    """Whether it came to its first line; what it says where it didn't."""
    return not (outcome.status == 2 and outcome.err in STARTS and not outcome.out)


def tried(words: Sequence[str], given: bytes, refusals: Refusals, judged: Callable[[Outcome], str | None]) -> str | None:
    outcome = run(words, given, **refusals)
    if outcome.fault():
        return outcome.fault()
    if not started(outcome):
        return None
    if outcome.err or outcome.status == 2 and words[0] != "feed":
        return f"status {outcome.status} and {outcome.err!r}"
    try:
        return judged(outcome)
    except judge.Lost as lost:
        return str(lost)
    except judge.Unjudged:
        return NOT_JUDGED


def status_of(outcome: Outcome, refused: int) -> str | None:
    return None if outcome.status == int(refused > 0) else f"status {outcome.status}"


def check(refusals: Refusals) -> str | None:
    def judged(outcome: Outcome) -> str | None:
        replies = judge.judge_check(script("tables.jsonl"), outcome.out, may_refuse=True)
        if is_one(refusals) and len(replies.without_memory) > 1:
            return f"one request was refused, and lines {replies.without_memory}"
        return status_of(outcome, replies.refused)
    return tried(["check"], script("tables.jsonl"), refusals, judged)


def is_one(refusals: Refusals) -> bool:
    return refusals.get("refuse_count") == 1


def office_run(refusals: Refusals) -> str | None:
    def judged(outcome: Outcome) -> str | None:
        last = judge.Lost("no plan is possible")
        # A plan that was refused for memory has begun or not: the replies behind it must fit one of the two.
        for begins in itertools.product([True, False], repeat=script("office.jsonl").count(b'"plan"')):
            one = judge.Run(new_office(), may_refuse=True, begins=begins)
            try:
                replies = one.judge(script("office.jsonl"), outcome.out)
            except judge.Lost as lost:
                last = lost
                continue
            if is_one(refusals) and len(one.without_memory) > 1:
                return f"one request was refused, and lines {one.without_memory}"
            return status_of(outcome, replies.refused)
        raise last
    return tried(office_words("run", ENTRIES, KEPT, 2), script("office.jsonl"), refusals, judged)


@functools.cache
def fed(name: str, skip: int | None = None) -> judge.Fed:
    """A file without plan lines."""
    return judge.Fed(new_office(), script(name), skip)


@functools.cache
def reports_of_one() -> set[str]:
    """What `feed` may print of one file where one line of it was refused for memory, or none."""
    numbers = [None] + [number for number, _ in judge.lines_of(script("office.jsonl"))]
    ways = [judge.all_fed(new_office, script("office.jsonl"), number, begins) for number in numbers for begins in (False, True)]
    return {one.report() for way in ways for one in way} | {f"file 1 failed 1\n{new_office().sheet()}\n"}


def feed_one(refusals: Refusals) -> str | None:
    def judged(outcome: Outcome) -> str | None:
        text = outcome.out.decode()
        if is_one(refusals) and text not in reports_of_one():
            return f"no line's refusal gives {text!r}"
        return counts_add_up(text, outcome.status)
    words = office_words("feed", ENTRIES, KEPT, 2) + [f"{program.SCRIPTS}/office.jsonl"]
    return tried(words, b"", refusals, judged)


def counts_add_up(text: str, status: int) -> str | None:
    """The accepted lines of all files are the sheet's version, and the status is that of the counts."""
    rows = [row.split() for row in text.splitlines()]
    files = [row for row in rows if row[0] == "file"]
    version = int(next(row for row in rows if row[0] == "sheet")[1])
    if version != sum(int(row[3]) for row in files if row[2] == "accepted"):
        return f"the counts don't add up: {text!r}"
    right = 2 if any(row[2] == "failed" for row in files) else int(any(row[7] != "0" for row in files))
    return None if status == right else f"status {status} with {text!r}"


@functools.cache
def rows_of(name: str, number: int | None) -> tuple[str, tuple[str, ...]]:
    """The rows of a file's own wagons and orders, and its counts, where a line was refused or none."""
    one = fed(name, number)
    mine = script(name).decode()
    rows = [row for row in one.office.sheet().splitlines() if row.startswith(("wagon", "order")) and row.split()[1] in mine]
    return one.counts(), tuple(rows)


@functools.cache
def outcomes_of(name: str) -> set[tuple[str, tuple[str, ...]]]:
    numbers = [None] + [number for number, _ in judge.lines_of(script(name))]
    mine = script(name).decode()
    idle = [row for row in new_office().sheet().splitlines() if row.startswith("wagon") and row.split()[1] in mine]
    return {rows_of(name, number) for number in numbers} | {("failed 1", tuple(idle))}


def feed_three(refusals: Refusals) -> str | None:
    """Each wagon and order belongs to one file, so that each file's rows are its own."""
    def judged(outcome: Outcome) -> str | None:
        text = outcome.out.decode()
        rows = text.splitlines()
        for k, name in enumerate(FILES) if is_one(refusals) else []:
            mine = script(name).decode()
            own = tuple(row for row in rows if row.startswith(("wagon", "order")) and row.split()[1] in mine)
            if (rows[k].split(" ", 2)[2], own) not in outcomes_of(name):
                return f"no line's refusal gives file {k + 1} of {text!r}"
        return counts_add_up(text, outcome.status)
    words = office_words("feed", 1000, KEPT, 2) + [f"{program.SCRIPTS}/{name}" for name in FILES]
    return tried(words, b"", refusals, judged)


def requests(words: Sequence[str], given: bytes) -> int:
    """How many requests for memory there are where none is refused, and all is done."""
    outcome = run(words, given, refuse_from=ALL)
    if outcome.status != 1 or outcome.err or not outcome.counts[0]:
        raise SystemExit(f"hostile: {words[0]} doesn't run, or its requests for memory aren't seen")
    return outcome.counts[0]


def main() -> None:
    table = Table()
    table.row("`check`, `run`, `feed` of one and three files: one request, all from one on, or random ones refused")
    reports_of_one()
    for name in FILES:
        outcomes_of(name)
    open_office = office_words("run", ENTRIES, KEPT, 2)
    parts = [
        ("`check`", check, ["check"], ["check"], script("tables.jsonl")),
        ("`run`", office_run, open_office, open_office, script("office.jsonl")),
        ("`feed` of one file", feed_one, open_office, office_words("feed", ENTRIES, KEPT, 2) + [f"{program.SCRIPTS}/office.jsonl"], b""),
        ("`feed` of three files", feed_three, open_office,
         office_words("feed", 1000, KEPT, 2) + [f"{program.SCRIPTS}/{name}" for name in FILES], b""),
    ]
    for name, one, start, words, given in parts:
        first, most = run(start, b"", refuse_from=ALL).counts[0] + 1, requests(words, given) + 5
        table.try_all(f"{name}: one request for memory refused", one, [{"refuse_from": n, "refuse_count": 1} for n in range(1, most)])
        table.try_all(f"{name}: all requests from one on refused", one, [{"refuse_from": n, "refuse_count": ALL} for n in range(1, most)])
        table.try_all(f"{name}: requests refused at random, behind the start", one,
                      [{"refuse_from": first, "refuse_one_in": odds, "refuse_seed": seed} for odds in ODDS for seed in range(SEEDS)])
    table.end()


if __name__ == "__main__":
    main()
