#!/usr/bin/env python3
"""Calls that take memory, each with every request refused in turn, by a small program over them (calls/).

The program stands in no crate of the repository: a copy of the crates gets it, and `rt try` builds it there without a proof, with
checks, and so that one request is refused, always the same. The program writes itself into a file, which is run for each case:
`rt try` would take a second for each.

The program prepares what the calls of a part need, and makes requests of its own before the calls, one more in each case, so that
the refused one comes earlier and earlier among those of the calls. Where a call is out of memory the program tests that the value
shows what it showed before, makes the same call again, and says `refused: CALL`; where anything else happens it ends with a fault.

Two cases of each part come first. In one the program makes requests until one is refused, and says how many it made before the
calls; in the other it does so behind the calls. What lies between is what the calls ask for, and each of it is refused once.
"""

import os
import re
import shutil
import subprocess
import tempfile
from collections import Counter
from concurrent.futures import ThreadPoolExecutor
from typing import NamedTuple

from program import EACH, HERE, PROCESSES, SECONDS, Table

ROOT = os.path.dirname(HERE)
NAME = "hostile_calls"
LIBRARIES = """last_texts line_plans traces journal_notes fault_texts checkpoint command_line csv_records faults office office_map plan_table text_tables plan_reasons
problem_table sessions assignment dispatch_sheet table_lines commit_book operating_db price_checker cost_table line_network
line_engine fleet_rows wagons_and_orders place_names line_fields move_messages rail_codes test_samples""".split()
# The request that is refused, and more requests than come before it. MANY stands in calls/trying.rs too.
REFUSED, MANY = 2500, 5000


class Part(NamedTuple):
    """What a part tries, and the calls that must have been refused memory in some case."""

    what: str
    calls: list[str]


DELIVERY = "(a delivery that frees a wagon and lets an order wait)"
SEAT_CALLS = ["send", f"send {DELIVERY}", "place", "withdraw", "revise", "begin", "commit"]
# A table is read twice where the first time is refused memory, so that `read_table` is not among them.
PARTS = {
    "readings": Part("calls that read lines and files, make tables and plans, and write codes", """WagonNumber::text
        Place::text ClassCode::text Company::text OrderId::text Moment::text read_line Event::copy CommitText::copy
        stated_table check_named table_cost solve_line read_lines Network::copy tables Places::read_names
        Cells::from_rows plan certified_plan Roster::read_rows Roster::copy Book::new OfficeState::new OfficeState::apply
        OfficeState::problem""".split() + ["tables_by_workers (two workers)"]),
    "books": Part("the calls of `Book`", ["message", "place", "withdraw", "revise", "begin", "commit", f"message {DELIVERY}",
        "begin (the oldest problem is dropped)", "begin (the problem that it would drop is committed)",
        "run (its answers)", "run (one of its calls)"]),
    "tables": Part("tables that a book makes, lends and is handed",
        ["begin_with_table", "begin_with_table (a table is changed)", "kept_table", "MadeProblem::of", "submit_with"]),
    "checkpoints": Part("an office copied, changed, saved, read, and gone on from", """OfficeState::copy OfficeState::with_fleet
        checkpoint_text read_checkpoint Book::from_office""".split()),
    "seats": Part("the calls of seats, and `open`", ["open", *SEAT_CALLS,
        *(f"{call}, and closed then" for call in SEAT_CALLS)]),
    "closing": Part("`close`", []),
    "plans": Part("plans and their texts", """work cells plan Snap::commit_text certificate_line plan_text certified_plan_text problem_line sheet_text
        map_text order_counts why_text order_text wagon_text list_of_plan table_text csv_text""".split()),
    "words": Part("what words print of a book's last version", ["last_saved (save)", "last_map (map)", "last_table (table)",
        "last_reasons (why)", "last_plan_text (plan)", "last_fleet (fleet)", "last_orders (orders)", "last_moves (moves)"]),
    "told": Part("what people are told of files that are refused", ["read_network", "network_text", "read_roster", "roster_text",
        "line_text", "unread_text", "checkpoint_text (of a fault)", "file_text", "manual_text"]),
    "runs": Part("runs over lines", [f"{call} ({what})" for call in ("run", "check_run", "solve_run")
        for what in ("the memory for its lines", "a line")]),
    "reviews": Part("the review of a journal", ["review_journal (the memory for its lines)", "review_journal (a line)"]),
    "traces": Part("the trace of a wagon or an order", ["Trace::new", "trace_journal (the memory for its lines)", "trace_journal (a line)",
        "trace_text"]),
    "notes": Part("the notes of a journal", ["note_journal (the memory for its lines)", "note_journal (a line)"]),
    "fills": Part("what a journal fills, and the plan of its last line", ["fill_journal (the memory for its lines)", "fill_journal (a line)",
        "plan_lines (the memory for its lines)", "plan_lines (a line)", "PlanLines::last_plan"]),
    "feeds": Part("`feed` of one reader, and its report", ["feed", "feed (the memory for its lines)", "feed (a line)",
        "report_text"]),
}
# Where these are refused, what comes of the call isn't printed: the program compares it with another run's.
UNPRINTED = re.compile(r"run \(one of its calls\)|(run|check_run|solve_run|review_journal|note_journal|feed) \(a line\)"
                       r"|feed \(the memory for its lines\)|.*, and closed then")
# A case: a part, and how many requests come before its calls.
Case = tuple[str, int]


class Ended(NamedTuple):
    """What a case printed, and that it didn't end as it should, if so."""

    lines: list[str]
    fault: str | None


def built_in(folder: str) -> str:
    """A copy of the crates with the program among them; its folder."""
    shutil.copytree(f"{ROOT}/crates", f"{folder}/crates", ignore=shutil.ignore_patterns("out"))
    shutil.copy(f"{ROOT}/HANDLES", folder)
    with open(f"{ROOT}/crates.txt", encoding="utf-8") as lines, open(f"{folder}/crates.txt", "w", encoding="utf-8") as copy:
        copy.write(f"{lines.read()}{NAME}: {' '.join(LIBRARIES)}\n")
    source = f"{folder}/crates/{NAME}/src"
    os.makedirs(source)
    for file in os.listdir(f"{HERE}/calls"):
        shutil.copy(f"{HERE}/calls/{file}", f"{source}/{file.removesuffix('.rs')}.rt")
    return f"{folder}/crates/{NAME}"


def built(folder: str) -> str:
    """The program, of a copy of the crates in a folder."""
    crate, program = built_in(folder), f"{folder}/program"
    ended = subprocess.run(["rt", "try", "--fail-alloc", str(REFUSED), "--", "copy", program], cwd=crate, capture_output=True,
                           text=True, check=False)
    if not os.path.exists(program):
        raise SystemExit(f"hostile: rt try doesn't run: {ended.stdout[-1000:]} {ended.stderr[-2000:]}")
    os.chmod(program, 0o700)
    return program


def tried(program: str, case: Case) -> Ended:
    """What comes of a case."""
    part, requests = case
    try:
        # What was got where isn't noted, which takes half of the time.
        ended = subprocess.run([program, str(requests), part], cwd=os.path.dirname(program), capture_output=True, check=False,
                               env={"ASAN_OPTIONS": "malloc_context_size=0"}, timeout=SECONDS)
    except subprocess.TimeoutExpired:
        return Ended([], "it ran too long")
    said = re.search(rb"SUMMARY: .*", ended.stderr)
    fault = f"status {ended.returncode} {said[0] if said else ended.stderr!r}" if ended.returncode or ended.stderr else None
    return Ended(ended.stdout.decode().splitlines(), fault)


def all_tried(program: str, cases: list[Case]) -> dict[Case, Ended]:
    """What comes of each case, several tried at a time."""
    with ThreadPoolExecutor(PROCESSES) as pool:
        return dict(zip(cases, pool.map(lambda case: tried(program, case), cases)))


def loss(ended: Ended, reference: list[str]) -> tuple[str | None, str | None]:
    """What was refused in a case, and what is wrong with it."""
    marks = [line.removeprefix("refused: ") for line in ended.lines if line.startswith("refused: ")]
    rest = [line for line in ended.lines if not line.startswith("refused: ")]
    if ended.fault:
        return marks[-1] if marks else None, f"{marks}: {ended.fault}"
    if len(marks) > 1:
        return None, f"one request is refused, and these say so: {marks}"
    if not marks:
        # A list that is filled from an iterator asks for room for all, and where that is refused for one more.
        return None, None if rest == reference else "no call says that it was refused, and what follows is another"
    following = iter(reference)
    if marks[0] == "preparation":
        same = rest == reference[:len(rest)]
    elif UNPRINTED.fullmatch(marks[0]):
        same = all(line in following for line in rest)
    else:
        same = rest == reference
    return marks[0], None if same else f"{marks[0]}: what follows is another than without a refusal"


def told(results: dict[Case, Ended], part: str, requests: int, word: str) -> tuple[int, list[str]]:
    """The number that a case says behind a word, and its other lines."""
    lines, fault = results[part, requests]
    numbers = [int(line.split()[1]) for line in lines if line.startswith(f"{word}: ")]
    if fault or len(numbers) != 1:
        raise SystemExit(f"hostile: {part} doesn't run without a refusal: {fault} {lines[-3:]}")
    return numbers[0], [line for line in lines if not line.startswith(f"{word}: ")]


def judge(table: Table, part: str, results: dict[Case, Ended], reference: list[str]) -> None:
    """A row of the table: in how many cases a call, and nothing between calls, was refused memory. Below it, how often each
    call was."""
    what, calls = PARTS[part]
    refused: Counter[str] = Counter()
    changed: Counter[str] = Counter()
    losses = []
    for (_part, requests), ended in results.items():
        mark, lost = loss(ended, reference)
        refused[mark or "?"] += 1
        if lost:
            changed[mark or "?"] += 1
            losses.append(f"{part} {requests}: {lost}")
    if EACH == 1:
        losses += [f"no request of `{call}` was refused" for call in calls if not refused[call]]
    if not calls and results:
        losses.append(f"{len(results)} requests, and there should be none")
    table.add(f"{what}: one request for memory refused", len(results) - refused["preparation"], losses)
    for call in sorted(call for call in refused if call not in ("preparation", "?")):
        print(f"calls: {part}: {call}: {refused[call]} refused, {changed[call] or 'nothing'} changed", flush=True)
    if not calls:
        print(f"calls: {part}: {what}: no request at all", flush=True)


def main() -> None:
    table = Table()
    table.row("calls of the libraries: one request for memory refused")
    with tempfile.TemporaryDirectory() as folder:
        program = built(folder)
        ends = all_tried(program, [(part, requests) for part in PARTS for requests in (0, MANY)])
        for part in PARTS:
            left, reference = told(ends, part, 0, "left")
            made, _ = told(ends, part, MANY, "made")
            cases = [(part, requests) for requests in range(made, left, -EACH)]
            judge(table, part, all_tried(program, cases), reference)
    table.end()


if __name__ == "__main__":
    main()
