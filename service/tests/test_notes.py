"""Notes of the journal: what `GET /v1/notes` answers, beside the document that describes it and what `wagons review` prints; and
who is told by `GET /events` that there are more."""

import asyncio
import json
import os
import signal
import subprocess
import sys
import time
from collections.abc import Iterator
from contextlib import contextmanager
from pathlib import Path
from typing import Any

import jsonschema
import pytest

from conftest import Start
from running import DAY, Service, line, order
from test_railways import DISPATCHER, ONE, READER, TOKENS, Events
from test_state import LINES, answered
from wagons_service.answers import Refusal
from wagons_service.journal import MOST_LINE_BYTES, FileOfLines
from wagons_service.kept_notes import KeptNotes, NoNote
from wagons_service.note_follower import NoteFollower

MALT = "318127710016"
# By hand, from the story of the day: its plan, a delivery, a hold, a delivery, a withdrawal, and the wrong yard.
PROMISED = [("318127710016", "MALT-1"), ("318127710032", "STEEL-1"), ("318053700056", "SCRAP-1"), ("318053700072", "SCRAP-1"),
            ("315466400068", "SUGAR-1"), ("315466400076", "SUGAR-1"), ("315466400084", "SUGAR-1"), ("318127710024", "SALT-1")]
NOTES: list[dict[str, Any]] = [
    *({"line": 10, "note": "promised", "wagon": wagon, "order": order} for wagon, order in PROMISED),
    *({"line": 10, "note": "complete", "order": order} for order in ("MALT-1", "STEEL-1", "SCRAP-1", "SUGAR-1")),
    {"line": 15, "note": "delivered", "wagon": "318127710032", "order": "STEEL-1"},
    {"line": 15, "note": "filled", "order": "STEEL-1", "late": 0},
    {"line": 18, "note": "ended", "wagon": "315466400076", "order": "SUGAR-1", "why": "held"},
    {"line": 18, "note": "short", "order": "SUGAR-1", "missing": 1},
    {"line": 19, "note": "delivered", "wagon": "315466400084", "order": "SUGAR-1"},
    {"line": 24, "note": "ended", "wagon": "318053700056", "order": "SCRAP-1", "why": "withdrawn"},
    {"line": 24, "note": "ended", "wagon": "318053700072", "order": "SCRAP-1", "why": "withdrawn"},
    {"line": 25, "note": "refused", "number": 33, "wagon": MALT, "status": "yard_empty", "place": "DE10002",
     "last": "2026-03-02T08:20:00Z", "times": 1, "since": "2026-03-02T08:40:00Z"}]


def asked(service: Service, query: str = "") -> tuple[int, bool, list[dict[str, Any]]]:
    """The line that an answer covers, whether there are more notes, and the notes; of the first journal."""
    told = answered(service, f"/v1/notes{query}", "/v1/notes")
    assert told["journal"] == 1
    return told["line"], told["more"], told["notes"]


def reviewed(service: Service) -> list[dict[str, Any]]:
    """What the program prints of the whole journal by itself."""
    command = [service.program, "review", *service.office, "--json"]
    printed = subprocess.run(command, input=service.journal, stdout=subprocess.PIPE, check=False).stdout
    return [json.loads(text) for text in printed.splitlines()]


def reviewer(service: Service) -> int:
    """The process that follows the journal for notes."""
    (found,) = [pid for pid in service.children if b"review" in Path(f"/proc/{pid}/cmdline").read_bytes().split(b"\0")]
    return found


def of_lines(first: int, last: int) -> list[dict[str, Any]]:
    return [note for note in NOTES if first <= note["line"] <= last]


def test_the_notes_of_the_day(start: Start) -> None:
    service = start(options=["--places", str(DAY / "places.csv")]).until_running()
    assert asked(service) == (0, False, [])
    service.post(LINES)
    assert asked(service) == asked(service, "?since=0&limit=10000") == (26, False, NOTES)
    assert reviewed(service) == NOTES
    # Each answer has whole lines, and names the last one before the next note.
    assert asked(service, "?since=9&limit=12") == asked(service, "?limit=1") == (14, True, of_lines(10, 10))
    assert asked(service, "?since=10&limit=2") == asked(service, "?since=14&limit=3") == (17, True, of_lines(15, 15))
    assert asked(service, "?since=17&limit=5") == (24, True, of_lines(18, 24))
    assert asked(service, "?since=24&limit=1") == (26, False, of_lines(25, 25))
    for since in 25, 26, 999_999:
        assert asked(service, f"?since={since}") == (26, False, [])
    # The newest ones alone, whatever their lines.
    assert asked(service, "?newest=10000") == asked(service, "?since=9&newest=20") == (26, False, NOTES)
    assert asked(service, "?newest=7") == asked(service, "?since=10&newest=7") == (26, False, NOTES[-7:])
    assert asked(service, "?since=19&newest=7") == (26, False, of_lines(20, 26)) and asked(service, "?since=25&newest=7") == (26, False, [])
    # None of this stands in the journal.
    assert service.journal == LINES


def test_each_line_as_it_comes(start: Start) -> None:
    """Who asks behind each line is told the same as who asks once."""
    service = start().until_running()
    told = []
    for number, text in enumerate(LINES.splitlines(), 1):
        service.post([text])
        upto, more, notes = asked(service, f"?since={number - 1}")
        assert (upto, more) == (number, False)
        told += notes
    assert told == NOTES
    # The wagon goes on from the yard; two messages that don't fit it are counted, and an accepted one ends the count.
    for number, (kind, place) in enumerate([("yard_departure", "DE10002"), ("departure", "DE10002"), ("arrival", "DE10003"), ("departure", "DE10001")], 30):
        service.post([line(kind=kind, company="1001", number=number, wagon=MALT, place=place, moment=f"2026-03-02T11:{number}:00Z")])
    upto, _, notes = asked(service, "?since=26")
    refused = [(note["line"], note["number"], note["times"], note["since"]) for note in notes if note["note"] == "refused"]
    assert upto == 30 and refused == [(27, 32, 1, "2026-03-02T11:30:00Z"), (28, 32, 2, "2026-03-02T11:30:00Z"), (30, 32, 1, "2026-03-02T11:33:00Z")]
    assert notes == [note for note in reviewed(service) if note["line"] > 26]
    # Blank lines and long ones have no notes; the longest comes behind what was asked.
    longest = b'{"type":"withdraw","order":"NONE-1","x":"%b"}' % (b"y" * (MOST_LINE_BYTES - 43))
    assert len(longest) == MOST_LINE_BYTES
    for number, text in enumerate([b"", b" \t", longest, b"no JSON", longest], 31):
        service.post([text])
        assert asked(service, "?since=30") == (number, False, [])
    assert asked(service)[2] == reviewed(service)


def test_a_program_that_is_killed_or_hangs(start: Start) -> None:
    service = start(options=["--answer-within", "1"]).until_running()
    lines = LINES.splitlines()
    service.post(lines[:15])
    assert asked(service)[2] == of_lines(1, 15)
    first = reviewer(service)
    os.kill(first, signal.SIGKILL)
    assert asked(service) == (15, False, of_lines(1, 15))
    service.post(lines[15:20])
    assert asked(service) == (20, False, of_lines(1, 20))
    second = reviewer(service)
    os.kill(second, signal.SIGSTOP)
    service.post(lines[20:])
    assert asked(service) == (26, False, NOTES)
    assert len({first, second, reviewer(service)}) == 3
    assert any("the program has given no reply for 1 seconds" in told for told in service.log)
    assert service.stop() == 0


def test_a_program_that_does_not_start(start: Start, tmp_path: Path, program: str) -> None:
    """The office goes on without notes."""
    other = tmp_path / "program"
    other.write_text(f'#!/bin/sh\nif [ "$1" = review ]; then echo "no notes here" >&2; exit 2; fi\nexec {os.path.abspath(program)} "$@"\n')
    other.chmod(0o755)
    service = start(program=str(other)).until_running()
    service.post(LINES)
    for _ in range(3):
        answer = service.get("/v1/notes")
        assert (answer.status, answer.text) == (503, "There are no notes now: no notes here\n")
    assert service.post([b"{}"]).replies == ["27 refused 24 type"]


def test_a_new_journal(start: Start) -> None:
    service = start().until_running()
    service.post(LINES)
    assert asked(service) == (26, False, NOTES)
    assert service.post(b"", path="/next").status == 200
    assert answered(service, "/v1/notes?since=26", "/v1/notes") == {"journal": 2, "line": 0, "more": False, "notes": []}
    service.post([line(kind="delivery", company="1001", number=50, wagon=MALT, place="DE10003", moment="2026-03-02T11:00:00Z"),
                  line(kind="withdraw", order="SUGAR-1")])
    told = answered(service, "/v1/notes", "/v1/notes")
    assert (told["journal"], told["line"], told["more"]) == (2, 2, False)
    # A streak begins again with a journal.
    assert told["notes"] == [
        {"line": 1, "note": "refused", "number": 32, "wagon": MALT, "status": "journey_empty", "place": "DE10002",
         "last": "2026-03-02T08:40:00Z", "times": 1, "since": "2026-03-02T11:00:00Z"},
        {"line": 2, "note": "ended", "wagon": "315466400068", "order": "SUGAR-1", "why": "withdrawn"}]


def test_who_may_ask_and_what(start: Start, tmp_path: Path) -> None:
    (tmp_path / "tokens").write_text(TOKENS)
    service = start(options=["--tokens", str(tmp_path / "tokens")]).until_running()
    service.post(LINES, DISPATCHER)
    assert service.get("/v1/notes").status == 401
    assert service.get("/v1/notes", ONE).status == 403
    for token in DISPATCHER, READER:
        assert json.loads(service.get("/v1/notes?since=24", token).body) == {"journal": 1, "line": 26, "more": False, "notes": NOTES[-1:]}
    for query in "since=-1", "since=x", "since=", "since=1000001", "since=9999999999", "since=1.0", "since=%C2%B2", "limit=0", "limit=10001", "limit=x", "newest=0", "newest=10001", "newest=":
        answer = service.get(f"/v1/notes?{query}", READER)
        assert answer.status == 400 and answer.text.startswith(f"`{query.partition('=')[0]}` must be a number from "), (query, answer)
    answer = service.get("/v1/notes?newest=1&limit=1", READER)
    assert (answer.status, answer.text) == (400, "`newest` and `limit` shut each other out.\n")
    assert service.get("/events?notes=0").status == 401 and service.get("/events?notes=0", ONE).status == 403
    for query in "notes=", "notes=-1", "notes=x", "notes=1000001":
        answer = service.get(f"/events?{query}", READER)
        assert (answer.status, answer.text) == (400, "`notes` must be a number from 0 to 1,000,000.\n"), query


@contextmanager
def closing_all(*listeners: Events) -> Iterator[tuple[Events, ...]]:
    """Ends listeners."""
    try:
        yield listeners
    finally:
        for events in listeners:
            events.end()


def told_of(service: Service, events: Events) -> int:
    """The line up to which a listener is told that there are notes of the first journal."""
    name, told = events.next()
    document = json.loads(service.get("/v1/openapi.json", READER).body)
    jsonschema.Draft202012Validator({"$ref": "#/components/schemas/NotesEvent", "components": document["components"]}).validate(told)
    assert (name, told["journal"]) == ("notes", 1)
    line_told: int = told["line"]
    return line_told


def test_listeners_are_told_of_notes(start: Start, tmp_path: Path) -> None:
    (tmp_path / "tokens").write_text(TOKENS)
    service = start(options=["--tokens", str(tmp_path / "tokens")]).until_running()
    lines = LINES.splitlines()
    service.post(lines[:15], DISPATCHER)
    with closing_all(Events(service, READER, "?notes=0&from=1"), Events(service, DISPATCHER, "?notes=15"), Events(service, READER)) as (all_of_them, later, without):
        assert told_of(service, all_of_them) == 15
        # Who knows those of line 15 is told of later ones alone, as is everyone else from now on.
        for text in lines[15:18]:
            service.post([text], DISPATCHER)
        assert told_of(service, all_of_them) == told_of(service, later) == 18
        service.post(lines[18:], DISPATCHER)
        assert told_of(service, all_of_them) == told_of(service, later) == 26
        # Each of them is true when it is told, and lines without notes bring none.
        service.post([order("A"), order("B", classes=["Zzz"])], DISPATCHER)
        assert told_of(service, later) == 28
        assert json.loads(service.get("/v1/notes?since=26", READER).body)["notes"] == [{"line": 28, "note": "class", "order": "B"}]
        # One program prints them for all.
        assert reviewer(service)
        assert told_of(service, all_of_them) == 28
        assert service.post(b"", DISPATCHER, path="/next").status == 200
        assert all_of_them.next()[0] == later.next()[0] == without.next()[0] == "next"
        # A line is told as ever, and who didn't ask for notes was told of nothing else.
        assert [reply["number"] for reply in all_of_them.replies] == list(range(1, 29)) and [reply["number"] for reply in without.replies] == list(range(16, 29))
    with closing_all(Events(service, READER, "?notes=28")) as (events,):
        # The lines of the new journal are fewer.
        service.post([line(kind="withdraw", order="SUGAR-1")], DISPATCHER)
        with closing_all(Events(service, READER, "?notes=0")) as (again,):
            assert again.next() == ("notes", {"journal": 2, "line": 1})
    assert not any("told of" in told for told in service.log), service.log


def test_listeners_where_there_are_no_notes(start: Start, tmp_path: Path, program: str) -> None:
    """They are told of replies, and the program is tried again now and then, for all together."""
    other, broken = tmp_path / "program", tmp_path / "broken"
    broken.touch()
    other.write_text(f'#!/bin/sh\nif [ "$1" = review ]; then echo once >> {tmp_path}/times; if [ -e {broken} ]; then echo "no notes" >&2; exit 2; fi; fi\n'
                     f'exec {os.path.abspath(program)} "$@"\n')
    other.chmod(0o755)
    service = start(program=str(other)).until_running()
    service.post(LINES)
    with closing_all(*(Events(service, "", "?notes=0&from=1") for _ in range(5))) as listeners:
        time.sleep(6)
        assert len((tmp_path / "times").read_text().split()) in (1, 2, 3)
        service.post([order("A", classes=["Zzz"])])
        broken.unlink()
        for events in listeners:
            assert told_of(service, events) == 27 and [reply["number"] for reply in events.replies] == list(range(1, 28))
    assert any("listeners aren't told of notes now: There are no notes now: no notes" in told for told in service.log)


def test_old_notes_are_dropped(program: str, tmp_path: Path) -> None:
    """A follower that keeps five notes keeps those of whole lines; who asks for others is told from where on there are some."""
    async def work() -> None:
        office = ["--roster", str(DAY / "roster.csv"), "--network", str(DAY / "network.csv"), "--network", str(DAY / "network_closed.csv")]
        (tmp_path / "journal.jsonl").write_bytes(LINES)
        follower = NoteFollower(FileOfLines(str(tmp_path / "journal.jsonl")), [program, "review", *office, "--json"], 30, most=5)
        for since in 0, 10, 17:
            with pytest.raises(Refusal) as refused:
                await follower.page(since, 10)
            assert (refused.value.status, str(refused.value)) == (410, "The notes up to line 18 aren't kept any more; ask with since=18.")
        page = await follower.page(18, 10)
        assert (page.line, page.more, [json.loads(note) for note in page.notes]) == (26, False, of_lines(19, 26))
        follower.end()

    asyncio.run(work())


# Reads as the program does, and takes its time for each line.
SLOW = """
import os, sys, time
piece, number = b"", 0
while data := os.read(0, 16384):
    *lines, piece = (piece + data).split(b"\\n")
    for line in lines:
        number += 1
        time.sleep(0.01)
        if b"order" in line:
            os.write(1, b'{"line":%d,"note":"complete"}\\n' % number)
"""


def test_a_slow_program(tmp_path: Path) -> None:
    """Nothing is answered of a line before the program has done it, also where many ask and some leave."""
    async def work() -> None:
        lines = FileOfLines(str(tmp_path / "journal.jsonl"))
        follower = NoteFollower(lines, [sys.executable, "-c", SLOW], 30)
        for turn in range(6):
            lines.append([b'{"order":1}', b"{}"] * turn, is_synced=False)
            asking = [asyncio.create_task(follower.page(0, 10_000)) for _ in range(4)]
            await asyncio.sleep(0.005)
            asking[0].cancel()
            lines.append([b'{"order":2}'], is_synced=False)
            told = [*await asyncio.gather(*asking[1:]), await follower.page(0, 10_000)]
            for page in told:
                printed = [note(number) for number in range(1, page.line + 1) if b"order" in lines.read(number, number)]
                assert page.line >= lines.count - 1 and page == (page.line, False, printed)
            assert told[-1].line == lines.count
        follower.end()

    asyncio.run(work())


def note(number: int, word: str = "complete") -> bytes:
    return b'{"line":%d,"note":"%b"}' % (number, word.encode())


def test_notes_in_memory() -> None:
    kept = KeptNotes(6)
    printed = b"".join(note(number) + b"\n" for number in (3, 3, 5, 8, 8, 8))
    for at in range(0, len(printed), 7):
        kept.take(printed[at:at + 7])
    # Nothing is told of lines that may have more notes.
    assert kept.page(0, 9) == kept.newest(0, 9) == (0, False, []) and kept.last == 0
    kept.line = 7
    assert kept.page(0, 9) == (7, False, [note(3), note(3), note(5)])
    assert kept.newest(0, 9) == (7, False, [note(3), note(3), note(5)]) and kept.last == 5
    kept.line = 9
    assert kept.newest(0, 4) == (9, False, [note(5)] + [note(8)] * 3) and kept.newest(5, 4) == (9, False, [note(8)] * 3) and kept.last == 8
    assert kept.page(0, 1) == kept.page(0, 2) == (4, True, [note(3), note(3)])
    assert kept.page(3, 3) == (7, True, [note(5)]) and kept.page(3, 4) == (9, False, [note(5)] + [note(8)] * 3)
    assert kept.page(5, 1) == (9, False, [note(8)] * 3) and kept.page(8, 1) == (9, False, [])
    # Two more drop the two of line 3; a program that begins again prints what is known, and what wasn't covered.
    kept.take(note(12) + b"\n" + note(13) + b"\n" + note(14)[:9])
    assert kept.dropped == 3 and kept.page(3, 9).notes == [note(5)] + [note(8)] * 3
    kept.begin_again()
    kept.take(printed + note(12) + b"\n")
    kept.line = 12
    assert kept.dropped == 3 and kept.page(3, 9) == (12, False, [note(5), *[note(8)] * 3, note(12)])
    # A line that has more notes than are kept is dropped with the others.
    kept.take((note(20) + b"\n") * 7)
    assert kept.dropped == 20
    for printed in b"1 accepted 1\n", b'{"line":x}\n', b"\n", note(21) + b"\n\n":
        with pytest.raises(NoNote):
            KeptNotes(6).take(printed)
