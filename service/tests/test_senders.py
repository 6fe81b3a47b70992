"""Who said what: the names of tokens, their expiry, and what is kept beside a journal."""

import json
import os
import signal
import subprocess
import time
from datetime import UTC, datetime, timedelta
from pathlib import Path

import pytest

from conftest import Start
from running import WAGONS, message, order
from wagons_service.journal import FileOfLines
from wagons_service.senders import BadTokens, sender_of
from wagons_service.sent import Sent, SentLines

TOKENS = """railway-1001-token railway 1001 name=north-yard
railway-1002-token railway 1002
dispatcher-s-token dispatcher name=A.Dispatcher until=2999-01-01T00:00:00+01:00
reader-s-long-token reader
"""
DISPATCHER = "dispatcher-s-token"


@pytest.fixture
def tokens(tmp_path: Path) -> Path:
    file = tmp_path / "tokens"
    file.write_text(TOKENS)
    return file


def test_a_dispatcher_sees_who_sent_each_line(start: Start, tokens: Path) -> None:
    begun = datetime.now(UTC)
    service = start(options=["--tokens", str(tokens)]).until_running()
    sent = [message("1001", 1, WAGONS[0]), message("1001", 2, WAGONS[1]), message("1002", 1, WAGONS[2]), order("O1")]
    service.post(sent[:2], "railway-1001-token")
    service.post(sent[2:3], "railway-1002-token")
    service.post(sent[3:], DISPATCHER)
    os.kill(service.process.pid, signal.SIGKILL)
    service.until_ended()
    service = start(options=["--tokens", str(tokens)]).until_running()
    assert service.post(b"", DISPATCHER, "/next").status == 200
    names = ["north-yard", "north-yard", "railway-1002", "A.Dispatcher"]
    records = service.get("/replies?journal=1", DISPATCHER).records
    assert [record["sender"] for record in records] == names
    assert all(begun - timedelta(seconds=1) < datetime.fromisoformat(record["taken"]) < datetime.now(UTC) for record in records)
    # Nobody else sees it, and the journal is as it came.
    for token in "reader-s-long-token", "railway-1001-token":
        assert all(record.keys() == {"number", "reply", "line"} for record in service.get("/replies?journal=1", token).records)
    assert (service.folder / "1" / "journal.jsonl").read_bytes() == b"".join(line + b"\n" for line in sent)
    assert [json.loads(line)["last"] for line in (service.folder / "1" / "senders.jsonl").read_text().splitlines()] == [2, 3, 4]


def test_the_line_by_which_a_sheet_ends_is_the_services(start: Start) -> None:
    service = start().until_running()
    service.post(b'{"type":"sheet"}')
    assert [record["sender"] for record in service.get("/replies").records] == ["anyone", "wagons-service"]


def test_a_token_expires(start: Start, tokens: Path) -> None:
    until = datetime.now(UTC) + timedelta(seconds=2.5)
    tokens.write_text(f"{TOKENS}a-token-for-a-while railway 1001 until={until.isoformat()}\n")
    service = start(options=["--tokens", str(tokens)]).until_running()
    mine = "a-token-for-a-while"
    assert service.post([message("1001", 1, WAGONS[0])], mine).status == 200
    listener = subprocess.Popen(["curl", "-sN", "-H", f"Authorization: Bearer {mine}", f"http://127.0.0.1:{service.port}/events?from=1"], stdout=subprocess.PIPE)
    time.sleep(max((until - datetime.now(UTC)).total_seconds(), 0) + 0.1)
    answer = service.post([message("1001", 2, WAGONS[0])], mine)
    assert (answer.status, answer.text) == (401, "The token has expired.\n")
    assert service.get("/replies", mine).status == 401
    # What comes now is told to others alone.
    service.post([message("1001", 3, WAGONS[0])], "railway-1001-token")
    assert b'"number":2' not in listener.communicate(timeout=10)[0]
    assert len(service.journal.splitlines()) == 2


@pytest.mark.parametrize(("words", "said"), [
    ("reader name=", "a name has 1 to 64 letters"),
    ("reader name=a/b", "a name has 1 to 64 letters"),
    ("reader until=tomorrow", "behind `until=` stands a moment with Z or an offset"),
    ("reader until=2027-01-31T00:00:00", "behind `until=` stands a moment with Z or an offset"),
    ("reader role=x", "only `name=` and `until=` may stand at the end, each once"),
    ("railway 1001 name=a name=b", "only `name=` and `until=` may stand at the end, each once"),
])
def test_wrong_names_and_expiries(words: str, said: str) -> None:
    with pytest.raises(BadTokens, match=said):
        sender_of(["0123456789abcdef", *words.split()], "tokens: line 1")


def test_what_a_crash_left_of_senders(tmp_path: Path) -> None:
    path = str(tmp_path / "senders.jsonl")
    sent = SentLines(FileOfLines(path), 0)
    sent.add(1, [("a", 3), ("b", 0), ("c", 2)])
    sent.add(6, [("d", 4)])
    sent.add(10, [("e", 1)])
    # The last request never came to the journal, and of the one before only a line did.
    again = SentLines(FileOfLines(path), 6)
    assert [found and (found.name, found.last) for found in map(again.find, range(1, 8))] == [("a", 3)] * 3 + [("c", 5)] * 2 + [("d", 6), None]
    again.add(7, [("f", 1)])
    assert again.find(7) and [json.loads(line)["sender"] for line in Path(path).read_text().splitlines()] == ["a", "c", "d", "f"]
    # One that a disk spoiled takes none behind it along.
    Path(path).write_bytes(Path(path).read_bytes().replace(b'"c"', b'"\0"'))
    spoiled = SentLines(FileOfLines(path), 7)
    assert [spoiled.find(number) and spoiled.find(number).name for number in (3, 4, 6, 7)] == ["a", None, "d", "f"]  # type: ignore[union-attr]
    spoiled.forget(7)
    assert spoiled.find(7) is None and spoiled.find(6) == Sent(6, 6, "d", spoiled.find(6).taken)  # type: ignore[union-attr]
