"""A refusal that depends on where a wagon stands says where that is."""

import threading
import time
from pathlib import Path

import pytest

from conftest import Start
from running import DAY, line, message, order
from test_railways import DISPATCHER, HABBINS, ONE, READER, TOKENS, TWO

LINES = (DAY / "day.jsonl").read_bytes().splitlines()
STANDS = {"line": 3, "wagon": HABBINS, "status": "empty", "place": "DE10001", "last": "2026-03-02T06:00:00Z"}


def moved(company: str, number: int, kind: str, place: str, moment: str, wagon: str = HABBINS) -> bytes:
    return line(kind=kind, company=company, number=number, wagon=wagon, place=place, moment=moment)


@pytest.fixture
def options(tmp_path: Path) -> list[str]:
    (tmp_path / "tokens").write_text(TOKENS)
    return ["--tokens", str(tmp_path / "tokens")]


def test_a_refusal_says_where_the_wagon_stands(start: Start, options: list[str]) -> None:
    service = start(options=options).until_running()
    service.post([message("1003", 1, HABBINS), order("O1")], DISPATCHER)
    (record,) = service.post(moved("1001", 1, "delivery", "DE10003", "2026-03-02T07:00:00Z"), ONE).records
    assert record == {"number": 3, "reply": "3 refused 32", "wagon": STANDS}
    records = service.post([moved("1001", 2, "departure", "DE10002", "2026-03-02T07:00:00Z"), moved("1001", 3, "departure", "DE10001", "2026-03-01T07:00:00Z"),
                            moved("1001", 4, "departure", "DE10001", "2026-03-02T07:00:00Z", "3181 2771 001-7"), line(kind="departure", company="1001")], ONE).records
    stands = STANDS | {"line": 7}
    assert records == [{"number": 4, "reply": "4 refused 33", "wagon": stands}, {"number": 5, "reply": "5 refused 31", "wagon": stands},
                       {"number": 6, "reply": "6 refused 25 wagon 12"}, {"number": 7, "reply": "7 refused 24 number"}]
    # The kept reply is the program's alone.
    assert service.kept[2:7] == ["3 refused 32", "4 refused 33", "5 refused 31", "6 refused 25 wagon 12", "7 refused 24 number"]
    # A sender that comes back for its replies is told it too, as it is now.
    for token in ONE, DISPATCHER, READER:
        records = service.get("/replies?from=3", token).records
        assert [record.get("wagon") for record in records] == [stands] * 3 + [None] * 2
        assert records[0]["line"] == moved("1001", 1, "delivery", "DE10003", "2026-03-02T07:00:00Z").decode()
    assert "wagon" not in service.get("/replies?from=3", DISPATCHER).records[3] and service.get("/replies", TWO).records == []
    # A wagon that went on since isn't followed by whoever was refused.
    service.post(moved("1002", 1, "departure", "DE10001", "2026-03-02T08:00:00Z"), TWO)
    stands = {"line": 8, "wagon": HABBINS, "status": "journey_empty", "place": "DE10001", "last": "2026-03-02T08:00:00Z"}
    assert [record.get("wagon") for record in service.get("/replies?from=3&to=5", ONE).records] == [None] * 3
    assert [record.get("wagon") for record in service.get("/replies?from=3&to=5", DISPATCHER).records] == [stands] * 3
    # Nor is it told of a journal that is over.
    assert service.post(b"", DISPATCHER, "/next").status == 200
    assert [record.get("wagon") for record in service.get("/replies?journal=1&from=3&to=5", DISPATCHER).records] == [None] * 3
    assert service.post(moved("1001", 5, "release", "DE10001", "2026-03-02T08:00:00Z"), ONE).records == [
        {"number": 1, "reply": "1 refused 32", "wagon": stands | {"line": 1}}]
    # None of it is a line of the journal.
    assert service.journal.count(b"\n") == 1


def test_a_refusal_of_a_document_says_it_too(start: Start, tmp_path: Path) -> None:
    map = tmp_path / "map.toml"
    map.write_text('messages = "//m"\n[fields]\ncompany = "@c"\nnumber = "@n"\nwagon = "@w"\nplace = "@p"\nmoment = "@t"\n[kinds.delivery]\nwhen = "true()"\n')
    service = start(options=["--map", str(map)]).until_running()
    document = f'<d><m c="1001" n="1" w="{HABBINS}" p="DE10003" t="2026-03-02T07:00:00Z"/></d>'.encode()
    stands = {"line": 1, "wagon": HABBINS, "status": "empty", "place": "DE10001", "last": "2026-03-01T19:00:00Z"}
    assert service.post(document, path="/xml").records == [{"number": 1, "reply": "1 refused 32", "wagon": stands}]
    assert service.post(document, path="/xml?partial=yes").records == [{"message": 1, "number": 2, "reply": "2 refused 32", "wagon": stands | {"line": 2}}]


def test_many_refusals_hold_up_nobody(start: Start, options: list[str]) -> None:
    service = start(options=options).until_running()
    over = threading.Event()
    slowest = [0.0]

    def refuse(k: int) -> None:
        number = 0
        while not over.is_set():
            number += 1
            begun = time.monotonic()
            records = service.post(moved("1001", 1000 * k + number, "delivery", "DE10003", "2026-03-02T07:00:00Z"), ONE).records
            slowest[0] = max(slowest[0], time.monotonic() - begun)
            assert records[0]["reply"].endswith(" refused 32")

    senders = [threading.Thread(target=refuse, args=(k,)) for k in range(8)]
    for sender in senders:
        sender.start()
    begun = time.monotonic()
    seconds: list[float] = []
    while time.monotonic() - begun < 4:
        sent = time.monotonic()
        assert service.post(message("1002", len(seconds), HABBINS), TWO).replies[0].split()[1] == "accepted"
        seconds.append(time.monotonic() - sent)
    over.set()
    for sender in senders:
        sender.join()
    # Others wait for no sheet, and those who wait for one don't wait for long.
    assert sorted(seconds)[len(seconds) // 2] < 0.1, sorted(seconds)
    assert slowest[0] < 5
