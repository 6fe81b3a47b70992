"""What a railway sees: the wagons that it moved last, with their movements, and events of what changes."""

import asyncio
import json
import subprocess
import threading
import time
from collections.abc import Iterator
from pathlib import Path
from typing import Any

import pytest

from conftest import ROOT, Start
from running import DAY, Service, line, message
from wagons_service.journal import Folder
from wagons_service.known_wagons import KnownWagons

LINES = (DAY / "day.jsonl").read_bytes().splitlines()
ONE, TWO, THREE, DISPATCHER, READER = "railway-1001-token", "railway-1002-token", "railway-1003-token", "dispatcher-s-token", "reader-s-long-token"
COMPANIES = {ONE: "1001", TWO: "1002", THREE: "1003"}
TOKENS = "".join(f"{token} railway {company}\n" for token, company in COMPANIES.items()) + f"{DISPATCHER} dispatcher\n{READER} reader\n"
# Which wagons each moved last after 26 lines of the day, by its lines.
MOVED = {ONE: ["318053700080", "318127710016", "318127710032"], TWO: ["315466400068", "315466400084"], THREE: ["315466400076"]}
HABBINS, FALNS, OTHER = "318127710016", "315466400068", "318053700056"


@pytest.fixture
def options(tmp_path: Path) -> list[str]:
    (tmp_path / "tokens").write_text(TOKENS)
    return ["--tokens", str(tmp_path / "tokens"), "--places", str(DAY / "places.csv")]


def asked(service: Service, path: str, token: str) -> Any:
    answer = service.get(path, token)
    assert answer.status == 200, answer
    return json.loads(answer.body)


def seen(service: Service, token: str) -> list[str]:
    return [wagon["wagon"] for wagon in asked(service, "/v1/wagons", token)["wagons"]]


def test_a_railway_sees_the_wagons_that_it_moved_last(start: Start, options: list[str]) -> None:
    service = start(options=options).until_running()
    service.post(LINES[:26], DISPATCHER)
    all_of_them = asked(service, "/v1/wagons", READER)
    for token in ONE, TWO:
        told = asked(service, "/v1/wagons", token)
        assert told == {"line": 26, "wagons": [wagon for wagon in all_of_them["wagons"] if wagon["wagon"] in MOVED[token]]}
        assert [wagon["wagon"] for wagon in told["wagons"]] == MOVED[token]
    assert asked(service, f"/v1/wagons/{HABBINS}", ONE)["wagon"] in all_of_them["wagons"]
    # Another's wagon, one that nobody moved, and one that isn't there.
    for number in FALNS, OTHER, "218124712173":
        answer = service.get(f"/v1/wagons/{number}", ONE)
        assert (answer.status, answer.text) == (404, f"The office has no wagon {number}.\n")


def test_a_railway_sees_movements_of_its_own_wagons(start: Start, options: list[str]) -> None:
    service = start(options=options).until_running()
    service.post(LINES[:26], DISPATCHER)
    path = "/v1/movements?at=2026-03-02T09:00:00Z&silent=1"
    all_of_them = asked(service, path, READER)
    assert [row["wagon"] for row in all_of_them["movements"]] == [FALNS, HABBINS, "318127710024"] and len(all_of_them["silent"]) == 39
    told = asked(service, path, ONE)
    # An order's name and place stand in the movement; of orders nothing else is told.
    assert told == all_of_them | {
        "movements": [row for row in all_of_them["movements"] if row["wagon"] == HABBINS], "orders": [],
        "silent": [row for row in all_of_them["silent"] if row["wagon"] in MOVED[ONE]]}
    assert (told["movements"][0]["order"], told["movements"][0]["to_name"], len(told["silent"])) == ("MALT-1", "Lindenau", 2)
    for more in f"&wagon={FALNS}", "&order=SUGAR-1":
        told = asked(service, path + more, ONE)
        assert told["movements"] == told["orders"] == []
    for path, status in ("/v1/orders", 403), ("/v1/orders/MALT-1", 403), ("/v1/movements?wagon=1", 400), ("/v1/movements?at=now", 400):
        assert service.get(path, ONE).status == status


def test_a_wagon_is_seen_by_whoever_moved_it_last(start: Start, options: list[str]) -> None:
    service = start(options=options).until_running()
    hold = {"place": "DE10001", "moment": "2026-03-02T07:00:00Z", "hold": False}
    assert service.post(line(kind="exception", company="1001", number=1, wagon="3181 2771 001-6", **hold), ONE).replies == ["1 accepted 1"]
    # A message that is refused or repeated changes nothing.
    assert service.post(line(kind="delivery", company="1002", number=1, wagon=HABBINS, place="DE10001", moment="2026-03-02T08:00:00Z"), TWO).replies == ["2 refused 32"]
    assert service.post(line(kind="exception", company="1001", number=1, wagon="3181 2771 001-6", **hold), ONE).replies == ["3 repeated 1"]
    assert (seen(service, ONE), seen(service, TWO)) == ([HABBINS], [])
    # As members may be written: of one that stands twice the last counts.
    odd = b'{"typ\\u0065":"exc\\u0065ption","company":"1001","company":"1002","number":7,"wagon":"31812771001-6","place":"DE10001","moment":"2026-03-02T08:00:00Z","hold":false}'
    assert service.post(odd, TWO).replies == ["4 accepted 2"]
    assert (seen(service, ONE), seen(service, TWO)) == ([], [HABBINS])


def movers(folder: Path) -> dict[str, list[str]]:
    """Who moved which wagons last, as the folder's journals say."""

    async def found() -> dict[str, list[str]]:
        opened = Folder(str(folder))
        try:
            journal = opened.journal()
            of = await KnownWagons(opened).movers(journal, journal.replies.last)
            return {token: sorted(wagon for wagon, mover in of.items() if mover == company) for token, company in COMPANIES.items()}
        finally:
            opened.close()

    return asyncio.run(found())


def test_who_moved_a_wagon_stays_known(start: Start, options: list[str]) -> None:
    service = start(options=options).until_running()
    service.post(LINES[:26], DISPATCHER)
    assert service.stop() == 0
    assert movers(service.folder) == MOVED
    service = start(options=options).until_running()
    assert seen(service, ONE) == MOVED[ONE]
    # Also in new journals, which have it beside them.
    for journal in 2, 3:
        assert service.post(b"", DISPATCHER, "/next").text == f'{{"journal": {journal}}}'
    assert seen(service, ONE) == MOVED[ONE]
    service.post(message("1003", 9, HABBINS, moment="2026-03-02T09:00:00Z"), THREE)
    moved = {ONE: ["318053700080", "318127710032"], TWO: MOVED[TWO], THREE: ["315466400076", HABBINS]}
    assert service.post(b"", DISPATCHER, "/next").status == 200
    assert seen(service, THREE) == moved[THREE]
    assert service.stop() == 0
    # What is lost or spoiled of it is made again from the journals before.
    kept = [(service.folder / journal / "wagons.jsonl").read_bytes() for journal in "234"]
    (service.folder / "2" / "wagons.jsonl").unlink()
    (service.folder / "3" / "wagons.jsonl").write_bytes(kept[1][:-20])
    (service.folder / "4" / "wagons.jsonl").unlink()
    assert movers(service.folder) == moved
    assert [(service.folder / journal / "wagons.jsonl").read_bytes() for journal in "234"] == kept
    # A new journal waits for none of that; who asks then has it made.
    (service.folder / "4" / "wagons.jsonl").unlink()
    service = start(options=options).until_running()
    assert service.post(b"", DISPATCHER, "/next").status == 200
    assert not (service.folder / "5" / "wagons.jsonl").exists()
    assert seen(service, THREE) == moved[THREE] and (service.folder / "5" / "wagons.jsonl").read_bytes() == kept[2]


def test_who_moved_a_wagon_in_a_journal_begun_beside_the_service(start: Start, options: list[str], program: str, tmp_path: Path) -> None:
    service = start(options=options).until_running()
    service.post(LINES[:26], DISPATCHER)
    assert service.stop() == 0
    command = [str(ROOT / "service" / "wagons-service"), "next", "--journal", str(service.folder), "--program", program, *service.office]
    assert subprocess.run(command, check=False, capture_output=True, text=True).stdout.endswith("journal 2 begins\n")
    backup = tmp_path / "backup"
    command[1:2] = ["backup", str(backup)]
    assert subprocess.run(command, check=False).returncode == 0
    assert (backup / "journal" / "2" / "wagons.jsonl").exists()
    assert movers(backup / "journal") == movers(service.folder) == MOVED


def test_railways_that_ask_hold_up_no_dispatcher(start: Start, options: list[str]) -> None:
    service = start(options=options).until_running()
    service.post(LINES[:26], DISPATCHER)
    over = threading.Event()
    answers: list[int] = []

    def ask(token: str) -> None:
        while not over.is_set():
            answers.append(service.get("/v1/wagons", token).status)

    railways = [threading.Thread(target=ask, args=(token,)) for token in COMPANIES for _ in range(8)]
    for railway in railways:
        railway.start()
    try:
        while not answers:
            time.sleep(0.01)
        # Twenty-four wait for their turns, and are answered together; a reader waits for those of one turn.
        before = len(answers)
        asked(service, "/v1/wagons", READER)
        assert len(answers) <= before + 2 * len(railways)
    finally:
        over.set()
        for railway in railways:
            railway.join()
    assert set(answers) == {200}


class Events:
    """A railway's events, as they come."""

    def __init__(self, service: Service, token: str, query: str = "") -> None:
        self._listener = subprocess.Popen(["curl", "-sN", "-H", f"Authorization: Bearer {token}", f"http://127.0.0.1:{service.port}/events{query}"], stdout=subprocess.PIPE, text=True)
        self.replies: list[dict[str, Any]] = []
        self._told = self._read()

    def _read(self) -> Iterator[tuple[str, Any]]:
        assert self._listener.stdout is not None
        name = ""
        for text in self._listener.stdout:
            if text.startswith("event: "):
                name = text.removeprefix("event: ").strip()
            elif text.startswith("data: ") and name in ("next", "stopped"):
                yield name, text
            elif text.startswith("data: "):
                told = json.loads(text.removeprefix("data: "))
                if name:
                    yield name, told
                else:
                    self.replies.append(told)
                name = ""

    def next(self) -> tuple[str, Any]:
        return next(self._told)

    def names(self, many: int) -> list[tuple[str, str]]:
        return [(name, told["wagon"]) for name, told in (self.next() for _ in range(many))]

    def end(self) -> None:
        self._listener.kill()
        self._listener.wait()
        assert self._listener.stdout is not None
        self._listener.stdout.close()


def test_events_of_a_railway_s_wagons(start: Start, options: list[str]) -> None:
    service = start(options=options).until_running()
    service.post(LINES[:9], DISPATCHER)
    events = Events(service, ONE, "?from=1")
    others = Events(service, DISPATCHER)
    try:
        # At first all that it sees.
        name, told = events.next()
        assert (name, told["line"]) == ("wagons", 9) and [wagon["wagon"] for wagon in told["wagons"]] == ["318053700080"]
        service.post(LINES[9], DISPATCHER)
        service.post(LINES[15], ONE)
        # It was promised before; the railway sees it since it moved it.
        (name, told), promised = events.next(), events.next()
        assert name == "moved" and (told["wagon"], told["row"]["status"], told["movement"]["order"]) == (HABBINS, "journey_empty", "MALT-1")
        assert promised == ("promised", told)
        row = asked(service, f"/v1/wagons/{HABBINS}", ONE)
        assert (row["line"], row["wagon"]) == (told["line"], told["row"])
        # Others' wagons are told to others.
        service.post([LINES[10], LINES[17]], DISPATCHER)
        assert events.names(2) == [("moved", "318127710032"), ("promised", "318127710032")]
        service.post([LINES[13], LINES[14]], ONE)
        names = events.names(2)
        assert names == [("moved", "318127710032"), ("ended", "318127710032")]
        # A hold ends the promise; that it is let go again changes the row alone.
        service.post(line(kind="exception", company="1001", number=70, wagon=HABBINS, place="DE10002", moment="2026-03-02T07:00:00Z", hold=True), ONE)
        name, told = events.next()
        assert (name, told["wagon"], told["row"]["held"], told["movement"]) == ("ended", HABBINS, "held", None)
        service.post(line(kind="exception", company="1001", number=71, wagon=HABBINS, place="DE10002", moment="2026-03-02T07:00:00Z", hold=False), ONE)
        name, told = events.next()
        assert (name, told["wagon"], told["row"]["held"]) == ("changed", HABBINS, None)
        # Another railway takes it over.
        service.post(message("1003", 72, HABBINS, moment="2026-03-02T07:30:00Z"), THREE)
        name, told = events.next()
        assert (name, told) == ("gone", {"line": told["line"], "wagon": HABBINS, "row": None, "movement": None})
        service.post(b"", DISPATCHER, "/next")
        assert events.next()[0] == "next"
        assert [reply["number"] for reply in events.replies] == [7, 11, 12, 14, 15, 16, 17]
        # Whoever sees all is told of replies alone.
        assert others.next()[0] == "next" and len(others.replies) == 9
    finally:
        events.end()
        others.end()


def test_all_events_together_are_what_is_there(start: Start, options: list[str]) -> None:
    service = start(options=options).until_running()
    listeners = {token: Events(service, token) for token in COMPANIES}
    try:
        view = {token: {wagon["wagon"]: wagon for wagon in events.next()[1]["wagons"]} for token, events in listeners.items()}
        assert view == {token: {} for token in COMPANIES}
        for sent in LINES[:-1]:
            service.post(sent, DISPATCHER)
        service.post(message("1003", 1000, OTHER, moment="2026-03-02T23:00:00Z"), DISPATCHER)
        for token, events in listeners.items():
            wanted = {wagon["wagon"]: wagon for wagon in asked(service, "/v1/wagons", token)["wagons"]}
            deadline = time.monotonic() + 60
            while {wagon: one["row"] for wagon, one in view[token].items()} != wanted:
                assert time.monotonic() < deadline
                name, told = events.next()
                if name == "gone":
                    del view[token][told["wagon"]]
                else:
                    view[token][told["wagon"]] = told
    finally:
        for events in listeners.values():
            events.end()
