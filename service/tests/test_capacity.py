"""A journal and its book are never full: a new one begins by itself."""

import json
import os
import signal
import subprocess
import threading
import time
from pathlib import Path

from conftest import Start
from running import WAGONS, Answer, Service, message
from wagons_service.journal import FileOfLines
from wagons_service.limits import Limits
from wagons_service.program import Replies
from wagons_service.room import Room


def messages(first: int, many: int, company: str = "1001") -> list[bytes]:
    return [message(company, first + k, WAGONS[(first + k) % 40]) for k in range(many)]


def gauge(service: Service, name: str) -> int:
    return int(service.get("/metrics").text.partition(f"\n{name} ")[2].partition("\n")[0])


def test_new_journals_begin_while_all_send(start: Start) -> None:
    service = start(options=["--entries", "40"]).until_running()
    listener = subprocess.Popen(["curl", "-sN", f"http://127.0.0.1:{service.port}/events"], stdout=subprocess.PIPE, text=True)
    while not gauge(service, "wagons_listeners"):
        time.sleep(0.01)
    answers: list[Answer] = []

    def send(company: str) -> None:
        for first in range(0, 36, 3):
            answers.append(service.post(messages(first, 3, company)))

    senders = [threading.Thread(target=send, args=(company,)) for company in ("1001", "1002", "1003")]
    for sender in senders:
        sender.start()
    for sender in senders:
        sender.join()
    # All lines were taken and accepted, those of a request in one journal, and each journal holds what it was told.
    assert [answer.status for answer in answers] == [200] * 36
    assert all(reply.split(" ")[1] == "accepted" for answer in answers for reply in answer.replies)
    folders = sorted(it for it in service.folder.iterdir() if it.name.isdigit())
    counts = [len((folder / "journal.jsonl").read_bytes().splitlines()) for folder in folders]
    assert sum(counts) == 108 and len(counts) >= 3 and all(24 <= count <= 40 for count in counts[:-1]), counts
    assert "event: next\ndata: a new journal begins\n" in listener.communicate(timeout=30)[0]
    assert "".join(reply + "\n" for reply in service.kept) == service.run_again(options=["--entries", "40"])


def test_a_request_that_does_not_fit_begins_a_new_journal(start: Start) -> None:
    service = start(options=["--entries", "20", "--next-at", "100"]).until_running()
    for first, many, journal in (0, 12, "1"), (12, 9, "2"), (21, 11, "2"), (32, 1, "3"), (33, 24, "4"):
        answer = service.post(messages(first, many))
        assert (answer.status, answer.headers["Journal"], len(answer.records)) == (200, journal, many), first
    # The last one has more lines than any book has entries, so it was taken, and the program refused what was too much.
    assert [reply.split(" ", 1)[1] for reply in answer.replies[19:]] == ["accepted 20"] + ["refused 72"] * 4
    assert service.post(messages(57, 1)).headers["Journal"] == "5"


def test_requests_that_wait_do_not_fill_a_book_together(start: Start) -> None:
    service = start(options=["--entries", "20"]).until_running()
    program = service.children[0]
    os.kill(program, signal.SIGSTOP)
    answers: list[Answer] = []
    senders = [threading.Thread(target=lambda k=k: answers.append(service.post(messages(12 * k, 12)))) for k in range(3)]
    for sender in senders:
        sender.start()
    time.sleep(0.5)
    os.kill(program, signal.SIGCONT)
    for sender in senders:
        sender.join()
    assert [answer.status for answer in answers] == [200] * 3 and {answer.headers["Journal"] for answer in answers} == {"1", "2", "3"}
    assert all(reply.split(" ")[1] == "accepted" for answer in answers for reply in answer.replies)


def test_a_journal_that_is_nearly_full_at_a_start(start: Start) -> None:
    service = start(options=["--entries", "20", "--next-at", "0"]).until_running()
    service.post(messages(0, 17))
    service.stop()
    service = start(options=["--entries", "20"])
    while json.loads(service.get("/health").body)["journal"] != 2:
        time.sleep(0.01)
    assert service.until_running().post(messages(17, 1)).replies == ["1 accepted 1"]


def test_lines_count_as_entries_do(tmp_path: Path) -> None:
    (tmp_path / "lines").write_bytes(b"\n" * 799_999)
    lines = FileOfLines(str(tmp_path / "lines"))
    room = Room(lines, Limits())
    refused = Replies([1], [b"refused"], [b"1 refused 21"])
    room.count(refused)
    assert not room.is_scarce.is_set() and room.percent == 79
    lines.append([b""], is_synced=False)
    room.count(refused)
    assert room.is_scarce.is_set() and room.lines_left == 199_999
    assert [room.fits(many, 0, 0) for many in (199_999, 200_000)] == [True, False] and not room.fits(100_000, 100_000, 0)
    # Never where that was said.
    never = Room(lines, Limits(next_at=0))
    never.count(refused)
    assert not never.is_scarce.is_set()


def test_what_is_left_is_told(start: Start) -> None:
    service = start(options=["--entries", "50", "--next-at", "0"]).until_running()
    service.post(messages(0, 44))
    # What is repeated or refused is no entry.
    service.post([*messages(0, 5), b"x"])
    assert (gauge(service, "wagons_entries_left"), gauge(service, "wagons_lines_left")) == (6, 999_949)
    assert "warning" not in json.loads(service.get("/health").body)
    service.post(messages(44, 1))
    health = service.get("/health")
    assert health.status == 200
    assert json.loads(health.body)["warning"] == "the journal has room for 999,948 lines more, and its book for 5 entries"
