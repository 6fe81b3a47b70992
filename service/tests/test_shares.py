"""Each token has its share, and a dispatcher's requests come before railways'."""

import os
import signal
import socket
import threading
import time
from argparse import ArgumentTypeError
from pathlib import Path

import pytest

from conftest import Start
from running import WAGONS, Answer, Service, message, order
from test_xml import MAP, movement
from wagons_service.identifiers import Identifiers, NoNumberLeft
from wagons_service.limits import Share

TOKENS = "railway-1001-token railway 1001\nrailway-1002-token railway 1002\nrailway-1003-token railway 1003\ndispatcher-s-token dispatcher\n"
ONE, TWO = "railway-1001-token", "railway-1002-token"


@pytest.fixture
def tokens(tmp_path: Path) -> list[str]:
    (tmp_path / "tokens").write_text(TOKENS)
    return ["--tokens", str(tmp_path / "tokens")]


def messages(company: str, first: int, many: int) -> list[bytes]:
    return [message(company, first + k, WAGONS[k % 40]) for k in range(many)]


def test_lines_and_bytes_a_second(start: Start, tokens: list[str]) -> None:
    service = start(options=[*tokens, "--share", "lines=10,bytes=20000"]).until_running()
    # Ten seconds' worth at once, and what is one request more.
    assert [service.post(messages("1001", 50 * k, 50), ONE).status for k in range(3)] == [200, 200, 200]
    answer = service.post(messages("1001", 150, 1), ONE)
    assert (answer.status, answer.text) == (429, "This token has sent more than its share, 10 lines a second. Nothing of the request was taken.\n")
    assert 1 <= int(answer.headers["Retry-After"]) <= 5 and service.journal.count(b"\n") == 150
    # Others go on, and it does after so long.
    assert service.post(messages("1002", 1, 5), TWO).status == 200
    time.sleep(int(answer.headers["Retry-After"]))
    assert service.post(messages("1001", 150, 1), ONE).status == 200
    assert service.post(b'{"x":"%s"}' % (b"x" * 60_000) + b"\n" + b" " * 60_000, TWO).status == 403
    assert service.post(b'{"x":"%s"}' % (b"x" * 60_000) + b"\n" + b" " * 60_000, TWO).status == 403
    answer = service.post(messages("1002", 6, 1), TWO)
    assert answer.status == 429 and "20,000 bytes a second" in answer.text
    assert service.post(messages("1003", 1, 1), "railway-1003-token").status == 200


def connect(service: Service, head: str, token: str) -> socket.socket:
    connection = socket.create_connection(("127.0.0.1", service.port), timeout=10)
    connection.sendall(f"{head} HTTP/1.1\r\nHost: 127.0.0.1\r\nAuthorization: Bearer {token}\r\n".encode())
    return connection


def test_what_is_open_at_once(start: Start, tokens: list[str]) -> None:
    service = start(options=[*tokens, "--share", "requests=3,listeners=2"]).until_running()
    open_now = [connect(service, "POST /lines", ONE) for _ in range(3)]
    for connection in open_now:
        connection.sendall(b"Content-Length: 10\r\n\r\n{")
    listeners = [connect(service, "GET /events", ONE) for _ in range(2)]
    for connection in listeners:
        connection.sendall(b"\r\n")
        assert connection.recv(100).startswith(b"HTTP/1.1 200")
    time.sleep(0.2)
    for path, said in ("/lines", "3 requests"), ("/events", "2 listeners"):
        answer = service.post(b"{}", ONE) if path == "/lines" else service.get(path, ONE)
        assert (answer.status, answer.headers["Retry-After"]) == (429, "1")
        assert answer.text == f"This token has {said} open already, which is its share. Nothing of the request was taken.\n"
    assert service.post(messages("1002", 1, 1), TWO).status == 200
    for connection in open_now + listeners:
        connection.close()
    deadline = time.monotonic() + 5
    while service.post(messages("1001", 1, 1), ONE).status != 200:
        assert time.monotonic() < deadline
        time.sleep(0.05)


def test_one_token_does_not_fill_what_is_held_for_all(start: Start, tokens: list[str]) -> None:
    service = start(options=tokens).until_running()
    statuses: list[int] = []

    def send() -> None:
        with connect(service, "POST /lines", ONE) as connection:
            connection.sendall(b"Content-Length: 7000000\r\n\r\n")
            try:
                connection.sendall(b"x" * 6_000_000)
                connection.settimeout(2)
                statuses.append(int(connection.recv(100).split(b" ")[1]))
            except OSError:
                statuses.append(0)
            done.wait(10)

    done = threading.Event()
    senders = [threading.Thread(target=send) for _ in range(12)]
    for sender in senders:
        sender.start()
    for _ in range(20):
        assert service.post(messages("1002", 1, 1), TWO).status == 200
        time.sleep(0.1)
    done.set()
    for sender in senders:
        sender.join()
    assert 429 in statuses


def test_a_dispatcher_comes_first(start: Start, tokens: list[str]) -> None:
    service = start(options=tokens).until_running()
    program = service.children[0]
    # A program that doesn't read its lines, so that requests wait.
    os.kill(program, signal.SIGSTOP)
    answers: list[Answer] = []
    railways = [threading.Thread(target=lambda: answers.append(service.post(wide, ONE))) for _ in range(4)]
    wide = (b'{"type":"release","company":"1001"}' + b" " * 6000 + b"\n") * 60
    railways[0].start()
    while service.journal.count(b"\n") < 60:
        time.sleep(0.01)
    for railway in railways[1:]:
        railway.start()
    while "\nwagons_senders 4\n" not in service.get("/metrics", "dispatcher-s-token").text:
        time.sleep(0.01)
    time.sleep(0.3)
    dispatcher = threading.Thread(target=lambda: answers.append(service.post(order("O1"), "dispatcher-s-token")))
    dispatcher.start()
    time.sleep(0.3)
    assert not answers
    os.kill(program, signal.SIGCONT)
    for sender in [dispatcher, *railways]:
        sender.join()
    assert [answer.status for answer in answers] == [200] * 5
    assert service.journal.splitlines().index(order("O1")) == 60


def test_textual_identifiers_are_kept_by_token(start: Start, tokens: list[str], tmp_path: Path) -> None:
    options = [*tokens, "--map", str(MAP), "--share", "identifiers=2"]
    service = start(options=options).until_running()
    assert [service.post(movement(text), ONE, "/xml").status for text in "ABA"] == [200, 200, 200]
    answer = service.post(movement("C"), ONE, "/xml")
    assert (answer.status, answer.text) == (403, "this token has 2 textual identifiers already, which is its share; nothing of the request was taken.\n")
    # It holds after a start too, and another token has its own.
    service.stop()
    service = start(options=options).until_running()
    assert [service.post(movement(text), ONE, "/xml").status for text in "CAB"] == [403, 200, 200]
    assert [service.post(movement(text, company="1002"), TWO, "/xml").status for text in "CDE"] == [200, 200, 403]
    # What is refused uses up nothing.
    file = Identifiers(str(tmp_path / "more"), 1)
    file.owner = "0123"
    for _ in range(2):
        file.number("1001", "A")
        file.forget()
    file.number("1001", "A")
    with pytest.raises(NoNumberLeft):
        file.number("1001", "B")


def test_a_share_that_is_none(start: Start) -> None:
    said = "is no NAME=N, where NAME is one of lines, bytes, requests, listeners, replies, identifiers and N from 1 on"
    for share in "lines", "lines=0", "kings=4", "lines=1,,", "lines=x", "":
        with pytest.raises(ArgumentTypeError, match=said):
            Share.read(share)
    assert Share.read("lines=7,replies=1") == Share(lines=7, replies=1)
    service = start(options=["--share", "kings=4"])
    assert service.until_ended() == 2 and service.log[-1] == f"wagons-service: error: argument --share: 'kings=4' {said}"
