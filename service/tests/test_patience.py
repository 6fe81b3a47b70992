"""Nobody holds up the others: long answers, old journals, slow readers, half-sent requests, many listeners, repeated faults."""

import asyncio
import logging
import os
import resource
import socket
import subprocess
import sys
import threading
import time
from pathlib import Path

import pytest

from conftest import Start
from running import WAGONS, Service, message, order
from wagons_service.journal import Journal, KeptReplies
from wagons_service.journal_index import JournalIndex
from wagons_service.seldom import Seldom
from wagons_service.senders import Role, Sender

TOKENS = "railway-1001-token railway 1001\nrailway-1002-token railway 1002\ndispatcher-s-token dispatcher\n"
ONE, FIRST = "railway-1001-token", "dispatcher-s-token"
OTHERS = 80_000


@pytest.fixture
def tokens(tmp_path: Path) -> list[str]:
    (tmp_path / "tokens").write_text(TOKENS)
    return ["--tokens", str(tmp_path / "tokens"), "--next-at", "0"]


class Watch(threading.Thread):
    """Asks for the state all the time: how long the longest answer took."""

    def __init__(self, service: Service) -> None:
        super().__init__(daemon=True)
        self.service, self.longest, self.is_over = service, 0.0, False

    def run(self) -> None:
        while not self.is_over:
            begun = time.monotonic()
            self.service.get("/health")
            self.longest = max(self.longest, time.monotonic() - begun)
            time.sleep(0.005)

    def end(self) -> float:
        self.is_over = True
        self.join()
        return self.longest


def fill(journal: Path) -> None:
    """Makes a journal of many messages of another company, and three of this one."""
    lines = [b'{"type":"release","company":"1002","number":%d,"x":"%b"}' % (k, b"y" * 60) for k in range(OTHERS)]
    for place in 7, 50_000, OTHERS - 2:
        lines[place] = b'{"type":"release","comp\\u0061ny":"1001"}'
    (journal / "journal.jsonl").write_bytes(b"".join(line + b"\n" for line in lines))
    records = KeptReplies.records(range(1, OTHERS + 1), [b"%d refused 24 wagon" % k for k in range(1, OTHERS + 1)])
    (journal / "replies.jsonl").write_bytes(b"".join(record + b"\n" for record in records))


def test_a_long_search_holds_up_nobody(start: Start, tokens: list[str], tmp_path: Path) -> None:
    service = start(options=tokens).until_running()
    assert service.post(b"", FIRST, "/next").status == 200
    service.stop()
    fill(tmp_path / "journal" / "1")
    service = start(options=tokens).until_running()
    watch = Watch(service)
    watch.start()
    seconds = []
    for _ in range(3):
        begun = time.monotonic()
        records = service.get("/replies?journal=1", ONE).records
        seconds.append(time.monotonic() - begun)
        assert [record["number"] for record in records] == [8, 50_001, OTHERS - 1]
    assert watch.end() < max(0.25, seconds[0] / 3)
    # The journal was opened and searched once.
    assert max(seconds[1:]) < seconds[0] / 4
    assert [record["number"] for record in service.get("/replies?journal=1&from=9&to=60000", ONE).records] == [50_001]


def test_the_index_has_just_what_a_company_may_see(tmp_path: Path) -> None:
    odd = [message("1001", 1, WAGONS[0]), message("1002", 1, WAGONS[0]), order("O1"), b"x", b"", b"[]", b'{"type":["release"],"company":"1001"}', b'{"company":"1001"}',
           b'{"type":"release","company":"1002","company":"1001"}', b'{"type":"release","company":1001}', b'{"type":"rele\\u0061se","company":"1001"}', b"\xff", b"[" * 9000]
    journal = Journal(str(tmp_path))
    journal.lines.append(odd * 40, is_synced=False)
    index = JournalIndex(journal.lines, journal.replies)
    for company in "1001", "1002", "1003":
        sender = Sender(Role.RAILWAY, company)
        seen = [number for number, line in enumerate(odd * 40, 1) if sender.may_see(line)]
        assert list(asyncio.run(index.numbers(company, 1, 100, 1000))) == [number for number in seen if number <= 100]
        assert list(asyncio.run(index.numbers(company, 14, 520, 5))) == [number for number in seen if number >= 14][:5]
    assert [place for place, line in enumerate(odd) if Sender(Role.RAILWAY, "1001").may_see(line)] == [0, 8, 9, 10]


def open_slowly(service: Service, path: str) -> socket.socket:
    """A reader with little room of its own, who reads nothing yet."""
    connection = socket.socket()
    connection.setsockopt(socket.SOL_SOCKET, socket.SO_RCVBUF, 4096)
    connection.connect(("127.0.0.1", service.port))
    connection.sendall(f"GET {path} HTTP/1.1\r\nHost: 127.0.0.1\r\n\r\n".encode())
    return connection


def test_readers_that_stop_reading_are_cut_off(start: Start) -> None:
    service = start(options=["--patience", "1"]).until_running()
    # More than the system takes for a connection that nobody reads.
    service.post([b"x" * 60_000] * 60)
    stopped = [open_slowly(service, path) for path in ("/replies", "/events?from=1")]
    reading = open_slowly(service, "/events?from=58")
    reading.settimeout(10)
    assert reading.recv(100).startswith(b"HTTP/1.1 200")
    time.sleep(2.5)
    # Who stopped has lost the connection, whatever was asked for, and no listener is left of it.
    for connection in stopped:
        connection.settimeout(10)
        size = 0
        try:
            while data := connection.recv(1 << 20):
                size += len(data)
        except ConnectionResetError:
            pass
        assert 0 < size < 3_200_000, size
        connection.close()
    reading.settimeout(0.2)
    try:
        while reading.recv(1 << 20):
            pass
    except TimeoutError:
        pass  # It is open still, and all was read.
    assert "\nwagons_listeners 1\n" in service.get("/metrics").text
    reading.close()


def test_half_sent_requests_are_cut_off(start: Start) -> None:
    service = start(options=["--patience", "1"]).until_running()
    begun = time.monotonic()
    for sent in b"", b"GET /health HTTP/1.1\r\nHost: 127", b"GET /health HTTP/1.1\r\nHost: 127.0.0.1\r\n\r\nGET /he":
        with socket.create_connection(("127.0.0.1", service.port), timeout=10) as connection:
            connection.sendall(sent)
            data = b""
            while part := connection.recv(65536):
                data += part
            assert (b"200 OK" in data) == sent.endswith(b"GET /he")
    assert time.monotonic() < begun + 8


def test_many_half_sent_requests_shut_nobody_out(start: Start) -> None:
    service = start().until_running()
    # As if the system allowed so few open files.
    resource.prlimit(service.process.pid, resource.RLIMIT_NOFILE, (200, 200))
    half = []
    for _ in range(500):
        connection = socket.create_connection(("127.0.0.1", service.port), timeout=10)
        connection.sendall(b"POST /lines HTTP/1.1\r\nHost: 127.0.0.1\r\nContent-Le")
        half.append(connection)
    begun = time.monotonic()
    assert service.post(order("O1")).replies == ["1 accepted 1"]
    assert time.monotonic() < begun + 5
    assert len(service.log) < 200, service.log[:50]
    for connection in half:
        connection.close()


LISTENERS = """
import selectors, socket, sys
port, many = map(int, sys.argv[1:])
ready = selectors.DefaultSelector()
for _ in range(many):
    connection = socket.create_connection(("127.0.0.1", port))
    connection.sendall(b"GET /events HTTP/1.1\\r\\nHost: 127.0.0.1\\r\\n\\r\\n")
    ready.register(connection, selectors.EVENT_READ)
print("there", flush=True)
told = 0
while told < many:
    for key, _ in ready.select():
        told += b'"number":%d,' % LAST in key.fileobj.recv(1 << 20)
print("told", flush=True)
"""
REQUESTS = 600


def processor_seconds(pid: int) -> float:
    words = Path(f"/proc/{pid}/stat").read_text().rpartition(") ")[2].split()
    return (int(words[11]) + int(words[12])) / os.sysconf("SC_CLK_TCK")


def test_two_hundred_listeners_cost_little(start: Start) -> None:
    service = start().until_running()

    def send() -> tuple[float, float]:
        """How long some requests took, and the processor's time for them."""
        begun, before = time.monotonic(), processor_seconds(service.process.pid)
        for _ in range(REQUESTS):
            assert service.post(b"x\n" * 20).status == 200
        return time.monotonic() - begun, processor_seconds(service.process.pid) - before

    _, alone = send()
    command = [sys.executable, "-c", LISTENERS.replace("LAST", str(2 * REQUESTS * 20)), str(service.port), "200"]
    with subprocess.Popen(command, stdout=subprocess.PIPE, text=True) as listeners:
        assert listeners.stdout is not None
        assert listeners.stdout.readline() == "there\n"
        seconds, together = send()
        # A tenth of the time, and what the system takes beside it; half of the time where listeners are told at once.
        assert together - alone < 0.35 * seconds, (alone, together, seconds)
        # All of them are told all in the end.
        assert listeners.stdout.readline() == "told\n"


def test_a_repeated_fault_is_said_once_a_minute(caplog: pytest.LogCaptureFixture) -> None:
    now = 0.0
    log, seldom = logging.getLogger("tried"), Seldom(lambda: now)
    log.setLevel(logging.INFO)
    caplog.handler.addFilter(seldom)
    try:
        for _ in range(1000):
            log.warning("nothing works: %s", "disk")
        log.warning("another fault")
        for _ in range(10):
            log.info("as ever")
        seldom.say_counts()
        assert caplog.messages == ["nothing works: disk"] * 3 + ["another fault"] + ["as ever"] * 10
        now = 60.0
        for _ in range(3):
            seldom.say_counts()
        assert caplog.messages[14:] == ["nothing works: disk (997 times more within a minute)"]
    finally:
        caplog.handler.removeFilter(seldom)
