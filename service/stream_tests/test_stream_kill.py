"""Offices, routers and servers are killed at random moments, while three railways append."""

import random
import socket
import threading
import time
from collections.abc import Callable, Iterator
from contextlib import contextmanager
from pathlib import Path

import redis
from conftest import StartOffice, StartRouter
from railways import Judge, Railway, keys
from running import DAY, WAGONS
from servers import RedisServer, until

# A new journal begins every few kills.
JOURNAL_LINES = 3000
OPTIONS = ["--journal-lines", str(JOURNAL_LINES)]


@contextmanager
def railways(server: RedisServer, stream: str = "north", wagons: list[str] = WAGONS) -> Iterator[list[Railway]]:
    found = [Railway(k, stream, lambda: server.client, wagons) for k in range(3)]
    until("the function is there", lambda: b"wagons" in str(server.client.execute_command("FUNCTION", "LIST")).encode())
    for railway in found:
        railway.start()
    try:
        yield found
    finally:
        for railway in found:
            railway.end()


def moments(count: int, seconds: float = 0.4) -> Iterator[int]:
    """So many random moments, the same ones each time."""
    draw = random.Random(7)
    for k in range(count):
        time.sleep(draw.random() * seconds)
        yield k


def test_an_office_that_is_killed(server: RedisServer, start_office: StartOffice, program: str, kills: int, tmp_path: Path) -> None:
    office = start_office(server.address("north"), options=OPTIONS).until_first()
    judge = Judge("north", lambda: server.client, program, tmp_path, journal_lines=JOURNAL_LINES)
    with railways(server) as senders:
        for kill in moments(kills):
            office.kill()
            office = start_office(server.address("north"), options=OPTIONS)
            # Every other time it is killed again while it starts.
            if kill % 2:
                judge.judge(senders)
    judge.judge(senders)
    judge.judge_sheet()
    assert len(judge.lines) > 10 * kills


def test_a_server_that_is_killed(server: RedisServer, start_office: StartOffice, program: str, kills: int, tmp_path: Path) -> None:
    """With `appendfsync always` what was acknowledged is in the append-only file."""
    start_office(server.address("north"), options=OPTIONS).until_first()
    judge = Judge("north", lambda: server.client, program, tmp_path, journal_lines=JOURNAL_LINES)
    with railways(server) as senders:
        for _ in moments(kills):
            server.kill()
            server.start()
            judge.judge(senders)
    judge.judge(senders)
    judge.judge_sheet()
    assert len(judge.lines) > 10 * kills


def test_a_router_that_is_killed(server: RedisServer, start_office: StartOffice, start_router: StartRouter, program: str, kills: int, tmp_path: Path) -> None:
    rows = (DAY / "roster.csv").read_text().splitlines()
    offices = {wagon: "north" if k < 20 else "south" for k, wagon in enumerate(WAGONS)}
    judges = {}
    for name in ("north", "south"):
        roster = tmp_path / f"{name}.csv"
        roster.write_text("\n".join([rows[0], *(row for row in rows[1:] if offices[row.split(",")[0]] == name)]) + "\n")
        start_office(server.address(f"fleet/{name}"), roster=roster, options=OPTIONS).until_first()
        judges[name] = Judge(name, lambda: server.client, program, tmp_path, roster, JOURNAL_LINES)
    router = start_router(server.address("fleet"), offices)
    with railways(server, "fleet") as senders:
        for kill in moments(kills):
            router.again()
            if kill % 2:
                judge_offices(senders, offices, judges)
    # A second router does no harm.
    start_router(server.address("fleet"), offices)
    judge_offices(senders, offices, judges)
    told = {id: fields for id, fields in server.client.xrange(keys("fleet")[1])}
    lines = {id: fields[b"line"] for id, fields in server.client.xrange(keys("fleet")[0])}
    until("each line has its record", lambda: len(server.client.xrange(keys("fleet")[1])) == len(lines))
    told = {id: fields for id, fields in server.client.xrange(keys("fleet")[1])}
    assert list(told) == list(lines)
    assert all(id in judges[fields[b"office"].decode()].lines for id, fields in told.items())


def judge_offices(senders: list[Railway], offices: dict[str, str], judges: dict[str, Judge]) -> None:
    """Each acknowledged line is in its wagon's office under its id, with its reply, and in no other."""
    acknowledged = {id: line for railway in senders for id, line in railway.acknowledged.items()}
    mine: dict[str, dict[bytes, bytes]] = {name: {} for name in judges}
    for id, line in acknowledged.items():
        wagon = line.partition(b'"wagon":"')[2][:12].decode()
        mine[offices[wagon]][id] = line
    for name, judge in judges.items():
        judge.until_answered(list(mine[name]))
        assert all(judge.lines[id] == line for id, line in mine[name].items())
        judge.judge_all()
    assert not judges["north"].lines.keys() & judges["south"].lines.keys()


def test_a_standby_takes_over(server: RedisServer, start_office: StartOffice, program: str, kills: int, tmp_path: Path) -> None:
    """The first is killed again and again; who is ready answers, and nobody tells it to."""
    first = start_office(server.address("north"), options=OPTIONS, lease=500).until_first()
    second = start_office(server.address("north"), options=OPTIONS, lease=500).until_ready()
    judge = Judge("north", lambda: server.client, program, tmp_path, journal_lines=JOURNAL_LINES)
    with railways(server) as senders:
        for _ in moments(max(kills // 5, 2)):
            first.kill()
            judge.judge(senders)
            assert second.until_first().health()["state"] == "running"
            first, second = second, start_office(server.address("north"), options=OPTIONS, lease=500).until_ready()
    judge.judge(senders)
    judge.judge_sheet()


def test_two_that_believe_they_hold_the_lease(server: RedisServer, start_office: StartOffice, program: str, kills: int, tmp_path: Path) -> None:
    """One is stopped for longer than its lease, and goes on where it was; another has answered in between."""
    first = start_office(server.address("north"), options=OPTIONS, lease=500).until_first()
    second = start_office(server.address("north"), options=OPTIONS, lease=500).until_ready()
    judge = Judge("north", lambda: server.client, program, tmp_path, journal_lines=JOURNAL_LINES)
    with railways(server) as senders:
        for _ in moments(max(kills // 10, 2)):
            # On a loaded machine the one that writes may miss its lease by itself.
            if second.health()["role"] == "first":
                first, second = second, first
            first.pause()
            second.until_first()
            judge.judge(senders)
            first.go_on()
            judge.judge(senders)
            until("one of them alone writes", lambda: sorted(it.health()["role"] for it in (first, second)) == ["first", "standby"])
        # And both hold it at once, since it is taken from whoever has it.
        end = time.monotonic() + 5
        while time.monotonic() < end:
            server.client.delete("{north}:lease")
            time.sleep(0.05)
            judge.judge(senders)
    judge.judge(senders)
    judge.judge_sheet()


class Proxy:
    """Passes bytes on between an office and a server, until the connections are cut."""

    def __init__(self, port: int) -> None:
        self._to = port
        self._listener = socket.create_server(("127.0.0.1", 0))
        self.port = int(self._listener.getsockname()[1])
        self._open: list[socket.socket] = []
        self._is_silent = threading.Event()
        threading.Thread(target=self._accept, daemon=True).start()

    def _accept(self) -> None:
        while True:
            here, _ = self._listener.accept()
            try:
                there = socket.create_connection(("127.0.0.1", self._to))
            except OSError:
                here.close()
                continue
            self._open += [here, there]
            for one, other in ((here, there), (there, here)):
                threading.Thread(target=self._pass_on, args=(one, other), daemon=True).start()

    def _pass_on(self, one: socket.socket, other: socket.socket) -> None:
        try:
            while data := one.recv(1000):
                while self._is_silent.is_set():
                    time.sleep(0.01)
                other.sendall(data)
        except OSError:
            pass

    def cut(self) -> None:
        opened, self._open = self._open, []
        for it in opened:
            try:
                it.shutdown(socket.SHUT_RDWR)
            except OSError:
                pass
            it.close()

    @contextmanager
    def silence(self) -> Iterator[None]:
        self._is_silent.set()
        yield
        self._is_silent.clear()


def test_a_connection_that_is_cut(server: RedisServer, start_office: StartOffice, program: str, kills: int, tmp_path: Path) -> None:
    proxy = Proxy(server.port)
    office = start_office(f"redis://127.0.0.1:{proxy.port}/north", options=OPTIONS).until_first()
    judge = Judge("north", lambda: server.client, program, tmp_path, journal_lines=JOURNAL_LINES)
    with railways(server) as senders:
        for _ in moments(kills):
            proxy.cut()
            judge.judge(senders)
        # Nothing comes through and nothing is cut: a standby answers, and the first one finds its place again.
        standby = start_office(server.address("north"), options=OPTIONS).until_ready()
        with proxy.silence():
            standby.until_first()
            judge.judge(senders)
        judge.judge(senders)
    judge.judge(senders)
    judge.judge_sheet()
    until("it reads the stream again", lambda: office.health()["state"] == "running")


def test_an_append_whose_answer_is_lost(server: RedisServer, start_office: StartOffice, program: str, kills: int, tmp_path: Path) -> None:
    """The railways' own connections are cut: each sends its last number again, and no line is there twice."""
    proxy = Proxy(server.port)
    start_office(server.address("north"), options=OPTIONS).until_first()
    judge = Judge("north", lambda: server.client, program, tmp_path, journal_lines=JOURNAL_LINES)
    connect: "Callable[[], redis.Redis[bytes]]" = lambda: redis.Redis("127.0.0.1", proxy.port, socket_timeout=60)
    senders = [Railway(k, "north", connect) for k in range(3)]
    for railway in senders:
        railway.start()
    for cut in moments(kills, 0.1):
        proxy.cut()
        if cut % 50 == 49:
            # Before so many lines have come that the first ones are trimmed.
            judge.read()
    for railway in senders:
        railway.end()
    judge.judge(senders)
    sent = sum(len(railway.sent) for railway in senders)
    assert sent == len(judge.lines) == sum(len(railway.acknowledged) for railway in senders)
    judge.judge_sheet()
