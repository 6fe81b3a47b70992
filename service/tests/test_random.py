"""Random requests: no line is in the journal that wasn't allowed, no answer is 500, and the memory stays flat."""

import random
import socket
import threading
import time
from collections import Counter
from pathlib import Path

import pytest

from conftest import ROOT, Start
from running import WAGONS, Service, message, order
from test_xml import BOMB, movement

TOKENS = {"railway-1001-token": "railway 1001", "railway-1002-token": "railway 1002", "dispatcher-s-token": "dispatcher", "reader-s-long-token": "reader"}
THREADS = 6
# By how much the memory may grow after the first third of the requests, in kB.
MOST_GROWTH = 24_000


class Attacker(threading.Thread):
    """Sends random requests, and keeps the lines that may be in the journal and those that must be."""

    def __init__(self, service: Service, k: int, requests: int) -> None:
        super().__init__(daemon=True)
        self.service, self.k, self.requests = service, k, requests
        self.draw = random.Random(k)
        self.may: set[bytes] = set()
        self.must: set[bytes] = set()
        self.statuses: Counter[int] = Counter()
        self.fault: BaseException | None = None
        self.number = 0

    def run(self) -> None:
        try:
            for _ in range(self.requests):
                self.draw.choices([self.lines, self.xml, self.broken, self.get, self.odd_headers], [55, 10, 15, 10, 10])[0]()
        except BaseException as fault:
            self.fault = fault
            raise

    def unique(self) -> int:
        self.number += 1
        return self.k * 1_000_000 + self.number

    def line(self) -> tuple[bytes, set[str]]:
        """A line and the tokens that may send it in a request of their own."""
        both, first = {"railway-1001-token", "dispatcher-s-token"}, {"dispatcher-s-token"}
        mark = self.unique()
        return self.draw.choice([
            lambda: (message("1001", mark, self.draw.choice(WAGONS)), both),
            lambda: (message("1001", mark, "nonsense"), both),
            lambda: (message("1002", mark, WAGONS[0]), {"railway-1002-token", "dispatcher-s-token"}),
            lambda: (b'{"type":"release","company":"1002","company":"1001","x":%d}' % mark, both),
            lambda: (b'{"type":"release","company":null,"x":%d}' % mark, first),
            lambda: (b'{"company":"1001","x":%d}' % mark, first),
            lambda: (order(f"R{mark}"), first),
            lambda: (message("1001", mark, WAGONS[1])[:-self.draw.randint(1, 60)] + b"%d" % mark, first),
            lambda: (b"\xff\xfe%d" % mark, first),
            lambda: (message("1001", mark, WAGONS[1]).replace(b"DE10001", b"\xc3\x28"), first),
            lambda: (b'"%d"' % mark + b"[" * self.draw.randint(0, 5000), first),
            lambda: (b'{"type":"release","company":"1001","x":1e%d99999}' % mark, both),
            lambda: (message("1001", mark, WAGONS[2]).decode().encode("utf-16"), first),
            lambda: (b"%d" % mark + bytes(self.draw.choices(range(11, 256), k=self.draw.randint(1, 300))), first),
            lambda: (b"%d" % mark + b"x" * self.draw.randint(65_530, 65_560), first),
        ])()

    def lines(self) -> None:
        token = self.draw.choice([*TOKENS, "no-such-token-at-all", ""])
        parts = [self.line() for _ in range(self.draw.choice([1, 1, 2, 5, 40]))]
        lines = [line for line, _ in parts]
        # A line may have a line feed of its own in UTF-16; then it is two lines.
        pieces = b"\n".join(lines).split(b"\n")
        allowed = all(token in tokens for _, tokens in parts) and max(map(len, pieces)) <= 65_536
        if allowed:
            self.may |= set(pieces)
        status = self.post("/lines", b"\n".join(lines) + b"\n", token)
        assert (status == 200) == allowed, (status, token, lines)
        assert status in (200, 400, 401, 403, 413)
        if status == 200:
            self.must |= set(pieces)

    def xml(self) -> None:
        token = self.draw.choice(list(TOKENS))
        good = movement(f"X{self.unique()}")
        body = self.draw.choice([
            good[:self.draw.randint(0, len(good) - 1)], BOMB + good, BOMB + b"<a>&n;</a>", good.decode().encode("utf-16"),
            b"<!DOCTYPE a SYSTEM 'http://127.0.0.1:1/x'>" + good, bytes(self.draw.choices(range(256), k=200)),
            good.replace(b"Lindenau", b"&xxe;"), b"<a>" * 20_000, b"<a " + b" ".join(b"x%d='y'" % k for k in range(20_000)) + b"/>"])
        assert self.post("/xml", body, token) == (403 if token == "reader-s-long-token" else 400)

    def post(self, path: str, body: bytes, token: str) -> int:
        answer = self.service.request("POST", path, body, {"Authorization": f"Bearer {token}"})
        self.statuses[answer.status] += 1
        return answer.status

    def get(self) -> None:
        path = self.draw.choice(["/replies?from=", "/events?from=", "/metrics", "/why?at=", "/explain/", "/static/..%2f", "/", "/%00", "/office?x="])
        answer = self.service.get(path + self.draw.choice(["", "x", "-1", "0", "%F0", "9" * 30, "--help", "'\"<"]), self.draw.choice(["", "no-such-token-at-all"]))
        self.statuses[answer.status] += 1
        assert answer.status in (303, 401, 404), (path, answer)

    def odd_headers(self) -> None:
        method, path = self.draw.choice([("GET", "/replies"), ("GET", "/events?journal=9"), ("GET", "/metrics"), ("POST", "/lines"), ("POST", "/xml"),
                                         ("POST", "/login"), ("POST", "/next"), ("HEAD", "/replies"), ("DELETE", "/lines"), ("OPTIONS", "/lines"), ("GET", "/office")])
        headers = {"Authorization": f"Bearer {self.draw.choice(['reader-s-long-token', 'railway-1001-token', ''])}"}
        for name in self.draw.sample(["Authorization", "Cookie", "Origin", "Last-Event-ID", "Content-Type", "Content-Encoding", "X-Forwarded-Proto", "Host",
                                      "Accept-Encoding", "If-None-Match", "Range", "Expect"], k=self.draw.randint(1, 4)):
            headers[name] = self.draw.choice(["", "[::1", "1-", "-", "1-0", "wagons_token=", "expires=1; path", "a=\"b", "=;=;,", "Bearer", "Bearer \xff\xfe", "http://[", "é", "null",
                                              "bytes=0-", "100-continue", "x" * 3000, "\t", "multipart/form-data; boundary="])
        answer = self.service.request(method, path, self.draw.choice([None, b"", b"{}", b"token=%FF&token"]), headers)
        self.statuses[answer.status] += 1
        assert answer.status != 500, (method, path, headers, answer.text)

    def broken(self) -> None:
        """What isn't HTTP, or ends too early."""
        line = message("1001", self.unique(), WAGONS[3])
        head = b"POST /lines HTTP/1.1\r\nHost: 127.0.0.1\r\nAuthorization: Bearer railway-1001-token\r\n"
        data = self.draw.choice([
            head + b"Content-Length: 100000\r\n\r\n" + line,
            head + b"Content-Length: -5\r\n\r\n" + line,
            head + b"Content-Length: x\r\n\r\n" + line,
            head + b"Content-Length: %d\r\n\r\n" % self.draw.randint(1, len(line) - 1) + line,
            head + b"Transfer-Encoding: chunked\r\n\r\nzz\r\n" + line,
            head + b"Transfer-Encoding: chunked\r\n\r\nffffffffffffffff\r\n" + line,
            head + b"Transfer-Encoding: chunked\r\n\r\n%x\r\n" % len(line) + line,
            head + b"".join(b"X-%d: %s\r\n" % (k, b"y" * 400) for k in range(200)) + b"\r\n" + line,
            head + b"X: " + b"y" * 100_000 + b"\r\n\r\n" + line,
            head + b"Content-Encoding: gzip\r\nContent-Length: %d\r\n\r\n" % len(line) + line,
            head.replace(b"HTTP/1.1", b"HTTP/9") + b"\r\n" + line,
            bytes(self.draw.choices(range(256), k=300)),
            b"GET /" + b"a" * 100_000 + b" HTTP/1.1\r\n\r\n",
        ])
        self.statuses[raw(self.service, data, self.draw.random() < 0.5)] += 1


def raw(service: Service, data: bytes, is_over: bool) -> int:
    """The status that is answered to bytes, after which the sender says that it is over or waits; 0 for none."""
    with socket.create_connection(("127.0.0.1", service.port), timeout=60) as connection:
        try:
            connection.sendall(data)
            if is_over:
                connection.shutdown(socket.SHUT_WR)
            connection.settimeout(0.05)
            answer = connection.recv(4096)
        except OSError:
            return 0
    words = answer.split(b" ", 2)
    return int(words[1]) if answer.startswith(b"HTTP/1.") else 0


@pytest.fixture
def requests(request: pytest.FixtureRequest) -> int:
    return int(request.config.getoption("--requests"))


def test_random_requests(start: Start, tmp_path: Path, requests: int) -> None:
    (tmp_path / "tokens").write_text("".join(f"{token} {role}\n" for token, role in TOKENS.items()))
    # Shares aren't tried here: a machine that is quick enough would use them up.
    service = start(options=["--tokens", str(tmp_path / "tokens"), "--map", str(ROOT / "examples" / "service" / "map.toml"), "--entries", "1000000",
                             "--share", "lines=1000000,bytes=1000000000"])
    service.until_running()
    attackers: list[Attacker] = []
    memory = 0
    for third in range(3):
        now = [Attacker(service, third * THREADS + k, requests // 3 // THREADS) for k in range(THREADS)]
        for attacker in now:
            attacker.start()
        for attacker in now:
            attacker.join()
            assert attacker.fault is None, attacker.fault
        attackers += now
        memory = memory or service.memory()
    assert service.memory() < memory + MOST_GROWTH
    statuses: Counter[int] = sum((attacker.statuses for attacker in attackers), Counter())
    assert statuses[500] == 0 and {200, 400, 401, 403, 404, 413} <= set(statuses), statuses
    journal = set(service.journal.split(b"\n")[:-1])
    assert journal <= set.union(*(attacker.may for attacker in attackers))
    assert set.union(*(attacker.must for attacker in attackers)) <= journal
    assert not any("Traceback" in text for text in service.log), "\n".join(service.log[:60])
    printed = service.run_again(options=["--entries", "1000000"])
    assert "".join(reply + "\n" for reply in service.kept) == printed


def test_slow_senders_and_endless_bodies(start: Start) -> None:
    service = start().until_running()
    head = b"POST /lines HTTP/1.1\r\nHost: 127.0.0.1\r\nTransfer-Encoding: chunked\r\n\r\n"
    slow = []
    for _ in range(30):
        connection = socket.create_connection(("127.0.0.1", service.port))
        connection.sendall(head + b"5\r\n{\"typ\r\n")
        slow.append(connection)
    # The others don't wait for them: the slow ones have no answer yet, and none is cut off.
    assert service.post(order("O1")).replies == ["1 accepted 1"]
    for connection in slow:
        connection.setblocking(False)
        with pytest.raises(BlockingIOError):
            connection.recv(1)
    # A body that never ends is refused when it is too large.
    chunk = b"10000\r\n" + b"x" * 65_536 + b"\r\n"
    with socket.create_connection(("127.0.0.1", service.port), timeout=60) as endless:
        endless.sendall(head)
        began = time.monotonic()
        with pytest.raises(OSError):
            while time.monotonic() - began < 60:
                endless.sendall(chunk)
                time.sleep(0.002)
    assert service.memory() < 200_000
    for connection in slow:
        connection.close()
    assert service.post(order("O2")).replies == ["2 accepted 2"]
    assert service.journal == order("O1") + b"\n" + order("O2") + b"\n"
