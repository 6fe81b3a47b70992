"""The service and the program are killed at random moments, while eight senders send and try again."""

import http.client
import json
import os
import random
import signal
import threading
import time
from pathlib import Path

import pytest

from conftest import Start
from ports import free_port
from running import WAGONS, Service, message

SENDERS = 8
SECONDS = 0.3


class Sender(threading.Thread):
    """Sends its messages in order. After a lost connection it looks which were taken, as the page of the service says."""

    def __init__(self, k: int, port: int, tokens: dict[str, str]) -> None:
        super().__init__(daemon=True)
        self.draw = random.Random(k)
        self.company, self.port = f"K{k:03}", port
        self.headers = {"Authorization": f"Bearer {tokens[self.company]}"}
        self.told: dict[int, str] = {}
        self.sent: list[bytes] = []
        self.acknowledged = 0
        self.over = threading.Event()
        self.fault: BaseException | None = None

    def run(self) -> None:
        try:
            while not self.over.is_set():
                first = len(self.sent)
                part = [message(self.company, n, self.draw.choice(WAGONS), bool(self.draw.getrandbits(1))) for n in range(first, first + self.draw.randint(1, 40))]
                self.send(part)
                self.sent += part
        except BaseException as fault:
            self.fault = fault
            raise

    def send(self, part: list[bytes]) -> None:
        """Until each line of it is taken, once."""
        taken = 0
        while taken < len(part):
            try:
                taken += self.keep(self.ask("POST", "/lines", b"\n".join(part[taken:])))
            except (OSError, http.client.HTTPException):
                taken += self.look()

    def look(self) -> int:
        """How many lines more were taken than were answered."""
        while True:
            try:
                time.sleep(0.01)
                last = max(self.told, default=0)
                if json.loads(self.ask("GET", "/health", any_status=True))["state"] != "running":
                    continue
                return self.keep(self.ask("GET", f"/replies?from={last + 1}"))
            except (OSError, http.client.HTTPException, KeyError):
                pass

    def keep(self, body: bytes) -> int:
        records = [json.loads(line) for line in body.splitlines()]
        self.told |= {record["number"]: record["reply"] for record in records}
        return len(records)

    def ask(self, method: str, path: str, body: bytes | None = None, any_status: bool = False) -> bytes:
        connection = http.client.HTTPConnection("127.0.0.1", self.port, timeout=30)
        try:
            connection.request(method, path, body, self.headers)
            answer = connection.getresponse()
            read = answer.read()
            if answer.status != 200 and not any_status:
                raise OSError(f"{answer.status}: {read!r}")
            return read
        finally:
            connection.close()


@pytest.fixture
def kills(request: pytest.FixtureRequest) -> int:
    return int(request.config.getoption("--kills"))


def test_no_line_is_lost_or_doubled(start: Start, kills: int, tmp_path: Path) -> None:
    tokens = {f"K{k:03}": f"token-of-sender-number-{k}" for k in range(SENDERS)}
    (tmp_path / "tokens").write_text("".join(f"{token} railway {company}\n" for company, token in tokens.items()))
    port = free_port()
    options = ["--listen", f"127.0.0.1:{port}", "--tokens", str(tmp_path / "tokens"), "--entries", "1000000"]
    service: Service = start(options=options).until_running()
    senders = [Sender(k, port, tokens) for k in range(SENDERS)]
    for sender in senders:
        sender.start()
    draw = random.Random(5)
    for kill in range(kills):
        time.sleep(draw.random() * SECONDS)
        is_service = kill % 2 == 0
        victims = [service.process.pid] if is_service else service.children
        for pid in victims:
            os.kill(pid, signal.SIGKILL)
        if is_service:
            service.process.wait()
            service = start(options=options)
    service.until_running()
    for sender in senders:
        sender.over.set()
    for sender in senders:
        sender.join(60)
        assert sender.fault is None and not sender.is_alive()
    service.until_running()
    journal = service.journal.splitlines()
    for sender in senders:
        # No acknowledged line is missing, none is there twice, and each is in its sender's order.
        numbers = sorted(sender.told)
        mine = [line for line in journal if json.loads(line)["company"] == sender.company]
        assert mine == sender.sent and [journal[number - 1] for number in numbers] == mine
    # The replies are those that were told, and the office is that of a run over the journal that nobody disturbed.
    told = {number: reply for sender in senders for number, reply in sender.told.items()}
    printed = service.run_again(options=["--entries", "1000000"]).splitlines()
    assert [told[k + 1] for k in range(len(journal))] == service.kept == printed
    # Of each line it is known who sent it, once.
    sent = [json.loads(record) for record in (service.last / "senders.jsonl").read_text().splitlines()]
    names = [(number, record["sender"]) for record in sent for number in range(record["first"], record["last"] + 1)]
    assert names == [(number, f"railway-{json.loads(line)['company']}") for number, line in enumerate(journal, 1)]
    assert len(journal) > kills
    assert service.stop() == 0
