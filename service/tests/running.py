"""A service as a child, and what a sender does."""

import http.client
import json
import os
import signal
import subprocess
import threading
import time
from collections.abc import Iterable, Mapping, Sequence
from dataclasses import dataclass
from pathlib import Path
from typing import Any

ROOT = Path(__file__).resolve().parents[2]
DAY = ROOT / "examples" / "day"
NETWORKS = [DAY / "network.csv", DAY / "network_closed.csv"]
WAGONS = [row.split(",")[0] for row in (DAY / "roster.csv").read_text().splitlines()[1:]]


@dataclass
class Answer:
    status: int
    headers: Mapping[str, str]
    body: bytes

    @property
    def text(self) -> str:
        return self.body.decode()

    @property
    def records(self) -> list[dict[str, Any]]:
        return [json.loads(line) for line in self.text.splitlines()]

    @property
    def replies(self) -> list[str]:
        return [record["reply"] for record in self.records]


class Service:
    """A service over a folder, on a port of its own."""

    def __init__(self, folder: Path | str, program: str, roster: Path = DAY / "roster.csv", networks: Sequence[Path] = tuple(NETWORKS),
                 options: Sequence[str] = (), until: str = "listens on", is_awaited: bool = True) -> None:
        self.folder = Path(folder)
        self.program = program
        self.office = ["--roster", str(roster), *(word for path in networks for word in ("--network", str(path)))]
        self.options = list(options)
        self.log: list[str] = []
        command = [str(ROOT / "service" / "wagons-service"), "--journal", str(folder), "--program", program, *self.office,
                   "--listen", "127.0.0.1:0", *options]
        self.process = subprocess.Popen(command, stderr=subprocess.PIPE, text=True, start_new_session=True)
        self.port = 0
        self._told = threading.Event()
        self._reader = threading.Thread(target=self._read, args=(until,), daemon=True)
        self._reader.start()
        if is_awaited:
            assert self._told.wait(120), self.log

    def _read(self, until: str) -> None:
        assert self.process.stderr is not None
        for line in self.process.stderr:
            self.log.append(line.rstrip())
            if "listens on" in line:
                self.port = int(line.rsplit(":", 1)[1])
            if until in line:
                self._told.set()
        self._told.set()

    def until_running(self, seconds: int = 60) -> "Service":
        for _ in range(100 * seconds):
            if self.get("/health").status == 200:
                return self
            time.sleep(0.01)
        raise AssertionError(self.log)

    def until_state(self, state: str) -> dict[str, Any]:
        for _ in range(6000):
            health: dict[str, Any] = json.loads(self.get("/health").body)
            if health["state"] == state:
                return health
            time.sleep(0.01)
        raise AssertionError(self.log)

    def until_ended(self) -> int:
        status = self.process.wait(60)
        self._reader.join(60)
        return status

    def request(self, method: str, path: str, body: bytes | None = None, headers: Mapping[str, str] | None = None) -> Answer:
        connection = http.client.HTTPConnection("127.0.0.1", self.port, timeout=60)
        try:
            connection.request(method, path, body, dict(headers or {}))
            answer = connection.getresponse()
            return Answer(answer.status, dict(answer.getheaders()), answer.read())
        finally:
            connection.close()

    def get(self, path: str, token: str | None = None) -> Answer:
        return self.request("GET", path, headers=bearer(token))

    def post(self, lines: bytes | Iterable[bytes], token: str | None = None, path: str = "/lines") -> Answer:
        body = lines if isinstance(lines, bytes) else b"".join(line + b"\n" for line in lines)
        return self.request("POST", path, body, bearer(token))

    @property
    def last(self) -> Path:
        """The folder of the last journal."""
        return self.folder / str(max(int(it.name) for it in self.folder.iterdir() if it.name.isdigit()))

    @property
    def journal(self) -> bytes:
        return (self.last / "journal.jsonl").read_bytes()

    @property
    def kept(self) -> list[str]:
        lines = (self.last / "replies.jsonl").read_text().splitlines()
        return [json.loads(line)["reply"] for line in lines]

    def run_again(self, more: bytes = b"", options: Sequence[str] = ()) -> str:
        """What `wagons run` prints over the journal and some lines more."""
        checkpoint = self.last / "checkpoint.jsonl"
        office = ["--from", str(checkpoint), *self.office[2:]] if checkpoint.exists() else self.office
        command = [self.program, "run", *office, *options]
        return subprocess.run(command, input=self.journal + more, stdout=subprocess.PIPE, check=False).stdout.decode()

    @property
    def children(self) -> list[int]:
        path = Path(f"/proc/{self.process.pid}/task/{self.process.pid}/children")
        return [int(pid) for pid in path.read_text().split()]

    def memory(self) -> int:
        """The resident memory of the service, in kB."""
        status = Path(f"/proc/{self.process.pid}/status").read_text()
        return int(status.partition("VmRSS:")[2].split()[0])

    def stop(self) -> int:
        self.process.send_signal(signal.SIGTERM)
        return self.until_ended()

    def end(self) -> None:
        if self.process.poll() is None:
            os.kill(self.process.pid, signal.SIGKILL)
            self.process.wait()
        self._reader.join(5)
        if self.process.stderr:
            self.process.stderr.close()


def bearer(token: str | None) -> dict[str, str]:
    return {"Authorization": f"Bearer {token}"} if token else {}


def line(**fields: object) -> bytes:
    return json.dumps({"type" if key == "kind" else key: value for key, value in fields.items()}, separators=(",", ":")).encode()


def message(company: str, number: int, wagon: str, hold: bool = False, moment: str = "2026-03-02T06:00:00Z") -> bytes:
    """A message that is accepted whatever the wagon does."""
    return line(kind="exception", company=company, number=number, wagon=wagon, place="DE10001", moment=moment, hold=hold)


def order(name: str, **more: object) -> bytes:
    fields: dict[str, object] = {"order": name, "place": "DE10003", "classes": ["Habbins"], "load": 45000,
                                 "latest": "2026-03-02T12:00:00Z", "penalty": 400}
    return line(kind="order", **(fields | more))
