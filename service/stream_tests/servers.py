"""Redis servers, offices and routers as children."""

import json
import os
import signal
import subprocess
import time
from collections.abc import Callable, Sequence
from pathlib import Path
from typing import Any

import redis
from ports import free_port
from running import DAY, NETWORKS, ROOT, Service

# A slow, loaded machine may take as long as this for anything; nothing is proved by waiting.
PATIENCE = 120.0


def server_port() -> int:
    """A port for a server, which as a node of a cluster takes the one 10,000 above it too."""
    return free_port(10_000)


def until(what: str, is_so: Callable[[], Any], seconds: float = PATIENCE) -> Any:
    """Waits until something holds, and gives its value."""
    end = time.monotonic() + seconds
    while True:
        try:
            if found := is_so():
                return found
        except (redis.ConnectionError, redis.TimeoutError, redis.ResponseError, OSError):
            pass
        if time.monotonic() > end:
            raise AssertionError(f"it took over {seconds} seconds: {what}")
        time.sleep(0.02)


class RedisServer:
    """A server with its append-only file on, in a folder of its own."""

    def __init__(self, folder: Path, port: int, fsync: str = "always", is_node: bool = False, more: Sequence[str] = ()) -> None:
        self.folder, self.port = folder, port
        folder.mkdir(parents=True, exist_ok=True)
        self._command = ["redis-server", "--port", str(port), "--bind", "127.0.0.1", "--dir", str(folder), "--appendonly", "yes",
                         "--appendfsync", fsync, "--save", "", "--enable-debug-command", "local", *more]
        if is_node:
            self._command += ["--cluster-enabled", "yes", "--cluster-node-timeout", "5000", "--cluster-require-full-coverage", "no"]
        self.process: subprocess.Popen[bytes] | None = None

    @property
    def client(self) -> "redis.Redis[bytes]":
        return redis.Redis("127.0.0.1", self.port, socket_timeout=60)

    def address(self, path: str) -> str:
        return f"redis://127.0.0.1:{self.port}/{path}"

    def start(self) -> "RedisServer":
        with open(self.folder / "log", "ab") as log:
            self.process = subprocess.Popen(self._command, stdout=log, stderr=log, start_new_session=True)
        until("the server answers", lambda: self.client.ping())
        return self

    def kill(self) -> None:
        if self.process and self.process.poll() is None:
            self.process.send_signal(signal.SIGCONT)
            self.process.kill()
            self.process.wait()

    def pause(self) -> None:
        assert self.process
        self.process.send_signal(signal.SIGSTOP)

    def go_on(self) -> None:
        assert self.process
        self.process.send_signal(signal.SIGCONT)


class Office(Service):
    """A service over a stream."""

    def __init__(self, address: str, program: str, roster: Path = DAY / "roster.csv", networks: Sequence[Path] = tuple(NETWORKS),
                 options: Sequence[str] = (), lease: int = 1000) -> None:
        super().__init__(address, program, roster, networks, ["--lease", str(lease), *options], is_awaited=False)

    def until_listening(self) -> "Office":
        assert self._told.wait(PATIENCE), self.log
        return self

    def health(self) -> dict[str, Any]:
        found: dict[str, Any] = json.loads(self.get("/health").body)
        return found

    def until_first(self) -> "Office":
        """Until it writes the replies."""
        self.until_listening()
        until("the office writes the replies", lambda: (h := self.health())["role"] == "first" and h["state"] == "running")
        return self

    def until_ready(self) -> "Office":
        self.until_listening()
        until("the office has read its stream", lambda: self.health()["state"] == "running")
        return self

    def until_logged(self, words: str) -> None:
        until(words, lambda: any(words in line for line in self.log))

    def kill(self) -> None:
        # The program that it started ends by itself, since its input ends.
        os.kill(self.process.pid, signal.SIGKILL)
        self.process.wait()

    def pause(self) -> None:
        self.process.send_signal(signal.SIGSTOP)

    def go_on(self) -> None:
        self.process.send_signal(signal.SIGCONT)


class Router:
    def __init__(self, inbox: str, offices: dict[str, str], file: Path, options: Sequence[str] = ()) -> None:
        file.write_text("wagon,office\n" + "".join(f"{wagon},{office}\n" for wagon, office in offices.items()))
        self._log = file.with_suffix(".log")
        self._command = [str(ROOT / "service" / "wagons-router"), "--inbox", inbox, "--offices", str(file), *options]
        self._start()

    def _start(self) -> None:
        with open(self._log, "ab") as log:
            self.process = subprocess.Popen(self._command, stderr=log, start_new_session=True)

    def again(self) -> None:
        """Killed, and started again."""
        self.end()
        self._start()

    def until_logged(self, words: str) -> None:
        until(words, lambda: words in self._log.read_text())

    def end(self) -> None:
        self.process.kill()
        self.process.wait()
