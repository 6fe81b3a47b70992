#!/usr/bin/python3
"""Times the service beside `wagons run` alone and beside a service over SQLite: bench/service/run.py [LINES [TURNS] | --smoke].

Requests of 1, 100 and 1,000 lines, by one and by sixteen senders on loopback; each line is synced to the disk. LINES is
how many lines of requests of 100 are sent in all (100,000 where nothing is said), TURNS how often each is tried, in turns
with the others. The least time of a run counts, and the times of lines are of that run. WAGONS=FILE times another build.
--smoke sends few lines once by two senders, and prints no time.
"""

import contextlib
import multiprocessing
import os
import shutil
import socket
import subprocess
import sys
import tempfile
import time
from collections.abc import Callable, Iterator
from contextlib import contextmanager
from dataclasses import dataclass
from multiprocessing.synchronize import Barrier

HERE = os.path.dirname(os.path.abspath(__file__))
ROOT = os.path.dirname(os.path.dirname(HERE))
sys.path.append(f"{ROOT}/tools")
import programs  # noqa: E402
from ports import free_port  # noqa: E402

SIZES = {1: 0.05, 100: 1.0, 1000: 2.0}
SENDERS = (1, 16)
PACKAGES = ("python3-aiohttp", "python3-jinja2", "python3-lxml")


@dataclass
class Run:
    """What came of one run: how long it took, and how long each request took, in seconds."""

    lines: int
    seconds: float
    times: list[float]

    @property
    def rate(self) -> float:
        return self.lines / self.seconds

    def percentile(self, part: float) -> float:
        """In milliseconds. All lines of a request have its time."""
        return 1000 * sorted(self.times)[min(len(self.times) - 1, int(part * len(self.times)))]


@contextmanager
def serving(command: list[str], port: int) -> Iterator[None]:
    child = subprocess.Popen(command, stderr=subprocess.DEVNULL)
    try:
        while True:
            try:
                with socket.create_connection(("127.0.0.1", port)) as connection:
                    connection.sendall(b"GET /health HTTP/1.1\r\nHost: 127.0.0.1\r\n\r\n")
                    if b" 200 " in connection.recv(100):
                        break
            except OSError:
                pass
            time.sleep(0.02)
        yield
    finally:
        child.terminate()
        child.wait()


def exchange(connection: socket.socket, request: bytes) -> bytes:
    """Sends a request and reads its answer's body."""
    connection.sendall(request)
    data = b""
    while b"\r\n\r\n" not in data:
        data += connection.recv(1 << 16)
    head, _, body = data.partition(b"\r\n\r\n")
    words = head.lower()
    if b" 200 " not in head[:20] or b"content-length: " not in words:
        raise SystemExit(f"bench/service: {data[:500]!r}")
    length = int(words.partition(b"content-length: ")[2].partition(b"\r\n")[0])
    parts, size = [body], len(body)
    while size < length:
        parts.append(connection.recv(1 << 18))
        size += len(parts[-1])
    return b"".join(parts)


def send(port: int, lines: list[bytes], size: int, barrier: Barrier, times: "multiprocessing.Queue[tuple[float, float, list[float]]]") -> None:
    parts = [lines[at:at + size] for at in range(0, len(lines), size)]
    requests = [b"\n".join(part) + b"\n" for part in parts]
    requests = [b"POST /lines HTTP/1.1\r\nHost: 127.0.0.1\r\nContent-Length: %d\r\n\r\n%s" % (len(body), body) for body in requests]
    taken = []
    with socket.create_connection(("127.0.0.1", port)) as connection:
        connection.setsockopt(socket.IPPROTO_TCP, socket.TCP_NODELAY, 1)
        barrier.wait()
        start = before = time.monotonic()
        for request, part in zip(requests, parts):
            body = exchange(connection, request)
            now = time.monotonic()
            taken.append(now - before)
            before = now
            if body.count(b" accepted ") != len(part):
                raise SystemExit(f"bench/service: not all lines were accepted: {body[:500]!r}")
    times.put((start, before, taken))


def sent(port: int, room: str, senders: int, lines: int, size: int) -> Run:
    barrier = multiprocessing.Barrier(senders)
    times: "multiprocessing.Queue[tuple[float, float, list[float]]]" = multiprocessing.Queue()
    each = max(size, lines // senders // size * size)
    processes = []
    for sender in range(senders):
        with open(f"{room}/{senders}/sender_{sender}.jsonl", "rb") as file:
            mine = file.read().splitlines()[:each]
        processes.append(multiprocessing.Process(target=send, args=(port, mine, size, barrier, times)))
    for process in processes:
        process.start()
    found = [times.get(timeout=600) for _ in processes]
    for process in processes:
        process.join()
    seconds = max(end for _, end, _ in found) - min(start for start, _, _ in found)
    return Run(each * senders, seconds, [one for _, _, taken in found for one in taken])


def alone(program: str, room: str, senders: int, lines: int) -> Run:
    """`wagons run` over a file of the same lines."""
    files = [f"{room}/{senders}/sender_{sender}.jsonl" for sender in range(senders)]
    command = "cat " + " ".join(f"<(head -n {lines // senders} {file})" for file in files)
    subprocess.run(["bash", "-c", f"{command} > {room}/all"], check=True)
    start = time.monotonic()
    with open(f"{room}/all") as given, open(f"{room}/out", "w") as out:
        subprocess.run([program, "run", *office(room), "--entries", "1000000"], stdin=given, stdout=out, check=True)
    return Run(lines // senders * senders, time.monotonic() - start, [0.0])


def office(room: str) -> list[str]:
    return ["--roster", f"{room}/1/roster.csv", "--network", f"{room}/1/network.csv"]


def ours(program: str, room: str, senders: int, lines: int, size: int) -> Run:
    port = free_port()
    shutil.rmtree(f"{room}/journal", ignore_errors=True)
    command = [f"{ROOT}/service/wagons-service", "--journal", f"{room}/journal", *office(room), "--entries", "1000000", "--program", program]
    with serving([*command, "--listen", f"127.0.0.1:{port}"], port):
        return sent(port, room, senders, lines, size)


def peer(room: str, senders: int, lines: int, size: int) -> Run:
    port = free_port()
    for name in os.listdir(room):
        if name.startswith("peer.db"):
            os.remove(f"{room}/{name}")
    with serving([f"{HERE}/peer.py", f"{room}/peer.db", f"{room}/1/roster.csv", str(port)], port):
        return sent(port, room, senders, lines, size)


def sync_times(room: str) -> Run:
    """How long this disk takes to sync a line, 200 times."""
    times = []
    with open(f"{room}/synced", "wb", buffering=0) as file:
        for _ in range(200):
            start = time.monotonic()
            file.write(b"x" * 150)
            os.fdatasync(file.fileno())
            times.append(time.monotonic() - start)
    return Run(200, sum(times), times)


def best(tries: list[Callable[[], Run]], turns: int) -> list[Run]:
    """Each is tried in turns with the others; the least time of each."""
    found = [[one() for one in tries] for _ in range(turns)]
    return [min(runs, key=seconds_of) for runs in zip(*found)]


def seconds_of(run: Run) -> float:
    return run.seconds


def main() -> None:
    subprocess.run([f"{ROOT}/tools/packages", "bench/service", *PACKAGES], check=True)
    if sys.argv[1:] == ["--smoke"]:
        with open(os.devnull, "w", encoding="utf-8") as nowhere, contextlib.redirect_stdout(nowhere):
            measure(400, 1, (2,), {1: 0.05, 100: 1.0})
        print("bench/service: each line accepted by the service, by SQLite and by the program alone")
        return
    measure(int(sys.argv[1]) if len(sys.argv) > 1 else 100_000, int(sys.argv[2]) if len(sys.argv) > 2 else 3, SENDERS, SIZES)


def measure(lines: int, turns: int, senders_tried: tuple[int, ...], sizes: dict[int, float]) -> None:
    program = programs.wagons()
    with tempfile.TemporaryDirectory(prefix="wagons-bench-service-", dir=os.environ.get("ROOM")) as room:
        for senders in {1, *senders_tried}:
            os.mkdir(f"{room}/{senders}")
            most = int(lines * max(sizes.values())) // senders + 1000
            subprocess.run([f"{HERE}/lines.py", f"{room}/{senders}", str(senders), str(most)], check=True)
        synced = sync_times(room)
        print(f"a sync of this disk: {synced.percentile(0.5):.2f} ms at the 50th of a hundred, {synced.percentile(0.99):.2f} ms at the 99th")
        print("| Senders | Lines a request | `wagons run` alone | the service | 50th | 99th | SQLite | 50th | 99th | Ratio |")
        print("|---|---|---|---|---|---|---|---|---|---|")
        for senders in senders_tried:
            for size, part in sizes.items():
                many = max(senders * size, int(lines * part))
                run, service, sqlite = best([
                    lambda: alone(program, room, senders, many), lambda: ours(program, room, senders, many, size),
                    lambda: peer(room, senders, many, size)], turns)
                print(f"| {senders} | {size:,} | {run.rate:,.0f} a second | {service.rate:,.0f} | {service.percentile(0.5):.1f} ms | {service.percentile(0.99):.1f} ms "
                      f"| {sqlite.rate:,.0f} | {sqlite.percentile(0.5):.1f} ms | {sqlite.percentile(0.99):.1f} ms | {service.rate / sqlite.rate:.1f} |", flush=True)


if __name__ == "__main__":
    main()
