#!/usr/bin/python3
"""Times offices behind Redis Streams: streams.py [PART ..] [--lines N] [--turns N].

The parts are `rate` (lines a second from XADD to the reply, for 1, 2, 4 and 8 offices, beside plain consumers that only
read and answer), `servers` (both with a server for each office, as a cluster has them), `standby` (with a second service
for each office), `router`, `takeover` and `start`. The server,
the offices and the senders run on this machine. Each is tried in turns with the others, and the best rate counts.
WAGONS=FILE times another build, and ROOM=FOLDER says where the server's folder is made.
"""

import argparse
import multiprocessing
import os
import shutil
import signal
import socket
import statistics
import subprocess
import sys
import tempfile
import time
from collections.abc import Iterator
from contextlib import ExitStack, contextmanager
from dataclasses import dataclass
from multiprocessing.synchronize import Barrier
from pathlib import Path

HERE = Path(__file__).resolve().parent
ROOT = HERE.parents[1]
sys.path[:0] = [str(ROOT / "service"), str(ROOT / "tools")]

import programs  # noqa: E402
import redis  # noqa: E402
from ports import free_port  # noqa: E402
from wagons_service.redis_link import EXEC, MULTI, pack  # noqa: E402

# So many lines are appended at once, and so many are on their way.
BATCH = 500
WINDOW = 4000
# A look at how many are answered takes time from what is timed.
SECONDS_BETWEEN_LOOKS = 0.004
LEASE = 1000
# So many lines are answered before a takeover.
TAKEOVER_LINES = 2000


def client(port: int) -> "redis.Redis[bytes]":
    return redis.Redis("127.0.0.1", port)


@contextmanager
def server(room: str, fsync: str = "always", name: str = "redis") -> Iterator[int]:
    folder, port = Path(room) / name, free_port()
    folder.mkdir()
    words = ["redis-server", "--port", str(port), "--bind", "127.0.0.1", "--dir", str(folder), "--appendonly", "yes", "--appendfsync", fsync, "--save", ""]
    child = subprocess.Popen(words, stdout=subprocess.DEVNULL)
    try:
        while True:
            try:
                client(port).ping()
                break
            except redis.ConnectionError:
                time.sleep(0.02)
        yield port
    finally:
        child.kill()
        child.wait()
        shutil.rmtree(folder)


def office(program: str, room: str, port: int, name: str, *more: str) -> "subprocess.Popen[bytes]":
    command = [str(ROOT / "service" / "wagons-service"), "--journal", f"redis://127.0.0.1:{port}/{name}", "--program", program, "--lease", str(LEASE),
               "--roster", f"{room}/roster.csv", "--network", f"{room}/network.csv", "--entries", "1000000", "--listen", "127.0.0.1:0", *more]
    with open(f"{room}/log", "ab") as log:
        return subprocess.Popen(command, stderr=log, env=os.environ | {"TMPDIR": room})


def until_held(port: int, name: str) -> None:
    while not client(port).get(f"{{{name}}}:lease"):
        time.sleep(0.02)


def end(children: "list[subprocess.Popen[bytes]]") -> None:
    for child in children:
        child.kill()
        child.wait()


@contextmanager
def ended() -> Iterator["list[subprocess.Popen[bytes]]"]:
    """Children that are ended whatever happens."""
    children: "list[subprocess.Popen[bytes]]" = []
    try:
        yield children
    finally:
        end(children)


def consume(port: int, name: str) -> None:
    """A plain consumer: it reads, and answers each line by the same words."""
    reader, lines, replies = client(port), f"{{{name}}}:lines", f"{{{name}}}:replies"
    last, number = b"0-0", 0
    while True:
        for _, entries in reader.xread({lines: last}, count=1000, block=1000):
            pipe = reader.pipeline(transaction=True)
            for id, _ in entries:
                number += 1
                pipe.xadd(replies, {"reply": b"%d accepted %d" % (number, number)}, id=id)
            pipe.execute()
            last = entries[-1][0]


def send(port: int, name: str, lines: list[bytes], barrier: Barrier, times: "multiprocessing.Queue[tuple[float, float]]") -> None:
    """Appends lines, and counts their replies: at most so many are on their way."""
    link = socket.create_connection(("127.0.0.1", port))
    link.setsockopt(socket.IPPROTO_TCP, socket.TCP_NODELAY, 1)
    key, replies = f"{{{name}}}:lines".encode(), f"{{{name}}}:replies".encode()
    # In a transaction, so that the server syncs once for all of them.
    packed = [b"".join([MULTI, *(pack(b"XADD", key, b"*", b"line", line) for line in lines[at:at + BATCH]), EXEC]) for at in range(0, len(lines), BATCH)]
    ask = pack(b"XLEN", replies)

    def count() -> int:
        time.sleep(SECONDS_BETWEEN_LOOKS)
        link.sendall(ask)
        return int(link.recv(64)[1:-2])

    barrier.wait()
    start = time.monotonic()
    sent = answered = 0
    for part in packed:
        while sent - answered >= WINDOW:
            answered = count()
        link.sendall(part)
        wanted = min(BATCH, len(lines) - sent)
        got = 0
        while got < wanted:
            got += link.recv(1 << 16).count(b"$")
        sent += wanted
    while count() < len(lines):
        pass
    times.put((start, time.monotonic()))


@dataclass
class Tried:
    offices: int
    kind: str

    def rate(self, program: str, room: str, lines: list[bytes]) -> float:
        with ExitStack() as running:
            count = self.offices if self.kind.endswith("servers") else 1
            ports = [running.enter_context(server(room, name=f"redis-{k}")) for k in range(count)]
            offices = [(ports[k % count], f"office-{k}") for k in range(self.offices)]
            if self.kind.startswith("plain"):
                for one in offices:
                    consumer = multiprocessing.Process(target=consume, args=one, daemon=True)
                    consumer.start()
                    running.callback(consumer.join)
                    running.callback(consumer.kill)
            else:
                for _ in range(2 if self.kind == "standby" else 1):
                    running.callback(end, [office(program, room, port, name, "--journal-lines", "1000000") for port, name in offices])
                    for port, name in offices:
                        until_held(port, name)
                time.sleep(1)
            rate = measured(offices, lines)
        return rate


def measured(offices: list[tuple[int, str]], lines: list[bytes]) -> float:
    """Lines a second over these offices, each with the port of its server and its name."""
    barrier = multiprocessing.Barrier(len(offices))
    times: "multiprocessing.Queue[tuple[float, float]]" = multiprocessing.Queue()
    senders = [multiprocessing.Process(target=send, args=(port, name, lines, barrier, times)) for port, name in offices]
    for sender in senders:
        sender.start()
    found = [times.get(timeout=900) for _ in senders]
    for sender in senders:
        sender.join()
    return len(lines) * len(offices) / (max(last for _, last in found) - min(first for first, _ in found))


def told(tried: Tried, rate: float) -> float:
    if sys.stderr.isatty():
        print(f"{tried.offices} {tried.kind}: {rate:,.0f}", file=sys.stderr, flush=True)
    return rate


def in_turns(tries: list[Tried], turns: int, program: str, room: str, lines: list[bytes], least: int) -> list[float]:
    """Each in turns with the others: the best of its rates, since other work beside it only takes away."""
    found = []
    for _ in range(turns):
        found.append([told(one, one.rate(program, room, lines[:max(len(lines) // one.offices, least)])) for one in tries])
    return [max(rates) for rates in zip(*found)]


def rates(program: str, room: str, lines: list[bytes], turns: int, counts: list[int], kinds: list[str], least: int) -> None:
    tries = [Tried(offices, kind) for offices in counts for kind in kinds]
    found = in_turns(tries, turns, program, room, lines, least)
    one = {kind: rate for kind, rate in zip(kinds, found)}
    print("| Offices | What | Lines a second | Times one |")
    print("|---|---|---|---|")
    for tried, rate in zip(tries, found):
        print(f"| {tried.offices} | {tried.kind} | {rate:,.0f} | {rate / one[tried.kind]:.2f} |", flush=True)


def takeover(program: str, room: str, lines: list[bytes], turns: int) -> None:
    """From the kill of the first to the first reply that the standby writes, while lines come in."""
    found = []
    for _ in range(turns):
        with server(room) as port, ended() as children:
            first = office(program, room, port, "north")
            children.append(first)
            until_held(port, "north")
            children.append(office(program, room, port, "north"))
            time.sleep(2)
            there, replies = client(port), "{north}:replies"
            for line in lines[:TAKEOVER_LINES]:
                there.xadd("{north}:lines", {"line": line})
            while there.xlen(replies) < TAKEOVER_LINES:
                time.sleep(0.01)
            first.send_signal(signal.SIGKILL)
            start, before = time.monotonic(), there.xlen(replies)
            there.xadd("{north}:lines", {"line": lines[TAKEOVER_LINES]})
            while there.xlen(replies) <= before:
                time.sleep(0.002)
            found.append(time.monotonic() - start)
    print(f"a takeover with a lease of {LEASE / 1000} s: median {statistics.median(found):.2f} s, longest {max(found):.2f} s of {turns}", flush=True)


def router(room: str, lines: list[bytes], turns: int) -> None:
    """From the inbox to the streams of eight offices; no office reads them."""
    names = [f"office-{k}" for k in range(8)]
    numbers = [row.split(",")[0] for row in Path(f"{room}/roster.csv").read_text().splitlines()[1:]]
    Path(f"{room}/offices.csv").write_text("wagon,office\n" + "".join(f"{number},{names[k % 8]}\n" for k, number in enumerate(numbers)))
    found = []
    for _ in range(turns):
        with server(room) as port, open(f"{room}/log", "ab") as log, ended() as children:
            there = client(port)
            command = [str(ROOT / "service" / "wagons-router"), "--inbox", f"redis://127.0.0.1:{port}/fleet", "--offices", f"{room}/offices.csv"]
            children.append(subprocess.Popen(command, stderr=log))
            while not there.execute_command("FUNCTION", "LIST"):
                time.sleep(0.02)
            found.append(measured([(port, "fleet")], lines))
            assert sum(there.xlen(f"{{{name}}}:lines") for name in names) == len(lines)
    print(f"the router, from an inbox to eight streams: median {statistics.median(found):,.0f} lines a second", flush=True)


def starts(program: str, room: str, lines: list[bytes], turns: int) -> None:
    """From the start of a service until it has read its stream and may write."""
    for journal_lines, name in (1_000_000, "no checkpoint"), (100_000, "checkpoints of each 100,000 lines"):
        with server(room, "everysec") as port, ended() as children:
            child = office(program, room, port, "north", "--journal-lines", str(journal_lines))
            children.append(child)
            until_held(port, "north")
            rate = measured([(port, "north")], lines) if journal_lines == 1_000_000 else fill(port, lines)
            found = []
            for _ in range(turns):
                # It leaves the lease behind when it ends by itself.
                child.terminate()
                child.wait()
                start = time.monotonic()
                child = office(program, room, port, "north")
                children.append(child)
                until_held(port, "north")
                found.append(time.monotonic() - start)
            memory = int(client(port).info("memory")["used_memory"])
            size = int(client(port).info("persistence")["aof_current_size"])
            print(f"a start with {len(lines):,} lines and {name}: median {statistics.median(found):.2f} s; Redis has {memory / 1e6:.0f} MB, "
                  f"its append-only file {size / 1e6:.0f} MB; {rate:,.0f} lines a second before", flush=True)


def replies_added(there: "redis.Redis[bytes]") -> int:
    """How many replies were added in all; the stream isn't there before the first one."""
    key = "{north}:replies"
    return int(there.xinfo_stream(key)["entries-added"]) if there.exists(key) else 0


def fill(port: int, lines: list[bytes]) -> float:
    """Appends lines until the last one is answered; the stream of replies is trimmed, so its entries are counted as they were added."""
    start = time.monotonic()
    there = client(port)
    pipe = there.pipeline(transaction=True)
    for at in range(0, len(lines), BATCH):
        for line in lines[at:at + BATCH]:
            pipe.xadd("{north}:lines", {"line": line})
        pipe.execute()
        while at - replies_added(there) > WINDOW:
            time.sleep(0.001)
    while replies_added(there) < len(lines):
        time.sleep(0.01)
    return len(lines) / (time.monotonic() - start)


def main() -> None:
    parser = argparse.ArgumentParser(description=__doc__, formatter_class=argparse.RawDescriptionHelpFormatter)
    parser.add_argument("parts", nargs="*", default=["rate", "servers", "standby", "router", "takeover", "start"])
    parser.add_argument("--offices", type=int, nargs="+", default=[1, 2, 4, 8])
    parser.add_argument("--lines", type=int, default=200_000)
    parser.add_argument("--turns", type=int, default=3)
    parser.add_argument("--start-lines", type=int, default=999_999)
    parser.add_argument("--least-lines", type=int, default=20_000, help="how many lines an office gets at least")
    parser.add_argument("--takeovers", type=int, default=5)
    given = parser.parse_args()
    program = programs.wagons()
    with tempfile.TemporaryDirectory(prefix="wagons-bench-streams-", dir=os.environ.get("ROOM")) as room:
        most = max(given.lines, given.least_lines, TAKEOVER_LINES + 1, given.start_lines if "start" in given.parts else 0)
        subprocess.run([f"{ROOT}/bench/service/lines.py", room, "1", str(most)], check=True)
        lines = Path(f"{room}/sender_0.jsonl").read_bytes().splitlines()
        print(f"load {os.getloadavg()[0]:.1f} at the start, {os.cpu_count()} processors", flush=True)
        if "rate" in given.parts:
            rates(program, room, lines[:given.lines], given.turns, given.offices, ["office", "plain"], given.least_lines)
        if "servers" in given.parts:
            rates(program, room, lines[:given.lines], given.turns, given.offices, ["office, servers", "plain, servers"], given.least_lines)
        if "standby" in given.parts:
            rates(program, room, lines[:given.lines], given.turns, given.offices, ["standby"], given.least_lines)
        if "router" in given.parts:
            router(room, lines[:given.lines], given.turns)
        if "takeover" in given.parts:
            takeover(program, room, lines, max(given.turns, given.takeovers))
        if "start" in given.parts:
            starts(program, room, lines[:given.start_lines], given.turns)


if __name__ == "__main__":
    main()
