"""Railways that append messages straight to a stream, and a judge over what came of it."""

import random
import subprocess
import threading
import time
from collections.abc import Callable, Sequence
from pathlib import Path

import redis
from running import DAY, NETWORKS, WAGONS, message
from servers import until

BROKEN = (redis.ConnectionError, redis.TimeoutError, redis.BusyLoadingError)
Client = "redis.Redis[bytes]"


def keys(stream: str) -> tuple[str, str]:
    return f"{{{stream}}}:lines", f"{{{stream}}}:replies"


class Railway(threading.Thread):
    """Appends messages of its own until it is told to end, each once: a lost connection is tried again with the same number."""

    def __init__(self, k: int, stream: str, connect: "Callable[[], redis.Redis[bytes]]", wagons: Sequence[str] = tuple(WAGONS)) -> None:
        super().__init__(daemon=True)
        self._draw = random.Random(k)
        self._wagons = wagons
        self._lines_key, self._mark = keys(stream)[0], f"{{{stream}}}:sent:R{k:03}"
        self._connect = connect
        self.company = f"R{k:03}"
        self.sent: list[bytes] = []
        self._acknowledged: dict[bytes, bytes] = {}
        self._lock = threading.Lock()
        self.over = threading.Event()
        self.fault: BaseException | None = None

    def run(self) -> None:
        try:
            turn, client = 0, self._connect()
            while not self.over.is_set():
                turn += 1
                first = len(self.sent)
                part = [message(self.company, n, self._draw.choice(self._wagons), bool(self._draw.getrandbits(1))) for n in range(first, first + self._draw.randint(1, 20))]
                self.sent += part
                while True:
                    try:
                        ids = client.execute_command("FCALL", "append", 2, self._lines_key, self._mark, turn, *part)
                        break
                    except BROKEN:
                        time.sleep(0.02)
                        client = self._connect()
                    except redis.ResponseError as refusal:
                        # A cluster says so while a node is away.
                        assert str(refusal).startswith(("CLUSTERDOWN", "Function not found")), refusal
                        time.sleep(0.02)
                with self._lock:
                    self._acknowledged |= dict(zip(ids, part))
                time.sleep(0.04)
        except BaseException as fault:
            self.fault = fault
            raise

    @property
    def acknowledged(self) -> dict[bytes, bytes]:
        """The lines that were acknowledged, by their ids."""
        with self._lock:
            return dict(self._acknowledged)

    def end(self) -> None:
        self.over.set()
        self.join(120)
        assert self.fault is None and not self.is_alive(), self.fault


class Judge:
    """Follows a stream, and an undisturbed `wagons run` over the same lines: one reply each, the same, under its id."""

    def __init__(self, stream: str, connect: "Callable[[], redis.Redis[bytes]]", program: str, folder: Path, roster: Path = DAY / "roster.csv",
                 journal_lines: int = 100_000) -> None:
        self._stream, self._connect, self._program, self._folder = stream, connect, program, folder
        self._networks = [word for path in NETWORKS for word in ("--network", str(path))]
        self._journal_lines = journal_lines
        self._start = ["--roster", str(roster)]
        # The lines and replies by their ids, and the replies that are expected in the journals that are whole.
        self.lines: dict[bytes, bytes] = {}
        self.replies: dict[bytes, bytes] = {}
        self._expected: list[bytes] = []

    def _read(self, key: str, name: bytes, found: dict[bytes, bytes]) -> None:
        client = self._connect()
        last = list(found)[-1] if found else None
        # The last one once more: it must be there still, so that nothing is missed.
        entries = client.xrange(key, last.decode() if last else "-", "+")
        if last:
            assert entries and entries[0][0] == last, (key, last)
        new = {id: fields[name] for id, fields in entries[1 if last else 0:]}
        assert not new.keys() & found.keys()
        found |= new

    def read(self) -> None:
        lines, replies = keys(self._stream)
        # Replies first, so that each of them has its line.
        self._read(replies, b"reply", self.replies)
        self._read(lines, b"line", self.lines)

    def _print(self, word: str, lines: Sequence[bytes]) -> bytes:
        command = [self._program, word, *self._start, *self._networks]
        return subprocess.run(command, input=b"".join(line + b"\n" for line in lines), stdout=subprocess.PIPE, check=False).stdout

    def undisturbed(self) -> list[bytes]:
        """The replies to all lines in a run that nobody disturbed, from checkpoint to checkpoint."""
        lines = list(self.lines.values())
        while len(lines) - len(self._expected) >= self._journal_lines:
            journal = lines[len(self._expected):][:self._journal_lines]
            self._expected += whole_replies(self._print("run", journal))
            saved = self._print("save", journal)
            checkpoint = self._folder / f"checkpoint-{self._stream}.jsonl"
            checkpoint.write_bytes(saved)
            self._start = ["--from", str(checkpoint)]
        return self._expected + whole_replies(self._print("run", lines[len(self._expected):]))

    def until_answered(self, ids: Sequence[bytes]) -> None:
        def are_answered() -> bool:
            self.read()
            return all(id in self.replies for id in ids)
        until("each acknowledged line has its reply", are_answered)

    def judge(self, railways: Sequence[Railway]) -> None:
        """Each line that is acknowledged now has its one reply, when it has been waited for."""
        acknowledged = {id: line for railway in railways for id, line in railway.acknowledged.items()}
        self.until_answered(list(acknowledged))
        assert all(self.lines[id] == line for id, line in acknowledged.items())
        self.judge_all()

    def judge_all(self) -> None:
        """No line is there twice, and the replies are those to the first lines, each under its line's id."""
        told = [line for line in self.lines.values() if b'"company":"R' in line]
        assert len(told) == len(set(told))
        count = len(self.replies)
        assert list(self.replies) == list(self.lines)[:count]
        assert list(self.replies.values()) == self.undisturbed()[:count]

    def judge_sheet(self) -> None:
        """The sheet is that of the undisturbed run, and each line has its reply."""
        id: bytes = self._connect().xadd(keys(self._stream)[0], {"line": b'{"type":"sheet"}'})
        self.until_answered([id])
        self.until_answered(list(self.lines))
        self.judge_all()
        assert b"\nwagon " in self.replies[id]


def whole_replies(printed: bytes) -> list[bytes]:
    """The replies in what `wagons run` printed."""
    replies: list[bytes] = []
    for line in printed.split(b"\n")[:-1]:
        if line[:1].isdigit():
            replies.append(line)
        else:
            replies[-1] += b"\n" + line
    return replies
