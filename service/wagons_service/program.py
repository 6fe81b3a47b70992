"""The program `wagons run` as a child: lines go in, replies come out."""

import asyncio
import os
import re
from collections.abc import Callable, Sequence
from contextlib import suppress
from dataclasses import dataclass
from typing import NamedTuple

from .pipes import until_closed

CHUNK = 1 << 18
# How much of what the program says on standard error is kept.
WORDS = 4096
# The program ends with these when its input has ended.
DONE = (0, 1)
# The kinds of reply that have several lines.
SEVERAL = (b"plan", b"sheet")
# A reply of one line: its text, its number and its kind.
SHORT = re.compile(rb"(([0-9]+) (accepted|repeated|begun|refused) [^\n]*)\n")
ACCEPTED = b" accepted "
# A line that has no `type` is refused with 24 and changes nothing.
NOTHING = b"{}"


class Replies(NamedTuple):
    """Replies one behind the other, each thing of all of them in a column, since there are many: the numbers of their
    lines, their kinds (`accepted`, `repeated`, `begun`, `plan`, `sheet` or `refused`), and their texts as the program gave
    them, each without the last line feed."""

    numbers: Sequence[int]
    kinds: Sequence[bytes]
    texts: Sequence[bytes]

    def part(self, start: int, end: int | None = None) -> "Replies":
        if start == 0 and end is None:
            return self
        return Replies(self.numbers[start:end], self.kinds[start:end], self.texts[start:end])

    @property
    def refused(self) -> list[tuple[int, bytes]]:
        """The numbers and texts of the refusals."""
        if b"refused" not in self.kinds:
            return []
        return [(number, text) for number, kind, text in zip(*self) if kind == b"refused"]


NONE = Replies((), (), ())


class NoReply(Exception):
    """The program printed what no reply begins with."""


class ReplyCutter:
    """Cuts what the program prints into whole replies.

    A plan ends with its certificate, the one line that begins with a brace. A sheet ends where the next reply begins.
    All other replies are one line.
    """

    def __init__(self) -> None:
        self._piece = b""
        self._kind = b""
        self._open: list[bytes] = []
        self.last = 0

    @property
    def open_sheet(self) -> int | None:
        """The number of a sheet of which more lines may come."""
        return self.last if self._open and self._kind == b"sheet" else None

    def cut(self, chunk: bytes) -> Replies:
        """The replies that are whole with these bytes."""
        data = self._piece + chunk
        end = data.rfind(b"\n") + 1
        data, self._piece = data[:end], data[end:]
        replies = NONE if self._open else self._cut_accepted(data) or self._cut_short(data)
        return replies if replies.numbers else self._cut_line_by_line(data)

    def _cut_accepted(self, data: bytes) -> Replies | None:
        """The replies of these lines where each accepts the line behind the one before, as they mostly do."""
        many = data.count(b"\n")
        if not many or data.count(ACCEPTED) != many:
            return None
        words = data.split()
        # Three words a line, and one mark behind each.
        are_whole = len(words) == 3 * many == words[1::3].count(b"accepted") * 3 and len(b"".join(words)) + 3 * many == len(data)
        if not are_whole or not words[0].isdigit():
            return None
        first = int(words[0])
        numbers = range(first, first + many)
        if first <= self.last or b" ".join(words[::3]) != " ".join(map(str, numbers)).encode():
            return None
        self.last = numbers[-1]
        return Replies(numbers, [b"accepted"] * many, data[:-1].split(b"\n"))

    def _cut_short(self, data: bytes) -> Replies:
        """The replies of these lines where all are one line and follow one another, as they mostly do; else none."""
        found = SHORT.findall(data)
        if not found:
            return NONE
        texts, words, kinds = zip(*found)
        numbers = list(map(int, words))
        first, last = numbers[0], numbers[-1]
        if first <= self.last or numbers != list(range(first, last + 1)) or sum(map(len, texts)) + len(texts) != len(data):
            return NONE
        self.last = last
        return Replies(numbers, kinds, texts)

    def _cut_line_by_line(self, data: bytes) -> Replies:
        replies = Replies([], [], [])
        for line in data.split(b"\n")[:-1]:
            if line[:1].isdigit():
                self._close(replies)
                word, kind, _ = line.split(b" ", 2)
                if int(word) <= self.last:
                    raise NoReply(f"after the reply to line {self.last}: {line[:200]!r}")
                self.last, self._kind, self._open = int(word), kind, [line]
                if kind not in SEVERAL:
                    self._close(replies)
            elif not self._open:
                raise NoReply(f"after the reply to line {self.last}: {line[:200]!r}")
            else:
                self._open.append(line)
                if line.startswith(b"{"):
                    self._close(replies)
        return replies

    def end(self) -> Replies:
        """A sheet that was open when the program had done all its lines is whole."""
        replies = Replies([], [], [])
        if self.open_sheet:
            self._close(replies)
        return replies

    def _close(self, replies: Replies) -> None:
        if self._open:
            for column, value in zip(replies, (self.last, self._kind, b"\n".join(self._open))):
                assert isinstance(column, list)
                column.append(value)
            self._open = []


@dataclass(frozen=True, slots=True)
class Ended:
    """How a program ended: its own words on standard error, or a sentence where it has none."""

    words: str
    status: int

    @property
    def by_signal(self) -> bool:
        return self.status < 0


class Program:
    """A program that runs. `take` is given each part of its replies; `ended` says how it ended."""

    def __init__(self, process: asyncio.subprocess.Process, take: Callable[[Replies], None]) -> None:
        self._process = process
        self._take = take
        self.cutter = ReplyCutter()
        self.ended: asyncio.Task[Ended] = asyncio.create_task(self._follow())

    @classmethod
    async def start(cls, command: Sequence[str], take: Callable[[Replies], None]) -> "Program":
        """Starts a command; with `OSError` it couldn't be started."""
        pipe = asyncio.subprocess.PIPE
        # In a session of its own, so that Ctrl-C in a terminal reaches the service alone, which ends the program.
        process = await asyncio.create_subprocess_exec(
            *command, stdin=pipe, stdout=pipe, stderr=pipe, limit=CHUNK, start_new_session=True)
        return cls(process, take)

    @property
    def pid(self) -> int:
        return self._process.pid

    def send(self, data: bytes) -> None:
        """Gives the program lines, each with its line feed."""
        assert self._process.stdin is not None
        self._process.stdin.write(data)

    async def drain(self) -> None:
        """Waits until the program has read most of what it was given, or has ended."""
        assert self._process.stdin is not None
        try:
            await self._process.stdin.drain()
        except (BrokenPipeError, ConnectionResetError):
            await asyncio.wait([self.ended])

    def close(self) -> None:
        """No more lines come; the program ends when it has answered those before."""
        assert self._process.stdin is not None
        self._process.stdin.close()

    def kill(self) -> None:
        with suppress(ProcessLookupError):
            self._process.kill()

    async def _follow(self) -> Ended:
        assert self._process.stdout is not None and self._process.stderr is not None
        words = asyncio.create_task(self._words(self._process.stderr))
        try:
            while chunk := await self._process.stdout.read(CHUNK):
                if (replies := self.cutter.cut(chunk)).numbers:
                    self._take(replies)
        except (NoReply, ValueError) as fault:
            self.kill()
            await self._process.wait()
            await until_closed(self._process)
            return Ended(f"the program printed what is no reply, {fault}", status=2)
        status = await self._process.wait()
        await until_closed(self._process)
        if status in DONE and (replies := self.cutter.end()).numbers:
            self._take(replies)
        said = await words
        if status < 0:
            return Ended(f"the program was ended by signal {-status}", status)
        return Ended(said or f"the program ended with status {status}", status)

    @staticmethod
    async def _words(stream: asyncio.StreamReader) -> str:
        kept = b""
        while chunk := await stream.read(WORDS):
            kept = (kept + chunk)[:WORDS]
        return kept.decode("utf-8", "replace").strip()


def found(program: str) -> str:
    """The path of the program: as it was named, or, where nothing was named, beside this service or on the path."""
    if program:
        return program
    built = os.path.join(os.path.dirname(__file__), "..", "..", "out", "wagons")
    return os.path.realpath(built) if os.access(built, os.X_OK) else "wagons"
