"""XML becomes lines in processes of their own: a document that takes long, or much memory, takes them from nobody else.

A process gets the map, then documents one after the other, each behind its length; it answers each with JSON behind its
length, and notes in a file that both share which message it is at. It is killed where it takes too long.
"""

import asyncio
import json
import os
import resource
import signal
import struct
import sys
from contextlib import suppress
from typing import Any, BinaryIO

from .xml_lines import BadXml, Map, Row

SECONDS = 5
MEGABYTES = 256
MOST_PROCESSES = 8
# As many as a request of lines may have.
MOST_BYTES = 8_000_000
SECONDS_TO_START = 60
LENGTH = struct.Struct(">Q")
NOTE_BYTES = 256
AT_FIRST = "its beginning, before the first message"
# What stands before a document: whether each message is taken by itself, or all of them or none.
PARTIAL, WHOLE = b"p", b"w"
START = "from wagons_service.xml_process import work; work()"
PACKAGES = os.path.dirname(os.path.dirname(os.path.abspath(__file__)))


class TooMuch(Exception):
    """A document takes too long or needs too much memory; the text says at which element."""


class Ended(Exception):
    """The service is being stopped."""


# In the process.

def work() -> None:
    """Answers documents until no more come."""
    note = int(sys.argv[1])
    resource.setrlimit(resource.RLIMIT_AS, (MEGABYTES << 20, MEGABYTES << 20))
    given, taken = sys.stdin.buffer, sys.stdout.buffer
    rules = Map((read_part(given) or b"").decode())
    write_part(taken, b"{}")
    while (part := read_part(given)) is not None:
        # Where the service was killed nobody else ends this process.
        signal.alarm(2 * SECONDS)
        write_part(taken, json.dumps(answer_to(rules, part[1:], note, part.startswith(PARTIAL))).encode())
        signal.alarm(0)


def answer_to(rules: Map, document: bytes, note: int, is_partial: bool) -> dict[str, Any]:
    def begin(element: str) -> None:
        os.pwrite(note, element.encode()[:NOTE_BYTES].ljust(NOTE_BYTES), 0)

    begin(AT_FIRST)
    try:
        rows = rules.rows(document, begin, is_partial)
        return {"rows": rows} if sum(len(row.line) for row in rows) <= MOST_BYTES else {"large": True}
    except MemoryError:
        return {"memory": True}
    except BadXml as fault:
        return {"memory": True} if has_no_memory() else {"bad": str(fault)}


def has_no_memory() -> bool:
    """Whether the limit was reached: the reader of XML then says one thing or another, and not that."""
    with open("/proc/self/status", encoding="ascii") as file:
        peak = next(int(line.split()[1]) for line in file if line.startswith("VmPeak:"))
    return peak > MEGABYTES * 1024 * 0.95


def read_part(file: BinaryIO) -> bytes | None:
    """The next part, where one comes."""
    head = file.read(LENGTH.size)
    return file.read(LENGTH.unpack(head)[0]) if head else None


def write_part(file: BinaryIO, part: bytes) -> None:
    file.write(LENGTH.pack(len(part)) + part)
    file.flush()


# In the service.

class XmlProcess:
    """A process that turns documents into lines, one at a time."""

    def __init__(self, process: asyncio.subprocess.Process, note: int) -> None:
        self._process = process
        self._note = note

    @classmethod
    async def start(cls, rules: Map) -> "XmlProcess":
        note = os.memfd_create("note")
        pipe = asyncio.subprocess.PIPE
        process = await asyncio.create_subprocess_exec(
            sys.executable, "-P", "-c", START, str(note), stdin=pipe, stdout=pipe, stderr=asyncio.subprocess.DEVNULL, pass_fds=(note,), start_new_session=True,
            env={**os.environ, "PYTHONPATH": PACKAGES})
        made = cls(process, note)
        try:
            async with asyncio.timeout(SECONDS_TO_START):
                await made._ask(rules.text.encode())
        except BaseException:
            made.end()
            raise
        return made

    async def rows(self, document: bytes, is_partial: bool) -> list[Row]:
        """The lines of a document, before identifiers have numbers."""
        try:
            async with asyncio.timeout(SECONDS):
                answer = await asyncio.to_thread(json.loads, await self._ask((PARTIAL if is_partial else WHOLE) + document))
        except TimeoutError:
            raise TooMuch(f"Turning the document into lines took over {SECONDS} seconds, and had come to {self._element()}; send it in parts.") from None
        except asyncio.IncompleteReadError:
            raise TooMuch(f"The document ended the process that read it, at {self._element()}; send it in parts.") from None
        if "memory" in answer:
            raise TooMuch(f"Turning the document into lines needs over {MEGABYTES} MB of memory, at {self._element()}; send it in parts.")
        if "large" in answer:
            raise TooMuch(f"The lines of the document would have over {MOST_BYTES:,} bytes; send it in parts.")
        if "bad" in answer:
            raise BadXml(answer["bad"])
        return [Row(*row) for row in answer["rows"]]

    def _element(self) -> str:
        return os.pread(self._note, NOTE_BYTES, 0).decode("utf-8", "replace").strip()

    async def _ask(self, part: bytes) -> bytes:
        given, taken = self._process.stdin, self._process.stdout
        assert given is not None and taken is not None
        with suppress(ConnectionError):  # That it ended is seen where it answers.
            given.write(LENGTH.pack(len(part)) + part)
            await given.drain()
        length, = LENGTH.unpack(await taken.readexactly(LENGTH.size))
        return await taken.readexactly(length)

    def end(self) -> None:
        with suppress(ProcessLookupError):
            self._process.kill()
        with suppress(OSError):
            os.close(self._note)


class XmlProcesses:
    """As many as are needed at once, up to a few."""

    def __init__(self, rules: Map) -> None:
        self._rules = rules
        self._free: list[XmlProcess] = []
        self._room = asyncio.Semaphore(MOST_PROCESSES)
        self._works: set[asyncio.Task[list[Row]]] = set()
        self._has_ended = False

    async def rows(self, document: bytes, is_partial: bool = False) -> list[Row]:
        async with self._room:
            if self._has_ended:
                raise Ended
            task = asyncio.create_task(self._rows(document, is_partial))
            self._works.add(task)
            try:
                return await task
            except asyncio.CancelledError:
                if self._has_ended:
                    raise Ended from None
                raise
            finally:
                task.cancel()
                self._works.discard(task)

    async def _rows(self, document: bytes, is_partial: bool) -> list[Row]:
        process = self._free.pop() if self._free else await XmlProcess.start(self._rules)
        is_whole = False
        try:
            rows = await process.rows(document, is_partial)
            is_whole = True
            return rows
        except BadXml:
            is_whole = True
            raise
        finally:
            # One that was left in the middle of a document would answer the next one with it.
            if is_whole and not self._has_ended:
                self._free.append(process)
            else:
                process.end()

    def end(self) -> None:
        self._has_ended = True
        for task in self._works:
            task.cancel()
        for process in self._free:
            process.end()
        self._free.clear()
