"""The thread that writes a journal and syncs it, so that only those wait for the disk whose lines are written.

It is one thread for as long as the journal is written: `asyncio.to_thread` takes longer to hand a call over than a disk takes
to sync a line.
"""

import asyncio
import threading
from collections.abc import Sequence
from contextlib import suppress
from queue import SimpleQueue
from typing import NamedTuple

from .journal import Journal

# So many bytes are summed up in less time than it takes to wake another thread; with more, the program begins meanwhile.
BYTES_SUMMED_AT_ONCE = 4096


class _Job(NamedTuple):
    lines: Sequence[bytes]
    requests: Sequence[tuple[str, int]]
    written: "asyncio.Future[bytes]"


class JournalWriter:
    def __init__(self, journal: Journal) -> None:
        self._journal = journal
        self._loop = asyncio.get_running_loop()
        self._ended: asyncio.Future[None] = self._loop.create_future()
        # What went wrong with the checksums, of which nothing is known any more.
        self._fault: Exception | None = None
        self._jobs: SimpleQueue[_Job | None] = SimpleQueue()
        threading.Thread(target=self._run, name="journal", daemon=True).start()

    def add(self, lines: Sequence[bytes], requests: Sequence[tuple[str, int]]) -> "asyncio.Future[bytes]":
        """Adds lines as `Journal.add` does. What is in the file then is given when it is on the disk."""
        written: asyncio.Future[bytes] = self._loop.create_future()
        self._jobs.put(_Job(lines, requests, written))
        return written

    async def end(self, seconds: float) -> None:
        """Ends the thread when all is written, unless the disk takes too long."""
        self._jobs.put(None)
        await asyncio.wait([self._ended], timeout=seconds)

    def _run(self) -> None:
        while job := self._jobs.get():
            self._write(job)
        self._tell(self._ended, None)

    def _write(self, job: _Job) -> None:
        try:
            if self._fault:
                raise self._fault
            data = self._journal.write(job.lines, job.requests)
        except Exception as fault:
            self._tell(job.written, fault)
            return
        are_many = len(data) > BYTES_SUMMED_AT_ONCE
        if are_many:
            self._tell(job.written, data)
        try:
            self._journal.checksums.add(data)
        except Exception as fault:
            self._fault = fault
        if not are_many:
            self._tell(job.written, self._fault or data)

    def _tell(self, future: "asyncio.Future[bytes] | asyncio.Future[None]", value: bytes | Exception | None) -> None:
        # A loop that has ended waits for nothing any more.
        with suppress(RuntimeError):
            self._loop.call_soon_threadsafe(_settle, future, value)


def _settle(future: "asyncio.Future[bytes | None]", value: bytes | Exception | None) -> None:
    if future.done():
        return
    if isinstance(value, Exception):
        future.set_exception(value)
    else:
        future.set_result(value)
