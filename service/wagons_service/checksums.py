"""The checksums of a journal, by which a line that changed on the disk is noticed.

A sum is the SHA-256 of the sum before and of up to 1,000 lines; before the first stands that of the checkpoint from which
the journal begins. `checksums.jsonl` has a record for each thousand, all of one length, and the last one is written over as
its thousand grows. So a sum that fits says that all lines before it are those that were written.
"""

import hashlib
import logging
import os
import re
from typing import Protocol

log = logging.getLogger("wagons-service")

BLOCK = 1000
# A part of a disk's sector, so that a crash leaves a record as it was or as it is.
RECORD_BYTES = 128
RECORD = re.compile(rb'\{"lines":([0-9]{1,7}),"sha256":"([0-9a-f]{64})"\} *\n')


class Changed(Exception):
    """The lines aren't those that were written; the text says which."""


class Lines(Protocol):
    @property
    def count(self) -> int: ...

    def read(self, first: int, last: int) -> bytes: ...

    def size_of(self, first: int, last: int) -> int: ...


class Checksums:
    def __init__(self, path: str, before: bytes, lines: Lines) -> None:
        """Compares lines, and what stands before them, with the sums that were kept, and keeps those that are missing."""
        self._handle = os.fdopen(os.open(path, os.O_RDWR | os.O_CREAT | os.O_CLOEXEC, 0o600), "rb+", buffering=0)
        self._file = self._handle.fileno()
        self._lines = lines
        self._sum = hashlib.sha256(before)
        self._count = 0
        # Records by their places that are to be written, also those that a full disk didn't take.
        self._unwritten: dict[int, bytes] = {}
        try:
            self._compare()
        except Changed:
            self.close()
            raise
        self.write()

    def _compare(self) -> None:
        lines, kept = self._lines, self._kept()
        known = max((count for count, _ in kept.values()), default=0)
        if known > lines.count:
            raise Changed(f"it ends with line {lines.count:,}, and {known:,} lines were written")
        if lines.count and not kept:
            log.warning("a journal of %d lines has no checksums yet; they are made from it as it is", lines.count)
        bad = None
        for place in range(place_of(lines.count) + 1):
            if place in kept:
                self._read(kept[place][0])
                # A sum that fits speaks for all lines before it; where one before it didn't, that one itself was spoiled.
                fits = kept[place][1] == self._digest()
                bad = None if fits else bad or (place * BLOCK + 1, self._count)
            self._read(min(lines.count, (place + 1) * BLOCK))
            if kept.get(place) != (self._count, self._digest()):
                self._unwritten[place] = self._record()
        if bad:
            raise Changed(f"its lines {bad[0]:,} to {bad[1]:,} aren't those that were written"
                          + (", or the checkpoint before them isn't" if bad[0] == 1 else ""))

    def _kept(self) -> dict[int, tuple[int, bytes]]:
        """The counts and sums of the records that can be read, by their places."""
        data = os.pread(self._file, os.fstat(self._file).st_size, 0)
        records = {place: RECORD.fullmatch(data[place * RECORD_BYTES:(place + 1) * RECORD_BYTES]) for place in range(len(data) // RECORD_BYTES)}
        return {place: (int(found[1]), found[2]) for place, found in records.items() if found and place_of(int(found[1])) == place}

    def _read(self, upto: int) -> None:
        if self._count < upto:
            self._take(self._lines.read(self._count + 1, upto), upto - self._count)

    def _take(self, data: bytes | memoryview, count: int) -> None:
        """Takes the next lines, all of one block."""
        if self._count and self._count % BLOCK == 0:
            self._sum = hashlib.sha256(self._sum.digest())
        self._sum.update(data)
        self._count += count

    def _digest(self) -> bytes:
        return self._sum.hexdigest().encode()

    def _record(self) -> bytes:
        return (b'{"lines":%d,"sha256":"%b"}' % (self._count, self._digest())).ljust(RECORD_BYTES - 1) + b"\n"

    def add(self, data: bytes) -> None:
        """Takes the lines that were added to the journal and are on the disk: the bytes that they have there."""
        view = memoryview(data)
        while view:
            first = self._count + 1
            last = min((self._count // BLOCK + 1) * BLOCK, self._lines.count)
            size = self._lines.size_of(first, last)
            self._take(view[:size], last + 1 - first)
            view = view[size:]
            self._unwritten[place_of(last)] = self._record()
        self.write()

    def write(self) -> None:
        """Writes what is to be written. They aren't synced, since a start makes what is missing."""
        try:
            for place, record in list(self._unwritten.items()):
                if os.pwrite(self._file, record, place * RECORD_BYTES) == RECORD_BYTES:
                    del self._unwritten[place]
        except OSError:
            pass  # A full disk: they are written with the next ones.

    def close(self) -> None:
        self._handle.close()


def place_of(count: int) -> int:
    """The place of the block in which the last of so many lines is."""
    return max(count - 1, 0) // BLOCK
