"""The journal: the lines as they came, each on disk before the office sees it, and the replies kept beside them.

A folder has a folder for each journal, `1`, `2` and so on, with `journal.jsonl`, `replies.jsonl`, `checksums.jsonl` and
`senders.jsonl` in it; the last one is written. All but the first have `checkpoint.jsonl`, from which their office begins, and
`wagons.jsonl`. Lines are numbered from 1, as `wagons run` numbers them, so the journal is what the office read:
`wagons run < journal.jsonl` gives the same replies.
"""

import fcntl
import json
import os
import re
import shutil
import time
from array import array
from collections.abc import Iterator, Mapping, Sequence
from itertools import accumulate
from operator import add
from types import MappingProxyType

from .archive import NotReadable, opened, unpack_all
from .checksums import Changed, Checksums
from .sent import Sent, SentLines

# What one input of `wagons run` may have; past it the program stops with 91 or 92.
MOST_LINES = 1_000_000
MOST_LINE_BYTES = 65_536
BLANK = b" \t\r"
CHUNK = 1 << 20
# What a copy of a stream has beside a journal's lines: where the journal comes from, and the id of each line.
ORIGIN, IDS = "stream.json", "ids"
# What is known of wagons when a journal begins (`known_wagons.py`).
WAGONS = "wagons.jsonl"
NO_FILES: Mapping[str, bytes] = MappingProxyType({})
RECORD = re.compile(rb'\{"number":([0-9]{1,9}),"reply":"[^\0]*\Z')


class NotKept(Exception):
    """Nothing was added, and the file is as before: the disk is full, say."""


class Broken(Exception):
    """What is on the disk isn't known any more, so nothing may be added before a new start."""


class FolderInUse(Exception):
    """Another service has the folder."""


class Unreadable(Exception):
    """The files of the folder don't belong together."""


class RepliesAhead(Unreadable):
    """A journal has replies to lines that it hasn't."""


class FileOfLines:
    """A file that grows by whole lines, and where each of its lines ends."""

    def __init__(self, path: str) -> None:
        # The handle closes the file when nobody reads it any more, though a new journal has begun since.
        try:
            self._handle = os.fdopen(opened(path), "rb+", buffering=0)
        except NotReadable as fault:
            raise Unreadable(str(fault)) from None
        self._file = self._handle.fileno()
        self._ends = array("Q", [0])
        # Where what was added last begins, and its bytes: mostly it is read next.
        self._newest = 0, b""
        size = 0
        while chunk := os.pread(self._file, CHUNK, size):
            at = chunk.find(b"\n")
            while at >= 0:
                self._ends.append(size + at + 1)
                at = chunk.find(b"\n", at + 1)
            size += len(chunk)
        # What a crash left of a line that wasn't written to its end.
        self.torn = os.pread(self._file, MOST_LINE_BYTES, self.size)
        if size > self.size:
            self.cut(self.count)

    @property
    def count(self) -> int:
        return len(self._ends) - 1

    @property
    def size(self) -> int:
        """How many bytes the whole lines have."""
        return self._ends[-1]

    def size_of(self, first: int, last: int) -> int:
        """How many bytes the lines of these numbers have."""
        return self._ends[last] - self._ends[first - 1]

    def cut(self, count: int) -> None:
        """Keeps so many lines of the file."""
        del self._ends[count + 1:]
        self._newest = 0, b""
        os.ftruncate(self._file, self.size)
        os.fdatasync(self._file)

    def read(self, first: int, last: int) -> bytes:
        """The lines of these numbers, both among them, as they stand in the file."""
        start, end = self._ends[first - 1], self._ends[last]
        at, newest = self._newest
        if at <= start and end <= at + len(newest):
            return newest[start - at:end - at]
        parts = []
        while start < end:
            part = os.pread(self._file, min(CHUNK, end - start), start)
            if not part:
                raise Broken("the file is shorter than it was")
            parts.append(part)
            start += len(part)
        return b"".join(parts)

    def lines(self) -> Iterator[bytes]:
        first = 1
        while first <= self.count:
            last = self.first_bytes(first, CHUNK)
            yield from self.read(first, last)[:-1].split(b"\n")
            first = last + 1

    def first_bytes(self, first: int, most: int, last: int | None = None) -> int:
        """The number of the last line, up to `last`, that still fits in so many bytes from a line on; at least that line."""
        low, high, limit = first, self.count if last is None else min(last, self.count), self._ends[first - 1] + most
        if self._ends[high] <= limit:
            return max(low, high)
        while low < high:
            middle = (low + high + 1) // 2
            low, high = (middle, high) if self._ends[middle] <= limit else (low, middle - 1)
        return low

    def append(self, lines: Sequence[bytes], is_synced: bool) -> bytes:
        """Adds lines, given without their line feeds: all of them or, with `NotKept`, none. Gives what was written."""
        before = self.size
        data = b"\n".join([*lines, b""])
        try:
            self._write(data, before)
        except OSError as fault:
            self._cut(before, str(fault))
            raise NotKept(str(fault)) from None
        if is_synced:
            try:
                os.fdatasync(self._file)
            except OSError as fault:
                self._cut(before, str(fault))
                raise Broken(f"the journal couldn't be synced to the disk: {fault}") from None
        # Where each ends: the lengths before it with its own, and a line feed for each.
        self._ends.extend(map(add, accumulate(map(len, lines)), range(before + 1, before + 1 + len(lines))))
        self._newest = before, data
        return data

    def sync(self) -> None:
        try:
            os.fdatasync(self._file)
        except OSError as fault:
            raise Broken(f"the file couldn't be synced to the disk: {fault}") from None

    def _write(self, data: bytes, at: int) -> None:
        view = memoryview(data)
        while view:
            written = os.pwrite(self._file, view, at)
            view, at = view[written:], at + written

    def _cut(self, size: int, why: str) -> None:
        try:
            os.ftruncate(self._file, size)
            os.fdatasync(self._file)
        except OSError as fault:
            raise Broken(f"{why}, and what was written of it couldn't be cut off: {fault}") from None

    def close(self) -> None:
        self._handle.close()


class KeptReplies:
    """The replies, one a line: `{"number":9,"reply":"9 begun 8 20 5"}`, the text as the program gave it.

    They can be made again from the journal, so they aren't synced. Where the disk is full they wait in memory.
    """

    def __init__(self, path: str) -> None:
        self._file = FileOfLines(path)
        self.torn = self._file.torn
        # By a line's number: how many records there are up to it. A blank line has none.
        self._records = array("Q", [0])
        self._waiting: list[bytes] = []
        # The first line that a failing machine spoiled: it and those behind it are made again from the journal.
        self.spoiled: int | None = None
        for record, line in enumerate(self._file.lines(), 1):
            found = RECORD.match(line)
            if not found or int(found[1]) <= self.last or not line.endswith(b'"}'):
                self.spoiled = record
                self._file.cut(record - 1)
                break
            self._number_record(int(found[1]))

    def _number_record(self, number: int) -> None:
        records = self._records[-1]
        self._records.extend([records] * (number - len(self._records)))
        self._records.append(records + 1)

    @property
    def last(self) -> int:
        """The number of the last line that has its reply here."""
        return len(self._records) - 1

    @property
    def are_behind(self) -> bool:
        """Whether some replies couldn't be written yet."""
        return bool(self._waiting)

    @staticmethod
    def record(number: int, reply: bytes) -> bytes:
        return b'{"number":%d,"reply":%b}' % (number, json.dumps(reply.decode("ascii")).encode())

    @classmethod
    def records(cls, numbers: Sequence[int], replies: Sequence[bytes]) -> list[bytes]:
        """The records of many replies. Most are words alone, which are their own JSON; so that is looked for once."""
        texts = b"".join(replies)
        if any(mark in texts for mark in (b"\n", b'"', b"\\")):
            return [cls.record(*reply) for reply in zip(numbers, replies)]
        return [b'{"number":%d,"reply":"%b"}' % reply for reply in zip(numbers, replies)]

    def keep(self, numbers: Sequence[int], records: Sequence[bytes]) -> None:
        """Adds records of ascending numbers behind the last one."""
        if numbers and numbers[-1] - self.last == len(numbers):
            # No blank line stands between them.
            self._records.extend(range(self._records[-1] + 1, self._records[-1] + len(numbers) + 1))
        else:
            for number in numbers:
                self._number_record(number)
        self._waiting.extend(records)
        self.write()

    def write(self) -> None:
        """Writes what waits; it goes on waiting where the disk is full."""
        if self._waiting:
            try:
                self._file.append(self._waiting, is_synced=False)
            except NotKept:
                return
            self._waiting = []

    def read(self, first: int, last: int) -> bytes:
        """The records of the lines of these numbers, both among them, each with its line feed."""
        last = min(last, self.last)
        if first > last:
            return b""
        start, end = self._records[first - 1] + 1, self._records[last]
        on_disk = self._file.count
        written = self._file.read(start, min(end, on_disk)) if start <= min(end, on_disk) else b""
        if not self._waiting:
            return written
        waiting = self._waiting[max(start - 1 - on_disk, 0):max(end - on_disk, 0)]
        return written + b"".join(record + b"\n" for record in waiting)

    def until(self, first: int, last: int, most: int) -> int:
        """The last line so that the records from `first` on, up to its own, have about so many bytes; at most `last`."""
        last = min(last, self.last)
        start = self._records[first - 1] + 1
        if first >= last or start > self._file.count:
            return last
        end = self._records[last]
        record = self._file.first_bytes(start, most, end)
        if record == end:
            return last
        low, high = first, last
        while low < high:
            middle = (low + high + 1) // 2
            low, high = (middle, high) if self._records[middle] <= record else (low, middle - 1)
        return low

    def close(self) -> None:
        self._file.close()


class Folder:
    """A folder of journals, which one service alone has."""

    def __init__(self, path: str) -> None:
        os.makedirs(path, mode=0o700, exist_ok=True)
        self._lock = os.open(f"{path}/lock", os.O_RDWR | os.O_CREAT | os.O_CLOEXEC, 0o600)
        try:
            fcntl.flock(self._lock, fcntl.LOCK_EX | fcntl.LOCK_NB)
        except BlockingIOError:
            os.close(self._lock)
            raise FolderInUse(f"another service has the folder {path}") from None
        self.path = path
        self.last = max((int(name) for name in os.listdir(path) if name.isascii() and name.isdigit()), default=0)
        if not self.last:
            self._begin({})
        unpack_all(f"{path}/{self.last}")

    def journal(self, number: int | None = None) -> "Journal":
        """The last journal, or the one of a number."""
        return Journal(f"{self.path}/{number or self.last}", number or self.last)

    def begin_next(self, checkpoint: bytes, files: Mapping[str, bytes] = NO_FILES) -> None:
        """Begins a new journal from a checkpoint, with some files more. It is there wholly or, with `OSError`, not at all."""
        self._begin({"checkpoint.jsonl": checkpoint, **files})

    def begin_again(self, number: int, files: dict[str, bytes]) -> None:
        """Begins the journal of a number with these files. What stands in its place, and behind it, is renamed."""
        while self.last >= number:
            if self.has(self.last):
                replace(f"{self.path}/{self.last}")
            self.last -= 1
        self.last = number - 1
        self._begin(files)

    def drop_before(self, number: int) -> None:
        """Drops the journals before the one of a number, and those that were renamed. Only a cache is treated so."""
        for name in os.listdir(self.path):
            first = name.partition(".")[0]
            if first.isascii() and first.isdigit() and (first != name or int(name) < number):
                shutil.rmtree(f"{self.path}/{name}", ignore_errors=True)

    def has(self, number: int) -> bool:
        """Whether the journal of a number is kept here."""
        return os.path.isdir(f"{self.path}/{number}")

    def _begin(self, files: dict[str, bytes]) -> None:
        new = f"{self.path}/new"
        shutil.rmtree(new, ignore_errors=True)
        os.mkdir(new, 0o700)
        for name, content in files.items():
            with open(f"{new}/{name}", "wb") as file:
                file.write(content)
                file.flush()
                os.fsync(file.fileno())
        sync_folder(new)
        os.rename(new, f"{self.path}/{self.last + 1}")
        sync_folder(self.path)
        self.last += 1

    def close(self) -> None:
        os.close(self._lock)


def replace(path: str) -> None:
    """Makes room for another file or folder: what is there is renamed, since it may be the last of its kind."""
    new = name = f"{path}.replaced-{time.strftime('%Y-%m-%dT%H:%M:%SZ', time.gmtime())}"
    turn = 1
    while os.path.exists(new):
        turn += 1
        new = f"{name}-{turn}"
    os.rename(path, new)
    sync_folder(os.path.dirname(path))


def sync_folder(path: str) -> None:
    at = os.open(path, os.O_RDONLY | os.O_DIRECTORY)
    try:
        os.fsync(at)
    finally:
        os.close(at)


class Journal:
    """The lines and their replies."""

    def __init__(self, folder: str, number: int = 1) -> None:
        self.number = number
        self.folder = folder
        checkpoint = f"{folder}/checkpoint.jsonl"
        self.checkpoint = checkpoint if os.path.exists(checkpoint) else None
        self.lines = FileOfLines(f"{folder}/journal.jsonl")
        # A service that was killed while it synced may have left lines that are only in memory.
        self.lines.sync()
        self.replies = KeptReplies(f"{folder}/replies.jsonl")
        if self.replies.last > self.lines.count:
            raise RepliesAhead(f"{folder}: line {self.replies.last} has a reply, but the journal ends with line {self.lines.count}")
        sync_folder(folder)
        self.checksums = self._compared(folder)
        self.sent = SentLines(FileOfLines(f"{folder}/senders.jsonl"), self.lines.count)
        self.last_line = self._last_line()

    def _compared(self, folder: str) -> Checksums:
        """The checksums, where the lines are still those that were written."""
        before = b""
        if self.checkpoint:
            with open(self.checkpoint, "rb") as file:
                before = file.read()
        try:
            return Checksums(f"{folder}/checksums.jsonl", before, self.lines)
        except Changed as fault:
            raise Unreadable(f"{folder}/journal.jsonl isn't what was written: {fault}; put a copy of it in its place") from None

    def _last_line(self) -> int:
        """The number of the last line that isn't blank, or 0."""
        for number in range(self.lines.count, 0, -1):
            if not is_blank(self.line(number)):
                return number
        return 0

    def line(self, number: int) -> bytes:
        return self.lines.read(number, number)[:-1]

    def add(self, lines: Sequence[bytes], requests: Sequence[tuple[str, int]] = ()) -> None:
        """Adds lines and syncs them to the disk: all of them, or none. Of each request stands there who sends how many."""
        self.checksums.add(self.write(lines, requests))

    def write(self, lines: Sequence[bytes], requests: Sequence[tuple[str, int]]) -> bytes:
        """The same, but that the lines must still be added to the checksums. Gives what was written."""
        first = self.lines.count + 1
        self.sent.add(first, requests)
        try:
            data = self.lines.append(lines, is_synced=True)
        except NotKept:
            self.sent.forget(first)
            raise
        for number in range(self.lines.count, first - 1, -1):
            if not is_blank(lines[number - first]):
                self.last_line = number
                break
        return data

    def copy(self, lines: Sequence[bytes], sent: Sequence[Sent]) -> None:
        """Adds lines that are kept elsewhere, and who sent them; none of them is blank."""
        first = self.lines.count + 1
        self.sent.copy(sent)
        try:
            self.lines.append(lines, is_synced=False)
        except NotKept:
            self.sent.forget(first)
            raise
        self.last_line = self.lines.count

    def close(self) -> None:
        self.lines.close()
        self.replies.close()
        self.checksums.close()
        self.sent.close()


def is_blank(line: bytes) -> bool:
    """Whether `wagons run` skips the line: it has spaces, tabs and carriage returns alone."""
    return not line.strip(BLANK)
