"""Who sent which line of a journal, and when it was taken: `senders.jsonl`, a record for the lines of each request.

A record is written before its lines, so that a service that was killed leaves no line without one; what it says of lines
that never came is cut off at the next start. Records are synced soon after, so a machine that fails may lose those of its
last second. The journal itself stays as it came.
"""

import re
from array import array
from bisect import bisect_left, bisect_right
from collections.abc import Sequence
from datetime import UTC, datetime
from typing import TYPE_CHECKING, NamedTuple

if TYPE_CHECKING:
    from .journal import FileOfLines

# The name of the line by which a sheet ends.
OURS = "wagons-service"
RECORD = re.compile(rb'\{"first":([0-9]{1,7}),"last":([0-9]{1,7}),"sender":"([A-Za-z0-9._-]{0,64})","taken":"([0-9T:.Z-]{1,30})"\}')


class Sent(NamedTuple):
    """The lines of these numbers were sent by this name, and taken at this moment. Of a stream the name may be empty."""

    first: int
    last: int
    name: str
    taken: str

    def added_to(self, record: bytes) -> bytes:
        """A reply's record with who sent its line."""
        return b'%b,"sender":"%b","taken":"%b"}' % (record[:-1], self.name.encode(), self.taken.encode())


def written(moment: datetime) -> str:
    """A moment as a record has it."""
    return moment.isoformat(timespec="milliseconds").replace("+00:00", "Z")


def record(first: int, last: int, name: bytes, taken: bytes) -> bytes:
    return b'{"first":%d,"last":%d,"sender":"%b","taken":"%b"}' % (first, last, name, taken)


class SentLines:
    def __init__(self, file: "FileOfLines", lines: int) -> None:
        """What is known of a journal that has so many lines."""
        self._file = file
        # By their order: where each record stands, and the number of its first line. One that can't be read isn't among them.
        self._places = array("Q")
        self._firsts = array("Q")
        self._is_synced = True
        self._found: Sent | None = None
        for place, line in enumerate(file.lines(), 1):
            if found := RECORD.fullmatch(line):
                self._places.append(place)
                self._firsts.append(int(found[1]))
        self._cut(lines)

    def _cut(self, lines: int) -> None:
        """Cuts off what is said of lines that never came, since a crash came first."""
        while self._places and (last := self._read(self._places[-1])) and last.last > lines:
            self._keep_first(len(self._places) - 1)
            if last.first <= lines:
                self._append([last.first], [record(last.first, lines, last.name.encode(), last.taken.encode())])
                self._is_synced = False

    def _keep_first(self, count: int) -> None:
        if count < len(self._places):
            self._file.cut(self._places[count] - 1)
            del self._places[count:], self._firsts[count:]
            self._found = None

    def _append(self, firsts: Sequence[int], records: Sequence[bytes]) -> None:
        place = self._file.count + 1
        self._file.append(records, is_synced=False)
        self._places.extend(range(place, place + len(records)))
        self._firsts.extend(firsts)

    def _read(self, place: int) -> Sent | None:
        found = RECORD.fullmatch(self._file.read(place, place)[:-1])
        return Sent(int(found[1]), int(found[2]), found[3].decode(), found[4].decode()) if found else None

    def add(self, first: int, requests: Sequence[tuple[str, int]]) -> None:
        """Says who sends the next lines: of each request the name, and how many lines it has."""
        taken = written(datetime.now(UTC)).encode()
        firsts, records = [], []
        for name, count in requests:
            if count:
                firsts.append(first)
                records.append(record(first, first + count - 1, name.encode(), taken))
            first += count
        if records:
            self._append(firsts, records)
            self._is_synced = False

    @property
    def last(self) -> int:
        """The number of the last line of which something is said."""
        found = self._read(self._places[-1]) if self._places else None
        return found.last if found else 0

    def copy(self, sent: Sequence[Sent]) -> None:
        """Says who sent lines that are kept elsewhere, so that nothing is synced; what is said of lines already stays."""
        last = self.last
        if new := [it if it.first > last else it._replace(first=last + 1) for it in sent if it.last > last]:
            self._append([it.first for it in new], [record(it.first, it.last, it.name.encode(), it.taken.encode()) for it in new])

    def forget(self, first: int) -> None:
        """The lines from this number on weren't added."""
        self._keep_first(bisect_left(self._firsts, first))

    def sync(self) -> None:
        if not self._is_synced:
            self._is_synced = True
            self._file.sync()

    def find(self, number: int) -> Sent | None:
        """Who sent a line. It isn't known of lines that came before names were kept."""
        if not (self._found and self._found.first <= number <= self._found.last):
            place = bisect_right(self._firsts, number)
            self._found = self._read(self._places[place - 1]) if place else None
        return self._found if self._found and number <= self._found.last else None

    def first_since(self, moment: str) -> int:
        """The number of the first line that was taken at a moment or later, as records have it; past the last one where none was."""
        place = bisect_left(self._places, moment, key=lambda place: found.taken if (found := self._read(place)) else "")
        return self._firsts[place] if place < len(self._firsts) else self.last + 1

    def close(self) -> None:
        self._file.close()
