"""The newest notes of a journal in memory, by the lines that they are of."""

import re
from bisect import bisect_left, bisect_right
from typing import NamedTuple

# How a note begins.
LINE = re.compile(rb'^\{"line":([0-9]+),', re.M)


class NoNote(Exception):
    """The program printed what is no note."""


class Page(NamedTuple):
    """Some notes as the program printed them, the last line that they cover, and whether more lines have notes."""

    line: int
    more: bool
    notes: list[bytes]


class KeptNotes:
    def __init__(self, most: int) -> None:
        self._most = most
        self._piece = b""
        # Of each note: its line's number, and its text without the line feed.
        self._numbers: list[int] = []
        self._texts: list[bytes] = []
        # All notes of the lines up to this one are here, but for those that were dropped.
        self.line = 0
        # The last line of which notes were dropped, or 0.
        self.dropped = 0

    def take(self, data: bytes) -> None:
        """What the program printed behind what it printed before. Notes of lines that are covered are known already."""
        data = self._piece + data
        end = data.rfind(b"\n") + 1
        data, self._piece = data[:end], data[end:]
        texts, numbers = data.split(b"\n")[:-1], list(map(int, LINE.findall(data)))
        if len(numbers) != len(texts):
            raise NoNote(f"the program printed what is no note: {data[:200]!r}")
        known = bisect_right(numbers, self.line)
        self._numbers += numbers[known:]
        self._texts += texts[known:]
        self._drop(len(self._numbers) - self._most)

    def _drop(self, many: int) -> None:
        """Drops the oldest notes, so many at least; of no line some are dropped and others kept."""
        if many > 0:
            self.dropped = self._numbers[many - 1]
            end = bisect_right(self._numbers, self.dropped)
            del self._numbers[:end], self._texts[:end]

    def begin_again(self) -> None:
        """The program begins with line 1 again; what it printed of lines that aren't covered, it prints again."""
        end = bisect_right(self._numbers, self.line)
        self._piece = b""
        del self._numbers[end:], self._texts[end:]

    def page(self, since: int, most: int) -> Page:
        """Notes of the lines after one, at most so many; but of a line all or none, and of the first one with notes all."""
        first, behind = bisect_right(self._numbers, since), bisect_right(self._numbers, self.line)
        if behind - first <= most:
            return Page(self.line, False, self._texts[first:behind])
        end = bisect_left(self._numbers, self._numbers[first + most])
        if end == first:
            end = bisect_right(self._numbers, self._numbers[first])
        if end == behind:
            return Page(self.line, False, self._texts[first:behind])
        return Page(self._numbers[end] - 1, True, self._texts[first:end])

    def newest(self, since: int, most: int) -> Page:
        """The newest notes of the lines after one, at most so many."""
        first, behind = bisect_right(self._numbers, since), bisect_right(self._numbers, self.line)
        return Page(self.line, False, self._texts[max(first, behind - most):behind])

    @property
    def last(self) -> int:
        """The last covered line with a note that is kept, or 0."""
        behind = bisect_right(self._numbers, self.line)
        return self._numbers[behind - 1] if behind else 0
