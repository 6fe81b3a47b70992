"""How much room a journal and its book have, and when a new one is to begin."""

import asyncio
from collections.abc import Iterator

from .journal import MOST_LINES, FileOfLines
from .limits import Limits
from .metrics import one
from .program import Replies

# The last line of a journal is left for the one by which a sheet ends.
MOST_TAKEN = MOST_LINES - 1
WARNS_AT = 90


class Room:
    def __init__(self, lines: FileOfLines, limits: Limits) -> None:
        self._lines = lines
        self._limits = limits
        # The number of the book's last entry.
        self._used = 0
        # Set where a new journal is to begin, and where one has begun.
        self.is_scarce = asyncio.Event()

    def count(self, replies: Replies) -> None:
        """Looks which entry the last accepted line of these has."""
        place = next((place for place in range(len(replies.kinds) - 1, -1, -1) if replies.kinds[place] == b"accepted"), None)
        if place is not None:
            self._used = max(self._used, int(replies.texts[place].split(b" ")[2]))
        if self._limits.next_at and self.percent >= self._limits.next_at:
            self.is_scarce.set()

    @property
    def entries_left(self) -> int:
        return max(self._limits.entries - self._used, 0)

    @property
    def lines_left(self) -> int:
        return max(MOST_TAKEN - self._lines.count, 0)

    @property
    def percent(self) -> int:
        """How much is used of the lines or of the book, whichever is more."""
        return max(100 * self._used // self._limits.entries, 100 * min(self._lines.count, MOST_TAKEN) // MOST_TAKEN)

    @property
    def warning(self) -> str | None:
        if self.percent < WARNS_AT:
            return None
        return f"the journal has room for {self.lines_left:,} lines more, and its book for {self.entries_left:,} entries"

    def fits(self, lines: int, taken: int, unanswered: int) -> bool:
        """Whether so many lines surely fit behind those just taken, where each that has no reply yet may become an entry.

        An empty book takes any request, since one that has more lines than a book has entries never fits.
        """
        if taken + lines > MOST_TAKEN - self._lines.count:
            return False
        before = taken + unanswered
        return not self._limits.next_at or before + lines <= self.entries_left or not (self._used or before)

    def words(self, lines: int) -> str:
        """Why so many lines don't fit."""
        if lines > self.lines_left:
            return f"91: the journal would have over {MOST_TAKEN:,} lines; begin a new one"
        return f"the book has room for {self.entries_left:,} entries; begin a new journal"

    def gauges(self) -> Iterator[str]:
        yield from one("wagons_lines_left", "gauge", "lines for which the journal has room", self.lines_left)
        yield from one("wagons_entries_left", "gauge", "entries for which the book has room", self.entries_left)
        share = min(self.lines_left / MOST_TAKEN, self.entries_left / self._limits.entries)
        yield from one("wagons_capacity_left_ratio", "gauge", "the smaller share of both that is left", round(share, 6))
