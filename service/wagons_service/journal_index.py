"""What the lines of a journal say with their replies: which are a company's messages, who moved each wagon last, and what was
refused of it since.

A railway's replies are found so without reading all the others. Each line is read once, when someone asks.
"""

import asyncio
import re
from array import array
from bisect import bisect_left, bisect_right
from collections.abc import Iterator, Sequence
from typing import NamedTuple

from .journal import FileOfLines, KeptReplies
from .senders import message_of

# So many bytes of lines are read at once; others are answered in between.
BYTES_AT_ONCE = 1 << 16
# What counts for a wagon: a message that was accepted, or that its last moment, its status or its place refused.
OUTCOME = re.compile(rb'^\{"number":([0-9]+),"reply":"[0-9]+ (accepted|refused (?:31|32|33))\b', re.M)


class Refused(NamedTuple):
    """How many messages of a wagon were refused since the last accepted one, and the numbers of the first and the last."""

    times: int
    first: int
    last: int


class _Moved:
    """By which line's message a company began to move a wagon: the numbers ascend."""

    __slots__ = ("numbers", "companies")

    def __init__(self) -> None:
        self.numbers = array("L")
        self.companies: list[str] = []


class JournalIndex:
    def __init__(self, lines: FileOfLines, replies: KeptReplies) -> None:
        self._lines = lines
        self._replies = replies
        # Up to which line it goes.
        self._upto = 0
        self._numbers: dict[str, array[int]] = {}
        self._moved: dict[str, _Moved] = {}
        # By its wagon the number of the last message that was accepted, and what was refused since.
        self._accepted: dict[str, int] = {}
        self._refused: dict[str, Refused] = {}
        self._turn = asyncio.Lock()

    async def read(self, last: int) -> None:
        """Reads up to a line that is answered."""
        async with self._turn:
            while self._upto < last:
                self._read(min(self._lines.first_bytes(self._upto + 1, BYTES_AT_ONCE), last))
                await asyncio.sleep(0)

    async def numbers(self, company: str, first: int, last: int, most: int) -> Sequence[int]:
        """The numbers of the company's messages from one line to another, ascending, the first ones where there are more."""
        await self.read(last)
        found = self._numbers.get(company, array("L"))
        start = bisect_left(found, first)
        return found[start:min(bisect_right(found, last), start + most)]

    def movers(self, upto: int) -> Iterator[tuple[str, str]]:
        """The wagons of which a message was accepted up to a line, each with the company of the last one."""
        for wagon, moved in self._moved.items():
            if place := bisect_right(moved.numbers, upto):
                yield wagon, moved.companies[place - 1]

    def accepted(self, wagon: str) -> int:
        """The number of the last message of a wagon that was accepted; 0 where there is none."""
        return self._accepted.get(wagon, 0)

    @property
    def refused(self) -> Iterator[tuple[str, Refused]]:
        """The wagons of which messages were refused, and none was accepted since."""
        return iter(self._refused.items())

    def _read(self, last: int) -> None:
        first = self._upto + 1
        outcomes = {int(number): outcome for number, outcome in OUTCOME.findall(self._replies.read(first, last))}
        for number, line in enumerate(self._lines.read(first, last)[:-1].split(b"\n"), first):
            if message := message_of(line):
                company, wagon = message
                self._numbers.setdefault(company, array("L")).append(number)
                if outcome := outcomes.get(number):
                    self._note(number, company, wagon, outcome == b"accepted")
        self._upto = last

    def _note(self, number: int, company: str, wagon: str, is_accepted: bool) -> None:
        if not is_accepted:
            before = self._refused.get(wagon)
            self._refused[wagon] = Refused(before.times + 1, before.first, number) if before else Refused(1, number, number)
            return
        self._refused.pop(wagon, None)
        self._accepted[wagon] = number
        moved = self._moved.setdefault(wagon, _Moved())
        if not moved.companies or moved.companies[-1] != company:
            moved.numbers.append(number)
            moved.companies.append(company)
