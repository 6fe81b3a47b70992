"""The office of a stream: its journal and its replies are in Redis, and the files are a copy of what was read there.

A reply counts as given when it is in the stream of replies, whoever wrote it. What the program answered before that is
kept in memory, and is written by the service that holds the lease.
"""

import asyncio
from bisect import bisect_right
from collections.abc import Callable, Sequence
from typing import NamedTuple

from .journal import Broken, FileOfLines, Journal, KeptReplies, NotKept
from .limits import Limits
from .metrics import Metrics
from .office import TURNS, NotTaken, Office, State
from .program import NOTHING, Program, Replies
from .stream_copy import Known
from .stream_senders import sent_of
from .streams import MOST_ENTRIES, Entries

NOT_READ = "the stream isn't read to its end yet"


class Unwritten(NamedTuple):
    ids: list[bytes]
    texts: list[bytes]


class StreamOffice(Office):
    def __init__(self, journal: Journal, command: Sequence[str], metrics: Metrics, grew: Callable[[], None], append: Callable[[bytes], None],
                 ids: FileOfLines, known: Known, limits: Limits = Limits()) -> None:
        super().__init__(journal, command, metrics, limits)
        # Those of the lines, in memory and beside the journal.
        self.ids = known.ids
        self._kept_ids = ids
        # The replies to the lines behind the last one whose reply is in the stream.
        self._kinds: list[bytes] = []
        self._texts: list[bytes] = []
        self._grew = grew
        self._append = append
        self._refusals = known.refusals
        self._why_not: str | None = NOT_READ
        self._is_up = False
        self._ended_sheet = 0

    # Lines come from the stream alone.

    async def _write_all(self) -> None:
        pass

    def add(self, entries: Entries) -> None:
        """Takes the next entries of the stream; `feed` hands them on."""
        first = self.journal.lines.count + 1
        self._kept_ids.append(entries.ids, is_synced=False)
        try:
            self.journal.copy(entries.lines, sent_of(first, entries))
        except NotKept:
            self._kept_ids.cut(first - 1)
            raise
        self.silence.take(self.journal.last_line)
        self.ids += entries.ids
        self._refusals |= {first + index: refusal for index, refusal in entries.refusals.items()}

    async def feed(self, entries: Entries) -> None:
        await self._feed(self.journal.lines.count + 1 - len(entries.lines), b"\n".join([*entries.lines, b""]))
        self._end_sheet()

    def may_lead(self, why_not: str | None) -> None:
        """Whether the stream is read and written now; where it isn't, no lines are taken."""
        self._why_not = why_not
        self._judge()

    @property
    def is_ready(self) -> bool:
        return self.state in (State.RUNNING, State.FULL)

    def _run_or_be_full(self) -> None:
        self._is_up = True
        self._judge()

    def _judge(self) -> None:
        if self._why_not is not None:
            self._set(State.STARTING, self._why_not)
        elif self._is_up:
            super()._run_or_be_full()

    async def _read_journal(self, program: Program) -> None:
        self._is_up = False
        self._kinds, self._texts = [], []
        await super()._read_journal(program)

    # Replies.

    def _take_replies(self, replies: Replies) -> None:
        kept, numbers = self.journal.replies, replies.numbers
        if numbers[-1] > self._sent:
            self.stop(f"the program answered line {numbers[-1]} of {self._sent}")
            return
        replies = self._with_refusals(replies)
        before = bisect_right(numbers, kept.last)
        if before and not self._are_as_before(replies.part(0, before)):
            return
        self._count(replies.part(bisect_right(numbers, self._counted)))
        self._told = numbers[-1]
        self.silence.end()
        if before < len(numbers):
            self._kinds += replies.kinds[before:]
            self._texts += replies.texts[before:]
            self._grew()
        self._end_sheet()

    def _with_refusals(self, replies: Replies) -> Replies:
        """The replies, with those of lines that the program wasn't given as they came."""
        if not any(number in self._refusals for number in (replies.numbers if self._refusals else ())):
            return replies
        texts = [b"%d %b" % (number, self._refusals[number]) if number in self._refusals else text for number, _, text in zip(*replies)]
        return Replies(replies.numbers, replies.kinds, texts)

    def unwritten(self) -> "Unwritten":
        """The next replies that aren't in the stream yet."""
        texts = self._texts[:MOST_ENTRIES]
        return Unwritten(self.ids[self.answered:self.answered + len(texts)], texts)

    def confirm(self, ids: list[bytes], texts: list[bytes]) -> None:
        """Takes replies that are in the stream behind those before, at most as many as lines wait for them."""
        kept = self.journal.replies
        first = kept.last + 1
        numbers = range(first, first + len(ids))
        if self.ids[first - 1:numbers[-1]] != ids or not b"".join(texts).isascii():
            self.stop(f"what stands among the replies from {ids[0].decode()} on aren't those of line {first} and the next ones")
            return
        ours = Replies(numbers, self._kinds[:len(ids)], self._texts[:len(ids)])
        try:
            kept.keep(numbers, KeptReplies.records(numbers, texts))
        except Broken as fault:
            self.stop(str(fault))
            return
        del self._kinds[:len(ids)], self._texts[:len(ids)]
        if ours.texts != texts[:len(ours.texts)] and not all(map(self._is_as_before, *ours)):
            return
        self._end_waiting()

    @property
    def is_computed(self) -> bool:
        """Whether the program has answered each line that was read, but for the end of a sheet."""
        count = self.journal.lines.count
        sheet = self._program.cutter.open_sheet if self._program else None
        return self._told == count or sheet == count

    def _end_sheet(self) -> None:
        sheet = self._program.cutter.open_sheet if self._program else None
        if sheet and sheet == self.journal.lines.count and sheet != self._ended_sheet and self.is_ready:
            self._ended_sheet = sheet
            self._append(NOTHING)

    def forget_sheet(self) -> None:
        """The line that was to end a sheet may have been lost."""
        self._ended_sheet = 0

    async def end_program(self) -> bool:
        """Lets the program answer what it was given, the end of a sheet too, and ends it: whether it has answered all."""
        self._is_paused = True
        self._set(State.CLOSING, TURNS)
        if self._program:
            self._program.close()
            await asyncio.wait([self._program.ended])
        return self._told == self.journal.lines.count

    @property
    def has_ended_program(self) -> bool:
        return self._is_paused

    def may_take(self) -> None:
        # The stream takes lines also while a new journal begins, and while the program starts.
        if self._why_not is not None:
            raise NotTaken(self._why_not)
        if self.state is not State.STARTING and not self._is_paused:
            super().may_take()
