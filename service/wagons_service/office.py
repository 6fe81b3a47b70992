"""The office: what stands between those who send lines, the journal and the program.

Lines that come while others are synced to the disk are written and synced together, so a sync serves many senders.
"""

import asyncio
import logging
import math
import time
from bisect import bisect_right
from collections import deque
from collections.abc import Callable, Sequence
from contextlib import suppress
from dataclasses import dataclass
from enum import Enum
from itertools import chain
from operator import attrgetter

from .journal import CHUNK, Broken, Journal, KeptReplies, NotKept, is_blank
from .journal_writer import JournalWriter
from .limits import Limits
from .metrics import Metrics
from .program import DONE, NOTHING, Ended, Program, Replies
from .room import MOST_TAKEN as MOST_TAKEN
from .room import Room
from .sent import OURS
from .silence import Silence

log = logging.getLogger("wagons-service")

# So often in a row the program may be ended by a signal soon after its start, or before it has read the journal.
MOST_DEATHS = 10
SECONDS_OF_A_LIFE = 1.0
SECONDS_BETWEEN_DEATHS = 0.1
LAST_REFUSALS = 50
# So many lines are written, synced and given to the program at once, so that who comes first waits for few others.
MOST_LINES_AT_ONCE = 5_000
SECONDS_TO_END = 8
SECONDS_TO_WRITE = 3
TURNS = "a new journal begins"
SECONDS_BETWEEN_TRIES = 0.5


class State(Enum):
    STARTING = "starting"
    RUNNING = "running"
    FULL = "full"
    STOPPED = "stopped"
    CLOSING = "closing"


class NotTaken(Exception):
    """Nothing of a request is in the journal; the text says why."""


class Full(NotTaken):
    """They fit in a new journal."""


class Stopped(Exception):
    """The lines are in the journal, but there are no replies to them now; the text says why."""


@dataclass(eq=False, slots=True)
class _Request:
    lines: Sequence[bytes]
    numbers: "asyncio.Future[range]"
    name: str = OURS
    is_ours: bool = False
    # Lower ones come first.
    rank: int = 0
    # Once it is taken.
    taken: range = range(0)

    def refuse(self, why: Exception) -> None:
        if not self.numbers.done():
            self.numbers.set_exception(why)

    def tell(self) -> None:
        if not self.numbers.done():
            self.numbers.set_result(self.taken)


RANK = attrgetter("rank")


def many_at_once(queue: Sequence[_Request]) -> int:
    """How many requests are written together."""
    lines = 0
    for place, request in enumerate(queue):
        lines += len(request.lines)
        if place and lines > MOST_LINES_AT_ONCE:
            return place
    return len(queue)


class Office:
    def __init__(self, journal: Journal, command: Sequence[str], metrics: Metrics, limits: Limits = Limits()) -> None:
        self.journal = journal
        self.metrics = metrics
        self.room = Room(journal.lines, limits)
        self.silence = Silence(limits.answer_within)
        self.state = State.STARTING
        self.words = "the office is starting: it reads its journal"
        self.refused: deque[int] = deque(maxlen=LAST_REFUSALS)
        # Is told of replies that weren't given before, also while the journal is read.
        self.hear: Callable[[Replies], None] | None = None
        self._command = command
        self._program: Program | None = None
        # The same, also while it still reads the journal.
        self._started: Program | None = None
        self._why_killed: str | None = None
        self._sent = 0
        self._told = 0
        self._counted = 0
        self._full: str | None = None
        self._queue: list[_Request] = []
        self._is_writing = False
        self._is_paused = False
        self._is_over = False
        self._wake = asyncio.Event()
        # Requests that are taken, in their order, and mostly have their replies soon.
        self._taken: deque[_Request] = deque()
        # Who waits for the reply to which line, and until when.
        self._waiting: dict[asyncio.Future[None], tuple[int, float]] = {}
        self._tasks: list[asyncio.Task[None]] = []

    def start(self) -> None:
        if self.journal.replies.spoiled:
            log.warning("replies.jsonl can't be read from its line %d on; it is made again from the journal", self.journal.replies.spoiled)
        for name, torn in ("journal.jsonl", self.journal.lines.torn), ("replies.jsonl", self.journal.replies.torn):
            if torn:
                log.warning("%s ended in the middle of a line, which was cut off: %r", name, torn[:200])
        self.silence.take(self.journal.last_line)
        self._tasks = [asyncio.create_task(work) for work in (self._write_all(), self._keep_running(), self._tick())]
        for task in self._tasks:
            task.add_done_callback(self._judge_end)

    def _judge_end(self, task: asyncio.Task[None]) -> None:
        """Whatever goes wrong in here that nobody thought of, no sender waits for good."""
        if not task.cancelled() and (fault := task.exception()):
            self.stop(f"the service failed: {fault!r}")

    async def pause(self) -> None:
        """Takes no more lines, and waits until all that were taken are answered. `resume` takes lines again."""
        if self._is_paused or self.state not in (State.RUNNING, State.FULL):
            raise NotTaken(self.words or TURNS)
        self._is_paused = True
        await self._until_written()
        await self.until_answered(self.journal.last_line)

    def resume(self) -> None:
        self._is_paused = False

    async def _until_written(self) -> None:
        while self._queue or self._is_writing:
            await asyncio.sleep(0.005)

    async def close(self) -> None:
        """Ends the program after the lines that were taken."""
        self._set(State.CLOSING, TURNS if self._is_paused else "the service is being stopped")
        with suppress(TimeoutError):
            async with asyncio.timeout(SECONDS_TO_WRITE):
                await self._until_written()
        program = self._program
        if program:
            program.close()
            await asyncio.wait([program.ended], timeout=SECONDS_TO_END)
            program.kill()
        for task in self._tasks:
            task.cancel()
        await asyncio.gather(*self._tasks, return_exceptions=True)
        with suppress(Broken):
            self.journal.sent.sync()
        self._is_over = True
        self._end_waiting(has_ended=True)

    @property
    def has_turned(self) -> bool:
        """Whether a new journal has begun behind this one."""
        return self._is_over and self._is_paused

    @property
    def is_up(self) -> bool:
        """Whether lines are taken, and their replies come."""
        return self.state is State.RUNNING and not self.silence.is_long

    @property
    def answered(self) -> int:
        """The number of the last line whose reply is whole."""
        return self.journal.replies.last

    def may_take(self) -> None:
        """Raises `NotTaken` where no lines are taken now."""
        if self.state is State.FULL and not self._is_paused:
            raise Full(self.words)
        if self.state is not State.RUNNING:
            raise NotTaken(self.words)
        if self._is_paused:
            raise NotTaken(TURNS)

    async def take(self, lines: Sequence[bytes], name: str = OURS, comes_first: bool = False) -> range:
        """Puts the lines of a sender into the journal, on the disk, and gives their numbers: all of them or, with `NotTaken`, none.

        Mostly the replies come soon, and then the numbers are given with them, so that a sender is woken once.
        """
        self.may_take()
        if not lines:
            return range(self.journal.lines.count + 1, self.journal.lines.count + 1)
        request = _Request(lines, asyncio.get_running_loop().create_future(), name, rank=int(not comes_first))
        self._queue.append(request)
        self._wake.set()
        return await request.numbers

    async def until_answered(self, number: int, seconds: float = math.inf) -> None:
        """Waits until the reply to a line is whole. `Stopped` where the office stops before, or where it takes longer."""
        if self.answered >= number:
            return
        if self.state is State.STOPPED or self._is_over:
            raise Stopped(self.words)
        done: asyncio.Future[None] = asyncio.get_running_loop().create_future()
        self._waiting[done] = number, time.monotonic() + seconds
        try:
            await done
        finally:
            self._waiting.pop(done, None)

    # Lines go into the journal.

    async def _write_all(self) -> None:
        writer = JournalWriter(self.journal)
        try:
            while True:
                await self._wake.wait()
                self._wake.clear()
                while self._queue:
                    self._is_writing = True
                    await self._write(writer, self._next())
                    self._is_writing = False
                    self._end_sheet()
        finally:
            await writer.end(SECONDS_TO_WRITE)

    async def _tick(self) -> None:
        while True:
            await asyncio.sleep(SECONDS_BETWEEN_TRIES)
            self._try_again()
            await asyncio.to_thread(self.journal.sent.sync)
            self._judge_silence()
            self._tell_taken(self.journal.lines.count)
            now = time.monotonic()
            for done, (_, deadline) in self._waiting.items():
                if deadline < now and not done.done():
                    done.set_exception(Stopped(f"there is no reply yet: {self.words}" if self.words else "there is no reply yet"))

    def _judge_silence(self) -> None:
        """A program that owes replies and gives none for too long hangs, and is killed; `_keep_running` starts it again."""
        program = self._started
        last = min(self._sent, self.journal.last_line)
        # The end of a sheet may wait for room on the disk.
        is_owed = program is not None and self._told < last and program.cutter.open_sheet != self.journal.last_line
        self.silence.go_on(SECONDS_BETWEEN_TRIES, is_owed)
        self.silence.age(self.answered)
        if program and self.silence.is_too_long:
            self._why_killed = self.silence.words
            program.kill()

    def _try_again(self) -> None:
        """What couldn't be written when the disk was full."""
        try:
            self.journal.replies.write()
        except Broken as fault:
            self.stop(str(fault))
        self._end_sheet()

    def _next(self) -> list[_Request]:
        """The requests that are taken next: those that come first, and then others up to what is soon done. Those that can't be
        taken are refused."""
        queue = sorted(self._queue, key=RANK)
        many = many_at_once(queue)
        queue, self._queue = queue[:many], queue[many:]
        if self.journal.replies.are_behind:
            self._try_again()
        batch, taken, unanswered = [], 0, max(self.journal.last_line - self._told, 0)
        for request in queue:
            if request.is_ours and self.state is not State.STOPPED:
                batch.append(request)
            elif self.state is not State.RUNNING:
                request.refuse(NotTaken(self.words))
            elif self.journal.replies.are_behind:
                request.refuse(NotTaken("the disk is full: replies couldn't be kept"))
            elif not self.room.fits(len(request.lines), taken, unanswered):
                request.refuse(Full(self.room.words(len(request.lines))))
            else:
                batch.append(request)
                taken += len(request.lines)
        return batch

    async def _write(self, writer: JournalWriter, batch: list[_Request]) -> None:
        lines = list(chain.from_iterable(request.lines for request in batch))
        if not lines:
            return
        first = self.journal.lines.count + 1
        try:
            data = await writer.add(lines, [(request.name, len(request.lines)) for request in batch])
        except NotKept as fault:
            log.error("lines couldn't be added to the journal: %s", fault)
            for request in batch:
                request.refuse(NotTaken(f"the journal couldn't be written: {fault}"))
        except Broken as fault:
            self.stop(str(fault))
            for request in batch:
                request.refuse(Stopped(f"{fault}; whether the lines were taken is known after a new start"))
        else:
            self._number(batch, first)
            await self._feed(first, data)

    def _number(self, batch: list[_Request], first: int) -> None:
        for request in batch:
            request.taken = range(first, first + len(request.lines))
            first += len(request.lines)
            if is_blank(request.lines[-1]) or self.state is State.STOPPED:
                # It may be that none of its lines has a reply.
                request.tell()
            else:
                self._taken.append(request)
        self.silence.take(self.journal.last_line)
        # A program that read the journal may have come to them before.
        self._tell_taken(self.answered)

    async def _feed(self, first: int, data: bytes) -> None:
        """Gives lines to the program, the first of this number, unless it still reads the journal and will come to them there."""
        program = self._program
        if program:
            count = self.journal.lines.count
            is_next = self._sent == first - 1
            program.send(data if is_next else self.journal.lines.read(self._sent + 1, count))
            self._sent = count
            await program.drain()

    # The program runs, and reads the journal when it was started.

    async def _keep_running(self) -> None:
        deaths = 0
        while deaths < MOST_DEATHS:
            start = time.monotonic()
            try:
                ended, has_read = await self._run()
            except OSError as fault:
                self.stop(f"{self._command[0]} couldn't be started: {fault}")
                return
            if self.state in (State.CLOSING, State.STOPPED):
                return
            if not ended.by_signal:
                self.stop(ended.words)
                return
            if self._why_killed:
                ended, self._why_killed = Ended(self._why_killed, ended.status), None
            log.error("%s; it is started again", ended.words)
            self.metrics.restarts += 1
            lived = time.monotonic() - start >= SECONDS_OF_A_LIFE
            deaths = 0 if has_read and lived else deaths + 1
            self._set(State.STARTING, f"{ended.words}; it reads the journal again")
            await asyncio.sleep(SECONDS_BETWEEN_DEATHS * deaths)
        self.stop(f"{ended.words} {MOST_DEATHS} times, soon after its start")

    async def _run(self) -> tuple[Ended, bool]:
        """Runs the program to its end: how it ended, and whether it had read the journal."""
        if not self.journal.last_line:
            # No reply will say whether the program can run at all, so it runs over no lines first.
            trial = await Program.start(self._command, lambda _: None)
            trial.close()
            if not (await asyncio.wait([trial.ended], timeout=self.silence.most))[0]:
                self._why_killed = f"the program hasn't ended over no lines within {self.silence.most:g} seconds"
                trial.kill()
            ended = await trial.ended
            if ended.status not in DONE:
                return ended, False
        self._started = program = await Program.start(self._command, self._take_replies)
        self.silence.end()
        replay = asyncio.create_task(self._replay(program))
        try:
            ended = await program.ended
            return ended, replay.done()
        finally:
            self._program = self._started = None
            program.kill()
            replay.cancel()
            await asyncio.gather(replay, return_exceptions=True)

    async def _replay(self, program: Program) -> None:
        """Gives the program the journal, and takes lines again when all of them are answered."""
        try:
            await self._read_journal(program)
        except Broken as fault:
            self.stop(str(fault))
            program.kill()
            return
        last = self.journal.last_line
        self._end_sheet()
        while self._told < last:
            await asyncio.sleep(0.005)
        log.info("the office runs; its journal has %d lines", self.journal.lines.count)
        self._run_or_be_full()

    def _run_or_be_full(self) -> None:
        if self._full:
            self._set(State.FULL, self._full)
        else:
            self._set(State.RUNNING, "")

    async def _read_journal(self, program: Program) -> None:
        lines = self.journal.lines
        self._sent = self._told = 0
        while self._sent < lines.count:
            last = lines.first_bytes(self._sent + 1, CHUNK)
            program.send(lines.read(self._sent + 1, last))
            self._sent = last
            await program.drain()
        self._program = program

    def _set(self, state: State, words: str) -> None:
        if self.state is not State.CLOSING and (self.state is not State.STOPPED or state is State.CLOSING):
            self.state, self.words = state, words

    def stop(self, words: str) -> None:
        """Takes no more lines; the words say why."""
        log.error("the office stopped: %s", words)
        self._set(State.STOPPED, words)
        if self._program:
            self._program.kill()
        self._end_waiting(has_ended=True)

    # Replies come.

    def _take_replies(self, replies: Replies) -> None:
        kept = self.journal.replies
        numbers = replies.numbers
        if numbers[-1] > self._sent:
            self.stop(f"the program answered line {numbers[-1]} of {self._sent}")
            return
        before = bisect_right(numbers, kept.last)
        if before and not self._are_as_before(replies.part(0, before)):
            return
        self._count(replies.part(bisect_right(numbers, self._counted)))
        new = replies.part(before)
        try:
            kept.keep(new.numbers, KeptReplies.records(new.numbers, new.texts))
        except Broken as fault:
            self.stop(str(fault))
            return
        self._told = numbers[-1]
        self.silence.end()
        self._end_sheet()
        self._end_waiting()

    def _are_as_before(self, replies: Replies) -> bool:
        """Whether lines are answered as they were before this start. Mostly all are, which is seen at once."""
        records = KeptReplies.records(replies.numbers, replies.texts)
        kept = self.journal.replies.read(replies.numbers[0], replies.numbers[-1])
        return b"\n".join([*records, b""]) == kept or all(map(self._is_as_before, *replies))

    def _is_as_before(self, number: int, kind: bytes, text: bytes) -> bool:
        """Whether a line is answered as before. A plan may be another one of the same cost."""
        before = self.journal.replies.read(number, number)
        if before == KeptReplies.record(number, text) + b"\n":
            return True
        head = text.partition(b"\n")[0]
        if kind == b"plan" and before.startswith(KeptReplies.record(number, head)[:-2] + b"\\n"):
            log.warning("line %d has another plan of the same cost now; the kept reply stays", number)
            return True
        self.stop(f"line {number} was answered {before[:200].decode()!r} before, and is now answered {head.decode()!r}; "
                   "the program, its files or its options aren't those of this journal")
        return False

    def _count(self, replies: Replies) -> None:
        """Counts replies that weren't before, and keeps the refusals among them in mind."""
        if not replies.numbers:
            return
        self._counted = replies.numbers[-1]
        self.metrics.count(replies)
        self.room.count(replies)
        if self.hear:
            self.hear(replies)
        refused = replies.refused
        lines = self.journal.lines.read(refused[0][0], refused[-1][0]).split(b"\n") if refused else []
        for number, text in refused:
            self.metrics.count_refusal(text, lines[number - refused[0][0]])
            if not self._is_our_line(number, text):
                self.refused.append(number)
            if text.endswith(b" refused 72") and not self._full:
                self._full = f"{text.decode()}: the book is full; begin a new journal"
                if self.state is State.RUNNING:
                    self._set(State.FULL, self._full)

    def _is_our_line(self, number: int, refusal: bytes) -> bool:
        return refusal.endswith(b" refused 24 type") and self.journal.line(number) == NOTHING

    def _end_sheet(self) -> None:
        """A sheet ends where the next reply begins; where no other line comes, one is sent that changes nothing."""
        program = self._program
        is_idle = not self._queue and not self._is_writing
        if program and is_idle and (sheet := program.cutter.open_sheet) and sheet == self.journal.last_line:
            numbers: asyncio.Future[range] = asyncio.get_running_loop().create_future()
            numbers.add_done_callback(lambda done: done.exception())
            self._queue.append(_Request([NOTHING], numbers, is_ours=True))
            self._wake.set()

    def _tell_taken(self, last: int) -> None:
        """Gives their numbers to requests up to this line."""
        while self._taken and self._taken[0].taken[-1] <= last:
            self._taken.popleft().tell()

    def _end_waiting(self, has_ended: bool = False) -> None:
        """Tells those whose reply is whole and, where the office has ended, all others."""
        self._tell_taken(self.journal.lines.count if has_ended else self.answered)
        for done, (number, _) in self._waiting.items():
            if done.done():
                continue
            if number <= self.answered:
                done.set_result(None)
            elif has_ended:
                done.set_exception(Stopped(self.words))
