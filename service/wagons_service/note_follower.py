"""The notes of a journal for those who ask: a second program follows the journal from the first question on.

It isn't given lines while nobody asks. It is watched: where it reads nothing and prints nothing for too long, it is killed. One
that has ended is started again when someone asks next, and reads the journal again.
"""

import asyncio
import logging
from collections.abc import Sequence

from .answers import Refusal
from .journal import FileOfLines
from .kept_notes import KeptNotes, NoNote, Page
from .note_program import NoteProgram
from .office import TURNS
from .program import CHUNK
from .silence import Silence

log = logging.getLogger("wagons-service")

MOST_NOTES = 200_000
# While it has lines to read.
SECONDS_BETWEEN_LOOKS = 0.002


class _Ended(Exception):
    """The program has ended, or was killed; the text says why."""


class NoteFollower:
    def __init__(self, lines: FileOfLines, command: Sequence[str], answer_within: float, most: int = MOST_NOTES) -> None:
        self._lines = lines
        self._command = command
        self._notes = KeptNotes(most)
        self._silence = Silence(answer_within)
        self._program: NoteProgram | None = None
        self._sent = 0
        self._is_over = False
        # One question at a time brings lines.
        self._turn = asyncio.Lock()

    @property
    def line(self) -> int:
        """The last line that the notes cover."""
        return self._notes.line

    @property
    def last(self) -> int:
        """The last of these lines with a note, or 0."""
        return self._notes.last

    async def page(self, since: int, most: int) -> Page:
        """Notes of the lines after one, at most so many, as `KeptNotes` has them. Lines that come from now on may be missing."""
        await self.bring()
        if since < self._notes.dropped:
            raise Refusal(410, f"The notes up to line {self._notes.dropped} aren't kept any more; ask with since={self._notes.dropped}.")
        return self._notes.page(since, most)

    async def newest(self, since: int, most: int) -> Page:
        """The newest notes of the lines after one, at most so many."""
        await self.bring()
        return self._notes.newest(since, most)

    async def bring(self) -> None:
        """Brings the notes of all lines that the journal has now."""
        async with self._turn:
            upto = self._lines.count
            if self._notes.line < upto:
                await self._bring(upto)

    async def _bring(self, upto: int) -> None:
        """Brings the lines up to this one to the program, which is started where none runs, but not again where that was in vain."""
        while True:
            program, is_new = self._running()
            try:
                await self._follow(program, upto)
                return
            except (_Ended, NoNote) as fault:
                program.end()
                log.error("the program that prints notes: %s", fault)
                if is_new:
                    raise Refusal(503, f"There are no notes now: {fault}") from None

    def _running(self) -> tuple[NoteProgram, bool]:
        """The program, and whether it has just been started."""
        self._judge_over()
        if self._program and not self._program.has_ended:
            return self._program, False
        self._notes.begin_again()
        self._sent = 0
        try:
            self._program = NoteProgram(self._command)
        except OSError as fault:
            raise Refusal(503, f"{self._command[0]} couldn't be started: {fault}") from None
        return self._program, True

    async def _follow(self, program: NoteProgram, upto: int) -> None:
        # Who asked before may have left while lines were brought.
        await self._until_read(program)
        while self._sent < upto:
            last = min(self._lines.first_bytes(self._sent + 1, CHUNK), upto)
            program.give(self._lines.read(self._sent + 1, last))
            self._sent = last
            await self._until_read(program)
        program.give_space()
        await self._until_read(program)
        while data := program.read():
            self._notes.take(data)
        self._notes.line = self._sent

    async def _until_read(self, program: NoteProgram) -> None:
        """Waits until the program has read what it was given, and takes the notes that it prints meanwhile."""
        self._silence.end()
        before = 0
        while left := program.write():
            data = program.read()
            self._notes.take(data)
            if data or left != before:
                self._silence.end()
            before = left
            self._silence.go_on(SECONDS_BETWEEN_LOOKS, True)
            if self._silence.is_too_long:
                raise _Ended(self._silence.words)
            if program.has_ended:
                raise _Ended(program.words)
            await asyncio.sleep(SECONDS_BETWEEN_LOOKS)
            self._judge_over()

    def _judge_over(self) -> None:
        if self._is_over:
            raise Refusal(503, f"There are no notes now: {TURNS}.")

    def end(self) -> None:
        """The journal is over, or the service ends."""
        self._is_over = True
        if self._program:
            self._program.end()
