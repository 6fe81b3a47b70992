"""A second program that follows the journal for those who look, so that their sheets stand in no journal.

It is watched: where it owes replies and gives none for too long, it is killed, and started again when someone looks next.
What an order wants no sheet says; it is read from the lines that placed the orders.
"""

import asyncio
import logging
from bisect import bisect_left
from collections.abc import Sequence
from datetime import UTC, datetime
from typing import Any

from .answers import Refusal
from .journal import CHUNK, MOST_LINES, FileOfLines
from .program import NOTHING, Program, Replies
from .senders import read
from .sent import written
from .silence import Silence

log = logging.getLogger("wagons-service")

SHEET = b'{"type":"sheet"}'
SECONDS_BETWEEN_LOOKS = 0.25


class Wants:
    """What each order of the journal wants, as placed: its name, its classes and its load, as they are written."""

    def __init__(self, checkpoint: str | None) -> None:
        self.orders: list[list[Any]] = []
        # Lines that may place an order and have no reply yet, by their numbers.
        self._open: dict[int, bytes] = {}
        if checkpoint:
            with open(checkpoint, "rb") as file:
                for line in file:
                    self._add(line)

    def take_lines(self, first: int, data: bytes) -> None:
        for number, line in enumerate(data.split(b"\n"), first):
            # Letters may be written as escapes.
            if b"order" in line or b"\\" in line:
                self._open[number] = line

    def take_replies(self, replies: Replies) -> None:
        numbers = replies.numbers
        while self._open and (number := next(iter(self._open))) <= numbers[-1]:
            line, place = self._open.pop(number), bisect_left(numbers, number)
            if numbers[place] == number and replies.kinds[place] == b"accepted":
                self._add(line)

    def _add(self, line: bytes) -> None:
        try:
            fields = read(line)
        except ValueError:
            return
        if fields.get("type") == "order":
            self.orders.append([fields["order"], fields["classes"], fields["load"]])


class Follower:
    def __init__(self, lines: FileOfLines, command: Sequence[str], checkpoint: str | None, answer_within: float) -> None:
        """The office begins with the checkpoint, where there is one."""
        self._lines = lines
        self._command = command
        self._checkpoint = checkpoint
        self.wants = Wants(None)
        self._silence = Silence(answer_within)
        self._program: Program | None = None
        self._read = 0
        self._sent = 0
        self._awaited: tuple[int, asyncio.Future[str]] | None = None
        # When and why the program was killed last, for those who look.
        self.trouble = ""

    async def sheet(self, upto: int) -> str:
        """The sheet as it is after so many lines of the journal."""
        program = await self._running(upto)
        asked = asyncio.create_task(self._ask(program, upto))
        self._silence.end()
        while not (await asyncio.wait([asked], timeout=SECONDS_BETWEEN_LOOKS))[0]:
            self._silence.go_on(SECONDS_BETWEEN_LOOKS, True)
            if self._silence.is_too_long:
                program.kill()
                await asyncio.gather(asked, return_exceptions=True)
                self.trouble = f"{written(datetime.now(UTC))}: the page's own program was killed and is started again, since {self._silence.words}."
                log.error("%s", self.trouble)
                raise Refusal(503, self.trouble)
        return asked.result()

    async def _ask(self, program: Program, upto: int) -> str:
        while self._read < upto:
            last = min(self._lines.first_bytes(self._read + 1, CHUNK), upto)
            data = self._lines.read(self._read + 1, last)
            self.wants.take_lines(self._sent + 1, data)
            program.send(data)
            self._sent += last - self._read
            self._read = last
            await program.drain()
            self._silence.end()
        sheet: asyncio.Future[str] = asyncio.get_running_loop().create_future()
        self._awaited = self._sent + 1, sheet
        program.send(SHEET + b"\n" + NOTHING + b"\n")
        self._sent += 2
        either: list[asyncio.Future[Any]] = [sheet, program.ended]
        await asyncio.wait(either, return_when=asyncio.FIRST_COMPLETED)
        if not sheet.done():
            raise Refusal(503, program.ended.result().words)
        return sheet.result()

    async def _running(self, upto: int) -> Program:
        """The program, started again where it has ended, or where its own input would have too many lines."""
        program = self._program
        if program and not program.ended.done() and self._sent + (upto - self._read) + 2 <= MOST_LINES:
            return program
        self.end()
        self._read = self._sent = 0
        try:
            self.wants = Wants(self._checkpoint)
            self._program = await Program.start(self._command, self._take)
        except OSError as fault:
            raise Refusal(503, f"{self._command[0]} couldn't be started: {fault}") from None
        return self._program

    def _take(self, replies: Replies) -> None:
        self._silence.end()
        self.wants.take_replies(replies)
        if self._awaited:
            number, sheet = self._awaited
            if number in replies.numbers and not sheet.done():
                sheet.set_result(replies.texts[replies.numbers.index(number)].decode())

    def end(self) -> None:
        if self._program:
            self._program.kill()
