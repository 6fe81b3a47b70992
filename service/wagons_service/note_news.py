"""Up to which line of a journal there are notes, for those who wait for more.

All of them are told by one question to the program that prints notes. It comes when lines were answered: at once where nobody
has asked lately, and else a little later, so that the notes of many lines come together.
"""

import asyncio
import logging
import time

from .answers import Refusal
from .journal import Unreadable
from .note_follower import NoteFollower
from .office import TURNS, Office, Stopped

log = logging.getLogger("wagons-service")

SECONDS_BETWEEN_QUESTIONS = 0.25
# Where the program couldn't print notes.
SECONDS_TO_ASK_AGAIN = 5.0


class NoteNews:
    def __init__(self, office: Office, notes: NoteFollower) -> None:
        self._office = office
        self._notes = notes
        self._again = 0.0
        self._asking: asyncio.Task[None] | None = None
        self._is_over = False

    async def behind(self, line: int) -> int:
        """The last line that the notes cover, as soon as one behind this line has a note. `Stopped` where the office stops."""
        while self._notes.last <= line:
            if self._is_over:
                raise Stopped(TURNS)
            if self._asking is None or self._asking.done():
                self._asking = asyncio.create_task(self._ask())
                # Who waits is told its fault; it may be that nobody waits any more.
                self._asking.add_done_callback(lambda done: done.cancelled() or done.exception())
            await asyncio.shield(self._asking)
        return self._notes.line

    async def _ask(self) -> None:
        """Brings notes when more lines are answered than they cover. A fault is tried again by whoever waits."""
        await self._office.until_answered(self._notes.line + 1)
        await asyncio.sleep(max(self._again - time.monotonic(), 0))
        pause = SECONDS_BETWEEN_QUESTIONS
        try:
            await self._notes.bring()
        except (Refusal, Unreadable, OSError) as fault:
            log.warning("listeners aren't told of notes now: %s", fault)
            pause = SECONDS_TO_ASK_AGAIN
        self._again = time.monotonic() + pause

    def end(self) -> None:
        """The journal is over, or the service ends."""
        self._is_over = True
        if self._asking:
            self._asking.cancel()
