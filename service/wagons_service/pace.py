"""How often listeners are told: together, and so seldom that a tenth of the time goes into it at most while lines come."""

import asyncio
import time

from .office import Office

# A part of the time that is told of one listener's turn. More of it was spent by others while that one didn't read.
MOST_SECONDS_A_TURN = 0.005
# What a turn takes beside, to be woken and to wait again.
SECONDS_BESIDE = 0.001
TIMES_FOR_OTHERS = 9
# So long after a line others may want the time.
SECONDS_BUSY = 1.0


class Pace:
    def __init__(self) -> None:
        self._busy_until = 0.0
        self._free_at = 0.0
        self._beats: dict[Office, asyncio.Task[None]] = {}

    def note_lines(self) -> None:
        self._busy_until = time.monotonic() + SECONDS_BUSY

    def spend(self, seconds: float) -> None:
        """A listener had its turn for so long."""
        self._free_at = max(self._free_at, time.monotonic()) + TIMES_FOR_OTHERS * (min(seconds, MOST_SECONDS_A_TURN) + SECONDS_BESIDE)

    async def until_free(self) -> None:
        now = time.monotonic()
        await asyncio.sleep(max(self._free_at - now, 0) if now < self._busy_until else 0)

    def beat(self, office: Office) -> "asyncio.Task[None]":
        """A task that ends when there are more replies than now and it is time to tell them; all listeners wait for the same one."""
        task = self._beats.get(office)
        if task is None or task.done():
            task = self._beats[office] = asyncio.create_task(self._beat(office))
            task.add_done_callback(lambda done: self._forget(office, done))
        return task

    async def _beat(self, office: Office) -> None:
        await office.until_answered(office.answered + 1)
        await self.until_free()

    def _forget(self, office: Office, task: "asyncio.Task[None]") -> None:
        # Its fault is told by each listener; where none is left, it is nobody's.
        task.cancelled() or task.exception()
        if self._beats.get(office) is task:
            del self._beats[office]
