"""What runs behind the addresses: a folder of journals, and the office of the last one."""

import asyncio
import logging
from collections.abc import Callable, Sequence
from functools import partial
from typing import NamedTuple

from .answers import Refusal
from .corrections import Corrections
from .journal import Folder
from .known_wagons import KnownWagons
from .layouts import Layouts
from .metrics import Metrics
from .office import TURNS, Full, NotTaken, Office, State, Stopped
from .options import Options
from .program import Replies
from .viewer import Viewer

log = logging.getLogger("wagons-service")

SECONDS_TO_TURN = 60
# Where no new journal could begin by itself, it is tried again after so long.
SECONDS_BETWEEN_TURNS = 10
# So many new journals a request waits for, where others always fill them before.
MOST_TURNS = 3


class Part(NamedTuple):
    """Lines of a request that were taken: in which office, and their numbers there."""

    office: Office
    numbers: range
    lines: Sequence[bytes]


class Service:
    # Of a stream: until when this one holds the lease, by the monotonic clock, and how many replicas its server has.
    lease_until: float | None = None
    replicas: int | None = None
    _hear: Callable[[Office, Replies], None] | None = None

    def __init__(self, options: Options) -> None:
        self.options = options
        self.metrics = Metrics()
        self.folder = Folder(self._path)
        self.known_wagons = KnownWagons(self.folder)
        self._turn = asyncio.Lock()
        self._turning: asyncio.Task[None] | None = None
        self.layouts = Layouts()
        self._open()

    @property
    def _path(self) -> str:
        return self.options.journal

    @property
    def role(self) -> str | None:
        """Whether this one of several services answers."""
        return None

    async def take(self, lines: Sequence[bytes], name: str, comes_first: bool = False) -> list[Part]:
        """Puts the lines of a sender's request into the journal; into a new one where they don't fit any more."""
        for _ in range(MOST_TURNS):
            if self._turn.locked():
                await self._until_turned()
            office = self.office
            try:
                return [Part(office, await office.take(lines, name, comes_first), lines)]
            except Full as full:
                await self._begin_behind(office, full)
        raise NotTaken("others fill each new journal")

    async def until_open(self) -> None:
        """Waits while a new journal begins. Raises `NotTaken` where no lines are taken now."""
        if self._turn.locked():
            await self._until_turned()
        office = self.office
        try:
            office.may_take()
        except Full as full:
            await self._begin_behind(office, full)

    async def _until_turned(self) -> None:
        try:
            async with asyncio.timeout(SECONDS_TO_TURN), self._turn:
                pass
        except TimeoutError:
            raise NotTaken(TURNS) from None

    async def _begin_behind(self, office: Office, full: Full) -> None:
        """Begins a new journal by itself, unless another one has begun behind this office's since."""
        if not self.options.limits.next_at:
            raise full
        try:
            async with self._turn:
                if self.office is office:
                    await self._begin_next()
        except Refusal as fault:
            raise NotTaken(str(fault)) from None

    async def _begin_by_itself(self) -> None:
        """Begins a new journal before this one or its book is full, so that nobody has to see to it."""
        while True:
            office = self.office
            await office.room.is_scarce.wait()
            while office.state is State.STARTING:
                await asyncio.sleep(0.02)
            await self.known_wagons.read_ahead(office.journal)
            try:
                await self._begin_behind(office, Full(""))
            except NotTaken as fault:
                log.error("no new journal begins by itself: %s", fault)
                await asyncio.sleep(SECONDS_BETWEEN_TURNS)

    def _open(self) -> None:
        journal = self.folder.journal()
        self.office = Office(journal, self.options.words("run", journal.checkpoint), self.metrics, self.options.limits)
        if self._hear:
            self.tell(self._hear)
        self.viewer = Viewer(self.office, self.options, self.layouts)

    def tell(self, hear: Callable[[Office, Replies], None]) -> None:
        """Tells this one of the replies of each office; it is to be said before the start."""
        self._hear = hear
        self.office.hear = partial(hear, self.office)

    def start(self) -> None:
        self.office.start()
        if self.options.limits.next_at:
            self._turning = asyncio.create_task(self._begin_by_itself())

    async def begin_next(self, corrections: Corrections = Corrections()) -> int:
        """Saves the office as a checkpoint, and begins a new journal from it: the journal's number."""
        await self.known_wagons.read_ahead(self.office.journal)
        async with self._turn:
            return await self._begin_next(corrections)

    async def _begin_next(self, corrections: Corrections = Corrections()) -> int:
        office = self.office
        try:
            await office.pause()
            checkpoint, wagons = await asyncio.gather(
                self.viewer.checkpoint(corrections), self.known_wagons.at_end(office.journal, corrections.wagons))
            self.folder.begin_next(checkpoint, wagons)
        except (Stopped, OSError) as fault:
            office.resume()
            raise Refusal(503, f"no new journal begins: {fault}") from None
        except Refusal:
            office.resume()
            raise
        await self._close()
        self._open()
        self.office.start()
        while self.office.state is State.STARTING:
            await asyncio.sleep(0.005)
        log.info("journal %d begins from a checkpoint of the one before, which has %d lines", self.folder.last, office.journal.lines.count)
        # Who waits for room in the journal before looks at this one.
        office.room.is_scarce.set()
        return self.folder.last

    async def _close(self) -> None:
        self.viewer.end()
        await self.office.close()

    async def close(self) -> None:
        if self._turning:
            self._turning.cancel()
        async with self._turn:
            await self._close()
            self.folder.close()
