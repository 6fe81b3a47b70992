"""Brings the lines of an inbox to the streams of their offices, each under the id that it has in the inbox.

Redis refuses an id that isn't above those before it. So a line is in its office's stream once, however often the router
crashed and however many routers there are, and nothing else has to be remembered. What became of each line stands under
its id among the inbox's replies: the office that has it, or a refusal. By these records an office gets again what its node
lost.
"""

import asyncio
import csv
import logging
import time
from collections import deque
from collections.abc import Coroutine, Iterable, Mapping, Sequence
from contextlib import suppress
from dataclasses import dataclass, field as member
from itertools import islice
from typing import Any

from .address import Address
from .lost_lines import TooMuchLost, are_there, lost_lines, records_back
from .redis_link import Link, Lost, Refused, number, pack
from .router_metrics import MOST_HEAD_BYTES, answer, text_of
from .senders import MESSAGES, read
from .streams import (
    LIBRARY, MOST_ENTRIES, START, Entry, Keys, Trimmed, add_copies, are_added, field, is_whole, last_id, order, read_behind, wait)

log = logging.getLogger("wagons-router")

MILLISECONDS_OF_WAITING = 1000
SECONDS_BETWEEN_TRIES = 0.2
MOST_SECONDS_BETWEEN_TRIES = 2.0
# How often an office's stream is compared with what it was brought, beside each new connection.
SECONDS_BETWEEN_COMPARISONS = 60.0
# So many lines may wait for an office that can't be reached before no more are read.
MOST_WAITING = 1_000_000
TRIM_EACH = 10_000
# Lines for all but movement messages.
OTHERS = frozenset(["order", "withdraw", "begin", "plan", "commit", "network", "sheet"])
# The router's own refusal: the office's stream has a later line, or another one, so this one can't come under its id.
TOO_LATE = "refused 101"


class BadOffices(Exception):
    """A file of offices that can't be used; the text says why."""


@dataclass(frozen=True)
class Offices:
    """Which office has which wagon."""

    names: Sequence[str]
    wagons: Mapping[str, str]

    @classmethod
    def read(cls, path: str) -> "Offices":
        """Reads a CSV file with the header `wagon,office`."""
        try:
            with open(path, encoding="utf-8", newline="") as file:
                return cls.of(csv.DictReader(file))
        except (OSError, UnicodeDecodeError, csv.Error, ValueError) as fault:
            raise BadOffices(f"{path}: {fault}") from None

    @classmethod
    def of(cls, records: Iterable[Mapping[str, str]]) -> "Offices":
        wagons: dict[str, str] = {}
        names: dict[str, None] = {}
        for number, record in enumerate(records, 2):
            wagon, office = plain(record.get("wagon") or ""), record.get("office")
            if not (wagon and office):
                raise ValueError(f"line {number} has no wagon and office")
            if wagon in wagons:
                raise ValueError(f"line {number} has wagon {wagon} again")
            wagons[wagon] = names.setdefault(office, None) or office
        if not names:
            raise ValueError("it names no office")
        return cls(list(names), wagons)

    def office_of(self, said: str, line: bytes) -> tuple[str | None, str]:
        """The office that a line goes to, or none and why it is refused.

        What the entry says counts first. A message goes to the office of its wagon. What any office refuses goes to the
        first one, whose program says why: a wagon that no office has, what is no JSON.
        """
        try:
            fields = read(line) if len(line) < 1 << 17 else None
        except ValueError:
            fields = None
        if not isinstance(fields, dict):
            fields = {}
        named = said or fields.get("office")
        if named is not None:
            return (named, "") if named in self.names else (None, "refused 25 office 20")
        kind, wagon = fields.get("type"), fields.get("wagon")
        if isinstance(kind, str) and kind in OTHERS:
            return None, "refused 24 office"
        is_message = isinstance(kind, str) and kind in MESSAGES and isinstance(wagon, str)
        return (self.wagons.get(plain(wagon), self.names[0]) if is_message else self.names[0]), ""


def plain(wagon: str) -> str:
    """A wagon's number without its spaces and hyphens."""
    return wagon.replace(" ", "").replace("-", "")


@dataclass(eq=False, slots=True)
class _Line:
    id: bytes
    line: bytes
    sender: bytes
    office: str | None
    refusal: str
    is_done: bool
    # Whether its record is written, or on its way.
    is_recorded: bool = False

    def record(self, key: bytes) -> bytes:
        """What is said of the line among the inbox's replies."""
        words = (b"office", self.office.encode()) if self.office else (b"reply", self.refusal.encode())
        return pack(b"XADD", key, self.id, *words)


@dataclass(eq=False, slots=True)
class _Office:
    """An office in a session."""

    name: str
    # The lines that aren't in its stream yet, and what says that there are more.
    owed: deque[_Line] = member(default_factory=deque)
    grew: asyncio.Event = member(default_factory=asyncio.Event)
    # The last line that is known to have come, and whether the records were looked through for it.
    last: bytes = START
    is_known: asyncio.Event = member(default_factory=asyncio.Event)

    @property
    def key(self) -> bytes:
        return Keys(self.name).lines

    def know(self, last: bytes) -> None:
        self.last = last
        self.is_known.set()


class Router:
    def __init__(self, address: Address, offices: Offices, hours: int, complete: Sequence[str] = ()) -> None:
        self._address = address
        self._keys = Keys(address.stream)
        self._offices = offices
        self._hours = hours
        self._complete = frozenset(complete)
        self._recorded = 0
        self._forget(START)

    def metrics(self) -> str:
        return text_of({name: len(office.owed) for name, office in self._by_name.items()}, self._lines[0].id if self._lines else None)

    def _forget(self, last: bytes) -> None:
        # All lines that have no record yet, and the last line that has one.
        self._lines: deque[_Line] = deque()
        self._last = last
        self._by_name = {name: _Office(name) for name in self._offices.names}
        self._done = asyncio.Event()

    async def run(self) -> None:
        """Works for good; what breaks is tried again."""
        pauses = Pauses()
        while True:
            start = time.monotonic()
            try:
                await self._session()
            except (Lost, Refused, Trimmed) as fault:
                log.warning("the inbox can't be reached: %s", fault)
                await asyncio.sleep(pauses.after(start))

    async def _session(self) -> None:
        links: list[Link] = []
        try:
            for _ in range(2):
                links.append(await Link.open(self._address, self._keys.lines))
            reader, writer = links
            await writer.one(pack(b"FUNCTION", b"LOAD", b"REPLACE", LIBRARY))
            last = await last_id(writer, self._keys.replies)
            if last == START and not await is_whole(writer, self._keys.lines):
                raise Trimmed("the inbox doesn't begin with its first line any more")
            log.info("reads the inbox %s behind %s", self._address.stream, last.decode())
            self._forget(last)
            await together(
                self._follow(reader, last), self._record(writer), self._look_back(writer, last), writer.until_lost(),
                *(self._deliver(office, writer) for office in self._by_name.values()))
        finally:
            for link in links:
                link.close()

    async def _look_back(self, inbox: Link, last: bytes) -> None:
        """Finds the last line that each office was brought, by the records."""
        unknown = dict(self._by_name)
        async for records in records_back(inbox, self._keys, last):
            for id, name in records:
                if office := unknown.pop(name, None):
                    office.know(id)
            if not unknown:
                return
        for office in unknown.values():
            office.know(START)

    async def _follow(self, link: Link, last: bytes) -> None:
        """Reads the inbox."""
        key = self._keys.lines
        while True:
            while len(self._lines) > MOST_WAITING:
                await asyncio.sleep(SECONDS_BETWEEN_TRIES)
            entries = await read_behind(link, key, last, MOST_ENTRIES, wait([key], [last], MILLISECONDS_OF_WAITING))
            for id, fields in entries:
                self._take(id, fields)
            if entries:
                last = entries[-1][0]

    def _take(self, id: bytes, fields: Sequence[bytes]) -> None:
        line = field(fields, b"line")
        office, refusal = self._offices.office_of(field(fields, b"office").decode("utf-8", "replace"), line)
        taken = _Line(id, line, field(fields, b"sender"), office, refusal, is_done=office is None)
        self._lines.append(taken)
        if office is None:
            self._done.set()
        else:
            self._by_name[office].owed.append(taken)
            self._by_name[office].grew.set()

    async def _deliver(self, office: _Office, inbox: Link) -> None:
        """Appends an office's lines to its stream; while that can't be reached the other offices get theirs."""
        pauses = Pauses()
        while True:
            link, start = None, time.monotonic()
            try:
                link = await Link.open(self._address, office.key)
                await together(self._bring(office, inbox, link), link.until_lost())
            except (Lost, Refused, TooMuchLost) as fault:
                log.warning("the lines of office %s wait: %s", office.name, fault)
                # Until a person has done something, there is nothing new to find.
                await asyncio.sleep(SECONDS_BETWEEN_COMPARISONS if isinstance(fault, TooMuchLost) else pauses.after(start))
            finally:
                if link:
                    link.close()

    async def _bring(self, office: _Office, inbox: Link, link: Link) -> None:
        """Brings what the office is owed, over one connection."""
        while True:
            await self._owe_lost(office, inbox, link)
            end = time.monotonic() + SECONDS_BETWEEN_COMPARISONS
            while (left := end - time.monotonic()) > 0:
                if office.owed:
                    await self._bring_part(office, inbox, link)
                else:
                    office.grew.clear()
                    with suppress(TimeoutError):
                        await asyncio.wait_for(office.grew.wait(), left)

    async def _owe_lost(self, office: _Office, inbox: Link, link: Link) -> None:
        """Owes an office once more what its stream has lost."""
        await office.is_known.wait()
        if office.last == START or (await are_there(link, office.key, [office.last]))[0]:
            return
        # Both at one moment: each line that was brought is either among these, or has its record.
        last = self._last
        office.owed = deque(line for line in self._lines if line.office == office.name)
        for line in office.owed:
            line.is_done = False
        there = await last_id(link, office.key)
        lost = await lost_lines(inbox, self._keys, last, office.name, link, office.name in self._complete)
        office.owed.extendleft(_Line(*entry, office.name, "", is_done=False, is_recorded=True) for entry in reversed(lost))
        office.last = there
        log.warning("the stream of office %s has lost what was behind %s, and gets it again: %d lines", office.name, there.decode(), len(office.owed))

    async def _bring_part(self, office: _Office, inbox: Link, link: Link) -> None:
        part = list(islice(office.owed, MOST_ENTRIES))
        answers = await link.transaction(add_copies(office.key, [Entry(line.id, line.line, line.sender) for line in part]))
        late: set[bytes] = set()
        if not are_added(answers):
            known = [line for line, answer in zip(part, answers) if not isinstance(answer, bytes)]
            there = await are_there(link, office.key, [line.id for line in known], [line.line for line in known])
            refused = [line for line, is_there in zip(known, there) if not is_there]
            await self._refuse(office, refused, inbox)
            late = {line.id for line in refused}
        office.last = next((line.id for line in reversed(part) if line.id not in late), office.last)
        for line in part:
            office.owed.popleft().is_done = True
        self._done.set()

    async def _refuse(self, office: _Office, late: Sequence[_Line], inbox: Link) -> None:
        """Says of lines that they can't come any more, so that those behind them do. A record can't be changed; of a line
        that has one it is said beside the records."""
        for line in late:
            if line.is_recorded:
                await inbox.one(pack(b"HSETNX", self._keys.lost, line.id, f"{TOO_LATE} {office.name}".encode()))
            else:
                line.office, line.refusal = None, TOO_LATE
        if late:
            log.error("%s has a later line, or another one, so %d lines of the inbox can't come under their ids and are refused, the first one %s",
                      office.key.decode(), len(late), late[0].id.decode())

    async def _record(self, link: Link) -> None:
        """Says of each line what became of it, in their order."""
        while True:
            await self._done.wait()
            self._done.clear()
            while part := self._next_done():
                for line in part:
                    line.is_recorded = True
                are_added(await link.transaction([line.record(self._keys.replies) for line in part]))
                for _ in part:
                    self._last = self._lines.popleft().id
                await self._trim(link, part)

    def _next_done(self) -> list[_Line]:
        part: list[_Line] = []
        for line in self._lines:
            if not line.is_done or len(part) == MOST_ENTRIES:
                break
            part.append(line)
        return part

    async def _trim(self, link: Link, part: Sequence[_Line]) -> None:
        """Drops lines of the inbox that were brought to their offices so many hours ago."""
        self._recorded += len(part)
        if self._recorded >= TRIM_EACH:
            self._recorded = 0
            oldest = order(part[-1].id)[0] - 3_600_000 * self._hours
            for key in self._keys.lines, self._keys.replies:
                await link.one(pack(b"XTRIM", key, b"MINID", b"~", number(max(oldest, 0))))


class Pauses:
    """The pauses between tries: each is longer than the one before, but for those after what has lasted."""

    def __init__(self) -> None:
        self._next = SECONDS_BETWEEN_TRIES

    def after(self, start: float) -> float:
        """The pause after a try that began then."""
        pause = SECONDS_BETWEEN_TRIES if time.monotonic() - start > MOST_SECONDS_BETWEEN_TRIES else self._next
        self._next = min(2 * pause, MOST_SECONDS_BETWEEN_TRIES)
        return pause


async def together(*works: Coroutine[Any, Any, None]) -> None:
    """Does all of these until one of them breaks; then the others end, and its fault is raised."""
    tasks = [asyncio.create_task(work) for work in works]
    try:
        await asyncio.gather(*tasks)
    finally:
        for task in tasks:
            task.cancel()
        await asyncio.gather(*tasks, return_exceptions=True)


async def run(address: Address, offices: Offices, hours: int, complete: Sequence[str] = (), metrics: tuple[str, int] | None = None) -> None:
    with suppress(asyncio.CancelledError):
        router = Router(address, offices, hours, complete)
        if metrics:
            await asyncio.start_server(lambda reader, writer: answer(reader, writer, router.metrics()), *metrics, limit=MOST_HEAD_BYTES)
        await router.run()
