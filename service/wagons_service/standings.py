"""Where a wagon stands in the office, for whoever's message of it was refused by its last moment, its status or its place.

It is read from a sheet of the page's own program. All who ask at the same time are given the same sheet, and others have the
time between two sheets.
"""

import asyncio
import json
import re
import time
from collections.abc import Mapping
from typing import NamedTuple

from .answers import Refusal
from .journal import Journal
from .office import Stopped
from .senders import Sender, message_of
from .service import Service

# The record of a reply that depends on where the wagon stands.
REFUSED = re.compile(rb'\{"number":([0-9]+),"reply":"[0-9]+ refused (?:31|32|33)"')
HINT = b" refused 3"
# Nobody waits longer for it: a reply then comes without it.
SECONDS_TO_WAIT = 2.0
TIMES_FOR_OTHERS = 9
# A program that starts and reads the journal takes longer than a sheet.
MOST_SECONDS_FOR_OTHERS = 0.2


class Standing(NamedTuple):
    """What a wagon does, where its last message left it, and the moment of that message."""

    wagon: str
    status: str
    place: str
    last: str


class Sheet(NamedTuple):
    """Where all wagons stand after a line of a journal."""

    journal: Journal
    line: int
    wagons: Mapping[str, Standing]


def read_sheet(text: str) -> dict[str, Standing]:
    rows = [row.split(" ") for row in text.split("\n") if row.startswith("wagon ")]
    return {row[1]: Standing(row[1], *row[4:7]) for row in rows}


class Standings:
    def __init__(self, service: Service) -> None:
        self._service = service
        self._sheet: Sheet | None = None
        self._making: asyncio.Task[None] | None = None
        self._again = 0.0

    async def sheet(self, journal: Journal, number: int) -> Sheet:
        """The sheet of the last journal after a line, or after a later one."""
        while True:
            sheet = self._sheet
            if sheet and sheet.journal is journal and sheet.line >= number:
                return sheet
            if self._service.office.journal is not journal:
                raise Refusal(503, "A new journal has begun.")
            if self._making is None or self._making.done():
                self._making = asyncio.create_task(self._make())
                # Who waits is told its fault; it may be that nobody waits any more.
                self._making.add_done_callback(lambda done: done.cancelled() or done.exception())
            await asyncio.shield(self._making)

    async def newest(self) -> Sheet:
        """The sheet of the last journal as it is now."""
        while True:
            office = self._service.office
            try:
                return await self.sheet(office.journal, office.answered)
            except Refusal:
                # Where a new journal has begun in between, that one's is asked for.
                if office is self._service.office:
                    raise

    async def _make(self) -> None:
        await asyncio.sleep(max(self._again - time.monotonic(), 0))
        begun = time.monotonic()
        journal = self._service.office.journal
        line, text = await self._service.viewer.sheet()
        self._sheet = Sheet(journal, line, read_sheet(text))
        now = time.monotonic()
        self._again = now + min(TIMES_FOR_OTHERS * (now - begun), MOST_SECONDS_FOR_OTHERS)

    async def _soon(self, journal: Journal, number: int) -> Sheet | None:
        try:
            async with asyncio.timeout(SECONDS_TO_WAIT):
                return await self.sheet(journal, number)
        except (TimeoutError, Refusal, OSError):
            return None

    async def told(self, journal: Journal, first: int, last: int) -> bytes:
        """The records of replies, as their sender is told them: those that depend on where a wagon stands say it."""
        records = journal.replies.read(first, last)
        if HINT not in records:
            return records
        return b"".join(record + b"\n" for record in await self.added(journal, records.split(b"\n")[:-1], last, None))

    async def added(self, journal: Journal, records: list[bytes], after: int, sender: Sender | None) -> list[bytes]:
        """The same of these records, as it is after a line, for whoever looks at them later.

        A railway is told it then as long as the refusal still stands: it isn't to see where others take the wagon.
        """
        found = {place: int(refused[1]) for place, record in enumerate(records) if (refused := REFUSED.match(record))}
        sheet = await self._soon(journal, after) if found and journal is self._service.office.journal else None
        if not sheet:
            return records
        records = list(records)
        for place, number in found.items():
            message = message_of(journal.line(number))
            standing = sheet.wagons.get(message[1]) if message else None
            if standing and await self._may_see(sheet, standing.wagon, number, sender):
                records[place] = b'%b,"wagon":%b}' % (records[place][:-1], json.dumps({"line": sheet.line} | standing._asdict(), separators=(",", ":")).encode())
        return records

    async def _may_see(self, sheet: Sheet, wagon: str, number: int, sender: Sender | None) -> bool:
        if sender is None or sender.may_look:
            return True
        try:
            await self._service.office.until_answered(min(sheet.line, sheet.journal.last_line), SECONDS_TO_WAIT)
        except Stopped:
            return False
        return not await self._service.known_wagons.has_moved_since(sheet.journal, wagon, number)
