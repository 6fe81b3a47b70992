"""Who moved each wagon last, and what was refused of it since, over all journals.

It follows from the lines and their replies. What is known when a new journal begins stands beside that one in `wagons.jsonl`;
where the file is missing or spoiled, it is made again from the journals before.
"""

import asyncio
import json
import logging
import os
from collections.abc import Iterable, Mapping
from contextlib import suppress
from dataclasses import asdict, dataclass, replace
from weakref import WeakKeyDictionary

from .archive import NotReadable
from .journal import WAGONS, Broken, Folder, Journal, Unreadable, sync_folder
from .journal_index import JournalIndex, Refused
from .old_journals import OldJournals

log = logging.getLogger("wagons-service")

@dataclass(frozen=True, slots=True)
class Stuck:
    """What was refused of a wagon since its last accepted message: how often, since when where that is known, and the last
    refused line with its reply and its sender's name."""

    times: int
    since: str | None
    journal: int
    number: int
    reply: str
    line: str
    sender: str | None


@dataclass(frozen=True, slots=True)
class Known:
    """Of a wagon the company that moved it last, where one did, and what was refused since, where something was."""

    company: str | None = None
    stuck: Stuck | None = None


NOTHING_KNOWN = Known()


class KnownWagons:
    def __init__(self, folder: Folder) -> None:
        self._folder = folder
        self.old_journals = OldJournals(folder)
        # Neither keeps a journal that nobody reads any more.
        self._indexes: WeakKeyDictionary[Journal, JournalIndex] = WeakKeyDictionary()
        # What was known when a journal began.
        self._before: WeakKeyDictionary[Journal, Mapping[str, Known]] = WeakKeyDictionary()
        self._turn = asyncio.Lock()

    def index(self, journal: Journal) -> JournalIndex:
        if journal not in self._indexes:
            self._indexes[journal] = JournalIndex(journal.lines, journal.replies)
        return self._indexes[journal]

    async def movers(self, journal: Journal, upto: int) -> dict[str, str]:
        """The company that moved each wagon last, as it was after a line that is answered; not of a wagon that none moved."""
        before, index = await self._known_before(journal), self.index(journal)
        await index.read(upto)
        return {wagon: known.company for wagon, known in before.items() if known.company} | dict(index.movers(upto))

    async def stuck(self, journal: Journal) -> dict[str, Stuck]:
        """The wagons of which messages were refused and none was accepted since, as it is after the last line that is answered."""
        known = await self._after(journal, await self._known_before(journal))
        return {wagon: one.stuck for wagon, one in known.items() if one.stuck}

    async def has_moved_since(self, journal: Journal, wagon: str, number: int) -> bool:
        """Whether a message of a wagon was accepted behind a line."""
        index = self.index(journal)
        await index.read(journal.replies.last)
        return index.accepted(wagon) > number

    async def at_end(self, journal: Journal, corrected: Iterable[str] = ()) -> dict[str, bytes]:
        """The file with which the next journal begins. Of wagons that are put right with it nothing is refused any more.

        There is none where all journals before would have to be read for it: then it is made when someone asks.
        """
        if not self._has_before(journal):
            return {}
        try:
            known = await self._after(journal, await self._known_before(journal))
        except Broken as fault:
            log.warning("journal %d doesn't say who moved its wagons: %s", journal.number, fault)
            return {}
        for wagon in known.keys() & set(corrected):
            known[wagon] = replace(known[wagon], stuck=None)
        return {WAGONS: written(known)}

    async def read_ahead(self, journal: Journal) -> None:
        """Reads what `at_end` will need, so that little of it is left when senders wait for the next journal."""
        if self._has_before(journal):
            with suppress(Broken):
                await self.index(journal).read(journal.replies.last)

    def _has_before(self, journal: Journal) -> bool:
        """Whether no journal before has to be read for what was known when one began."""
        return journal in self._before or not self._folder.has(journal.number - 1) or read_known(self._path(journal.number)) is not None

    async def _known_before(self, journal: Journal) -> Mapping[str, Known]:
        if journal not in self._before:
            async with self._turn:
                if journal not in self._before:
                    self._before[journal] = await self._made(journal)
        return self._before[journal]

    async def _made(self, journal: Journal) -> Mapping[str, Known]:
        """What was known when a journal began, as it stands beside it, or made from the journals before."""
        number = journal.number
        while (known := read_known(self._path(number))) is None and self._folder.has(number - 1):
            number -= 1
        found: Mapping[str, Known] = known or {}
        for number in range(number, journal.number):
            try:
                found = await self._after(await self.old_journals.find(number), found)
                await asyncio.to_thread(keep, self._path(number + 1), written(found))
            except (Unreadable, NotReadable, Broken, OSError) as fault:
                log.warning("journal %d doesn't say who moved its wagons: %s", number, fault)
        return found

    def _path(self, number: int) -> str:
        return f"{self._folder.path}/{number}/{WAGONS}"

    async def _after(self, journal: Journal, before: Mapping[str, Known]) -> dict[str, Known]:
        """What is known after the lines of a journal that are answered."""
        index = self.index(journal)
        upto = journal.replies.last
        await index.read(upto)
        known = dict(before) | {wagon: Known(company) for wagon, company in index.movers(upto)}
        for wagon, refused in index.refused:
            one = known.get(wagon, NOTHING_KNOWN)
            known[wagon] = replace(one, stuck=stuck_at(journal, refused, one.stuck))
        return known


def stuck_at(journal: Journal, refused: Refused, before: Stuck | None) -> Stuck:
    """What was refused in this journal, with what was refused before and stands still."""
    first, last = journal.sent.find(refused.first), journal.sent.find(refused.last)
    times, since = refused.times, first.taken if first else None
    if before:
        times, since = times + before.times, before.since
    reply = json.loads(journal.replies.read(refused.last, refused.last))["reply"]
    line = journal.line(refused.last).decode("utf-8", "replace")
    return Stuck(times, since, journal.number, refused.last, reply, line, last.name if last else None)


def written(known: Mapping[str, Known]) -> bytes:
    """The records of a file, and at its end how many there are."""
    records = [json.dumps({"wagon": wagon} | {name: value for name, value in asdict(one).items() if value}) for wagon, one in sorted(known.items())]
    return "".join(f"{record}\n" for record in [*records, json.dumps({"wagons": len(records)})]).encode()


def read_known(path: str) -> dict[str, Known] | None:
    """What a file has; nothing where it isn't there whole."""
    try:
        with open(path, encoding="utf-8") as file:
            *records, end = map(json.loads, file)
        known = {record["wagon"]: Known(record.get("company"), Stuck(**record["stuck"]) if "stuck" in record else None) for record in records}
        return known if end["wagons"] == len(known) else None
    except (OSError, ValueError, KeyError, TypeError):
        return None


def keep(path: str, text: bytes) -> None:
    """Writes a file, wholly or not at all."""
    with open(f"{path}.new", "wb") as file:
        file.write(text)
        file.flush()
        os.fsync(file.fileno())
    os.rename(f"{path}.new", path)
    sync_folder(os.path.dirname(path))
