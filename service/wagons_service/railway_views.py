"""What a railway sees of the office: the wagons that it moved last, with the movements that they are promised for.

The program prints the office for all railways together, and one railway at a time asks it for more. Those who see the whole
office wait for one of these prints at most, since railways have a pause of their own between two.
"""

import asyncio
import json
from collections import defaultdict
from collections.abc import Iterator, Mapping, Sequence
from datetime import UTC, datetime
from typing import Any, NamedTuple
from weakref import WeakValueDictionary

from .journal import Journal
from .office import TURNS, Office, Stopped
from .senders import Sender
from .service import Service

SECONDS_FOR_REPLIES = 60
# What changes as time passes, and makes no event.
PASSING = frozenset(["arrival", "spare", "late", "state"])
# What a row says of the wagon's last message.
MOVED = ("status", "place", "last")


class Seen(NamedTuple):
    """A wagon: its row, and the movement that it is promised for."""

    row: dict[str, Any]
    movement: dict[str, Any] | None


NOTHING_SEEN: Mapping[str, Seen] = {}


class View(NamedTuple):
    """What each company sees of the office after a line of a journal, by its wagons."""

    journal: Journal
    line: int
    companies: Mapping[str, Mapping[str, Seen]]

    def of(self, company: str) -> Mapping[str, Seen]:
        return self.companies.get(company, NOTHING_SEEN)


class RailwayViews:
    def __init__(self, service: Service) -> None:
        self._service = service
        self._turn = asyncio.Lock()
        # One question of a sender waits for the turn at a time, and others behind it.
        self._senders: WeakValueDictionary[Sender, asyncio.Lock] = WeakValueDictionary()
        self._asked: dict[tuple[str, ...], asyncio.Task[tuple[int, list[dict[str, Any]], dict[str, str]]]] = {}
        self._view: View | None = None
        self._making: asyncio.Task[None] | None = None

    async def own(self, sender: Sender, word: str, options: Sequence[str]) -> tuple[int, list[dict[str, Any]]]:
        """The line after which the office is so, and what a word prints then of the wagons that a railway moved last.

        It is never older than the question. Who asks the same while it waits for its turn is answered with it.
        """
        asked = word, *options
        if asked not in self._asked:
            lock = self._senders.setdefault(sender, asyncio.Lock())
            self._asked[asked] = asyncio.create_task(self._print(lock, asked))
        line, rows, movers = await asyncio.shield(self._asked[asked])
        return line, [row for row in rows if movers.get(row["wagon"]) == sender.company]

    async def _print(self, lock: asyncio.Lock, asked: tuple[str, ...]) -> tuple[int, list[dict[str, Any]], dict[str, str]]:
        """What a word prints, and who moved which wagon then."""
        async with lock, self._turn:
            del self._asked[asked]
            office = self._service.office
            line, (rows,) = await self._service.viewer.states([(asked[0], asked[1:])], are_railways=True)
            return line, rows, await self._movers(office, line)

    async def behind(self, office: Office, line: int) -> View:
        """The view of an office after more lines than these. All who wait are given the same one."""
        while True:
            view = self._view
            if view and view.journal is office.journal and view.line > line:
                return view
            await office.until_answered(line + 1)
            if self._making is None or self._making.done():
                self._making = asyncio.create_task(self._make(office))
                # Who waits is told its fault; it may be that nobody waits any more.
                self._making.add_done_callback(lambda done: done.cancelled() or done.exception())
            await asyncio.shield(self._making)

    async def _make(self, office: Office) -> None:
        at = datetime.now(UTC).strftime("%Y-%m-%dT%H:%M:%SZ")
        async with self._turn:
            if self._service.office is not office:
                raise Stopped(TURNS)
            line, (rows, moves) = await self._service.viewer.states([("fleet", ()), ("moves", [f"--at={at}"])], are_railways=True)
            movers = await self._movers(office, line)
        movements = {move["wagon"]: given(move) for move in moves if move["kind"] == "movement"}
        companies: defaultdict[str, dict[str, Seen]] = defaultdict(dict)
        for row in rows:
            if company := movers.get(row["wagon"]):
                companies[company][row["wagon"]] = Seen(row, movements.get(row["wagon"]))
        self._view = View(office.journal, line, companies)

    async def _movers(self, office: Office, line: int) -> dict[str, str]:
        # Blank lines at the end have no replies.
        await office.until_answered(min(line, office.journal.last_line), SECONDS_FOR_REPLIES)
        return await self._service.known_wagons.movers(office.journal, line)


def given(row: dict[str, Any]) -> dict[str, Any]:
    """A row without the fields that its kind doesn't have."""
    return {name: value for name, value in row.items() if name != "kind" and value is not None}


def changes(before: Mapping[str, Seen], after: Mapping[str, Seen]) -> Iterator[tuple[str, str]]:
    """What changed between two views of a railway: each change's name, and its wagon."""
    for wagon in sorted(before.keys() | after.keys()):
        for name in names_of(before.get(wagon), after.get(wagon)):
            yield name, wagon


def names_of(before: Seen | None, after: Seen | None) -> list[str]:
    if after is None:
        return ["gone"]
    names = []
    if before is None or any(before.row[name] != after.row[name] for name in MOVED):
        names.append("moved")
    old, new = order_of(before), order_of(after)
    if new and new != old:
        names.append("promised")
    elif old and not new:
        names.append("ended")
    if not names and before and (before.row != after.row or lasting(before.movement) != lasting(after.movement)):
        names.append("changed")
    return names


def order_of(seen: Seen | None) -> str | None:
    return seen.movement["order"] if seen and seen.movement else None


def lasting(movement: dict[str, Any] | None) -> dict[str, Any] | None:
    """What stays of a movement while time passes."""
    return movement and {name: value for name, value in movement.items() if name not in PASSING}


def events(view: View, company: str, before: Mapping[str, Seen] | None) -> bytes:
    """The events that tell a railway of a view: of all its wagons at first, and then of each change since the view before."""
    after = view.of(company)
    if before is None:
        return event("wagons", {"line": view.line, "wagons": [told(wagon, seen) for wagon, seen in sorted(after.items())]})
    return b"".join(event(name, {"line": view.line} | told(wagon, after.get(wagon))) for name, wagon in changes(before, after))


def told(wagon: str, seen: Seen | None) -> dict[str, Any]:
    return {"wagon": wagon, "row": seen and seen.row, "movement": seen and seen.movement}


def event(name: str, data: dict[str, Any]) -> bytes:
    return f"event: {name}\ndata: {json.dumps(data)}\n\n".encode()
