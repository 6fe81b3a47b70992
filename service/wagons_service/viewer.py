"""What the page shows of the office, without a line in the journal.

A second program follows the journal when someone looks, and is asked for sheets; a third one prints notes. The map and reasons are printed by
`wagons map` and `wagons why`, which read the journal from its beginning.
"""

import asyncio
import json
import re
import time
from collections.abc import Sequence
from typing import Any

from .answers import Refusal
from .corrections import Corrections
from .follower import Follower
from .journal import CHUNK
from .layouts import Layout, Layouts
from .network_map import NetworkMap, read_map
from .note_follower import NoteFollower
from .note_news import NoteNews
from .office import Office
from .options import Options
from .pipes import until_closed
from .processes import refusal_of, run, start
from .program import DONE

# Over a whole journal.
SECONDS_TO_PRINT = 300
TIMES_FOR_OTHERS = 9
# Any moment does: no line is given.
A_MOMENT = "2026-01-01T00:00:00Z"


class _Pause:
    """Who asks often waits for those before, and then so long that a tenth of the time goes into it at most."""

    def __init__(self) -> None:
        self.turn = asyncio.Lock()
        self.until = 0.0


class Viewer:
    def __init__(self, office: Office, options: Options, layouts: Layouts) -> None:
        self._journal = office.journal
        self._lines = office.journal.lines
        self._options = options
        self._layouts = layouts
        begins_with = office.journal.checkpoint or options.start
        self._follower = Follower(self._lines, self._words("run"), begins_with, options.limits.answer_within)
        self.notes = NoteFollower(self._lines, [*self._words("review"), "--json"], options.limits.answer_within)
        self.note_news = NoteNews(office, self.notes)
        # One sheet at a time, and one command over the journal, so that whoever looks doesn't take the machine from those who
        # send. A sheet waits for no command.
        self._sheet_turn = asyncio.Lock()
        self._turn = asyncio.Lock()
        self._sheet: tuple[int, str] = -1, ""
        self._map: tuple[int, NetworkMap] | None = None
        self._map_again = 0.0
        # Of those who see the whole office, and of railways, so that the former don't wait for the latter's.
        self._pause, self._pause_of_railways = _Pause(), _Pause()
        self._entries: dict[str, dict[str, str]] = {}

    def _words(self, word: str) -> list[str]:
        return self._options.words(word, self._journal.checkpoint)

    async def judge_names(self) -> None:
        """Raises `Refusal` with the program's words where the names of places, or the time zone, can't be used."""
        if self._options.places or self._options.zone:
            await self._print([*self._words("plan"), "--at", A_MOMENT], 0)

    async def checkpoint(self, corrections: Corrections = Corrections()) -> bytes:
        """The office as it is now, as `wagons save` prints it."""
        async with self._turn:
            with corrections.options() as (options, files):
                try:
                    return await self._print([*self._words("save"), *options], self._lines.count, files)
                except Refusal as fault:
                    raise Refusal(422, f"{fault}\nNo new journal begins.") if corrections else fault from None

    async def sheet(self) -> tuple[int, str]:
        """The sheet as it is now, and the line of the journal after which it is so."""
        async with self._sheet_turn:
            upto = self._lines.count
            if self._sheet[0] != upto:
                self._sheet = upto, await self._follower.sheet(upto)
            return self._sheet

    @property
    def trouble(self) -> str:
        return self._follower.trouble

    async def network(self) -> dict[str, Any]:
        """The places and lines of the network in force, and where they are on the page's map; the line of the journal after
        which they are so may be older than the last."""
        upto, shown = await self._printed_map()
        # Graphviz is asked only where some place has no coordinates, and nobody waits for it.
        is_open = any(place.at is None for place in shown.places)
        layout = self._layouts.find(shown) if is_open else Layout({})
        points = layout.points if layout else {}
        return {
            "line": upto, "network": shown.network, "waits": layout is None, "words": layout.words if layout else "",
            "places": [[place.code, place.name, place.at or points.get(place.code), place.is_outside] for place in shown.places],
            "lines": [[line.start, line.end, line.km, line.minutes, line.is_both_ways] for line in shown.lines]}

    async def _printed_map(self) -> tuple[int, NetworkMap]:
        """It is printed so seldom that a tenth of the time goes into it at most, however fast lines come."""
        async with self._turn:
            upto, begun = self._lines.count, time.monotonic()
            if self._map is None or (self._map[0] != upto and begun >= self._map_again):
                self._map = upto, read_map((await self._print(self._words("map"), upto)).decode())
                now = time.monotonic()
                self._map_again = now + TIMES_FOR_OTHERS * (now - begun)
            return self._map

    def wants(self, behind: int) -> list[list[Any]]:
        """The name, the classes and the load of each order of the last sheet, as placed, behind so many."""
        return self._follower.wants.orders[behind:]

    async def why(self, upto: int, at: str, options: Sequence[str] = ()) -> list[dict[str, Any]]:
        """What `wagons why` prints of a moment, as the office was after so many lines."""
        async with self._turn:
            printed = await self._print([*self._words("why"), "--json", "--at", at, *options], min(upto, self._lines.count))
        return [json.loads(line) for line in printed.splitlines()]

    async def state(self, word: str, options: Sequence[str]) -> tuple[int, list[dict[str, Any]]]:
        """The line of the journal after which the office is so, and the objects that a word prints of it then."""
        upto, (rows,) = await self.states([(word, options)])
        return upto, rows

    async def states(self, asked: Sequence[tuple[str, Sequence[str]]], are_railways: bool = False) -> tuple[int, list[list[dict[str, Any]]]]:
        """The line of the journal after which the office is so, and the objects that each of some words prints of it then. It
        is never older than the question."""
        pause = self._pause_of_railways if are_railways else self._pause
        async with pause.turn:
            await asyncio.sleep(max(pause.until - time.monotonic(), 0))
            async with self._turn:
                upto, begun = self._lines.count, time.monotonic()
                printed = [await self._print([*self._words(word), "--json", *options], upto) for word, options in asked]
            now = time.monotonic()
            pause.until = now + TIMES_FOR_OTHERS * (now - begun)
        return upto, [[json.loads(line) for line in text.splitlines()] for text in printed]

    async def explain(self, code: str) -> dict[str, str]:
        """The manual's entry of a refusal, in its parts."""
        if code not in self._entries:
            try:
                entry = await run([self._options.program, "explain", code], b"")
            except Refusal:
                raise Refusal(404, f"`wagons explain` has no entry {code}.") from None
            self._entries[code] = read_entry(code, entry.decode())
        return self._entries[code]

    async def _print(self, command: Sequence[str], upto: int, files: Sequence[int] = ()) -> bytes:
        """What a command prints over the first lines of the journal."""
        process = await start(command, files)
        assert process.stdout is not None and process.stderr is not None
        try:
            async with asyncio.timeout(SECONDS_TO_PRINT):
                printed, said, _ = await asyncio.gather(process.stdout.read(), process.stderr.read(), self._feed(process, upto))
                await process.wait()
        except TimeoutError:
            raise Refusal(503, f"{command[0]} {command[1]} took over {SECONDS_TO_PRINT} seconds.") from None
        finally:
            if process.returncode is None:
                process.kill()
            await until_closed(process)
        if process.returncode not in DONE:
            raise refusal_of(command, said, process.returncode)
        return printed

    async def _feed(self, process: asyncio.subprocess.Process, upto: int) -> None:
        assert process.stdin is not None
        first = 1
        try:
            while first <= upto:
                last = min(self._lines.first_bytes(first, CHUNK), upto)
                process.stdin.write(self._lines.read(first, last))
                await process.stdin.drain()
                first = last + 1
            process.stdin.close()
        except ConnectionError:
            pass  # It stopped before; its own words say why.

    def end(self) -> None:
        self._follower.end()
        self.note_news.end()
        self.notes.end()


ENTRY = re.compile(r"## [0-9]+ (?P<name>\w+)\n\n(?P<meaning>.*?)(?:\n\n- Where: .*?)?(?:\n- Remedy: (?P<remedy>.*))?\Z", re.S)


def read_entry(code: str, text: str) -> dict[str, str]:
    """An entry of the manual of refusals: its name, what it means and what to do."""
    found = ENTRY.match(text.strip())
    parts = found.groupdict(default="") if found else {"name": "", "meaning": text, "remedy": ""}
    return {"code": code} | {key: " ".join(part.split()) for key, part in parts.items()}
