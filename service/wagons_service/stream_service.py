"""What runs behind the addresses where the journal is a stream: any number of services read it, and one of them writes.

A session lasts as long as its connections. It begins by looking whether what was read before is still there; where it
isn't, say since the server lost its last second, the office begins again from what is there. The lease only spares work: a
service that believes it holds it and doesn't writes the same replies under the same ids, which Redis refuses.
"""

import asyncio
import logging
import os
import re
import secrets
import shutil
import socket
import time
from bisect import bisect_left
from collections.abc import Mapping, Sequence
from contextlib import suppress
from dataclasses import dataclass
from typing import Any

from . import temporary
from .address import Address
from .answers import Refusal
from .corrections import Corrections
from .journal import NO_FILES, ORIGIN, NotKept
from .lease import Lease
from .office import NotTaken, State, Stopped
from .options import DEFAULT_ENTRIES, Options
from .redis_link import Link, Lost, Refused, good, number, pack
from .sent import OURS
from .service import Part, Service
from .stream_copy import (
    Known, Origin, Unfit, checkpoint_of, identity, identity_of, ids_of, known_from, nothing_known, open_journal, start_for)
from .stream_office import NOT_READ, StreamOffice
from .streams import (
    LIBRARY, MOST_ENTRIES, START, Checkpoint, Keys, Mark, Trimmed, add_lines, add_replies, are_added, field,
    keep_checkpoint, last_id, lines_of, mark_at, order, read_behind, starts, wait, wait_for_replicas)
from .viewer import Viewer

log = logging.getLogger("wagons-service")

MILLISECONDS_OF_WAITING = 1000
SECONDS_BETWEEN_LOOKS = 0.002
SECONDS_BETWEEN_SESSIONS = 0.2
MOST_SECONDS_BETWEEN_SESSIONS = 1.0
SECONDS_TO_BE_READ = 60


@dataclass(eq=False, slots=True)
class _Request:
    lines: Sequence[bytes]
    name: str
    ids: "asyncio.Future[list[bytes]]"
    comes_first: bool = False

    def refuse(self, why: Exception) -> None:
        if not self.ids.done():
            self.ids.set_exception(why)


class StreamService(Service):
    office: StreamOffice

    def __init__(self, options: Options, address: Address) -> None:
        self._address = address
        self._keys = Keys(address.stream)
        self._target = Keys(address.inbox or address.stream).lines
        self._is_temporary = not options.copy
        self._copy = temporary.folder(options.copy)
        token = f"{socket.gethostname()}:{os.getpid()}:{secrets.token_hex(8)}".encode()
        self._lease = Lease(self._keys.lease, token, options.lease)
        self._task: asyncio.Task[None] | None = None
        self._grew = asyncio.Event()
        self._to_append: asyncio.Queue[_Request] = asyncio.Queue()
        # Who waits for the line of which id to be read.
        self._awaited: dict[bytes, "asyncio.Future[tuple[StreamOffice, int]]"] = {}
        # The office of the journal before.
        self._before: StreamOffice | None = None
        # What was read last, and up to which line is read before anything is written.
        self._line = self._reply = Mark(START, b"")
        self._end = START
        # Of the stream that is read, and what it has of the copy's journals that weren't opened yet.
        self._identity: str | None = None
        self._known: dict[int, Known] = {}
        self._is_new = True
        self._is_caught_up = False
        self._checkpoint: Checkpoint | None = None
        self._journal_lines = 0
        self._lacks_replicas = False
        self.is_first = False
        super().__init__(options)

    @property
    def _path(self) -> str:
        return self._copy

    def _open(self) -> None:
        self._open_journal(self.folder.last, nothing_known())

    def _open_journal(self, number: int, known: Known) -> None:
        journal = open_journal(self.folder, number)
        self.office = StreamOffice(
            journal, self.options.words("run", journal.checkpoint), self.metrics, self._grew.set, self._append_ours, ids_of(self.folder, number), known,
            self.options.limits)
        self.viewer = Viewer(self.office, self.options, self.layouts)

    async def until_open(self) -> None:
        self.office.may_take()

    def start(self) -> None:
        self._task = asyncio.create_task(self._serve())

    async def begin_next(self, corrections: Corrections = Corrections()) -> int:
        raise Refusal(400, "The journals of a stream begin by themselves.")

    async def close(self) -> None:
        if self._task:
            self._task.cancel()
            await asyncio.gather(self._task, return_exceptions=True)
        await super().close()
        if self._is_temporary:
            shutil.rmtree(self._copy, ignore_errors=True)

    @property
    def role(self) -> str | None:
        return "first" if self.is_first else "standby"

    # Lines are appended.

    async def take(self, lines: Sequence[bytes], name: str, comes_first: bool = False) -> list[Part]:
        self.office.may_take()
        if not lines:
            return []
        ids = await self._append(lines, name, comes_first)
        office, first = await self._place(ids[0])
        last_office, last = await self._place(ids[-1])
        if office is last_office:
            return [Part(office, range(first, last + 1), lines)]
        # A new journal began among them.
        many = len(office.ids) + 1 - first
        return [Part(office, range(first, first + many), lines[:many]), Part(last_office, range(1, last + 1), lines[many:])]

    async def _append(self, lines: Sequence[bytes], name: str, comes_first: bool) -> list[bytes]:
        request = _Request(lines, name, asyncio.get_running_loop().create_future(), comes_first)
        self._to_append.put_nowait(request)
        return await request.ids

    def _append_ours(self, line: bytes) -> None:
        """The line by which a sheet ends; where another service appends it too, it does no harm."""
        if self.is_first:
            request = _Request([line], OURS, asyncio.get_running_loop().create_future())
            request.ids.add_done_callback(lambda done: done.cancelled() or done.exception())
            self._to_append.put_nowait(request)

    async def _place(self, id: bytes) -> tuple[StreamOffice, int]:
        """In which office a line was read, and its number there."""
        for office in (self.office, self._before):
            if office and office.ids and order(office.ids[0]) <= order(id) <= order(office.ids[-1]):
                return office, bisect_left(office.ids, order(id), key=order) + 1
        read = self._awaited.setdefault(id, asyncio.get_running_loop().create_future())
        try:
            async with asyncio.timeout(SECONDS_TO_BE_READ):
                return await asyncio.shield(read)
        except TimeoutError:
            raise Stopped(f"the line {id.decode()} is in the stream, and isn't read yet") from None
        finally:
            self._awaited.pop(id, None)

    async def _append_all(self, link: Link) -> None:
        """Appends what is asked for. The lines of a request stand behind one another, and are there all or not at all."""
        while True:
            requests = [await self._to_append.get()]
            while not self._to_append.empty():
                requests.append(self._to_append.get_nowait())
            requests.sort(key=lambda request: not request.comes_first)
            try:
                for request in requests:
                    ids = await link.transaction(add_lines(self._target, request.lines, request.name, self._address.inbox and self._address.stream))
                    for id in ids:
                        good(id)
                    if not request.ids.done():
                        request.ids.set_result(ids)
            except (Lost, Refused, asyncio.CancelledError) as fault:
                for request in requests:
                    request.refuse(Stopped(f"{fault or 'the connection was closed'}; the stream will tell whether the lines are in it"))
                raise

    # A session.

    async def _serve(self) -> None:
        pause = SECONDS_BETWEEN_SESSIONS
        while True:
            start = time.monotonic()
            try:
                await self._session()
                return
            except Trimmed as fault:
                self._is_new, why = True, f"the office begins again: {fault}"
            except Unfit as fault:
                self.office.stop(str(fault))
                return
            except (Lost, Refused, NotKept, OSError) as fault:
                why = f"the stream can't be reached: {fault}"
            except Exception as fault:
                self.office.stop(f"the service failed: {fault!r}")
                raise
            log.warning("%s", why)
            self._interrupt(why)
            pause = SECONDS_BETWEEN_SESSIONS if time.monotonic() - start > 1 else min(2 * pause, MOST_SECONDS_BETWEEN_SESSIONS)
            await asyncio.sleep(pause)

    def _interrupt(self, why: str) -> None:
        self.is_first = self._is_caught_up = False
        self.office.may_lead(why)
        while not self._to_append.empty():
            self._to_append.get_nowait().refuse(NotTaken(why))

    async def _session(self) -> None:
        links: list[Link] = []
        try:
            # The one that reads comes first, so that it isn't newer than the one by which all is compared.
            for key in self._keys.lines, self._keys.lines, self._keys.lines, self._target:
                links.append(await Link.open(self._address, key))
            reader, writer, keeper, appender = links
            if not reader.peer == writer.peer == keeper.peer:
                raise Lost("another server took over just now")
            await self._begin(writer)
            works = [self._follow(reader), self._write(writer), self._hold(keeper, writer), self._append_all(appender), appender.until_lost()]
            tasks = [asyncio.create_task(work) for work in works]
            done: set[asyncio.Task[None]] = set()
            try:
                done, _ = await asyncio.wait(tasks, return_when=asyncio.FIRST_COMPLETED)
            finally:
                for task in tasks:
                    task.cancel()
                await asyncio.gather(*tasks, return_exceptions=True)
                # Where a connection broke, the others may be silent.
                if not any(task.exception() for task in done):
                    await self._release(keeper)
            for task in done:
                task.result()
        finally:
            for link in links:
                link.close()

    async def _begin(self, link: Link) -> None:
        """Compares what was read before with what is there; where it isn't there any more, all is read anew."""
        if not self._is_temporary and self._identity is None:
            self._identity = identity_of(self.folder)
        self._identity = await identity(link, self._keys, self._identity, None if self._is_temporary else self._copy)
        await self._agree(link)
        if not self._is_new:
            for key, last in (self._keys.lines, self._line), (self._keys.replies, self._reply):
                if last.id != START:
                    await read_behind(link, key, last.id, 0, said=last.text)
        else:
            await self._open_first(link)
            self._is_new = False
        self._end = await last_id(link, self._keys.lines)
        self.office.forget_sheet()

    async def _agree(self, link: Link) -> None:
        """How many lines a journal has is the same for all who read the stream, from its first service on."""
        entries = self.options.entries or DEFAULT_ENTRIES
        wanted = self.options.journal_lines
        await link.one(pack(b"SET", self._keys.journal_lines, number(wanted or min(entries, DEFAULT_ENTRIES)), b"NX"))
        self._journal_lines = int(await link.one(pack(b"GET", self._keys.journal_lines)))
        if wanted not in (None, self._journal_lines):
            raise Unfit(f"a journal of this stream has {self._journal_lines} lines, and not {wanted}: that was said when it began")
        if self._journal_lines > entries:
            raise Unfit(f"a journal of this stream has {self._journal_lines} lines, so the book must have room for as many: --entries {self._journal_lines}")
        await link.one(pack(b"FUNCTION", b"LOAD", b"REPLACE", LIBRARY))

    async def _open_first(self, link: Link) -> None:
        """Begins where the stream can be read from, or goes on where the copy ends."""
        found = await starts(link, self._keys)
        if not found:
            raise Unfit(f"{self._keys.lines.decode()} doesn't begin with its first line any more, and there is no checkpoint")
        start, self._known = found[-1], {}
        if not self._is_temporary:
            start = start_for(self.folder, found)
            self._judge_gap(start.journal)
            self._known = await known_from(link, self._keys, self.folder, start, self._journal_lines)
        await self._open_office(link, start)

    def _judge_gap(self, first: int) -> None:
        last = self.folder.last
        if first > last + 1 or (first > last and self.office.journal.lines.count < self._journal_lines):
            log.warning("the copy %s ends in journal %d, and what follows is in the stream from journal %d on alone", self._copy, last, first)

    async def _open_office(self, link: Link, start: Checkpoint, files: Mapping[str, bytes] = NO_FILES) -> None:
        """Begins a journal, with some files more, or goes on with what the copy has of it."""
        assert self._identity is not None
        origin = Origin(self._identity, start.id, self._journal_lines)
        known = self._known.pop(start.journal, None)
        is_there = known is not None and checkpoint_of(self.folder, start.journal) == start.text
        if known is None or not is_there:
            known = nothing_known()
        line = await mark_at(link, self._keys.lines, known.ids[-1] if known.ids else start.id)
        reply = await mark_at(link, self._keys.replies, known.ids[known.replies - 1] if known.replies else start.id)
        self._before = self.office
        await self._close()
        if is_there:
            origin.keep(f"{self.folder.path}/{start.journal}")
        else:
            self.folder.begin_again(start.journal, {ORIGIN: origin.text, **files} | ({"checkpoint.jsonl": start.text} if start.text else {}))
        if self._is_temporary:
            self.folder.drop_before(start.journal - 1)
        self._open_journal(start.journal, known)
        self.office.start()
        self._line, self._reply = line, reply

    async def _follow(self, link: Link) -> None:
        """Reads lines; and replies, while another service writes them."""
        while (office := self.office).state is not State.STOPPED:
            room = min(MOST_ENTRIES, self._journal_lines - len(office.ids))
            keys = {self._keys.lines: self._line.id} if room else {}
            if not self.is_first:
                keys[self._keys.replies] = self._reply.id
            if keys:
                waited = wait(list(keys), list(keys.values()), MILLISECONDS_OF_WAITING)
                await self._read(office, await read_behind(link, self._keys.lines, self._line.id, room, waited, self._line.text))
            else:
                await asyncio.sleep(SECONDS_BETWEEN_LOOKS)
            if self._keys.replies in keys:
                await self._read_replies(office, link)
            # A journal that is full is left when its replies are written, by whoever writes.
            if not self._is_caught_up and (not room or order(self._line.id) >= order(self._end)):
                self._is_caught_up = True
                office.may_lead(None)
            if not room and office.is_computed:
                await self._next_journal(office, link)

    async def _read(self, office: StreamOffice, entries: list[Any]) -> None:
        if not entries:
            return
        read = lines_of(entries)
        first = len(office.ids) + 1
        # Both before anything is waited for: a session may end there, and no line may be read twice.
        office.add(read)
        self._line = Mark(read.ids[-1], read.lines[-1])
        for id in self._awaited.keys() & set(read.ids) if self._awaited else ():
            if not self._awaited[id].done():
                self._awaited[id].set_result((office, first + read.ids.index(id)))
        await office.feed(read)

    async def _read_replies(self, office: StreamOffice, link: Link) -> None:
        last = self._reply
        entries = await read_behind(link, self._keys.replies, last.id, MOST_ENTRIES, said=last.text)
        # A reply may have been read whose line comes with the next ones.
        entries = entries[:len(office.ids) - office.answered]
        if entries and self._reply == last:
            texts = [field(fields, b"reply") for _, fields in entries]
            office.confirm([id for id, _ in entries], texts)
            self._reply = Mark(entries[-1][0], texts[-1])

    async def _next_journal(self, office: StreamOffice, link: Link) -> None:
        """The journal has all its lines: when each has its reply, the next one begins from a checkpoint."""
        if not office.has_ended_program and not await office.end_program():
            raise Trimmed("the program was ended from outside when a new journal began")
        if office.answered < self._journal_lines:
            return
        try:
            text, wagons = await asyncio.gather(self.viewer.checkpoint(), self.known_wagons.at_end(office.journal))
        except Refusal as fault:
            office.stop(f"no new journal begins: {fault}")
            return
        self._checkpoint = Checkpoint(self._line.id, office.journal.number + 1, text)
        await self._open_office(link, self._checkpoint, wagons)
        self.office.may_lead(None if self._is_caught_up else NOT_READ)
        log.info("journal %d begins from a checkpoint of the one before", self._checkpoint.journal)
        if self.is_first:
            await self._keep_checkpoint(link)

    async def _keep_checkpoint(self, link: Link) -> None:
        if self._checkpoint:
            await keep_checkpoint(link, self._keys, self._checkpoint, self._identity or "")

    async def _write(self, link: Link) -> None:
        """Writes the replies that aren't in the stream yet, where this service holds the lease."""
        while True:
            await self._grew.wait()
            self._grew.clear()
            while self.is_first and (replies := self.office.unwritten()).ids:
                office, last = self.office, self._reply
                if not await self._are_on_replicas(link, replies.ids[-1]):
                    continue
                are_new = are_added(await link.transaction(add_replies(self._keys, replies.ids, replies.texts)))
                if are_new and self._reply == last:
                    office.confirm(replies.ids, replies.texts)
                    self._reply = Mark(replies.ids[-1], replies.texts[-1])
                else:
                    # Another service has written some of them.
                    await self._read_replies(office, link)

    async def _are_on_replicas(self, link: Link, id: bytes) -> bool:
        """Whether as many replicas as are wanted have the lines up to one, so that they may be answered."""
        wanted = self.options.replicas
        count = await wait_for_replicas(link, self._keys, id, wanted, MILLISECONDS_OF_WAITING) if wanted else 0
        if count < wanted and not self._lacks_replicas:
            log.warning("lines wait for their replies: %d of %d replicas have them", count, wanted)
        elif count >= wanted and self._lacks_replicas:
            log.info("%d replicas have the lines again", count)
        self._lacks_replicas = count < wanted
        return count >= wanted

    # The lease.

    async def _hold(self, keeper: Link, writer: Link) -> None:
        """Renews the lease, or waits for it, over a connection of its own: nothing that takes long may hold it up."""
        may_count = True
        while not self._is_caught_up:
            await asyncio.sleep(0.01)
        while True:
            is_held = await self._lease.ask(keeper)
            self.lease_until = time.monotonic() + self.options.lease / 1000 if is_held else None
            if may_count:
                self.replicas = await count_replicas(keeper)
                may_count = self.replicas is not None
            if is_held and not self.is_first:
                log.info("this service writes the replies now")
                await self._keep_checkpoint(writer)
            elif self.is_first and not is_held:
                log.info("another service writes the replies now")
            self.is_first = is_held
            if is_held:
                self._grew.set()
            await asyncio.sleep(self.options.lease / 3000)

    async def _release(self, keeper: Link) -> None:
        """Lets another service write at once."""
        if self.is_first:
            self.is_first = False
            with suppress(Lost, Refused):
                await self._lease.release(keeper)


async def count_replicas(link: Link) -> int | None:
    """How many replicas the server has; not known where its access list doesn't let us ask."""
    try:
        said: bytes = await link.one(pack(b"INFO", b"replication"))
    except Refused:
        return None
    found = re.search(rb"connected_slaves:([0-9]+)", said)
    return int(found[1]) if found else None
