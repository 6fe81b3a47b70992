"""Puts the copy of a stream back into an empty stream: `wagons-service restore`.

The stream then has what a stream keeps, the last journal and the one before it, each line and reply under the id that it
had. While that is done the stream's identity says so, and no service begins with a part of the lines. A restore that was
ended is begun once more: Redis refuses what is there already.
"""

import argparse
import asyncio
import json
import os
import secrets
import sys
import time
from collections.abc import Iterator, Sequence
from typing import NamedTuple

from .address import Address, BadAddress
from .journal import MOST_LINE_BYTES, Folder, FolderInUse, Journal, Unreadable
from .lease import Lease
from .options import DEFAULT_LEASE
from .redis_link import Link, Lost, Refused, number, pack
from .stream_copy import RESTORING, Origin, Unfit, checkpoint_of, ids_of, open_journal
from .streams import (
    MOST_ENTRIES, NO_LINE, START, TOO_LONG, Checkpoint, Entry, Keys, add_checkpoint, add_copies, add_replies, are_added, order)

PAGE = "docs/STREAM_LOSSES.md"
SECONDS_BETWEEN_LOOKS = 0.2


class Part(NamedTuple):
    """A journal that is put back."""

    origin: Origin
    journal: Journal
    checkpoint: bytes
    ids: list[bytes]

    def replies(self) -> list[bytes]:
        kept = self.journal.replies
        return [json.loads(record)["reply"].encode() for record in kept.read(1, kept.last).split(b"\n")[:-1]]

    def entries(self, replies: Sequence[bytes]) -> list[Entry]:
        """The lines with who sent them. One that was too long isn't kept; another such line has the same reply."""
        lines = list(self.journal.lines.lines())
        for index, reply in enumerate(replies):
            if lines[index] == NO_LINE and reply.endswith(TOO_LONG):
                lines[index] = NO_LINE * (MOST_LINE_BYTES + 1)
        return list(map(Entry, self.ids, lines, self._senders()))

    def _senders(self) -> Iterator[bytes]:
        """Who sent each line; nobody where the copy doesn't know it."""
        for number, _ in enumerate(self.ids, 1):
            sent = self.journal.sent.find(number)
            yield sent.name.encode() if sent else b""


def part_of(folder: Folder, journal: int) -> Part | None:
    """A journal of the copy; nothing where it isn't there or doesn't say where it comes from."""
    origin = Origin.read(f"{folder.path}/{journal}")
    if origin is None:
        return None
    found = open_journal(folder, journal)
    ids = list(ids_of(folder, journal).lines())[:found.lines.count]
    # A machine that failed may have kept the last lines without their ids.
    milliseconds, rest = order(ids[-1] if ids else origin.after)
    ids += [b"%d-%d" % (milliseconds, rest + more) for more in range(1, found.lines.count - len(ids) + 1)]
    return Part(origin, found, checkpoint_of(folder, journal), ids)


def part_before(folder: Folder, part: Part) -> Part | None:
    """The journal before another one, where the copy has it to its end."""
    before = part_of(folder, part.journal.number - 1)
    return before if before and before.ids[-1:] == [part.origin.after] else None


def parts_of(folder: Folder) -> list[Part]:
    """The last journal, and the one before it where the copy has that wholly."""
    last = part_of(folder, folder.last)
    if last is None or not (last.ids or last.checkpoint):
        raise Unfit(f"{folder.path} is no copy of a stream with a line in it")
    return [part for part in (part_before(folder, last), last) if part]


def entry_before(folder: Folder, part: Part) -> tuple[Entry, bytes]:
    """The line before a journal's first one, and its reply; where the copy hasn't that, what stands for them."""
    if before := part_before(folder, part):
        replies = before.replies()
        return before.entries(replies)[-1], (replies or [b""])[-1]
    return Entry(part.origin.after, NO_LINE), b""


class Restore:
    def __init__(self, link: Link, keys: Keys, parts: Sequence[Part], before: tuple[Entry, bytes]) -> None:
        self._link, self._keys, self._parts, self._before = link, keys, parts, before
        self._origin = parts[0].origin
        self.lease = Lease(keys.lease, f"restore:{secrets.token_hex(8)}".encode(), DEFAULT_LEASE)
        self.replies = 0

    async def judge(self) -> None:
        """Raises `Unfit` where the stream isn't empty, or a service runs over it."""
        keys, asked = self._keys, RESTORING + self._origin.identity
        end = time.monotonic() + 2 * DEFAULT_LEASE / 1000
        while not await self.lease.ask(self._link):
            if time.monotonic() > end:
                raise Unfit(f"a service runs over {keys.lines.decode()}; stop it first")
            await asyncio.sleep(SECONDS_BETWEEN_LOOKS)
        if await self._link.one(pack(b"GET", keys.identity)) == asked.encode():
            return
        if await self._link.one(pack(b"EXISTS", keys.lines, keys.replies, keys.checkpoints)):
            raise Unfit(f"{keys.lines.decode()} isn't empty; a copy is put back into an empty stream alone")

    async def run(self) -> None:
        keys, identity = self._keys, self._origin.identity
        await self._link.one(pack(b"SET", keys.identity, (RESTORING + identity).encode()))
        await self._link.one(pack(b"SET", keys.journal_lines, number(self._origin.journal_lines)))
        if self._parts[0].checkpoint:
            # The line before the first one must be there, as it is where a stream was trimmed.
            entry, reply = self._before
            await self._add(add_copies(keys.lines, [entry]) + add_replies(keys, [entry.id], [reply]))
        for part in self._parts:
            await self._restore(part)
        await self._count()
        await self._link.one(pack(b"SET", keys.identity, identity.encode()))

    async def _restore(self, part: Part) -> None:
        if part.checkpoint:
            await self._add([add_checkpoint(self._keys, Checkpoint(part.origin.after, part.journal.number, part.checkpoint), part.origin.identity)])
        replies = part.replies()
        self.replies += len(replies)
        await self._add(add_copies(self._keys.lines, part.entries(replies)))
        await self._add(add_replies(self._keys, part.ids, replies))

    async def _add(self, commands: Sequence[bytes]) -> None:
        for some in pieces(commands):
            are_added(await self._link.transaction(some))

    async def _count(self) -> None:
        """Says how many entries each stream ever had, by which a service sees whether it has its first one."""
        before = self._origin.journal_lines * (self._parts[0].journal.number - 1)
        ids = [self._origin.after, *(id for part in self._parts for id in part.ids)]
        for key, those in (self._keys.lines, ids), (self._keys.replies, ids[:self.replies + 1]):
            if those[-1] != START:
                await self._link.one(pack(b"XSETID", key, those[-1], b"ENTRIESADDED", number(before + len(those) - 1)))


def pieces(commands: Sequence[bytes]) -> Iterator[Sequence[bytes]]:
    for start in range(0, len(commands), MOST_ENTRIES):
        yield commands[start:start + MOST_ENTRIES]


async def restore(folder: Folder, address: Address) -> str:
    """Puts a copy back, and says what was."""
    keys, parts = Keys(address.stream), parts_of(folder)
    link = await Link.open(address, keys.lines)
    try:
        work = Restore(link, keys, parts, entry_before(folder, parts[0]))
        try:
            await work.judge()
            await work.run()
        finally:
            await work.lease.release(link)
    finally:
        link.close()
    journals = " and ".join(str(part.journal.number) for part in parts)
    return (f"{keys.lines.decode()} has the {sum(len(part.ids) for part in parts)} lines of journal {journals} again, "
            f"and {work.replies} replies; start its service with --copy {folder.path}")


def main(arguments: Sequence[str]) -> int:
    parser = argparse.ArgumentParser(
        prog="wagons-service restore", description="Puts the copy of a stream back into an empty stream.", epilog=f"See {PAGE}.")
    parser.add_argument("--from", metavar="FOLDER", dest="folder", required=True, help="the folder that --copy named; no service has it now")
    parser.add_argument("--to", metavar="ADDRESS", required=True, help="redis://HOST:PORT/STREAM, a stream without an entry")
    given = parser.parse_args(arguments)
    try:
        address = Address.read(given.to)
        if not any(name.isascii() and name.isdigit() for name in os.listdir(given.folder)):
            raise Unfit(f"{given.folder} has no journal")
        folder = Folder(given.folder)
        try:
            print("wagons-service:", asyncio.run(restore(folder, address)))
        finally:
            folder.close()
    except (BadAddress, FolderInUse, Unreadable, Unfit, Lost, Refused, OSError) as fault:
        print(f"wagons-service: {fault}", file=sys.stderr)
        return 2
    return 0
