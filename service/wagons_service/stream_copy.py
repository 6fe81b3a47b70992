"""The copy of a stream: of which stream it is, and whether it is a beginning of what that one has.

Beside its lines each journal's folder has `stream.json`, which says where it comes from, and `ids`, the id of each line. A
copy may be the last one of its office. So nothing of it goes: a service whose copy has what its stream hasn't stops.
"""

import json
import logging
import os
import secrets
from collections.abc import Sequence
from typing import NamedTuple

from .journal import IDS, ORIGIN, FileOfLines, Folder, Journal, KeptReplies, RepliesAhead, replace, sync_folder
from .redis_link import Link, pack
from .sent import Sent
from .stream_senders import sent_of
from .streams import MOST_ENTRIES, Checkpoint, Keys, field, lines_of, read_behind

log = logging.getLogger("wagons-service")

# Stands before a stream's identity while a copy is put back into it.
RESTORING = "restoring "
ADVICE = ("Nothing was changed. To go on with the copy, put it back into an empty stream (`wagons-service restore`); "
          "to go on with the stream, name another folder as --copy")


class Unfit(Exception):
    """The stream can't be served with these options, or with this copy; the text says why."""


class Origin(NamedTuple):
    """Where a journal comes from: the identity of its stream, the id of the line before its first one, and how many lines
    each journal there has."""

    identity: str
    after: bytes
    journal_lines: int

    @classmethod
    def read(cls, folder: str) -> "Origin | None":
        try:
            with open(f"{folder}/{ORIGIN}", encoding="ascii") as file:
                told = json.load(file)
            return cls(str(told["identity"]), told["after"].encode(), int(told["journal_lines"]))
        except FileNotFoundError:
            return None
        except (ValueError, KeyError, TypeError, AttributeError) as fault:
            raise Unfit(f"{folder}/{ORIGIN} can't be read: {fault!r}") from None

    @property
    def text(self) -> bytes:
        return json.dumps(self._asdict() | {"after": self.after.decode()}).encode() + b"\n"

    def keep(self, folder: str) -> None:
        """Writes it into a journal's folder, wholly or not at all. A folder without a line may have that of another stream."""
        if Origin.read(folder) != self:
            with open(f"{folder}/{ORIGIN}.new", "wb") as file:
                file.write(self.text)
                file.flush()
                os.fsync(file.fileno())
            os.rename(f"{folder}/{ORIGIN}.new", f"{folder}/{ORIGIN}")
            sync_folder(folder)


class Known(NamedTuple):
    """What a copy and its stream both have of a journal: the ids of its lines, the refusals of those that are no lines for
    the program, by their numbers, and how many replies."""

    ids: list[bytes]
    refusals: dict[int, bytes]
    replies: int


def nothing_known() -> Known:
    return Known([], {}, 0)


def ids_of(folder: Folder, journal: int) -> FileOfLines:
    """The ids of a journal's lines."""
    return FileOfLines(f"{folder.path}/{journal}/{IDS}")


def open_journal(folder: Folder, number: int) -> Journal:
    """A journal of the copy. Nothing of a copy is synced, so a machine that fails may leave replies to lines that aren't
    there; the stream has both."""
    try:
        return folder.journal(number)
    except RepliesAhead as fault:
        log.warning("%s; the replies are read anew", fault)
        replace(f"{folder.path}/{number}/replies.jsonl")
        return folder.journal(number)


def checkpoint_of(folder: Folder, number: int) -> bytes:
    """The checkpoint from which a journal begins; nothing for the first one."""
    try:
        with open(f"{folder.path}/{number}/checkpoint.jsonl", "rb") as file:
            return file.read()
    except FileNotFoundError:
        return b""


def identity_of(folder: Folder) -> str | None:
    """The identity of the stream whose copy it is; none where it has none, or no line yet."""
    numbers = [int(name) for name in os.listdir(folder.path) if name.isascii() and name.isdigit()]
    found = {number: origin.identity for number in numbers if (origin := Origin.read(f"{folder.path}/{number}"))}
    if len(set(found.values())) > 1:
        raise Unfit(f"the copy {folder.path} has journals of several streams: {found}. Put each stream's into a folder of its own")
    is_empty = numbers == [1] and not os.path.getsize(f"{folder.path}/1/journal.jsonl")
    return None if is_empty else next(iter(found.values()), None)


async def identity(link: Link, keys: Keys, known: str | None, copy: str | None) -> str:
    """The identity of the stream, which must be the known one, that of the copy or of what was read before. A stream that
    has none gets one."""
    there = await link.one(pack(b"GET", keys.identity))
    if there and there.startswith(RESTORING.encode()):
        raise Unfit(f"a copy is being put back into {keys.lines.decode()}; where `wagons-service restore` was ended, begin it once more")
    last = await link.one(pack(b"XREVRANGE", keys.checkpoints, b"+", b"-", b"COUNT", b"1"))
    kept = field(last[0][1], b"identity") if last else b""
    if there and kept not in (b"", there):
        raise Unfit(f"{keys.checkpoints.decode()} is of another stream: it has the identity {kept.decode()}, and {keys.identity.decode()} is {there.decode()}")
    there = there or kept
    if known is not None and there != known.encode():
        whose, advice = (f"the copy {copy}", ADVICE) if copy else ("what this service has read", "Start it again to serve what is there now")
        raise Unfit(f"{whose} is of another stream: {keys.lines.decode()} has {f'the identity {there.decode()}' if there else 'no identity'}, "
                    f"and not {known}. {advice}")
    await link.one(pack(b"SET", keys.identity, there or secrets.token_hex(16).encode(), b"NX"))
    found: bytes = await link.one(pack(b"GET", keys.identity))
    return found.decode()


def start_for(folder: Folder, found: Sequence[Checkpoint]) -> Checkpoint:
    """Where to begin so that the copy goes on where it ends; where it ends before all that is kept, with the oldest."""
    return ([start for start in found if start.journal <= folder.last] or found[:1])[-1]


async def known_from(link: Link, keys: Keys, folder: Folder, start: Checkpoint, journal_lines: int) -> dict[int, Known]:
    """What the stream has of the copy's journals, by their numbers, from a start on. It must have each of their lines."""
    number, after = start.journal, start.id
    found: dict[int, Known] = {}
    while folder.has(number) and (number > start.journal or checkpoint_of(folder, number) == start.text):
        journal, ids = open_journal(folder, number), ids_of(folder, number)
        try:
            known = await compare_lines(link, keys, folder, journal, ids, after)
            replies = await count_replies(link, keys, journal, known.ids, after)
            if replies < journal.replies.last:
                log.warning("the stream doesn't have reply %d of journal %d as the copy has it; the replies are read anew", replies + 1, number)
                replace(f"{folder.path}/{number}/replies.jsonl")
                replies = 0
        finally:
            journal.close()
            ids.close()
        found[number] = known._replace(replies=replies)
        if len(known.ids) < journal_lines:
            break
        number, after = number + 1, known.ids[-1]
    return found


async def compare_lines(link: Link, keys: Keys, folder: Folder, journal: Journal, ids: FileOfLines, last: bytes) -> Known:
    """Compares each line of a journal, and its id where that is known, with the stream. The ids that are missing are added,
    and who sent lines of which the copy doesn't say it."""
    known, count = nothing_known(), journal.lines.count
    sent: list[Sent] = []
    what = f"journal {journal.number} of the copy {folder.path}"
    if ids.count > count:
        ids.cut(count)
    while (done := len(known.ids)) < count:
        entries = await read_behind(link, keys.lines, last, min(MOST_ENTRIES, count - done))
        if not entries:
            raise Unfit(f"{what} has {count} lines, and {keys.lines.decode()} has {done} of them. {ADVICE}")
        read = lines_of(entries)
        for file, there in (journal.lines, read.lines), (ids, read.ids):
            end = min(done + len(there), file.count)
            kept = file.read(done + 1, end).split(b"\n")[:-1] if end > done else []
            same = count_same(kept, there)
            if same < len(kept):
                raise Unfit(f"line {done + same + 1} of {what} isn't the one that {keys.lines.decode()} has as {read.ids[same].decode()}. {ADVICE}")
        if journal.sent.last < done + len(read.ids):
            sent += sent_of(done + 1, read)
        known.refusals.update((done + 1 + index, refusal) for index, refusal in read.refusals.items())
        known.ids.extend(read.ids)
        last = read.ids[-1]
    ids.append(known.ids[ids.count:], is_synced=False)
    journal.sent.copy(sent)
    return known


async def count_replies(link: Link, keys: Keys, journal: Journal, ids: Sequence[bytes], last: bytes) -> int:
    """How many replies of a journal, from the first one on, the stream has as well."""
    kept, done = journal.replies, 0
    while done < kept.last:
        entries = await read_behind(link, keys.replies, last, min(MOST_ENTRIES, kept.last - done))
        texts = [field(fields, b"reply") for _, fields in entries]
        if not entries or not b"".join(texts).isascii():
            break
        numbers = range(done + 1, done + 1 + len(entries))
        records = kept.read(numbers[0], numbers[-1]).split(b"\n")[:-1]
        told = KeptReplies.records(numbers, texts)
        same = min(count_same(records, told), count_same(ids[done:], [id for id, _ in entries]))
        done += same
        if same < len(entries):
            break
        last = entries[-1][0]
    return done


def count_same(one: Sequence[bytes], other: Sequence[bytes]) -> int:
    """How many of both are the same, from the first one on."""
    pairs = list(zip(one, other))
    return next((place for place, (left, right) in enumerate(pairs) if left != right), len(pairs))
