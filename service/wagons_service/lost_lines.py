"""What the stream of an office has lost of the lines that were brought to it.

A server loses its newest entries and trims its oldest ones, so where an entry is there, all before it were brought and none
was lost. Where it isn't, the inbox's records say which lines were brought, backwards until one is found that is there.
"""

from collections.abc import AsyncIterator, Sequence
from itertools import zip_longest
from typing import Any

from .redis_link import Link, good, number, pack
from .streams import MOST_ENTRIES, Entry, Keys, field, is_whole, order


class TooMuchLost(Exception):
    """The inbox keeps no line any more that the stream still has, so what else is missing isn't known."""


async def are_there(link: Link, key: bytes, ids: Sequence[bytes], lines: Sequence[bytes] = ()) -> list[bool]:
    """Of each id, whether a stream has its entry, with this line where lines are given, or had it before it was trimmed."""
    found: list[Any] = await link.ask(b"".join(pack(b"XRANGE", key, id, id) for id in ids), len(ids))
    there = [bool(good(entries)) for entries in found]
    # An inbox that lost lines may give their ids to others.
    others = [bool(entries) and field(entries[0][1], b"line") != line for entries, line in zip(found, lines)]
    # Only now, so that an entry that is trimmed in between isn't taken for one that never came.
    if not all(there) and not await is_whole(link, key):
        oldest = await link.one(pack(b"XRANGE", key, b"-", b"+", b"COUNT", b"1"))
        there = [it or bool(oldest) and order(id) < order(oldest[0][0]) for it, id in zip(there, ids)]
    return [it and not is_other for it, is_other in zip_longest(there, others, fillvalue=False)]


async def records_back(inbox: Link, keys: Keys, last: bytes) -> AsyncIterator[list[tuple[bytes, str]]]:
    """The inbox's records from the last one backwards, many at once: their ids, and the office that has the line."""
    while records := await inbox.one(pack(b"XREVRANGE", keys.replies, last, b"-", b"COUNT", number(MOST_ENTRIES))):
        yield [(id, field(fields, b"office").decode()) for id, fields in records]
        last = b"(" + records[-1][0]


async def lost_lines(inbox: Link, keys: Keys, last: bytes, office: str, link: Link, is_complete: bool) -> list[Entry]:
    """The lines up to the last record that an office was brought and its stream has lost, as the inbox has them; not those of
    which that is said already."""
    lost: list[Entry] = []
    async for records in records_back(inbox, keys, last):
        ids = [id for id, name in records if name == office]
        there = await are_there(link, Keys(office).lines, ids) if ids else []
        many = there.index(True) if True in there else len(ids)
        lost += await _entries(inbox, keys, office, ids[:many])
        if many < len(ids):
            return lost[::-1]
    if not is_complete and not await is_whole(inbox, keys.replies):
        raise _unknown(office)
    return lost[::-1]


async def _entries(inbox: Link, keys: Keys, office: str, ids: Sequence[bytes]) -> list[Entry]:
    """Lines of the inbox, but for those that are said to be lost."""
    told = await inbox.one(pack(b"HMGET", keys.lost, *ids)) if ids else []
    wanted = [id for id, words in zip(ids, told) if words is None]
    found: list[Any] = await inbox.ask(b"".join(pack(b"XRANGE", keys.lines, id, id) for id in wanted), len(wanted)) if wanted else []
    if not all(map(good, found)):
        raise _unknown(office)
    return [Entry(id, field(fields, b"line"), field(fields, b"sender")) for ((id, fields),) in found]


def _unknown(office: str) -> TooMuchLost:
    return TooMuchLost(f"its stream has lost more than the inbox keeps. Restore it from a copy; where nothing older is missing, start the router with --complete {office}")
