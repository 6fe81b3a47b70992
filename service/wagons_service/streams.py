"""The streams of an office in Redis, and how they are read and written.

`{north}:lines` has the lines of the office north, an entry each, with the field `line`, and with `sender` where it is known
who sent it. `{north}:replies` has the reply to each of them under the line's own id. Redis refuses an id that isn't above
all before it, so each reply is there once, whoever wrote it and however often. The braces keep the keys of an office on one
server of a cluster.
"""

from collections.abc import Iterable, Sequence
from dataclasses import dataclass
from typing import Any, NamedTuple

from .journal import MOST_LINE_BYTES, is_blank
from .redis_link import Link, Refused, good, number, pack, packed

# Before the first entry.
START = b"0-0"
# So much is read or written at once.
MOST_ENTRIES = 1000
# An id that isn't above the last one.
NOT_ABOVE = "ERR The ID specified in XADD is equal or smaller"
# What the program is given in place of an entry that is no line of its own: it refuses it with 21.
NO_LINE = b"?"
TOO_LONG = b"refused 92"

# Appends lines once for each number of a sender: KEYS are the lines and the sender's mark, ARGV its number and the lines.
# The answer is the ids of the lines. The number that was last once more gives the same ids and appends nothing, where its
# lines are the same: the mark has their digest. A number is compared as a text, since Lua has none above 2^53 but roughly.
# Who sent them is the NAME of a mark {north}:sent:NAME.
LIBRARY = b"""#!lua name=wagons
local function is_number(text)
  return text == '0' or #text <= 18 and string.match(text, '^[1-9]%d*$') ~= nil
end

local function is_below(one, other)
  return #one < #other or #one == #other and one < other
end

local function digest(arguments)
  local parts = {}
  for index = 2, #arguments do parts[index - 1] = #arguments[index] .. ':' .. arguments[index] end
  return redis.sha1hex(table.concat(parts))
end

-- The last number, the digest of its lines, and their ids. A mark of before there were digests has none.
local function read_mark(mark)
  local last, words = string.match(mark, '^0*(%d+) ?(.*)$')
  local known, ids = string.match(words or '', '^(' .. string.rep('%x', 40) .. ') ?(.*)$')
  return last, known, ids or words
end

-- The fields that say who sends.
local function sender_of(mark)
  local name = string.match(mark, '^{[^{}]+}:sent:(.+)$')
  return name and {'sender', name} or {}
end

redis.register_function('append', function(keys, arguments)
  local number = arguments[1]
  if #keys ~= 2 or #arguments < 2 then
    return redis.error_reply('ERR append takes two keys, a number and one or more lines')
  end
  if not is_number(number) then
    return redis.error_reply('ERR a number has 1 to 18 digits and no zero in front')
  end
  local sum, mark = digest(arguments), redis.call('GET', keys[2])
  if mark then
    local last, known, words = read_mark(mark)
    if not last then
      return redis.error_reply('ERR ' .. keys[2] .. ' is no mark of append')
    end
    if is_below(number, last) then
      return redis.error_reply('ERR number ' .. number .. ' is below the last one, ' .. last)
    end
    if number == last then
      if known and known ~= sum then
        return redis.error_reply('ERR number ' .. number .. ' was sent with other lines')
      end
      local ids = {}
      for id in string.gmatch(words, '%S+') do ids[#ids + 1] = id end
      return ids
    end
  end
  local ids, sender = {}, sender_of(keys[2])
  for index = 2, #arguments do ids[#ids + 1] = redis.call('XADD', keys[1], '*', 'line', arguments[index], unpack(sender)) end
  redis.call('SET', keys[2], number .. ' ' .. sum .. ' ' .. table.concat(ids, ' '))
  return ids
end)
"""


class Entry(NamedTuple):
    """A line as it stands in a stream: its id, and who sent it where the entry says so."""

    id: bytes
    line: bytes
    sender: bytes = b""


class Entries(NamedTuple):
    """Entries that were read: their ids, the lines that the program is given, who sent them, and the refusals of those that
    are no lines for it, by their indices."""

    ids: list[bytes]
    lines: list[bytes]
    senders: list[bytes]
    refusals: dict[int, bytes]


class Checkpoint(NamedTuple):
    """The office after the line of an id, with which a journal of this number begins. The first journal has no text."""

    id: bytes
    journal: int
    text: bytes


FIRST = Checkpoint(START, 1, b"")


class Mark(NamedTuple):
    """The last entry that was read of a stream: its id, and what it says."""

    id: bytes
    text: bytes


@dataclass(frozen=True)
class Keys:
    name: str

    def _key(self, part: str) -> bytes:
        return f"{{{self.name}}}:{part}".encode()

    @property
    def lines(self) -> bytes:
        return self._key("lines")

    @property
    def replies(self) -> bytes:
        return self._key("replies")

    @property
    def checkpoints(self) -> bytes:
        return self._key("checkpoints")

    @property
    def lease(self) -> bytes:
        return self._key("lease")

    @property
    def identity(self) -> bytes:
        """A random name of this stream, which its first service gives it for good."""
        return self._key("identity")

    @property
    def awaited(self) -> bytes:
        """The last line that replicas were asked for."""
        return self._key("awaited")

    @property
    def journal_lines(self) -> bytes:
        """How many lines a journal of this stream has, for good."""
        return self._key("journal-lines")

    @property
    def lost(self) -> bytes:
        """Of an inbox: the lines that an office had and lost, and that can't come again."""
        return self._key("lost")


class Trimmed(Exception):
    """What was read last isn't there any more, so what came behind it may be missing: the server lost it, or trimmed it."""


def add_copies(key: bytes, entries: Iterable[Entry]) -> list[bytes]:
    """The commands that append lines under ids which they have already."""
    return [pack(b"XADD", key, id, b"line", line, *((b"sender", sender) if sender else ())) for id, line, sender in entries]


def add_replies(keys: Keys, ids: Sequence[bytes], texts: Sequence[bytes]) -> list[bytes]:
    """The commands that write replies. They are many, so only what differs is packed for each."""
    form = b"*5\r\n$4\r\nXADD\r\n$%d\r\n%b\r\n" % (len(keys.replies), keys.replies.replace(b"%", b"%%")) + b"$%d\r\n%b\r\n$5\r\nreply\r\n$%d\r\n%b\r\n"
    return [form % (len(id), id, len(text), text) for id, text in zip(ids, texts)]


def add_lines(key: bytes, lines: Sequence[bytes], sender: str, office: str | None = None) -> list[bytes]:
    """The commands that append a sender's lines; to an inbox with the office that they are for."""
    before = [b"XADD", key, b"*", *([b"office", office.encode()] if office else []), b"line"]
    behind = [b"sender", sender.encode()]
    head, tail = b"*%d\r\n%b" % (len(before) + 1 + len(behind), packed(before)), packed(behind)
    return [head + packed([line]) + tail for line in lines]


def read_on(key: bytes, last: bytes, most: int) -> bytes:
    """Reads entries behind the last one, and that one once more."""
    first, count = (b"-", most) if last == START else (last, most + 1)
    return pack(b"XRANGE", key, first, b"+", b"COUNT", number(count))


def wait(keys: Sequence[bytes], lasts: Sequence[bytes], milliseconds: int) -> bytes:
    """Waits until there is something behind one of these."""
    return pack(b"XREAD", b"COUNT", b"1", b"BLOCK", number(milliseconds), b"STREAMS", *keys, *lasts)


def lines_of(entries: list[Any]) -> Entries:
    ids = [id for id, _ in entries]
    lines = [field(fields, b"line") for _, fields in entries]
    # An entry of one field has no sender.
    senders = [field(fields, b"sender") if len(fields) > 2 else b"" for _, fields in entries]
    refusals: dict[int, bytes] = {}
    longest = max(map(len, lines), default=0)
    if longest > MOST_LINE_BYTES or b"\n" in b"".join(lines) or any(map(is_blank, lines)):
        for index, line in enumerate(lines):
            if len(line) > MOST_LINE_BYTES:
                lines[index], refusals[index] = NO_LINE, TOO_LONG
            elif b"\n" in line or is_blank(line):
                lines[index] = NO_LINE
    return Entries(ids, lines, senders, refusals)


def field(fields: Sequence[bytes], name: bytes) -> bytes:
    """A field of an entry, or nothing; of a field given twice the first counts."""
    if fields[0] == name:
        return fields[1]
    names = fields[::2]
    return fields[2 * names.index(name) + 1] if name in names else b""


def text_of(key: bytes, entry: Any) -> bytes:
    """What an entry says: its reply, or its line as the program is given it."""
    return field(entry[1], b"reply") if key.endswith(b":replies") else lines_of([entry]).lines[0]


def order(id: bytes) -> tuple[int, int]:
    """What an id is compared by."""
    milliseconds, _, rest = id.partition(b"-")
    return int(milliseconds), int(rest)


async def last_id(link: Link, key: bytes) -> bytes:
    """The id of the last entry."""
    found = await link.one(pack(b"XREVRANGE", key, b"+", b"-", b"COUNT", b"1"))
    return bytes(found[0][0]) if found else START


async def is_whole(link: Link, key: bytes) -> bool:
    """Whether a stream still has its first entry."""
    if not await link.one(pack(b"EXISTS", key)):
        return True
    told = await link.one(pack(b"XINFO", b"STREAM", key))
    known = dict(zip(told[::2], told[1::2]))
    return bool(known[b"length"] == known[b"entries-added"])


async def read_behind(link: Link, key: bytes, last: bytes, most: int, waited: bytes = b"", said: bytes | None = None) -> list[Any]:
    """The entries behind the last one, after what is waited for.

    The last one must be there still, and say what it said. A server loses its newest entries and trims its oldest ones, so
    then none is missing in between. Before the first entry nothing can be looked at, so there the stream must be whole, once
    it was read.
    """
    answers = await link.ask(waited + read_on(key, last, most), 2 if waited else 1)
    entries: list[Any] = [good(answer) for answer in answers][-1]
    if last == START:
        if entries and not await is_whole(link, key):
            raise Trimmed(f"{key.decode()} doesn't begin with its first entry any more")
        return entries
    if not entries or entries[0][0] != last:
        raise Trimmed(f"the entry {last.decode()} isn't there any more")
    # A lost entry's id may have come again, with another entry.
    if said is not None and text_of(key, entries[0]) != said:
        raise Trimmed(f"the entry {last.decode()} isn't the one that was read: the server lost that one")
    return entries[1:]


async def mark_at(link: Link, key: bytes, id: bytes) -> Mark:
    """The entry of an id."""
    if id == START:
        return Mark(START, b"")
    found = await link.one(pack(b"XRANGE", key, id, id))
    if not found:
        raise Trimmed(f"the entry {id.decode()} isn't there any more")
    return Mark(id, text_of(key, found[0]))


async def starts(link: Link, keys: Keys) -> list[Checkpoint]:
    """From where the stream can be read, the oldest first: its beginning, where that is there, and its checkpoints."""
    found = await link.one(pack(b"XRANGE", keys.checkpoints, b"-", b"+"))
    kept = [Checkpoint(id, int(field(fields, b"journal")), field(fields, b"text")) for id, fields in found]
    is_there = await is_whole(link, keys.lines) and await is_whole(link, keys.replies)
    return [FIRST, *kept] if is_there else kept


async def keep_checkpoint(link: Link, keys: Keys, checkpoint: Checkpoint, identity: str) -> None:
    """Keeps a checkpoint, unless a later one is there; drops all but two, and the lines and replies before those."""
    try:
        await link.one(add_checkpoint(keys, checkpoint, identity))
    except Refused as fault:
        if not str(fault).startswith(NOT_ABOVE):
            raise
    kept = await link.one(pack(b"XREVRANGE", keys.checkpoints, b"+", b"-", b"COUNT", b"2"))
    if len(kept) == 2:
        oldest = kept[1][0]
        for key in keys.checkpoints, keys.lines, keys.replies:
            await link.one(pack(b"XTRIM", key, b"MINID", oldest))


def add_checkpoint(keys: Keys, checkpoint: Checkpoint, identity: str) -> bytes:
    words = b"journal", number(checkpoint.journal), b"identity", identity.encode(), b"text", checkpoint.text
    return pack(b"XADD", keys.checkpoints, checkpoint.id, *words)


async def wait_for_replicas(link: Link, keys: Keys, id: bytes, many: int, milliseconds: int) -> int:
    """How many replicas have all lines up to one, once so many have them, or after that time. Redis tells for a connection's
    own writes, and all that came before them: so something is written."""
    answers = await link.ask(pack(b"SET", keys.awaited, id) + pack(b"WAIT", number(many), number(milliseconds)), 2)
    return int([good(answer) for answer in answers][-1])


def are_added(answers: Sequence[Any]) -> bool:
    """Whether all entries were added now; the others are there already. Another refusal is raised."""
    refused = [answer for answer in answers if not isinstance(answer, bytes)]
    for answer in refused:
        if not str(answer).startswith(NOT_ABOVE):
            good(answer)
    return not refused
