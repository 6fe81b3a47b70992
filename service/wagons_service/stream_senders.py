"""Who sent the lines of a stream, and when: an entry's field `sender`, and the moment in its id.

Redis makes an id of the milliseconds of its own clock, and a line keeps its id on its way from an inbox. So nothing else
has to say when a line was taken.
"""

from datetime import UTC, datetime, timedelta
from functools import lru_cache

from .senders import NAME
from .sent import Sent, written
from .streams import Entries

EPOCH = datetime.fromtimestamp(0, UTC)
# Who appends may choose any id; past this year no moment has a text.
LAST_MILLISECOND = (datetime(9999, 12, 31, 23, 59, 59, 999_000, UTC) - EPOCH) // timedelta(milliseconds=1)


def sent_of(first: int, entries: Entries) -> list[Sent]:
    """Who sent entries, of which the first is the line of this number. Those that a name sent in one millisecond stand
    together, as the lines of a request mostly do."""
    ids, senders = entries.ids, entries.senders
    sent, place, count = [], 0, len(ids)
    while place < count:
        sender = senders[place]
        milliseconds, dash, _ = ids[place].partition(b"-")
        moment, end = milliseconds + dash, place + 1
        while end < count and senders[end] == sender and ids[end].startswith(moment):
            end += 1
        sent.append(Sent(first + place, first + end - 1, name_of(sender), taken_at(int(milliseconds))))
        place = end
    return sent


@lru_cache(1000)
def name_of(sender: bytes) -> str:
    """The name that an entry gives; none where it is no name as a token has it."""
    name = sender.decode("ascii", "replace")
    return name if NAME.fullmatch(name) else ""


def taken_at(milliseconds: int) -> str:
    return written(EPOCH + timedelta(milliseconds=min(milliseconds, LAST_MILLISECOND)))
