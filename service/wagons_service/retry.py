"""Messages that came before the one that they follow: kept aside, and offered again behind the next accepted message of their
wagon (`--retry`).

An offer is what the sender itself could have done: the same line, under the same name, judged and counted as before. It is a
line of the journal with a reply of its own. What is kept aside follows from the lines and their replies, so that a start makes
it again from the last journal.
"""

import asyncio
import logging
import time
from collections import defaultdict
from collections.abc import Iterator, Mapping, Sequence
from contextlib import suppress
from dataclasses import dataclass
from datetime import UTC, datetime
from typing import TYPE_CHECKING, Any

from .answers import Refusal
from .metrics import code_of, head, one
from .moments import seconds_of
from .office import NotTaken, Office, State, Stopped
from .program import Replies
from .senders import MESSAGES, NOT_READ, Ahead, Forbidden, NoLine, Role, read
from .sent import written
from .shares import TooMuch

if TYPE_CHECKING:
    from .server import Server

log = logging.getLogger("wagons-service")

# The refusals that another message of the wagon may end: its status, and its place.
EARLY = ("32", "33")
# So many are kept of a wagon for each sender, of a sender, and in all; the oldest goes. None is longer than so many bytes.
MOST_OF_A_WAGON = 8
MOST_OF_A_SENDER = 1_000
MOST = 4_000
MOST_BYTES = 1_000
SECONDS_BETWEEN_LOOKS = 1.0
SECONDS_FOR_REPLIES = 60
# A message's company and number.
Key = tuple[str, str]


@dataclass(eq=False, slots=True)
class Early:
    """A message that is kept aside: its line, who sent it, and until when it is kept, in seconds since 1970."""

    key: Key
    line: bytes
    wagon: str
    moment: int
    sender: str
    until: float
    # Whether a message of the wagon was accepted since it was refused last.
    is_due: bool = False


class EarlyMessages:
    """The messages that are kept aside, by the lines and replies of a journal as they come."""

    def __init__(self, minutes: float) -> None:
        self._seconds = 60 * minutes
        # By company and number, as the office tells messages apart; the oldest first, here and below.
        self._kept: dict[Key, Early] = {}
        self._of_wagon: defaultdict[str, dict[Key, Early]] = defaultdict(dict)
        self._of_sender: defaultdict[str, dict[Key, Early]] = defaultdict(dict)
        # The wagons of which some may be due.
        self._due: set[str] = set()

    def __len__(self) -> int:
        return len(self._kept)

    def __iter__(self) -> Iterator[Early]:
        return iter(list(self._kept.values()))

    def take(self, line: bytes, kind: bytes, text: bytes, sender: str, taken: float) -> bool:
        """Takes a reply to a line that a sender sent at a moment: whether it makes some due."""
        code = code_of(text) if kind == b"refused" else ""
        if not self._kept and code not in EARLY:
            return False
        fields = message_fields(line)
        if fields is None:
            return False
        key, wagon = (str(fields.get("company")), str(fields.get("number"))), str(fields.get("wagon")).translate(NOT_READ)
        before = self._kept.get(key)
        if code in EARLY:
            if before and before.line == line:
                before.is_due = False
            elif len(line) <= MOST_BYTES and (moment := seconds_of(fields.get("moment"))) is not None:
                self._keep(Early(key, line, wagon, moment, sender, taken + self._seconds))
            return False
        if before and (kind == b"accepted" or before.line == line):
            # It is in the office, or what refuses it now doesn't end.
            self.drop(before)
        return kind == b"accepted" and self._make_due(wagon, seconds_of(fields.get("moment")))

    def _keep(self, early: Early) -> None:
        """Keeps a message in place of another one of its number."""
        if before := self._kept.get(early.key):
            self.drop(before)
        for kept in self._kept, self._of_wagon[early.wagon], self._of_sender[early.sender]:
            kept[early.key] = early
        of_both = [it for it in self._of_wagon[early.wagon].values() if it.sender == early.sender]
        of_sender = self._of_sender[early.sender]
        if len(of_both) > MOST_OF_A_WAGON:
            self.drop(of_both[0])
        elif len(of_sender) > MOST_OF_A_SENDER:
            self.drop(next(iter(of_sender.values())))
        elif len(self._kept) > MOST:
            self.drop(next(iter(self._kept.values())))

    def _make_due(self, wagon: str, last: int | None) -> bool:
        """A message of a wagon was accepted, of this moment; what happened before it isn't offered any more."""
        for early in list(self._of_wagon.get(wagon, {}).values()):
            early.is_due = True
            self._due.add(wagon)
            if last is not None and early.moment < last:
                self.drop(early)
        return wagon in self._due

    def is_due(self, early: Early) -> bool:
        """Whether a message is kept still, and is to be offered."""
        return early.is_due and self._kept.get(early.key) is early

    def drop(self, early: Early) -> None:
        if self._kept.get(early.key) is early:
            del self._kept[early.key]
            for of_one, name in (self._of_wagon, early.wagon), (self._of_sender, early.sender):
                del of_one[name][early.key]
                if not of_one[name]:
                    del of_one[name]

    def drop_old(self, now: float) -> None:
        for early in self:
            if early.until < now:
                self.drop(early)

    def due(self) -> dict[str, list[Early]]:
        """What is to be offered now, by its sender: of each wagon the one that happened first."""
        found: defaultdict[str, list[Early]] = defaultdict(list)
        for wagon in list(self._due):
            all_of_it = [early for early in self._of_wagon.get(wagon, {}).values() if early.is_due]
            if all_of_it:
                first = min(all_of_it, key=lambda early: early.moment)
                found[first.sender].append(first)
            else:
                self._due.discard(wagon)
        return found


class Retry:
    def __init__(self, server: "Server", minutes: float) -> None:
        self._server = server
        self._seconds = 60 * minutes
        self._early = EarlyMessages(minutes)
        self._wake = asyncio.Event()
        # Senders whose share is used up, or that can't send now, and until when, by the monotonic clock.
        self._later: dict[str, float] = {}
        # Of the office that reads its journal the first line that isn't too old.
        self._first: tuple[Office, int] | None = None
        self._offered = 0
        self._task: asyncio.Task[None] | None = None

    def start(self) -> None:
        self._task = asyncio.create_task(self._offer_all())

    def end(self) -> None:
        if self._task:
            self._task.cancel()

    def hear(self, office: Office, replies: Replies) -> None:
        """Takes replies that the office hasn't given before, also those that it gives while it reads its journal."""
        if not len(self._early) and b"refused" not in replies.kinds:
            return
        if self._first is None or self._first[0] is not office:
            self._first = office, office.journal.sent.first_since(written(datetime.fromtimestamp(time.time() - self._seconds, UTC)))
        first, last = max(replies.numbers[0], self._first[1]), replies.numbers[-1]
        if first > last:
            return
        lines = office.journal.lines.read(first, last).split(b"\n")
        for number, kind, text in zip(*replies):
            if number >= first and self._take(office, number, lines[number - first], kind, text):
                self._wake.set()

    def _take(self, office: Office, number: int, line: bytes, kind: bytes, text: bytes) -> bool:
        is_early = kind == b"refused" and code_of(text) in EARLY
        sent = office.journal.sent.find(number) if is_early else None
        taken = seconds_of(sent.taken) if sent else None
        return self._early.take(line, kind, text, sent.name if sent else "", time.time() if taken is None else taken)

    async def _offer_all(self) -> None:
        while True:
            with suppress(TimeoutError):
                async with asyncio.timeout(SECONDS_BETWEEN_LOOKS):
                    await self._wake.wait()
            self._wake.clear()
            self._early.drop_old(time.time())
            try:
                while due := self._now():
                    for name, early in due.items():
                        await self._offer(name, early)
            except Exception as fault:  # Whatever goes wrong with one, others are offered later.
                log.error("no early messages are offered now: %r", fault)

    def _now(self) -> dict[str, list[Early]]:
        """What is offered now; nothing while the office reads its journal, since an offer may stand there."""
        if self._server.office.state is not State.RUNNING:
            return {}
        now = time.monotonic()
        return {name: early for name, early in self._early.due().items() if self._later.get(name, 0) <= now}

    async def _offer(self, name: str, all_of_them: Sequence[Early]) -> None:
        """Offers messages of a sender, each of another wagon."""
        for early in all_of_them:
            # While another one was offered a later message of the wagon may have been accepted.
            if not self._early.is_due(early):
                continue
            sender = self._server.sender_named(name, early.key[0])
            if sender is None:
                # The token isn't known any more.
                self._early.drop(early)
                continue
            try:
                await self._server.judge(sender, [early.line])
                self._server.shares.of(sender.key).send(1)
                parts = await self._server.service.take([early.line], name, sender.role is Role.DISPATCHER)
                self._offered += 1
                for office, numbers, _ in parts:
                    await office.until_answered(numbers[-1], SECONDS_FOR_REPLIES)
            except (Forbidden, NoLine, Ahead):
                self._early.drop(early)
            except TooMuch as fault:
                self._later[name] = time.monotonic() + fault.retry_after
                return
            except (NotTaken, Stopped, Refusal) as fault:
                log.warning("a message that came early couldn't be offered again now: %s", fault)
                self._later[name] = time.monotonic() + SECONDS_BETWEEN_LOOKS
                return

    def gauges(self) -> Iterator[str]:
        yield from one("wagons_early_messages", "gauge", "messages that are kept aside, to be offered again", len(self._early))
        yield from one("wagons_early_due", "gauge", "messages of these that are to be offered now", sum(early.is_due for early in self._early))
        yield from head("wagons_offered_total", "counter", "messages that were offered again since the start")
        yield f"wagons_offered_total {self._offered}"


def message_fields(line: bytes) -> Mapping[str, Any] | None:
    """The members of a movement message."""
    try:
        fields = read(line)
    except ValueError:
        return None
    kind = fields.get("type") if isinstance(fields, dict) else None
    return fields if isinstance(kind, str) and kind in MESSAGES else None
