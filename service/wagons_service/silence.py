"""How long the program has said nothing, and how long the oldest line without a reply has waited."""

import time
from collections import deque
from collections.abc import Iterator

from .metrics import one


class Silence:
    def __init__(self, most: float) -> None:
        self.most = most
        # Counted by ticks, since a service that was stopped itself hasn't heard what the program said meanwhile.
        self._seconds = 0.0
        self._was_owed = False
        # The last line of each request that waits for replies, and when it was taken.
        self._taken: deque[tuple[int, float]] = deque()

    def take(self, last: int) -> None:
        """Lines up to this one wait for their replies from now on."""
        self._taken.append((last, time.monotonic()))

    def go_on(self, seconds: float, is_owed: bool) -> None:
        """So much time has gone by; the program owes a reply at its end or none."""
        self._seconds = self._seconds + seconds if is_owed and self._was_owed else 0.0
        self._was_owed = is_owed

    def end(self) -> None:
        """The program has said something, or was started."""
        self._seconds, self._was_owed = 0.0, False

    @property
    def is_long(self) -> bool:
        """Whether whoever keeps watch is to know of it."""
        return self._seconds >= self.most / 2

    @property
    def is_too_long(self) -> bool:
        return self._seconds >= self.most

    @property
    def words(self) -> str:
        return f"the program has given no reply for {self._seconds:g} seconds"

    def age(self, answered: int) -> float:
        """How many seconds ago the oldest line was taken that has no reply yet, where those up to `answered` have theirs."""
        while self._taken and self._taken[0][0] <= answered:
            self._taken.popleft()
        return time.monotonic() - self._taken[0][1] if self._taken else 0.0

    def gauges(self, answered: int) -> Iterator[str]:
        yield from one("wagons_oldest_unanswered_seconds", "gauge", "how long the oldest line without a reply has waited", round(self.age(answered), 3))
