"""What each token uses of its share, so that no sender takes the service from the others."""

import math
import time
from collections import Counter, defaultdict
from dataclasses import fields

from .answers import Refusal
from .limits import Share

# So many bytes of bodies a token holds at once: a quarter of what all of them may.
MOST_HELD_BYTES = 16_000_000
# So many seconds' worth of lines and bytes may come at once: a railway that was away for a day sends that day's messages.
SECONDS_AT_ONCE = 10
SECONDS_BETWEEN_TRIES = 1
NO_LIMIT = 10**12


class TooMuch(Refusal):
    """A token has used its share; nothing of the request is in the journal."""

    def __init__(self, sentence: str, seconds: float) -> None:
        super().__init__(429, f"{sentence} Nothing of the request was taken.")
        self.retry_after = max(math.ceil(seconds), 1)


class Bucket:
    """Fills up by so much a second, to a limit. What is taken may be more than is in it: the next taker waits for that."""

    def __init__(self, rate: int) -> None:
        self._rate = rate
        self._most = self.level = float(rate * SECONDS_AT_ONCE)
        self._at = time.monotonic()

    def seconds_until(self) -> float:
        """How long it takes until something is in it."""
        if self.level < 0:
            self.take(0)
        return -self.level / self._rate if self.level < 0 else 0.0

    def take(self, amount: int) -> None:
        now = time.monotonic()
        level = self.level + (now - self._at) * self._rate
        self.level = (level if level < self._most else self._most) - amount
        self._at = now


class Used:
    """What one token uses now."""

    def __init__(self, share: Share, most_held: int = MOST_HELD_BYTES) -> None:
        self._share = share
        self._most_held = most_held
        self._lines = Bucket(share.lines)
        self._bytes = Bucket(share.bytes)
        self._open: Counter[str] = Counter()
        self._held = 0

    def begin(self, name: str) -> None:
        """One more of what a token has so many of at once: `requests`, `listeners` or `replies`."""
        most = getattr(self._share, name)
        if self._open[name] >= most:
            raise TooMuch(f"This token has {most:,} {name} open already, which is its share.", SECONDS_BETWEEN_TRIES)
        self._open[name] += 1

    def end(self, name: str) -> None:
        self._open[name] -= 1

    def judge(self) -> None:
        """Raises `TooMuch` where lines or bytes of before are more than the share has brought since."""
        if self._lines.level >= 0 and self._bytes.level >= 0:
            return
        for name, bucket in ("lines", self._lines), ("bytes", self._bytes):
            if seconds := bucket.seconds_until():
                raise TooMuch(f"This token has sent more than its share, {getattr(self._share, name):,} {name} a second.", seconds)

    def send(self, lines: int) -> None:
        self.judge()
        self._lines.take(lines)

    def hold(self, size: int) -> None:
        """So many bytes of a body have come."""
        if self._held + size > self._most_held:
            raise TooMuch("This token sends too many bytes at once.", SECONDS_BETWEEN_TRIES)
        self._held += size
        self._bytes.take(size)

    def release(self, size: int) -> None:
        self._held -= size


class Shares:
    """What each token uses, by the digest that it is known by. Who needs no token has no share."""

    def __init__(self, share: Share) -> None:
        self._used = defaultdict(lambda: Used(share), {"": Used(Share(*[NO_LIMIT] * len(fields(Share))), NO_LIMIT)})

    def of(self, key: str) -> Used:
        return self._used[key]
