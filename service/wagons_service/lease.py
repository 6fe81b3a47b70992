"""The lease: which of several services writes the replies.

Its value changes with each renewal, and no server's clock is asked. A service that waits for it looks for how long the value
has stayed as it is, by its own clock that never steps. So a machine's clock may be set to any time. The value is exchanged
only where nobody has changed it since it was looked at.
"""

import time

from .redis_link import EXEC, MULTI, Link, good, pack

UNWATCH = pack(b"UNWATCH")


class Lease:
    """The lease as one service sees it; `token` is its own name, which no other service has."""

    def __init__(self, key: bytes, token: bytes, milliseconds: int) -> None:
        self._key, self._token = key, token
        self._seconds = milliseconds / 1000
        self._turn = 0
        # The value that was found last, and since when it is there.
        self._found: bytes | None = None
        self._since = 0.0

    async def ask(self, link: Link) -> bool:
        """Whether this service has the lease: it is renewed, or taken where nobody has it or nobody renews it. Nothing else
        may be sent over the connection meanwhile."""
        found, now = await self._look(link), time.monotonic()
        if found != self._found:
            self._found, self._since = found, now
        if not (found is None or self._is_ours(found) or now - self._since >= self._seconds):
            await link.one(UNWATCH)
            return False
        self._turn += 1
        return await self._exchange(link, pack(b"SET", self._key, b"%b %d" % (self._token, self._turn)))

    async def release(self, link: Link) -> None:
        """Lets another service have it at once."""
        found = await self._look(link)
        if found is not None and self._is_ours(found):
            await self._exchange(link, pack(b"DEL", self._key))
        else:
            await link.one(UNWATCH)

    def _is_ours(self, value: bytes) -> bool:
        return value.startswith(self._token + b" ")

    async def _look(self, link: Link) -> bytes | None:
        _, found = map(good, await link.ask(pack(b"WATCH", self._key) + pack(b"GET", self._key), 2))
        return found if found is None else bytes(found)

    @staticmethod
    async def _exchange(link: Link, command: bytes) -> bool:
        *_, done = map(good, await link.ask(MULTI + command + EXEC, 3))
        return done is not None
