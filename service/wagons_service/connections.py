"""Cuts off who holds a connection and does nothing with it: sends no whole head of a request, or doesn't read its answer.

Who is cut off for it has no token yet, or needs none, so nobody's share counts here.
"""

import asyncio
import resource
import time
from collections.abc import Set
from dataclasses import dataclass

from aiohttp import web

MOST_FILES = 65_536


@dataclass(slots=True)
class _Sign:
    """How many bytes wait to be sent, and when that changed, or a request was answered, for the last time."""

    size: int
    at: float


class Connections:
    def __init__(self, server: web.Server, busy: Set[asyncio.BaseProtocol], patience: float) -> None:
        """`busy` are those of which a request is being done."""
        self._server = server
        self._busy = busy
        self._patience = patience
        self._signs: dict[web.RequestHandler, _Sign] = {}

    @property
    def seconds_between_looks(self) -> float:
        return min(self._patience / 4, 0.25)

    def look(self) -> None:
        now = time.monotonic()
        signs = {}
        for connection in self._server.connections:
            transport = connection.transport
            if transport is not None:
                size = transport.get_write_buffer_size()
                sign = self._signs.get(connection) or _Sign(size, now)
                if size != sign.size or (not size and connection in self._busy):
                    sign = _Sign(size, now)
                signs[connection] = sign
        self._signs = signs
        # Where there are so many that nobody else could come, the oldest ones go first.
        idle = [connection for connection in signs if connection not in self._busy]
        too_many = len(idle) - resource.getrlimit(resource.RLIMIT_NOFILE)[0] // 2
        if too_many > 0:
            idle.sort(key=lambda connection: signs[connection].at)
        gone = {*idle[:max(too_many, 0)], *(connection for connection, sign in signs.items() if now - sign.at > self._patience)}
        for connection in gone:
            if connection.transport is not None:
                connection.transport.abort()


def raise_limit() -> None:
    """Each connection is an open file; the system allows more of them to whoever asks."""
    now, most = resource.getrlimit(resource.RLIMIT_NOFILE)
    resource.setrlimit(resource.RLIMIT_NOFILE, (max(now, min(most, MOST_FILES)), most))
