"""Bodies of requests: how they are read, and how many bytes of them are held at once."""

import asyncio
from aiohttp import web
from aiohttp.http_exceptions import BadHttpMessage

from .answers import MOST_BYTES_A_REQUEST, Refusal
from .metrics import Metrics
from .office import NotTaken
from .shares import Used

SECONDS_FOR_A_BODY = 30
MOST_HELD_BYTES = 64_000_000


class Bodies:
    """All bodies that are held."""

    def __init__(self, metrics: Metrics) -> None:
        self.held = 0
        self.metrics = metrics

    def of(self, request: web.Request) -> "Body":
        """`async with` reads a request's body, which is held until its end."""
        return Body(self, request)

    def judge(self, more: int) -> None:
        if self.held + more > MOST_HELD_BYTES:
            raise NotTaken("too many requests are sent at once")


class Body:
    __slots__ = "_bodies", "_request", "_used", "_size"

    def __init__(self, bodies: Bodies, request: web.Request) -> None:
        self._bodies = bodies
        self._request = request
        self._used: Used = request["used"]
        self._size = 0

    async def __aenter__(self) -> bytes:
        self._bodies.metrics.sending += 1
        try:
            return await self._read()
        except BaseException:
            self._release()
            raise

    async def __aexit__(self, *_: object) -> None:
        self._release()

    def _release(self) -> None:
        self._bodies.metrics.sending -= 1
        self._bodies.held -= self._size
        self._used.release(self._size)

    def _hold(self, chunk: bytes) -> bytes:
        size = len(chunk)
        self._bodies.judge(size)
        self._used.hold(size)
        self._bodies.held += size
        self._size += size
        if self._size > MOST_BYTES_A_REQUEST:
            raise _too_large()
        return chunk

    async def _read(self) -> bytes:
        request = self._request
        encoding = request.headers.get("Content-Encoding")
        if encoding is not None and encoding.lower() != "identity":
            raise Refusal(415, "The body must be sent as it is, without a Content-Encoding.")
        content = request.content
        try:
            if content.is_eof():
                # Mostly the body came with its head.
                return self._hold(content.read_nowait())
            if (request.content_length or 0) > MOST_BYTES_A_REQUEST:
                raise _too_large()
            parts = []
            async with asyncio.timeout(SECONDS_FOR_A_BODY):
                async for chunk in content.iter_any():
                    parts.append(self._hold(chunk))
            return b"".join(parts)
        except TimeoutError:
            raise Refusal(408, f"The body didn't come within {SECONDS_FOR_A_BODY} seconds.") from None
        except (BadHttpMessage, web.RequestPayloadError):
            raise Refusal(400, "The body isn't sent as HTTP asks, or ended too early.") from None


def _too_large() -> Refusal:
    return Refusal(413, f"The request has over {MOST_BYTES_A_REQUEST:,} bytes.")
