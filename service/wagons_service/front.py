"""What stands between aiohttp's server and the addresses: which handler a request is for, and how an answer is sent.

It does what `web.Application` would do, in a part of the time: that wraps each handler into its middlewares anew for each
request, and sends the head of an answer and its body one after the other.
"""

import asyncio
from collections.abc import Awaitable, Callable
from typing import Any

from aiohttp import web
from aiohttp.abc import AbstractStreamWriter
from aiohttp.http import RawRequestMessage, StreamWriter
from aiohttp.streams import StreamReader
from multidict import CIMultiDict

Handler = Callable[[web.Request], Awaitable[web.StreamResponse]]


class WholeWriter(StreamWriter):
    """Sends the head of an answer with its body where the body is known by then: by one call of the system, in one packet."""

    _holds = False
    _head = b""

    async def write_headers(self, status_line: str, headers: "CIMultiDict[str]") -> None:
        self._holds = self.length is not None
        await super().write_headers(status_line, headers)

    def _write(self, chunk: bytes) -> None:
        if self._holds:
            self._holds, self._head = False, chunk
        else:
            super()._write(self._head + chunk)
            self._head = b""

    async def write_eof(self, chunk: bytes = b"") -> None:
        if self._head and not chunk:
            self._write(b"")
        await super().write_eof(chunk)


class Request(web.Request):
    def __init__(self, message: RawRequestMessage, payload: StreamReader, protocol: web.RequestHandler, _writer: AbstractStreamWriter,
                 task: "asyncio.Task[None]") -> None:
        loop = asyncio.get_running_loop()
        super().__init__(message, payload, protocol, WholeWriter(protocol, loop), task, loop)

    def matches(self, found: web.UrlMappingMatchInfo) -> None:
        self._match_info = found


class Front:
    def __init__(self) -> None:
        self.router = web.UrlDispatcher()
        # What was found for requests at addresses without variable parts, by method and path.
        self._known: dict[tuple[str, str], web.UrlMappingMatchInfo] = {}

    async def handler_for(self, request: Request) -> Handler:
        """Who answers a request; where nobody does, one that says so."""
        found = self._known.get((request.method, request.rel_url.raw_path))
        if found is None:
            found = await self._find(request)
        request.matches(found)
        if expected := request.headers.get("Expect"):
            # aiohttp's own answers 500 where another `Expect` has bytes that are no UTF-8.
            if expected.lower() != "100-continue":
                raise web.HTTPExpectationFailed(text="The service knows `Expect: 100-continue` alone.\n")
            await request.writer.write(b"HTTP/1.1 100 Continue\r\n\r\n")
        handler: Handler = found.handler
        return handler

    async def _find(self, request: Request) -> web.UrlMappingMatchInfo:
        found = await self.router.resolve(request)
        if isinstance(found.route.resource, web.PlainResource):
            self._known[request.method, request.rel_url.raw_path] = found
        return found


def server_of(handler: Callable[[Any], Awaitable[web.StreamResponse]], **options: Any) -> web.Server:
    return web.Server(handler, request_factory=Request, **options)
