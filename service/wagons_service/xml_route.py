"""`POST /xml`: XML messages become lines, which are taken as those of `POST /lines`."""

import asyncio
import json
import time
from collections.abc import Iterable, Iterator
from weakref import WeakValueDictionary

from aiohttp import web

from .answers import Refusal, judge_size
from .identifiers import Identifiers, NoNumberLeft
from .journal import Broken, NotKept
from .senders import Sender
from .server import Server
from .xml_lines import BadXml, Map, Row
from .xml_process import Ended, TooMuch, XmlProcesses


class XmlRoute:
    def __init__(self, server: Server, rules: Map, identifiers: Identifiers) -> None:
        self._server = server
        self._identifiers = server.identifiers = identifiers
        self._processes = XmlProcesses(rules)
        # One document of a sender at a time is turned into lines, so that none has all processes.
        self._senders: WeakValueDictionary[Sender, asyncio.Lock] = WeakValueDictionary()
        # One document at a time has new identifiers that may be taken back.
        self._turn = asyncio.Lock()

    def add_to(self, router: web.UrlDispatcher) -> None:
        router.add_post("/xml", self.post_xml)

    def end(self) -> None:
        """Ends what is going on, since a document may take longer than the service has to end."""
        self._processes.end()

    async def post_xml(self, request: web.Request) -> web.StreamResponse:
        async with await self._server.body(request) as body:
            start = time.monotonic()
            sender: Sender = request["sender"]
            is_partial = wants_partial(request)
            async with self._senders.setdefault(sender, asyncio.Lock()):
                rows = await self._rows(body, is_partial)
            async with self._turn:
                self._identifiers.owner = sender.key
                lines = await self._lines([row for row in rows if not row.fault], sender)
            if not is_partial:
                return await self._server.answer(request, lines, start)
            headers, kept = await self._server.take(request, lines, start)
            records = [record for part in kept for record in (await self._server.standings.told(*part)).splitlines()]
            return web.Response(body=b"".join(became(rows, iter(records))), headers=headers)

    async def _rows(self, body: bytes, is_partial: bool) -> list[Row]:
        try:
            return await self._processes.rows(body, is_partial)
        except BadXml as fault:
            raise Refusal(400, str(fault)) from None
        except TooMuch as fault:
            raise Refusal(413, str(fault)) from None
        except Ended:
            raise Refusal(503, "the service is being stopped; nothing of the request was taken") from None
        except (OSError, TimeoutError, asyncio.IncompleteReadError) as fault:
            raise Refusal(503, f"no process could be started that reads XML: {fault!r}; nothing of the request was taken") from None

    async def _lines(self, rows: list[Row], sender: Sender) -> list[bytes]:
        """The lines of a document, which the sender may send. Where it may not, no identifier is kept."""
        is_kept = False
        try:
            lines = await asyncio.to_thread(lambda: [row.numbered(self._identifiers) for row in rows])
            judge_size(lines)
            await self._server.judge(sender, lines)
            await asyncio.to_thread(self._identifiers.keep)
            is_kept = True
            return lines
        except NoNumberLeft as fault:
            raise Refusal(403, f"{fault}; nothing of the request was taken.") from None
        except (NotKept, Broken) as fault:
            raise Refusal(503, f"{fault}; nothing of the request was taken") from None
        finally:
            if not is_kept:
                self._identifiers.forget()


def wants_partial(request: web.Request) -> bool:
    """Whether each message is taken by itself, or all of them or none."""
    wanted = request.query.get("partial")
    if wanted not in (None, "yes"):
        raise Refusal(400, "`partial` must be yes, or not be there.")
    return wanted == "yes"


def became(rows: Iterable[Row], records: Iterator[bytes]) -> Iterator[bytes]:
    """What each message of a document became: the reply to its line, or why it became none."""
    for number, row in enumerate(rows, 1):
        rest = b'"fault":%b}' % json.dumps(row.fault).encode() if row.fault else next(records)[1:]
        yield b'{"message":%d,%b\n' % (number, rest)
