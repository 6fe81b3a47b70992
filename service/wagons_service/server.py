"""The addresses to which senders send and at which replies are found."""

import asyncio
import logging
import time
from collections import OrderedDict
from collections.abc import Mapping, Sequence
from contextlib import suppress
from dataclasses import dataclass
from functools import lru_cache
from http.cookies import CookieError, SimpleCookie
from urllib.parse import urlsplit

from aiohttp import web

from .answers import JSON_LINES, PAGE, Refusal, count_in, cut, number_in, page_end, sentence, with_lines
from .bodies import Bodies, Body
from .corrections import Corrections
from .front import Front, Handler, Request
from .gauges import gauges
from .identifiers import Identifiers
from .journal import MOST_LINES, Journal, Unreadable, is_blank
from .note_news import NoteNews
from .office import NotTaken, Office, Stopped
from .pace import Pace
from .railway_views import RailwayViews, Seen, events
from .retry import Retry
from .senders import ANYONE, Ahead, BadTokens, Forbidden, NoLine, Role, Sender, Tokens, is_loopback
from .service import Service
from .shares import Shares
from .standings import Standings

log = logging.getLogger("wagons-service")

COOKIE = "wagons_token"
# Paths that need no token.
OPEN_PATHS = ("/health", "/login")
OPEN_PREFIX = "/static/"
# What counts by itself in a token's share.
OPEN_AT_ONCE = {"/events": "listeners", "/replies": "replies"}
# Counted for a sender whose connection ended before its answer.
GONE = 499
SECONDS_FOR_REPLIES = 60
SECONDS_OF_SILENCE = 15
# Where the program couldn't print what railways see, it is asked again after so long.
SECONDS_BETWEEN_VIEWS = 5
MOST_LISTENERS = 200
# So many lines of a company are read at once, each by itself.
NUMBERS_A_PAGE = 200
MOST_TOLD = 16
# So much of it is sent at once as a connection mostly takes at once, so that its time is known.
PAGE_OF_EVENTS = 1 << 15
# So many lines are judged at once; each may have 64 kB.
LINES_AT_ONCE = 50
# Lines are numbered from 1 again.
NEXT = b"event: next\ndata: a new journal begins\n\n"


@dataclass(eq=False, slots=True)
class _Stream:
    """Events that someone listens to."""

    response: web.StreamResponse
    sender: Sender
    # The line behind which notes are told, where that was asked for.
    since: int | None
    over: "asyncio.Future[None]"

    def end(self) -> None:
        if not self.over.done():
            self.over.set_result(None)


class Server:
    def __init__(self, service: Service, tokens_file: str | None) -> None:
        self.service = service
        self.metrics = service.metrics
        self._tokens_file = tokens_file
        self._tokens = Tokens.read(tokens_file) if tokens_file else None
        # Those of XML, where it is taken.
        self.identifiers: Identifiers | None = None
        self.shares = Shares(service.options.limits.share)
        self.railway_views = RailwayViews(service)
        self.standings = Standings(service)
        self.retry = Retry(self, service.options.limits.retry) if service.options.limits.retry else None
        if self.retry:
            service.tell(self.retry.hear)
        self._bodies = Bodies(service.metrics)
        # The connections of which a request is being done.
        self.busy: set[asyncio.BaseProtocol] = set()
        self._streams: set[_Stream] = set()
        self._pace = Pace()
        # Pages of events that were told last.
        self._told: OrderedDict[tuple[Journal, int, int, str | None], tuple[bytes, int]] = OrderedDict()
        self._front = Front()
        self._add_addresses()

    @property
    def office(self) -> Office:
        return self.service.office

    @property
    def router(self) -> web.UrlDispatcher:
        return self._front.router

    def _add_addresses(self) -> None:
        self.router.add_post("/lines", self.post_lines)
        self.router.add_get("/replies", self.get_replies)
        self.router.add_get("/events", self.get_events, allow_head=False)
        self.router.add_post("/next", self.post_next)
        self.router.add_get("/health", self.get_health)
        self.router.add_get("/metrics", self.get_metrics)

    def read_tokens_again(self) -> None:
        """On SIGHUP. A file that can't be used leaves the tokens as they were."""
        if self._tokens_file:
            try:
                self._tokens = Tokens.read(self._tokens_file)
                log.info("%d tokens were read", len(self._tokens))
                self._end_unknown()
            except BadTokens as fault:
                log.error("the tokens stay as they were: %s", fault)

    def knows(self, token: str) -> bool:
        return self._tokens is None or self._tokens.find(token) is not None

    def sender_named(self, name: str, company: str) -> Sender | None:
        """One of those who have a name, and who may send messages of a company."""
        return ANYONE if self._tokens is None else self._tokens.named(name, company)

    def end_streams(self) -> None:
        for stream in self._streams:
            stream.end()

    def _end_unknown(self) -> None:
        """Ends the streams of those whose token isn't known any more."""
        for stream in self._streams:
            if self._tokens and not self._tokens.has(stream.sender):
                stream.end()

    # Who asks, and what is answered where something is wrong.

    async def handle(self, request: Request) -> web.StreamResponse:
        """Answers a request, also where something is wrong with it."""
        handler = await self._front.handler_for(request)
        status = 500
        self.busy.add(request.protocol)
        try:
            self._judge_origin(request)
            sender = self._sender(request)
            response = await (self._counted(request, sender, handler) if sender else handler(request))
            status = response.status
            return closing(request, response)
        except web.HTTPException as known:
            status = known.status
            closing(request, known)
            raise
        except ConnectionError:
            status = GONE
            raise
        except Exception as fault:
            refusal = refusal_of(fault)
            if refusal is None:
                raise
            status = refusal.status
            return closing(request, sentence(status, str(refusal), refusal.retry_after))
        finally:
            self.busy.discard(request.protocol)
            self.metrics.requests[status] += 1

    async def _counted(self, request: web.Request, sender: Sender, handler: Handler) -> web.StreamResponse:
        """The answer to a sender, in whose share it counts while it is open."""
        request["sender"] = sender
        used = request["used"] = self.shares.of(sender.key)
        kind = OPEN_AT_ONCE.get(request.rel_url.raw_path, "requests")
        used.begin(kind)
        try:
            return await handler(request)
        finally:
            used.end(kind)

    def _sender(self, request: web.Request) -> Sender | None:
        """Who asks; nobody is known only where none needs to be."""
        if self._tokens is None:
            if not names_this_machine(request.host):
                raise Refusal(403, "Without tokens the service is asked by a loopback address alone, as 127.0.0.1 or localhost.")
            return ANYONE
        scheme, _, token = request.headers.get("Authorization", "").partition(" ")
        token = token.strip() if scheme.lower() == "bearer" else token_in(request.headers.getall("Cookie", ()))
        sender = self._tokens.find(token)
        if sender is None and request.method == "GET" and request.path == "/":
            raise web.HTTPSeeOther("/login")
        if sender is None and request.path not in OPEN_PATHS and not request.path.startswith(OPEN_PREFIX):
            if self._tokens.has_expired(token):
                raise Refusal(401, "The token has expired.")
            raise Refusal(401, "A token is needed that this service knows: send `Authorization: Bearer TOKEN`.")
        return sender

    @staticmethod
    def _judge_origin(request: web.Request) -> None:
        """A page of another site may not send lines by the browser of one who is at work here."""
        origin = request.headers.get("Origin")
        if origin is not None and request.method != "GET" and origin.partition("://")[2] != request.host:
            raise Refusal(403, "The request comes from a page of another site.")

    # Lines.

    async def post_lines(self, request: web.Request) -> web.StreamResponse:
        async with await self.body(request) as body:
            start = time.monotonic()
            lines = cut(body)
            await self.judge(request["sender"], lines)
            return await self.answer(request, lines, start)

    async def judge(self, sender: Sender, lines: Sequence[bytes]) -> None:
        """Raises where the sender may not send one of the lines. Others are answered in between."""
        sender.judge_role()
        if sender.role is not Role.RAILWAY:
            return
        latest = time.time() + 3600 * self.service.options.limits.ahead
        for first in range(0, len(lines), LINES_AT_ONCE):
            if first:
                await asyncio.sleep(0)
            sender.judge(lines[first:first + LINES_AT_ONCE], first, latest)

    async def body(self, request: web.Request) -> Body:
        """The body of a request that may send, where lines are taken now; `async with` reads it."""
        sender: Sender = request["sender"]
        sender.judge_role()
        request["used"].judge()
        await self.service.until_open()
        return self._bodies.of(request)

    async def answer(self, request: web.Request, lines: Sequence[bytes], start: float) -> web.StreamResponse:
        """Takes lines, and answers with their replies as they were kept."""
        return await self._kept(request, *await self.take(request, lines, start))

    async def take(self, request: web.Request, lines: Sequence[bytes], start: float) -> tuple[dict[str, str], list[tuple[Journal, int, int]]]:
        """Takes lines, and waits for their replies: the head of an answer, and where the replies are kept, each journal's from
        the first to the last line."""
        request["used"].send(len(lines))
        self._pace.note_lines()
        sender: Sender = request["sender"]
        parts = await self.service.take(lines, sender.name, sender.role is Role.DISPATCHER)
        number = (parts[0].office if parts else self.office).journal.number
        headers = {"Content-Type": JSON_LINES, "Journal": str(number)}
        kept = []
        for office, numbers, taken in parts:
            if (awaited := last_number(numbers, taken)) is not None:
                if office.answered < awaited:
                    await self._until_answered(office, numbers, awaited)
                kept.append((office.journal, numbers.start, awaited))
        self.metrics.time(len(lines), time.monotonic() - start)
        return headers, kept

    @staticmethod
    async def _until_answered(office: Office, numbers: range, awaited: int) -> None:
        try:
            await office.until_answered(awaited, SECONDS_FOR_REPLIES)
        except Stopped as stopped:
            where = f"/replies?journal={office.journal.number}&from={numbers.start}"
            raise Refusal(503, f"{stopped}; lines {numbers.start} to {numbers[-1]} are in the journal, and their replies come at {where}") from None

    async def _kept(self, request: web.Request, headers: dict[str, str], kept: Sequence[tuple[Journal, int, int]]) -> web.StreamResponse:
        """The replies to the lines of these numbers."""
        if len(kept) == 1 and page_end(*kept[0]) == kept[0][2]:
            return web.Response(body=await self.standings.told(*kept[0]), headers=headers)
        response = web.StreamResponse(headers=headers)
        await response.prepare(request)
        for journal, first, last in kept:
            while first <= last:
                end = page_end(journal, first, last)
                await response.write(await self.standings.told(journal, first, end))
                first = end + 1
        return response

    # Replies, once more or as they come.

    async def get_replies(self, request: web.Request) -> web.StreamResponse:
        now = self.office.journal
        number = number_in(request.query.get("journal"), "journal", now.number)
        if number > now.number:
            raise Refusal(400, f"There is no journal {number}; the last one is {now.number}.")
        if number == now.number:
            return await self._replies(request, now)
        if not self.service.folder.has(number):
            raise Refusal(400, f"The journal {number} isn't kept here.")
        return await self._replies(request, await self.service.known_wagons.old_journals.find(number))

    async def _replies(self, request: web.Request, journal: Journal) -> web.StreamResponse:
        first = number_in(request.query.get("from"), "from", 1)
        now = journal.replies.last
        last = min(number_in(request.query.get("to"), "to", MOST_LINES), now)
        sender: Sender = request["sender"]
        response = web.StreamResponse(headers={"Content-Type": JSON_LINES, "Cache-Control": "no-store", "Journal": str(journal.number)})
        await response.prepare(request)
        while first <= last:
            page, first = await self._page(journal, first, last, sender)
            records = await self.standings.added(journal, [shown(journal, *told, sender) for told in page], now, sender)
            await response.write(b"".join(record + b"\n" for record in records))
            await asyncio.sleep(0)
        return response

    async def _page(self, journal: Journal, first: int, last: int, sender: Sender, page: int = PAGE) -> tuple[list[tuple[int, bytes]], int]:
        """The first of what the sender may see of the lines of these numbers, with their replies; and the number behind it."""
        if sender.company is None:
            end = page_end(journal, first, last, page)
            return list(with_lines(journal, first, end, sender)), end + 1
        numbers = await self.service.known_wagons.index(journal).numbers(sender.company, first, last, NUMBERS_A_PAGE)
        found = [told for number in numbers for told in with_lines(journal, number, number, sender)]
        return found, numbers[-1] + 1 if len(numbers) == NUMBERS_A_PAGE else last + 1

    async def get_events(self, request: web.Request) -> web.StreamResponse:
        office = self.office
        sender: Sender = request["sender"]
        since = notes_since(request, sender)
        journal = number_in(request.query.get("journal"), "journal", office.journal.number)
        first = number_in(request.query.get("from"), "from", office.answered + 1)
        if last := request.headers.get("Last-Event-ID"):
            journal, first = read_id(last)
        if self.metrics.listening >= MOST_LISTENERS:
            raise Refusal(503, "Too many listen already; try again later.")
        response = web.StreamResponse(headers={
            "Content-Type": "text/event-stream", "Cache-Control": "no-store", "X-Accel-Buffering": "no", "Journal": str(office.journal.number)})
        await response.prepare(request)
        self.metrics.listening += 1
        stream = _Stream(response, sender, since, asyncio.get_running_loop().create_future())
        self._streams.add(stream)
        try:
            if journal == office.journal.number:
                await self._tell_all(stream, office, first)
            else:
                await response.write(NEXT)
        except ConnectionError:
            pass  # The listener went away, or didn't read.
        finally:
            self._streams.discard(stream)
            self.metrics.listening -= 1
        return response

    async def _tell_all(self, stream: _Stream, office: Office, first: int) -> None:
        """Tells of replies and, to a railway, of its wagons; to others of notes, where they asked for that."""
        await stream.response.write(b"retry: 1000\n\n")
        beside = self._beside(stream, office)
        try:
            await self._tell(stream, office, first)
        finally:
            for task in beside:
                task.cancel()
            for fault in await asyncio.gather(*beside, return_exceptions=True):
                if isinstance(fault, Exception) and not isinstance(fault, ConnectionError):
                    log.error("a listener wasn't told of its wagons or of notes: %r", fault)

    def _beside(self, stream: _Stream, office: Office) -> list["asyncio.Task[None]"]:
        """What tells of more than replies, until it is cancelled."""
        told = []
        if stream.sender.company:
            told.append(self._tell_wagons(stream, office, stream.sender.company))
        # Behind a new journal the stream ends at once.
        if stream.since is not None and self.office is office:
            told.append(self._tell_notes(stream, self.service.viewer.note_news, office.journal.number, stream.since))
        return [asyncio.create_task(it) for it in told]

    async def _tell_notes(self, stream: _Stream, news: NoteNews, journal: int, since: int) -> None:
        """Tells each time up to which line there are notes, where lines have some behind what was told before."""
        with suppress(Stopped):
            while True:
                since = await news.behind(since)
                if stream.sender.has_expired:
                    return
                await stream.response.write(b'event: notes\ndata: {"journal": %d, "line": %d}\n\n' % (journal, since))

    async def _tell_wagons(self, stream: _Stream, office: Office, company: str) -> None:
        """Tells a railway of all its wagons, and then of what changes, until it is cancelled."""
        line = -1
        seen: Mapping[str, Seen] | None = None
        while True:
            try:
                view = await self.railway_views.behind(office, line)
            except (Refusal, Stopped, OSError) as fault:
                if not isinstance(fault, Stopped):
                    log.warning("railways aren't told of their wagons now: %s", fault)
                await asyncio.sleep(SECONDS_BETWEEN_VIEWS)
                continue
            await self._pace.until_free()
            if stream.sender.has_expired:
                return
            start = time.monotonic()
            data = events(view, company, seen)
            line, seen = view.line, view.of(company)
            if data:
                await stream.response.write(data)
            self._pace.spend(time.monotonic() - start)

    async def _tell(self, stream: _Stream, office: Office, first: int) -> None:
        while not stream.over.done() and not stream.sender.has_expired:
            if first <= office.answered:
                await self._pace.until_free()
                start = time.monotonic()
                data, first = await self._events(office.journal, first, office.answered, stream.sender)
                await stream.response.write(data)
                self._pace.spend(time.monotonic() - start)
                continue
            beat = self._pace.beat(office)
            either: list[asyncio.Future[None]] = [beat, stream.over]
            await asyncio.wait(either, timeout=SECONDS_OF_SILENCE, return_when=asyncio.FIRST_COMPLETED)
            try:
                if beat.done():
                    beat.result()
                elif not stream.over.done():
                    await stream.response.write(b": nothing new\n\n")
                    self._end_unknown()
            except Stopped as stopped:
                await stream.response.write(NEXT if office.has_turned else f"event: stopped\ndata: {one_line(str(stopped))}\n\n".encode())
                return

    async def _events(self, journal: Journal, first: int, last: int, sender: Sender) -> tuple[bytes, int]:
        """A page of events, and the number behind it. Listeners who see the same are told the same, which is put together once."""
        key = journal, first, last, sender.company
        if key not in self._told:
            page, behind = await self._page(journal, first, last, sender, PAGE_OF_EVENTS)
            self._told[key] = b"".join(b"id: %d-%d\ndata: %s\n\n" % (journal.number, *event) for event in page), behind
            while len(self._told) > MOST_TOLD:
                self._told.popitem(last=False)
        return self._told[key]

    # A new journal, and how the service is.

    async def post_next(self, request: web.Request) -> web.StreamResponse:
        if request["sender"].role is not Role.DISPATCHER:
            raise Forbidden("A dispatcher's token begins a new journal, and no other.")
        async with self._bodies.of(request) as body:
            corrections = Corrections.read(body)
        return web.json_response({"journal": await self.service.begin_next(corrections)})

    async def get_health(self, _request: web.Request) -> web.StreamResponse:
        office = self.office
        state: dict[str, object] = {"state": office.state.value, "words": office.words, "journal": office.journal.number,
                 "lines": office.journal.lines.count, "answered": office.answered}
        if self.service.role:
            state["role"] = self.service.role
        state["oldest_unanswered_seconds"] = round(office.silence.age(office.answered), 1)
        if office.room.warning:
            state["warning"] = office.room.warning
        if office.silence.is_long:
            state["words"] = office.silence.words
        return web.json_response(state, status=200 if office.is_up else 503)

    async def get_metrics(self, request: web.Request) -> web.StreamResponse:
        if not request["sender"].may_look:
            raise Forbidden("A railway's token doesn't see the metrics.")
        lines = self.office.journal.lines
        text = self.metrics.text(lines.count, lines.size, self.office.is_up)
        text += "".join(f"{line}\n" for line in gauges(self.service, self._tokens, self.identifiers))
        text += "".join(f"{line}\n" for line in self.retry.gauges()) if self.retry else ""
        return web.Response(body=text.encode(), headers={"Content-Type": "text/plain; version=0.0.4; charset=utf-8"})


def shown(journal: Journal, number: int, record: bytes, sender: Sender) -> bytes:
    """A reply's record; a dispatcher sees who sent its line."""
    sent = journal.sent.find(number) if sender.role is Role.DISPATCHER else None
    return sent.added_to(record) if sent else record


def last_number(numbers: range, lines: Sequence[bytes]) -> int | None:
    """The number of the last line that gets a reply."""
    if lines and not is_blank(lines[-1]):
        return numbers[-1]
    return next((number for number in reversed(numbers) if not is_blank(lines[number - numbers.start])), None)


def closing(request: web.Request, response: web.StreamResponse) -> web.StreamResponse:
    """An answer that ends its connection where the request's body wasn't read: aiohttp would wait for good behind it."""
    if request.body_exists and not request.content.at_eof():
        response.force_close()
    return response


def refusal_of(fault: Exception) -> Refusal | None:
    """What is answered to a request in which this went wrong."""
    match fault:
        case Refusal():
            return fault
        case Forbidden():
            return Refusal(403, str(fault))
        case NoLine():
            return Refusal(400, str(fault))
        case Ahead():
            return Refusal(422, str(fault))
        case NotTaken():
            return Refusal(503, f"{fault}; nothing of the request was taken")
        case Stopped() | Unreadable():
            return Refusal(503, str(fault))
    return None


def token_in(cookies: Sequence[str]) -> str:
    """The token that the page's cookie has. Other programs on the host have cookies of their own, of whatever form."""
    for part in (part.strip() for header in cookies for part in header.split(";")):
        if part.startswith(f"{COOKIE}="):
            with suppress(CookieError, KeyError):
                return SimpleCookie(part)[COOKIE].value
    return ""


@lru_cache(maxsize=64)
def names_this_machine(host: str) -> bool:
    """Whether a request's `Host` is a loopback address."""
    try:
        return is_loopback(urlsplit(f"//{host}").hostname or "")
    except ValueError:
        return False


def notes_since(request: web.Request, sender: Sender) -> int | None:
    """The line behind which a listener wants to be told of notes; `Forbidden` where it may not see them."""
    if "notes" not in request.query:
        return None
    sender.judge_notes()
    return count_in(request.query["notes"], "notes", 0, MOST_LINES, otherwise=0)


def read_id(text: str) -> tuple[int, int]:
    """The journal and the line that come behind the last event that a listener had."""
    journal, _, line = text.partition("-")
    return number_in(journal, "Last-Event-ID", 1), number_in(line, "Last-Event-ID", 1) + 1


def one_line(text: str) -> str:
    return " ".join(text.split())
