"""The page, and what its script asks for."""

import hashlib
import json
import re
from pathlib import Path
from typing import Any
from urllib.parse import parse_qs

import jinja2
from aiohttp import web

from .answers import Refusal, moment_in, number_in, sentence, with_lines
from .office import Office
from .senders import Role, Sender
from .server import COOKIE, Server, shown
from .texts import TEXTS

FILES = Path(__file__).parent / "page_files"
STATIC = {name: "text/javascript" for name in ("events.js", "hints.js", "map.js", "notes.js", "page.js", "parts.js", "sheet.js", "table.js")} | {"page.css": "text/css"}
# Tabs that have other files than these share no stream of events with those that have these.
BUILD = hashlib.sha256(b"".join((FILES / name).read_bytes() for name in sorted(STATIC))).hexdigest()[:16]
# What a reason is asked for, by the word of the query, and how it is written.
ASKED = {"order": re.compile("[A-Z0-9-]{1,16}"), "wagon": re.compile("[0-9]{12}")}
MOST_LOGIN_BYTES = 4096
# Scripts, styles and pictures come from the service alone, and no other site may show the page in itself.
POLICY = ("default-src 'none'; script-src 'self'; style-src 'self'; img-src 'self'; connect-src 'self'; form-action 'self'; "
          "base-uri 'none'; frame-ancestors 'none'")
HEADERS = {"Content-Security-Policy": POLICY, "X-Content-Type-Options": "nosniff", "Referrer-Policy": "same-origin", "Cache-Control": "no-store"}


class Page:
    def __init__(self, server: Server) -> None:
        self._server = server
        self._service = server.service
        self._templates = jinja2.Environment(loader=jinja2.FileSystemLoader(FILES), autoescape=True, undefined=jinja2.StrictUndefined)

    def add_to(self, router: web.UrlDispatcher) -> None:
        router.add_get("/", self.get_page)
        router.add_get("/login", self.get_login)
        router.add_post("/login", self.post_login)
        router.add_get("/static/{name}", self.get_static)
        router.add_get("/office", self.get_office)
        router.add_get("/network", self.get_network)
        router.add_get("/wants", self.get_wants)
        router.add_get("/why", self.get_why)
        router.add_get("/explain/{code:[0-9]{1,3}}", self.get_explain)
        router.add_get("/refusals", self.get_refusals)

    def _html(self, template: str, **values: object) -> web.Response:
        text = self._templates.get_template(template).render(texts=TEXTS, **values)
        return web.Response(text=text, content_type="text/html", headers=HEADERS)

    @staticmethod
    def _judge_looks(request: web.Request) -> Sender:
        sender: Sender = request["sender"]
        if not sender.may_look:
            raise Refusal(403, "A railway's token doesn't see the office; its replies are at /replies and /events.")
        return sender

    async def get_page(self, request: web.Request) -> web.StreamResponse:
        self._judge_looks(request)
        return self._html("page.html", build=BUILD)

    async def get_login(self, _request: web.Request) -> web.StreamResponse:
        return self._html("login.html", is_wrong=False)

    async def post_login(self, request: web.Request) -> web.StreamResponse:
        body = await request.content.read(MOST_LOGIN_BYTES)
        token = parse_qs(body.decode("ascii", "replace")).get("token", [""])[0].strip()
        if not self._server.knows(token):
            page = self._html("login.html", is_wrong=True)
            page.set_status(401)
            return page
        answer = web.Response(status=303, headers={"Location": "/"})
        answer.set_cookie(COOKIE, token, httponly=True, samesite="Strict", path="/",
                          secure=request.headers.get("X-Forwarded-Proto", request.scheme) == "https")
        return answer

    async def get_static(self, request: web.Request) -> web.StreamResponse:
        name = request.match_info["name"]
        if name not in STATIC:
            return sentence(404, "There is no such file.")
        return web.Response(body=(FILES / name).read_bytes(), headers=HEADERS | {"Content-Type": f"{STATIC[name]}; charset=utf-8"})

    async def get_office(self, request: web.Request) -> web.StreamResponse:
        """The sheet as the program prints it, and how the office is."""
        sender = self._judge_looks(request)
        service, office, viewer = self._service, self._service.office, self._service.viewer
        line, sheet = await viewer.sheet()
        told = state_of(office) | {
            "line": line, "sheet": sheet, "role": service.role, "zone": service.options.zone, "may_send": sender.role is Role.DISPATCHER,
            "trouble": viewer.trouble, "build": BUILD}
        return web.json_response(told, headers=HEADERS)

    async def get_network(self, request: web.Request) -> web.StreamResponse:
        self._judge_looks(request)
        return web.json_response(await self._service.viewer.network(), headers=HEADERS)

    async def get_wants(self, request: web.Request) -> web.StreamResponse:
        """What orders want, behind as many as are known already."""
        self._judge_looks(request)
        behind = number_in(request.query.get("behind"), "behind", 0)
        return web.json_response(self._service.viewer.wants(behind), headers=HEADERS)

    async def get_why(self, request: web.Request) -> web.StreamResponse:
        self._judge_looks(request)
        line = number_in(request.query.get("line"), "line", self._service.office.answered)
        at = moment_in(request.query.get("at", ""), "at")
        asked = [(name, request.query[name]) for name in ASKED if name in request.query]
        if len(asked) > 1 or not all(ASKED[name].fullmatch(value) for name, value in asked):
            raise Refusal(400, "`order` must be an order's name, or `wagon` a wagon's number of twelve digits.")
        options = [f"--{name}={value}" for name, value in asked]
        return web.json_response(await self._service.viewer.why(line, at, options), headers=HEADERS)

    async def get_explain(self, request: web.Request) -> web.StreamResponse:
        return web.json_response(await self._service.viewer.explain(request.match_info["code"]), headers=HEADERS)

    async def get_refusals(self, request: web.Request) -> web.StreamResponse:
        sender = self._judge_looks(request)
        office = self._service.office
        told = [refusal for number in office.refused for refusal in refusals_at(office, number, sender)]
        return web.json_response(told, headers=HEADERS)


def state_of(office: Office) -> dict[str, Any]:
    """How the office is, in its own words, and what room is left."""
    room = office.room
    return {
        "journal": office.journal.number, "state": office.state.value, "is_up": office.is_up,
        "words": office.silence.words if office.silence.is_long else office.words, "refused": office.refused[-1] if office.refused else 0,
        "lines_left": room.lines_left, "entries_left": room.entries_left, "used": room.percent, "warning": room.warning}


def refusals_at(office: Office, number: int, sender: Sender) -> list[dict[str, Any]]:
    """The refusal of a line, with the moment at which the line was taken where that is known; a dispatcher sees who sent it."""
    sent = office.journal.sent.find(number)
    taken = {"taken": sent.taken} if sent else {}
    return [json.loads(shown(office.journal, *told, sender)) | taken for told in with_lines(office.journal, number, number, sender)]
