"""The state of the office as JSON, for programs that ask: `wagons fleet`, `orders`, `moves` and `trace` print it over the journal.

A railway sees of it the wagons that it moved last, and of orders what stands in their movements.
"""

import json
import re
from collections.abc import Sequence
from datetime import UTC, datetime
from pathlib import Path
from typing import Any

from aiohttp import web

from .answers import Refusal, count_in, moment_in
from .journal import MOST_LINES
from .known_wagons import Stuck
from .railway_views import given
from .senders import Role, Sender
from .server import Server
from .standings import Standing

DOCUMENT = Path(__file__).parent / "openapi.json"
NOTES_AN_ANSWER = 1_000
MOST_NOTES_AN_ANSWER = 10_000
# The lists of a step of an order's trace.
TRACED = ("was_promised", "was_filled", "promised", "filled")
# How a wagon's number and an order's name are written in a path, and what may stand in a query.
NUMBER, NAME, WORD = "[0-9]{12}", "[A-Z0-9-]{1,16}", re.compile("[!-~]{1,40}")


class StateRoute:
    def __init__(self, server: Server) -> None:
        self._service = server.service
        self._railway_views = server.railway_views
        self._standings = server.standings

    def add_to(self, router: web.UrlDispatcher) -> None:
        router.add_get("/v1/openapi.json", self.get_document)
        router.add_get("/v1/wagons", self.get_wagons)
        router.add_get(f"/v1/wagons/{{number:{NUMBER}}}", self.get_wagon)
        router.add_get("/v1/orders", self.get_orders)
        router.add_get(f"/v1/orders/{{name:{NAME}}}", self.get_order)
        router.add_get(f"/v1/wagons/{{number:{NUMBER}}}/trace", self.get_wagon_trace)
        router.add_get(f"/v1/orders/{{name:{NAME}}}/trace", self.get_order_trace)
        router.add_get("/v1/movements", self.get_movements)
        router.add_get("/v1/stuck", self.get_stuck)
        router.add_get("/v1/notes", self.get_notes)

    async def _printed(self, request: web.Request, word: str, *options: str) -> tuple[int, list[dict[str, Any]]]:
        """What a word prints for the sender after the line of the journal that comes with it."""
        sender: Sender = request["sender"]
        if sender.may_look:
            return await self._service.viewer.state(word, options)
        return await self._railway_views.own(sender, word, options)

    async def _printed_orders(self, request: web.Request) -> tuple[int, list[dict[str, Any]]]:
        sender: Sender = request["sender"]
        if not sender.may_look:
            raise Refusal(403, "A railway's token doesn't see orders; those of its own wagons stand in /v1/movements.")
        return await self._service.viewer.state("orders", ())

    async def get_document(self, _request: web.Request) -> web.StreamResponse:
        return web.Response(body=DOCUMENT.read_bytes(), content_type="application/json")

    async def get_wagons(self, request: web.Request) -> web.StreamResponse:
        line, wagons = await self._printed(request, "fleet")
        return web.json_response({"line": line, "wagons": wagons})

    async def get_wagon(self, request: web.Request) -> web.StreamResponse:
        line, wagons = await self._printed(request, "fleet")
        return web.json_response({"line": line, "wagon": one_of(wagons, "wagon", request.match_info["number"])})

    async def get_orders(self, request: web.Request) -> web.StreamResponse:
        line, orders = await self._printed_orders(request)
        return web.json_response({"line": line, "orders": [with_lists(order) for order in orders]})

    async def get_order(self, request: web.Request) -> web.StreamResponse:
        line, orders = await self._printed_orders(request)
        return web.json_response({"line": line, "order": with_lists(one_of(orders, "order", request.match_info["name"]))})

    async def get_wagon_trace(self, request: web.Request) -> web.StreamResponse:
        """What happened to a wagon, line by line of the journal."""
        number = request.match_info["number"]
        line, steps = await self._traced(request, f"--wagon={number}")
        return web.json_response({"line": line, "wagon": number, "steps": steps})

    async def get_order_trace(self, request: web.Request) -> web.StreamResponse:
        """What happened to an order."""
        name = request.match_info["name"]
        line, steps = await self._traced(request, f"--order={name}")
        return web.json_response({"line": line, "order": name, "steps": [with_lists(step, TRACED) for step in steps]})

    async def _traced(self, request: web.Request, option: str) -> tuple[int, list[dict[str, Any]]]:
        sender: Sender = request["sender"]
        if not sender.may_look:
            raise Refusal(403, "A railway's token doesn't see traces, since they have the messages of others; its replies are at /replies.")
        # The program judges what it is.
        return await self._service.viewer.state("trace", (option,))

    async def get_movements(self, request: web.Request) -> web.StreamResponse:
        """Promised movements as they are at a moment, which is now where none is given; then orders, then silent wagons."""
        query = request.query
        at = moment_in(query["at"], "at") if "at" in query else datetime.now(UTC).strftime("%Y-%m-%dT%H:%M:%SZ")
        options = [f"--at={at}"]
        if query.get("late") == "yes":
            options.append("--late")
        for name in ("wagon", "order", "silent"):
            if name in query:
                # The program judges what it is.
                if not WORD.fullmatch(query[name]):
                    raise Refusal(400, f"`{name}` has characters that it can't have.")
                options.append(f"--{name}={query[name]}")
        line, rows = await self._printed(request, "moves", *options)
        told = {kind: [given(row) for row in rows if row["kind"] == kind] for kind in ("movement", "order", "silent")}
        return web.json_response({"line": line, "at": at, "movements": told["movement"], "orders": told["order"], "silent": told["silent"]})

    async def get_stuck(self, request: web.Request) -> web.StreamResponse:
        """The wagons of which messages were refused and none was accepted since, those first that wait for longest."""
        sender: Sender = request["sender"]
        if not sender.may_look:
            raise Refusal(403, "A railway's token doesn't see which wagons are stuck; its replies are at /replies and /events.")
        sheet = await self._standings.newest()
        known = await self._service.known_wagons.stuck(sheet.journal)
        rows = [stuck_row(standing, stuck, sender) for wagon, stuck in known.items() if (standing := sheet.wagons.get(wagon))]
        return web.json_response({"line": sheet.line, "wagons": sorted(rows, key=lambda row: (row["since"] or "", row["wagon"]))})


    async def get_notes(self, request: web.Request) -> web.StreamResponse:
        """What a person should hear of in the lines of the present journal, each note as the program printed it."""
        sender: Sender = request["sender"]
        sender.judge_notes()
        query = request.query
        if "newest" in query and "limit" in query:
            raise Refusal(400, "`newest` and `limit` shut each other out.")
        since = count_in(query.get("since"), "since", 0, MOST_LINES, otherwise=0)
        limit = count_in(query.get("limit"), "limit", 1, MOST_NOTES_AN_ANSWER, otherwise=NOTES_AN_ANSWER)
        newest = count_in(query.get("newest"), "newest", 1, MOST_NOTES_AN_ANSWER, otherwise=0)
        journal, notes_of = self._service.office.journal.number, self._service.viewer.notes
        line, more, notes = await (notes_of.newest(since, newest) if newest else notes_of.page(since, limit))
        head = json.dumps({"journal": journal, "line": line, "more": more})
        return web.Response(body=b'%b, "notes": [%b]}' % (head[:-1].encode(), b", ".join(notes)), content_type="application/json")


def stuck_row(standing: Standing, stuck: Stuck, sender: Sender) -> dict[str, Any]:
    """Where a wagon stands, and what was refused; a dispatcher sees who sent it."""
    message = {"journal": stuck.journal, "number": stuck.number, "reply": stuck.reply, "line": stuck.line}
    if sender.role is Role.DISPATCHER and stuck.sender:
        message["sender"] = stuck.sender
    return standing._asdict() | {"refused": stuck.times, "since": stuck.since, "message": message}


def one_of(rows: list[dict[str, Any]], key: str, value: str) -> dict[str, Any]:
    for row in rows:
        if row[key] == value:
            return row
    raise Refusal(404, f"The office has no {key} {value}.")


def with_lists(row: dict[str, Any], names: Sequence[str] = ("classes", "promised", "filled")) -> dict[str, Any]:
    """A row of an order whose classes and wagons are lists; the program parts them by spaces."""
    return row | {name: (row[name] or "").split() for name in names}
