#!/usr/bin/python3
"""What a railway might build instead: an aiohttp service over SQLite (WAL, synchronous): peer.py DATABASE ROSTER PORT.

It keeps the same rows, a wagon's and a message's, and the same table of statuses, and answers as `wagons run` does. A
request is one transaction, synced to the disk. It has no plans, no journal, no tokens, and judges fewer fields.
"""

import json
import sqlite3
import sys

from aiohttp import web

HERE, ANYWHERE = True, False
STEPS = {
    ("release", "loading"): ("ready", HERE), ("release", "unloading"): ("empty", HERE),
    ("departure", "ready"): ("journey_loaded", HERE), ("departure", "empty"): ("journey_empty", HERE),
    ("yard_arrival", "journey_loaded"): ("yard_loaded", ANYWHERE), ("yard_arrival", "journey_empty"): ("yard_empty", ANYWHERE),
    ("yard_departure", "yard_loaded"): ("journey_loaded", HERE), ("yard_departure", "yard_empty"): ("journey_empty", HERE),
    ("arrival", "journey_loaded"): ("arrived_loaded", ANYWHERE), ("arrival", "journey_empty"): ("arrived_empty", ANYWHERE),
    ("delivery", "arrived_loaded"): ("unloading", ANYWHERE), ("delivery", "arrived_empty"): ("empty", ANYWHERE),
}


class Office:
    def __init__(self, database: str, roster: str) -> None:
        self.sql = sqlite3.connect(database, isolation_level=None)
        self.sql.execute("PRAGMA journal_mode = WAL")
        self.sql.execute("PRAGMA synchronous = FULL")
        self.sql.execute("CREATE TABLE wagon (number TEXT PRIMARY KEY, status TEXT, place TEXT, last TEXT) WITHOUT ROWID")
        self.sql.execute("CREATE TABLE message (entry INTEGER PRIMARY KEY, company TEXT, number INTEGER, kind TEXT, wagon TEXT, place TEXT, moment TEXT)")
        self.sql.execute("CREATE UNIQUE INDEX message_id ON message (company, number)")
        self.sql.execute("BEGIN")
        with open(roster) as file:
            for row in list(file)[1:]:
                number, _, _, status, place, moment = row.strip().split(",")
                self.sql.execute("INSERT INTO wagon VALUES (?, ?, ?, ?)", (number, status, place, moment))
        self.sql.execute("COMMIT")
        self.lines = self.entries = 0

    def take(self, lines: list[bytes]) -> list[str]:
        self.sql.execute("BEGIN")
        replies = [self.answer(line) for line in lines]
        self.sql.execute("COMMIT")
        return replies

    def answer(self, line: bytes) -> str:
        self.lines += 1
        return f"{self.lines} {self.judge(line)}"

    def judge(self, line: bytes) -> str:
        try:
            fields = json.loads(line)
            kind, wagon, place, moment = fields["type"], fields["wagon"], fields["place"], fields["moment"]
            name = fields["company"], fields["number"]
        except (ValueError, KeyError):
            return "refused 21"
        known = self.sql.execute("SELECT entry, kind, wagon, place, moment FROM message WHERE company = ? AND number = ?", name).fetchone()
        if known:
            return f"repeated {known[0]}" if known[1:] == (kind, wagon, place, moment) else "refused 71"
        row = self.sql.execute("SELECT status, place, last FROM wagon WHERE number = ?", (wagon,)).fetchone()
        if row is None:
            return "refused 73"
        status, at, last = row
        step = STEPS.get((kind, status))
        if moment < last:
            return "refused 31"
        if step is None:
            return "refused 32"
        if step[1] and place != at:
            return "refused 33"
        self.entries += 1
        self.sql.execute("UPDATE wagon SET status = ?, place = ?, last = ? WHERE number = ?", (step[0], place, moment, wagon))
        self.sql.execute("INSERT INTO message VALUES (?, ?, ?, ?, ?, ?, ?)", (self.entries, *name, kind, wagon, place, moment))
        return f"accepted {self.entries}"


def main() -> None:
    office = Office(sys.argv[1], sys.argv[2])

    async def lines(request: web.Request) -> web.Response:
        body = await request.read()
        first = office.lines + 1
        replies = office.take(body.splitlines())
        text = "".join(json.dumps({"number": first + k, "reply": reply}) + "\n" for k, reply in enumerate(replies))
        return web.Response(text=text, content_type="application/jsonl")

    async def health(_request: web.Request) -> web.Response:
        return web.Response()

    app = web.Application(client_max_size=8_000_000)
    app.router.add_post("/lines", lines)
    app.router.add_get("/health", health)
    web.run_app(app, host="127.0.0.1", port=int(sys.argv[3]), print=lambda *_: None, access_log=None)


if __name__ == "__main__":
    main()
