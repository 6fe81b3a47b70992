#!/usr/bin/python3
"""Appends the lines of a file to a stream, each once, and prints their replies: railway.py HOST:PORT STREAM COMPANY FILE
[SECONDS].

A line's number is its place in the file, which only grows. Where a connection breaks, or this is started again, the last
number is sent once more: what was appended by it already isn't appended again. Redis knows which number was the last.

What isn't answered within so many seconds, 60 where nothing is said, ends it with status 1. Started again, it goes on there.
"""

import sys
import time
from collections.abc import Callable
from typing import Any

import redis

SECONDS = 60.0
SECONDS_FOR_ONE_ANSWER = 10.0
GONE = "the reply isn't kept any more"


class Unanswered(Exception):
    """Nothing was answered for too long; the text says what was waited for."""


class Stream:
    def __init__(self, server: str, stream: str, company: str, seconds: float) -> None:
        self._host, self._port = server.rsplit(":", 1)
        self._lines, self._replies, self._mark = (f"{{{stream}}}:{part}" for part in ("lines", "replies", f"sent:{company}"))
        self._seconds = seconds

    def last(self) -> int:
        """The last number that was sent; 1 where none was."""
        return int((self._once(time.monotonic(), lambda redis: redis.get(self._mark)) or "1").split()[0])

    def append(self, number: int, line: bytes) -> str:
        """Appends a line, unless its number did already: its id."""
        (id,) = self._once(time.monotonic(), lambda redis: redis.execute_command("FCALL", "append", 2, self._lines, self._mark, number, line))
        return str(id)

    def reply(self, id: str) -> str:
        """The reply to a line, as soon as it is there."""
        start = time.monotonic()
        while not (found := self._once(start, lambda redis: redis.xrange(self._replies, id, id))):
            oldest = self._once(start, lambda redis: redis.xrange(self._replies, count=1))
            if oldest and order(oldest[0][0]) > order(id):
                return GONE
            self._judge(start, f"there is no reply to {id}")
            time.sleep(0.01)
        return str(found[0][1]["reply"])

    def _judge(self, start: float, what: str) -> None:
        if time.monotonic() - start > self._seconds:
            raise Unanswered(f"{what} after {self._seconds:g} seconds")

    def _once(self, start: float, what: "Callable[[redis.Redis[str]], Any]") -> Any:
        """Does what is asked over a new connection, and tries again until it is done."""
        patience = min(self._seconds, SECONDS_FOR_ONE_ANSWER)
        while True:
            try:
                return what(redis.Redis(self._host, int(self._port), decode_responses=True, socket_timeout=patience))
            except (redis.ConnectionError, redis.TimeoutError) as fault:
                self._judge(start, f"{fault}: the server gave no answer")
                time.sleep(0.2)


def order(id: str) -> tuple[int, int]:
    """What an id is compared by."""
    milliseconds, _, rest = id.partition("-")
    return int(milliseconds), int(rest)


def main() -> int:
    if len(sys.argv) not in (5, 6):
        sys.exit(__doc__)
    server, name, company, path, *more = sys.argv[1:]
    stream = Stream(server, name, company, float(more[0]) if more else SECONDS)
    # A line ends with a line feed alone: of all other signs that end a line somewhere, JSON has some in its texts.
    with open(path, "rb") as file:
        sent = file.read().split(b"\n")
    if not sent[-1]:
        sent.pop()
    try:
        for number, line in list(enumerate(sent, 1))[stream.last() - 1:]:
            id = stream.append(number, line)
            print(id, stream.reply(id), flush=True)
    except (Unanswered, redis.RedisError) as fault:
        print(f"railway.py: {fault}", file=sys.stderr)
        return 1
    return 0


if __name__ == "__main__":
    sys.exit(main())
