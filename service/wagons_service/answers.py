"""What the service answers beside replies: statuses, each with a sentence."""

import json
from collections.abc import Iterator, Sequence
from datetime import datetime

from aiohttp import web

from .journal import MOST_LINE_BYTES, Journal
from .senders import Sender

MOST_LINES_A_REQUEST = 10_000
MOST_BYTES_A_REQUEST = 8_000_000
JSON_LINES = "application/jsonl"
# So much is put together at once, so that others are answered in between.
PAGE = 1 << 18


class Refusal(Exception):
    """A request is refused with this status and sentence, and nothing of it is in the journal."""

    def __init__(self, status: int, sentence: str) -> None:
        super().__init__(sentence)
        self.status = status
        self.retry_after = 1


def sentence(status: int, text: str, retry_after: int = 1) -> web.Response:
    headers = {}
    if status == 401:
        headers["WWW-Authenticate"] = "Bearer"
    if status in (429, 503):
        headers["Retry-After"] = str(retry_after)
    return web.Response(status=status, text=text + "\n", headers=headers)


def cut(body: bytes) -> list[bytes]:
    """The lines of a request; a last piece without a line feed is a line where it isn't empty."""
    lines = body.split(b"\n")
    if not lines[-1]:
        lines.pop()
    judge_size(lines)
    return lines


def judge_size(lines: Sequence[bytes]) -> None:
    """Refuses more lines, or longer ones, than a request may have."""
    if len(lines) > MOST_LINES_A_REQUEST:
        raise Refusal(413, f"The request has {len(lines):,} lines; {MOST_LINES_A_REQUEST:,} are the most.")
    longest = max(map(len, lines), default=0)
    if longest > MOST_LINE_BYTES:
        place = next(place for place, line in enumerate(lines, 1) if len(line) > MOST_LINE_BYTES)
        raise Refusal(413, f"Line {place} of the request has over {MOST_LINE_BYTES:,} bytes, at which the program would stop (92).")


def moment_in(text: str, name: str) -> str:
    """The text of a moment, as it stands in a query."""
    try:
        if datetime.fromisoformat(text).tzinfo is not None:
            return text
    except ValueError:
        pass
    raise Refusal(400, f"`{name}` must be a moment with Z or an offset.")


def number_in(text: str | None, name: str, otherwise: int) -> int:
    """A line's number in a query."""
    if text is None:
        return otherwise
    if not (text.isascii() and text.isdigit() and len(text) <= 9 and int(text)):
        raise Refusal(400, f"`{name}` must be a line's number, from 1 on.")
    return int(text)


def count_in(text: str | None, name: str, least: int, most: int, otherwise: int) -> int:
    """A number in a query."""
    if text is None:
        return otherwise
    if not (text.isascii() and text.isdigit() and len(text) <= 9 and least <= int(text) <= most):
        raise Refusal(400, f"`{name}` must be a number from {least} to {most:,}.")
    return int(text)


def with_lines(journal: Journal, first: int, last: int, sender: Sender) -> Iterator[tuple[int, bytes]]:
    """The replies to the lines of these numbers that the sender may see, each as JSON with its line."""
    records = journal.replies.read(first, last)
    if not records:
        return
    lines = journal.lines.read(first, last).split(b"\n")
    for record in records.split(b"\n")[:-1]:
        number = int(record[len('{"number":'):record.index(b",")])
        line = lines[number - first]
        if sender.may_see(line):
            yield number, b'%s,"line":%s}' % (record[:-1], json.dumps(line.decode("utf-8", "replace")).encode())


def page_end(journal: Journal, first: int, last: int, page: int = PAGE) -> int:
    """The last line so that those from `first` on, with their replies, have about a page of bytes."""
    end = min(journal.replies.until(first, last, page), journal.lines.first_bytes(first, page, last))
    return max(first, min(end, last))
