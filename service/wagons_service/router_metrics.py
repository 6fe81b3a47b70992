"""What the router holds, as Prometheus reads it. It is asked seldom, so a few lines of HTTP do."""

import asyncio
import time
from collections.abc import Iterator, Mapping
from contextlib import suppress

from .metrics import head, one
from .streams import order

SECONDS_FOR_A_REQUEST = 5
MOST_HEAD_BYTES = 8192


def text_of(held: Mapping[str, int], oldest: bytes | None) -> str:
    """The lines of each office that it doesn't have yet, and the id of the oldest line that has no record."""
    def lines() -> Iterator[str]:
        yield from head("wagons_router_held_lines", "gauge", "lines that an office doesn't have yet")
        yield from (f'wagons_router_held_lines{{office="{office}"}} {count}' for office, count in sorted(held.items()))
        delay = max(time.time() - order(oldest)[0] / 1000, 0) if oldest else 0
        yield from one("wagons_router_delay_seconds", "gauge", "age of the oldest line of the inbox of which nothing is said yet", round(delay, 3))

    return "".join(f"{line}\n" for line in lines())


async def answer(reader: asyncio.StreamReader, writer: asyncio.StreamWriter, text: str) -> None:
    """Answers one request of a connection."""
    with suppress(OSError, TimeoutError, asyncio.IncompleteReadError, asyncio.LimitOverrunError):
        async with asyncio.timeout(SECONDS_FOR_A_REQUEST):
            asked = await reader.readuntil(b"\r\n\r\n")
            status, body = ("200 OK", text) if asked.startswith(b"GET /metrics ") else ("404 Not Found", "There is /metrics alone.\n")
            writer.write(f"HTTP/1.1 {status}\r\nContent-Type: text/plain; version=0.0.4; charset=utf-8\r\nContent-Length: {len(body)}\r\nConnection: close\r\n\r\n{body}".encode())
            await writer.drain()
    writer.close()
