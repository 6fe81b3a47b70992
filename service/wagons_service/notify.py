"""What systemd is told where it asks, as units of `Type=notify` do: that all is up, and again and again that the loop runs."""

import asyncio
import os
import socket
from contextlib import suppress


def notify(state: str) -> None:
    """Sends a state, as `READY=1`, where systemd started this process and listens."""
    address = os.environ.get("NOTIFY_SOCKET")
    if address:
        # An address that begins with `@` has no file.
        with suppress(OSError), socket.socket(socket.AF_UNIX, socket.SOCK_DGRAM | socket.SOCK_CLOEXEC) as sender:
            sender.sendto(state.encode(), "\0" + address[1:] if address.startswith("@") else address)


async def keep_alive() -> None:
    """Gives a sign twice in the time after which systemd would start the service again; without a watchdog it does nothing."""
    microseconds = os.environ.get("WATCHDOG_USEC", "")
    while microseconds.isdigit() and int(microseconds):
        notify("WATCHDOG=1")
        await asyncio.sleep(int(microseconds) / 2_000_000)


def stand_up() -> "asyncio.Task[None]":
    """Says that the service is up, and goes on giving signs while the loop runs."""
    notify("READY=1")
    return asyncio.create_task(keep_alive())
