"""SIGTERM and SIGINT end the service, whatever is going on."""

import asyncio
import faulthandler
import signal
from types import FrameType

# What ends as it should takes less; systemd and those who wait for a machine's end wait longer.
SECONDS_TO_END = 18


def end_on_signals(stop: asyncio.Event, loop: asyncio.AbstractEventLoop, seconds: float = SECONDS_TO_END) -> None:
    """Sets `stop`. A service that hasn't ended so many seconds later is ended with status 1, and standard error says what it was at.

    The journal allows it, since a service may be killed at any moment. Neither the loop nor Python need be running for it.
    """

    has_come = False

    def end(_number: int, _frame: FrameType | None) -> None:
        nonlocal has_come
        # A second signal gives no more time, and may come when the loop is closed.
        if not has_come:
            has_come = True
            faulthandler.dump_traceback_later(seconds, exit=True)
            loop.call_soon_threadsafe(stop.set)

    for number in signal.SIGTERM, signal.SIGINT:
        signal.signal(number, end)
