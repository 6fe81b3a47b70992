"""The standard input of a child, which may end before it has read it."""

import asyncio
from contextlib import suppress

# A child of the child may still have it open.
SECONDS_TO_CLOSE = 1.0


async def until_closed(process: asyncio.subprocess.Process) -> None:
    """Waits until the input of a child that has ended is closed.

    If some of it wasn't read, that is no fault: the child's own words say why it ended. But asyncio keeps the broken pipe for
    whoever waits so, and logs it as an exception of its own if nobody did.
    """
    assert process.stdin is not None
    process.stdin.close()
    with suppress(ConnectionError, TimeoutError):
        async with asyncio.timeout(SECONDS_TO_CLOSE):
            # Whoever leaves meanwhile doesn't take the end from asyncio, which still has to tell it.
            await asyncio.shield(process.stdin.wait_closed())
