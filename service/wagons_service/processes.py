"""Commands that are given a text, print once, and end."""

import asyncio
from collections.abc import Sequence

from .answers import Refusal
from .pipes import until_closed

SECONDS_TO_DRAW = 30
# How the program begins to say that the problem doesn't have what it was asked about, and that an argument is none.
NOT_THERE, BAD_ARGUMENT = b"wagons: 84 ", b"error: "


async def start(command: Sequence[str], files: Sequence[int] = ()) -> asyncio.subprocess.Process:
    pipe = asyncio.subprocess.PIPE
    try:
        return await asyncio.create_subprocess_exec(*command, stdin=pipe, stdout=pipe, stderr=pipe, pass_fds=files)
    except OSError as fault:
        raise Refusal(503, f"{command[0]} couldn't be started: {fault}") from None


async def run(command: Sequence[str], given: bytes) -> bytes:
    """What a command prints."""
    process = await start(command)
    try:
        async with asyncio.timeout(SECONDS_TO_DRAW):
            printed, said = await process.communicate(given)
    except TimeoutError:
        process.kill()
        raise Refusal(503, f"{' '.join(command)} took over {SECONDS_TO_DRAW} seconds.") from None
    finally:
        await until_closed(process)
    if process.returncode:
        raise refusal_of(command, said, process.returncode)
    return printed


def refusal_of(command: Sequence[str], said: bytes, status: int | None) -> Refusal:
    """Why a command printed nothing: what was asked for isn't there, or can't be; or the command failed."""
    if said.startswith(NOT_THERE):
        code = 404
    elif said.startswith(BAD_ARGUMENT):
        code = 400
    else:
        code = 503
    return Refusal(code, words_of(command, said, status))


def words_of(command: Sequence[str], said: bytes, status: int | None) -> str:
    """The words with which a command ended."""
    return said.decode("utf-8", "replace").strip() or f"{command[0]} ended with {status}"
