"""`wagons-service backup` and `wagons-service next`: what is done beside a service that takes lines, or in its place."""

import asyncio

from .answers import Refusal
from .backup import NotCopied, back_up
from .office import NotTaken, State
from .options import Options
from .service import Service


class Failed(Exception):
    """The command did nothing; the text says why."""


async def run(options: Options) -> str:
    """Does what the command says: what came of it."""
    if options.address:
        raise Failed("the journal must be a folder; the journals of a stream begin by themselves, and its copy is the folder of `--copy`")
    try:
        return await back_up(options) if options.command == "backup" else await begin_next(options)
    except (NotCopied, NotTaken, Refusal) as fault:
        raise Failed(str(fault)) from None


async def begin_next(options: Options) -> str:
    """Begins a new journal while no service runs, so that another build answers no line that this one has answered."""
    service = Service(options)
    service.start()
    try:
        while service.office.state is State.STARTING:
            await asyncio.sleep(0.005)
        return f"{options.journal}: journal {await service.begin_next()} begins"
    finally:
        await service.close()
