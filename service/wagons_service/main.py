"""Starts the service and ends it."""

import asyncio
import gc
import logging
import signal
import sys
from collections.abc import Sequence

from aiohttp import web
from aiohttp.http_exceptions import BadHttpMessage

from . import commands, options
from .answers import Refusal
from .archive import NotReadable, keep_small
from .connections import Connections, raise_limit
from .ending import end_on_signals
from .front import server_of
from .identifiers import Identifiers
from .journal import Broken, FolderInUse, Unreadable
from .notify import notify, stand_up
from .options import Options
from .page import Page
from .seldom import Seldom
from .senders import BadTokens
from .server import Server
from .service import Service
from .state_route import StateRoute
from .xml_lines import BadMap, Map
from .xml_route import XmlRoute

log = logging.getLogger("wagons-service")

# So long the rest of a refused body is read, so that its sender sees the answer.
SECONDS_OF_LINGERING = 2
# So many objects are made between two searches for circles of them. Lines and replies are in none, and each is an object.
OBJECTS_BETWEEN_SEARCHES = 100_000


def is_ours(record: logging.LogRecord) -> bool:
    """Whether what aiohttp logs is worth a line: what isn't HTTP and connections that broke are the sender's."""
    fault = record.exc_info[1] if record.exc_info else None
    return not isinstance(fault, (BadHttpMessage, ConnectionError))


def of_stream(given: Options) -> Service:
    # Only a stream needs `hiredis`.
    from .stream_service import StreamService
    assert given.address
    return StreamService(given, given.address)


async def watching(connections: Connections, seldom: Seldom) -> None:
    while True:
        await asyncio.sleep(connections.seconds_between_looks)
        connections.look()
        seldom.say_counts()


async def serve(given: Options, seldom: Seldom) -> None:
    """Runs until SIGTERM or SIGINT."""
    stop = asyncio.Event()
    loop = asyncio.get_running_loop()
    end_on_signals(stop, loop)
    service = of_stream(given) if given.address else Service(given)
    await service.viewer.judge_names()
    server = Server(service, given.tokens)
    loop.add_signal_handler(signal.SIGHUP, server.read_tokens_again)
    Page(server).add_to(server.router)
    StateRoute(server).add_to(server.router)
    xml = XmlRoute(server, Map.read(given.map), Identifiers(f"{given.journal}/identifiers.jsonl", given.limits.share.identifiers)) if given.map else None
    if xml:
        xml.add_to(server.router)
    runner = web.ServerRunner(server_of(server.handle, access_log=None, auto_decompress=False, lingering_time=SECONDS_OF_LINGERING))
    await runner.setup()
    assert runner.server
    watch = asyncio.create_task(watching(Connections(runner.server, server.busy, given.limits.patience), seldom))
    site = web.TCPSite(runner, given.host, given.port, shutdown_timeout=5)
    await site.start()
    service.start()
    if server.retry:
        server.retry.start()
    keep_small(service.folder, given.keep_days)
    gc.freeze()
    gc.set_threshold(OBJECTS_BETWEEN_SEARCHES)
    for host, port, *_ in runner.addresses:
        log.info("listens on http://%s:%d", f"[{host}]" if ":" in host else host, port)
    signs = stand_up()
    await stop.wait()
    signs.cancel()
    notify("STOPPING=1")
    log.info("ends")
    server.end_streams()
    if server.retry:
        server.retry.end()
    if xml:
        xml.end()
    await site.stop()
    await service.close()
    watch.cancel()
    await runner.cleanup()


def main(arguments: Sequence[str]) -> int:
    if arguments[:1] == ["restore"]:
        from . import restore
        return restore.main(arguments[1:])
    given = options.read(arguments)
    logging.basicConfig(format="wagons-service: %(levelname)s: %(message)s", level=logging.INFO, stream=sys.stderr)
    logging.getLogger("aiohttp.server").addFilter(is_ours)
    seldom = Seldom()
    for handler in logging.getLogger().handlers:
        handler.addFilter(seldom)
    raise_limit()
    try:
        if given.command:
            print(asyncio.run(commands.run(given)))
        else:
            asyncio.run(serve(given, seldom))
    except (FolderInUse, Unreadable, NotReadable, BadTokens, BadMap, Broken, commands.Failed, Refusal, OSError) as fault:
        print(f"wagons-service: {fault}", file=sys.stderr)
        return 2
    return 0
