"""Starts the router and ends it."""

import argparse
import asyncio
import logging
import signal
import sys
from collections.abc import Sequence

from .address import Address, BadAddress, host_of
from .notify import stand_up
from .router import BadOffices, Offices, run

PAGE = "docs/STREAM_SETUP.md, and `man wagons-router`"


async def serve(address: Address, offices: Offices, hours: int, complete: Sequence[str], metrics: tuple[str, int] | None) -> None:
    """Runs until SIGTERM or SIGINT."""
    work = asyncio.create_task(run(address, offices, hours, complete, metrics))
    loop = asyncio.get_running_loop()
    for number in signal.SIGTERM, signal.SIGINT:
        loop.add_signal_handler(number, work.cancel)
    signs = stand_up()
    await work
    signs.cancel()


def main(arguments: Sequence[str]) -> int:
    parser = argparse.ArgumentParser(
        prog="wagons-router", description="Brings the lines of an inbox to the streams of their offices.", epilog=f"See {PAGE}.")
    parser.add_argument("--inbox", metavar="ADDRESS", required=True, help="redis://HOST:PORT/INBOX")
    parser.add_argument("--offices", metavar="FILE", required=True, help="which office has which wagon: a CSV file with the header wagon,office")
    parser.add_argument("--keep", metavar="HOURS", type=int, default=24, help="how long the inbox keeps lines that their offices have; 24 where nothing is said")
    parser.add_argument("--complete", metavar="OFFICE", action="append", default=[],
                        help="an office whose stream has all lines from before those that the inbox keeps; any number of times")
    parser.add_argument("--metrics", metavar="HOST:PORT", help="where `GET /metrics` says what is held, for Prometheus; nowhere where nothing is said")
    given = parser.parse_args(arguments)
    logging.basicConfig(format="wagons-router: %(levelname)s: %(message)s", level=logging.INFO, stream=sys.stderr)
    try:
        address = Address.read(given.inbox)
        offices = Offices.read(given.offices)
        if unknown := set(given.complete) - set(offices.names):
            raise BadOffices(f"--complete {min(unknown)}: {given.offices} has no such office")
        metrics = host_of(given.metrics, given.metrics) if given.metrics else None
    except (BadAddress, BadOffices) as fault:
        print(f"wagons-router: {fault}", file=sys.stderr)
        return 2
    try:
        asyncio.run(serve(address, offices, given.keep, given.complete, metrics))
    except OSError as fault:
        print(f"wagons-router: {fault}", file=sys.stderr)
        return 2
    return 0
