"""The arguments of `wagons-service`."""

import argparse
from collections.abc import Sequence
from dataclasses import dataclass

from . import limits
from .address import Address, BadAddress
from .limits import DEFAULT_ENTRIES as DEFAULT_ENTRIES
from .limits import Limits
from .program import found
from .senders import is_loopback

# In milliseconds.
DEFAULT_LEASE = 3000
LEAST_LEASE = 100
MOST_JOURNAL_LINES = 1_000_000
DEFAULT_KEEP_DAYS = 30
# What stands before the options where the service isn't to run.
COMMANDS = {
    "backup": "Copies the journals while the service runs, verifies the copy, and reads its last journal once more. The options are the service's.",
    "next": "Begins a new journal while no service runs, as before another build of the program. The options are the service's.",
}
PAGE = "docs/SERVICE.md, and `man wagons-service`"
# The words that take these options.
WITH_PLACES = frozenset(["fleet", "map", "moves", "orders", "plan", "why"])
WITH_ZONE = frozenset(["plan"])


@dataclass(frozen=True)
class Options:
    journal: str
    program: str
    roster: str | None
    start: str | None
    networks: Sequence[str]
    entries: int | None
    kept: int | None
    workers: int | None
    host: str
    port: int
    tokens: str | None
    map: str | None
    address: Address | None = None
    copy: str | None = None
    lease: int = DEFAULT_LEASE
    journal_lines: int | None = None
    keep_days: int = DEFAULT_KEEP_DAYS
    command: str | None = None
    target: str | None = None
    limits: Limits = Limits()
    replicas: int = 0
    places: str | None = None
    zone: str | None = None

    def words(self, word: str, checkpoint: str | None) -> list[str]:
        """The command `wagons WORD` with the options that say which office it is; a journal's own checkpoint comes first."""
        command, start = [self.program, word], checkpoint or self.start
        command += ["--from", start] if start else ["--roster", self.roster or ""]
        for network in self.networks:
            command += ["--network", network]
        places = self.places if word in WITH_PLACES else None
        zone = self.zone if word in WITH_ZONE else None
        for name, value in (("--entries", self.entries), ("--kept", self.kept), ("--workers", self.workers),
                            ("--places", places), ("--zone", zone)):
            if value is not None:
                command += [name, str(value)]
        return command


def read(arguments: Sequence[str]) -> Options:
    """Reads the arguments; what is wrong with them is said on standard error, with status 2."""
    command = arguments[0] if arguments and arguments[0] in COMMANDS else None
    parser = argparse.ArgumentParser(
        prog=f"wagons-service {command}" if command else "wagons-service",
        description=COMMANDS[command] if command else "Takes lines for `wagons run` over a network, and answers its replies.",
        epilog=f"See {PAGE}." if command else f"`wagons-service backup`, `next` and `restore` have help of their own. See {PAGE}.")
    if command == "backup":
        parser.add_argument("target", metavar="FOLDER", help="where the backup is to be; it must not be there yet")
    parser.add_argument("--journal", metavar="FOLDER", required=True,
                        help="the folder of the journal; it is made where it isn't there. Or redis://HOST:PORT[,HOST:PORT..]/STREAM (docs/STREAMS.md)")
    start = parser.add_mutually_exclusive_group(required=True)
    start.add_argument("--roster", metavar="FILE", help="the fleet at the start")
    start.add_argument("--from", metavar="FILE", dest="start", help="the office at the start: a checkpoint of `wagons save`")
    parser.add_argument("--network", metavar="FILE", action="append", required=True, help="the lines between places; 1 to 8 times")
    parser.add_argument("--entries", metavar="N", type=int, help="as `wagons run` has it")
    parser.add_argument("--kept", metavar="N", type=int, help="as `wagons run` has it")
    parser.add_argument("--workers", metavar="N", type=int, help="as `wagons run` has it")
    parser.add_argument("--places", metavar="FILE", help="the names of places, and where they lie on the page's map, as `wagons map` has it")
    parser.add_argument("--zone", metavar="ZONE", help="the time zone in which the page shows moments, as Europe/Berlin; UTC where nothing is said")
    parser.add_argument("--program", metavar="FILE", default="", help="the program `wagons`; without it the one of this repository, or on the path")
    parser.add_argument("--listen", metavar="HOST:PORT", default="127.0.0.1:8080", help="where requests come; 127.0.0.1:8080 where nothing is said")
    parser.add_argument("--tokens", metavar="FILE", help="who may send what: a line TOKEN ROLE [COMPANY] [name=..] [until=..] for each sender")
    parser.add_argument("--map", metavar="FILE", help="how the XML of `POST /xml` becomes lines")
    parser.add_argument("--copy", metavar="FOLDER", help="of a stream: where its journals are kept as files too")
    parser.add_argument("--lease", metavar="MILLISECONDS", type=int, default=DEFAULT_LEASE, help="of a stream: after so long without a sign another service answers")
    parser.add_argument("--journal-lines", metavar="N", type=int, help="of a new stream: after each N lines a checkpoint is made and a new journal begins")
    parser.add_argument("--replicas", metavar="N", type=int, default=0, help="of a stream: a line is answered when so many replicas of the server have it")
    parser.add_argument("--keep-days", metavar="N", type=int, default=DEFAULT_KEEP_DAYS, help="journals that are over for longer are compressed; 30 where nothing is said")
    limits.add_arguments(parser)
    given = parser.parse_args(arguments[1:] if command else arguments)
    if given.keep_days < 1:
        parser.error("argument --keep-days: 1 is the least")
    address = None
    if "://" in given.journal:
        try:
            address = Address.read(given.journal)
        except BadAddress as fault:
            parser.error(f"argument --journal: {fault}")
        if given.map:
            parser.error("argument --map: XML is taken where the journal is a folder")
        if given.retry:
            parser.error("argument --retry: messages are kept aside where the journal is a folder")
        if given.lease < LEAST_LEASE:
            parser.error(f"argument --lease: {LEAST_LEASE} milliseconds are the least")
        if given.journal_lines is not None and not 0 < given.journal_lines <= MOST_JOURNAL_LINES:
            parser.error(f"argument --journal-lines: 1 to {MOST_JOURNAL_LINES}")
    if given.replicas < 0 or (given.replicas and not address):
        parser.error("argument --replicas: 0 or more, of a stream")
    host, _, port = given.listen.rpartition(":")
    host = host.strip("[]")
    if not host or not (port.isascii() and port.isdigit() and int(port) < 65536):
        parser.error(f"argument --listen: {given.listen!r} is no HOST:PORT")
    if not given.tokens and not is_loopback(host):
        parser.error("without --tokens only a loopback address is listened to, as 127.0.0.1:8080")
    return Options(
        journal=given.journal, program=found(given.program), roster=given.roster, start=given.start, networks=given.network,
        entries=given.entries, kept=given.kept, workers=given.workers, host=host, port=int(port), tokens=given.tokens, map=given.map,
        address=address, copy=given.copy, lease=given.lease, journal_lines=given.journal_lines, replicas=given.replicas,
        keep_days=given.keep_days, command=command, target=getattr(given, "target", None), limits=Limits.of(given), places=given.places, zone=given.zone)
