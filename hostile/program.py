"""Runs the program, and keeps the table of what was tried."""

import json
import multiprocessing
import os
import random
import re
import struct
import subprocess
import sys
import tempfile
from collections.abc import Callable, Iterable, Iterator, Sequence
from contextlib import contextmanager
from typing import IO, NoReturn, TypeVar

HERE = os.path.dirname(os.path.abspath(__file__))
ROOT = os.path.dirname(HERE)
SCRIPTS = os.path.join(HERE, "scripts")
PROGRAM = os.path.abspath(os.environ.get("WAGONS", os.path.join(HERE, "../out/wagons")))
FAULTS = os.environ.get("HOSTILE_FAULTS", "")
PROCESSES = int(os.environ.get("HOSTILE_PROCESSES") or len(os.sched_getaffinity(0)))
NETWORKS = [os.path.join(SCRIPTS, "network.csv"), os.path.join(SCRIPTS, "network_closed.csv")]
ROSTER = os.path.join(SCRIPTS, "roster.csv")
EACH = int(os.environ.get("HOSTILE_EACH", 1))
# The most cases of a row, in the short form.
MOST = int(os.environ.get("HOSTILE_MOST") or 0)
SECONDS = 120
# The zero byte, a tab, line ends, what JSON is made of, digits, and bytes of broken UTF-8.
HOSTILE = [0x00, 0x09, 0x0A, 0x0D, 0x20, 0x22, 0x2C, 0x2D, 0x30, 0x39, 0x3A, 0x5B, 0x5C, 0x5D, 0x65, 0x7B, 0x7D, 0x7F, 0xC3, 0xFF]


Case = TypeVar("Case")


def office_words(word: str, entries: int = 21, kept: int = 4, workers: int = 1, roster: str = ROSTER, networks: Sequence[str] = tuple(NETWORKS)) -> list[str]:
    words = [word, "--roster", roster, "--entries", str(entries), "--kept", str(kept), "--workers", str(workers)]
    for network in networks:
        words += ["--network", network]
    return words


def script(name: str) -> bytes:
    with open(os.path.join(SCRIPTS, name), "rb") as file:
        return file.read()


@contextmanager
def written(text: bytes) -> Iterator[str]:
    """A file with this text, as long as it is needed."""
    with tempfile.NamedTemporaryFile() as file:
        file.write(text)
        file.flush()
        yield file.name


# A line for people: printable ASCII characters and Latin letters, and no control character.
TOLD = re.compile(rb"([ -~]|[\xC3-\xC8][\x80-\xBF])+\n")


# What may stand on standard error before anything else, for people.
NOTE = re.compile(rb"note: (--at \S+ is before the newest message, \S+|file \d+ moves wagon \d{12}, of which file \d+ had a message refused; .*)\n")


class Outcome:
    """What the program wrote and how it ended. `notes` are lines for people that come first on standard error, `err` is the
    first line behind them, which is for programs, `told` what stands below it for people. `counts` are its requests for memory,
    watched reads, writes, and starts of threads."""

    def __init__(self, status: int, out: bytes, err: bytes, counts: tuple[int, ...] = (), late: bool = False) -> None:
        self.notes: list[bytes] = []
        while err.startswith(b"note: "):
            note, feed, err = err.partition(b"\n")
            self.notes.append(note + feed)
        first, feed, self.told = err.partition(b"\n")
        self.status, self.out, self.err, self.counts, self.is_late = status, out, first + feed, counts, late

    def fault(self) -> str | None:
        """What is wrong with it whatever the input was."""
        if self.is_late:
            return "it ran too long"
        if self.status not in (0, 1, 2):
            return f"status {self.status}, {self.err[:200]!r}"
        if not all(NOTE.fullmatch(note) for note in self.notes):
            return f"notes {self.notes!r}"
        if self.status != 2 and self.err:
            return f"status {self.status} and {self.err[:200]!r}"
        if self.err.startswith(b"wagons: ") and not TOLD.fullmatch(self.told):
            return f"told {self.told[:300]!r}"
        return None


def run(words: Sequence[str], given: bytes | IO[bytes] = b"", **faults: int | str) -> Outcome:
    """Runs the program on bytes or an open file; the faults are those of faults.c, in small letters."""
    environment = {"PATH": "/usr/bin:/bin"}
    counted = -1
    if faults:
        environment["LD_PRELOAD"] = FAULTS
        environment |= {name.upper(): str(value) for name, value in faults.items()}
        counted = os.memfd_create("counts")
        os.truncate(counted, 4096)
        environment["COUNTS"] = str(counted)
    kept = [counted] if faults else []
    try:
        if isinstance(given, bytes):
            ended = subprocess.run([PROGRAM, *words], input=given, capture_output=True, env=environment, timeout=SECONDS, pass_fds=kept)
        else:
            ended = subprocess.run([PROGRAM, *words], stdin=given, capture_output=True, env=environment, timeout=SECONDS, pass_fds=kept)
        return Outcome(ended.returncode, ended.stdout, ended.stderr, struct.unpack("4q", os.pread(counted, 32, 0)) if faults else ())
    except subprocess.TimeoutExpired:
        return Outcome(-1, b"", b"", late=True)
    finally:
        if faults:
            os.close(counted)


NOT_JUDGED = "not judged"


class Table:
    """The rows of one part. A try answers None, or `NOT_JUDGED`, or what was lost. Each try has a row as it comes; the table of
    docs/HOSTILE.md puts several together, as `row` says (table.py)."""

    def __init__(self) -> None:
        self.has_lost = False
        self.title = ""
        self.rows: dict[str, list[int]] = {}

    def row(self, title: str) -> None:
        """The row of the page to which the next tries belong."""
        self.title = title

    def add(self, what: str, times: int, losses: Sequence[str], unjudged: int = 0) -> None:
        self.has_lost = self.has_lost or bool(losses)
        row = self.rows.setdefault(self.title or what, [0, 0, 0])
        row[:] = [have + more for have, more in zip(row, (times, unjudged, len(losses)))]
        print(f"| {what} | {times:,} | {f'{unjudged:,}' if unjudged else ''} | {len(losses) or 'nothing'} |", flush=True)
        for loss in losses[:5]:
            print(f"hostile: {what}: {loss}", file=sys.stderr, flush=True)

    def try_all(self, what: str, one: Callable[[Case], str | None], cases: Iterable[Case], weight: int = 1) -> None:
        """Tries all cases, or a share of them, several at a time. Each counts as so many as its weight says."""
        tried = shared_out(what, list(cases))
        with multiprocessing.Pool(PROCESSES) as pool:
            results = pool.map(one, tried, chunksize=max(1, min(200, len(tried) // (8 * PROCESSES))))
        losses = [f"{case!r:.200}: {result}" for case, result in zip(tried, results) if result not in (None, NOT_JUDGED)]
        self.add(what, weight * len(tried), losses, results.count(NOT_JUDGED))

    def end(self) -> NoReturn:
        """Leaves the rows behind for the table of the page."""
        if path := os.environ.get("HOSTILE_ROWS"):
            with open(path, "w", encoding="utf-8") as file:
                json.dump([[what, *numbers] for what, numbers in self.rows.items()], file)
        sys.exit(1 if self.has_lost else 0)


def shared_out(what: str, cases: list[Case]) -> list[Case]:
    """Each so-manieth case; in the short form not more than it may have, drawn by chance, but the same each time."""
    cases = cases[::EACH]
    if not MOST or len(cases) <= MOST:
        return cases
    return [cases[k] for k in sorted(random.Random(what).sample(range(len(cases)), MOST))]
