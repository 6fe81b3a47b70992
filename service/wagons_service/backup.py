"""`wagons-service backup`: a copy of the folder, made while the service runs, which is verified before it gets its name.

What a file says of lines is copied before them, or cut off behind them: replies and checksums come first, then the journal,
then who sent its lines and, of a copy of a stream, their ids. So the copy is the folder of an earlier moment. The roster, the
networks and the files of `--map` and `--places` are copied too, and the program reads the last journal once more with them.
"""

import os
import shutil
import tempfile
from bisect import bisect_right
from dataclasses import replace
from pathlib import Path

from .archive import NotReadable, sync
from .gauges import BACKED_UP
from .journal import CHUNK, IDS, ORIGIN, WAGONS, Broken, Journal, KeptReplies, Unreadable
from .options import Options
from .program import DONE, Program, Replies

ORDER = ("checkpoint.jsonl", WAGONS, "checksums.jsonl", "replies.jsonl", ORIGIN, "journal.jsonl", "senders.jsonl", IDS)
# A checksum that is read while it is written may look spoiled, and a file may be compressed in between.
TRIES = 3


class NotCopied(Exception):
    """There is no backup; the text says why."""


async def back_up(options: Options) -> str:
    """Makes the backup, and says what it has."""
    target = os.path.abspath(options.target or "")
    if os.path.lexists(target):
        raise NotCopied(f"{target} is there already; a backup has a folder of its own")
    if not os.path.isdir(options.journal):
        raise NotCopied(f"there is no folder {options.journal}")
    new = tempfile.mkdtemp(prefix=f".{os.path.basename(target)}.", dir=os.path.dirname(target))
    try:
        said = await make(options, new)
        os.rename(new, target)
        sync(os.path.dirname(target))
        Path(options.journal, BACKED_UP).touch()
    except (Unreadable, NotReadable, Broken) as fault:
        raise NotCopied(str(fault).replace(f"{new}/journal", options.journal)) from None
    finally:
        shutil.rmtree(new, ignore_errors=True)
    return f"{target}: {said}"


async def make(options: Options, new: str) -> str:
    numbers = sorted(int(name) for name in os.listdir(options.journal) if name.isascii() and name.isdigit())
    if not numbers:
        raise NotCopied(f"{options.journal} has no journal")
    journals = f"{new}/journal"
    os.mkdir(journals, 0o700)
    lines = [copy_journal(f"{options.journal}/{number}", f"{journals}/{number}") for number in numbers]
    # A number is here before a line that has it.
    if os.path.exists(f"{options.journal}/identifiers.jsonl"):
        copy_file(f"{options.journal}/identifiers.jsonl", f"{journals}/identifiers.jsonl")
    answered = await replay(with_files(options, new), f"{journals}/{numbers[-1]}")
    for folder, _, _ in os.walk(new):
        sync(folder)
    return f"{len(numbers)} journals with {sum(lines):,} lines; {answered:,} replies of the last one come again as they were"


def with_files(options: Options, new: str) -> Options:
    """The options with the copies of their files."""
    def copied(path: str | None, name: str) -> str | None:
        if path:
            copy_file(path, f"{new}/{name}")
        return path and f"{new}/{name}"

    networks = [copied(path, f"network-{place}.csv") or "" for place, path in enumerate(options.networks, 1)]
    return replace(options, roster=copied(options.roster, "roster.csv"), start=copied(options.start, "checkpoint.jsonl"), networks=networks,
                   map=copied(options.map, "map.toml"), places=copied(options.places, "places.csv"))


def copy_journal(source: str, target: str) -> int:
    """Copies a journal, and compares it with its checksums: how many lines it has."""
    for tries_left in reversed(range(TRIES)):
        shutil.rmtree(target, ignore_errors=True)
        os.mkdir(target, 0o700)
        try:
            for name in ORDER:
                copy_any(f"{source}/{name}", f"{target}/{name}")
            journal = Journal(target)
            journal.close()
            return journal.lines.count
        except (Unreadable, FileNotFoundError):
            if not tries_left:
                raise
    raise AssertionError


def copy_any(source: str, target: str) -> None:
    """Copies a file as it is or, where it is compressed, as that."""
    for end in "", ".gz":
        if os.path.exists(source + end):
            copy_file(source + end, target + end)
            return


def copy_file(source: str, target: str) -> None:
    shutil.copyfile(source, target)
    with open(target, "rb") as file:
        os.fsync(file.fileno())


async def replay(options: Options, folder: str) -> int:
    """Has the program read a journal once more: how many replies are as they were."""
    journal = Journal(folder)
    kept = journal.replies
    wrong: list[str] = []
    seen = 0

    def take(replies: Replies) -> None:
        nonlocal seen
        before = replies.part(0, bisect_right(replies.numbers, kept.last))
        seen += len(before.numbers)
        wrong.extend(f"line {number} was answered otherwise before" for number, kind, text in zip(*before) if not is_as_before(kept, number, kind, text))

    program = await Program.start(options.words("run", journal.checkpoint), take)
    first = 1
    while first <= journal.lines.count and not program.ended.done():
        last = journal.lines.first_bytes(first, CHUNK)
        program.send(journal.lines.read(first, last))
        first = last + 1
        await program.drain()
    program.close()
    ended = await program.ended
    journal.close()
    if ended.status not in DONE or wrong:
        raise NotCopied(f"{options.journal}: {wrong[0] if wrong else ended.words}; the program, its files or its options aren't those of this journal")
    return seen


def is_as_before(kept: KeptReplies, number: int, kind: bytes, text: bytes) -> bool:
    """Whether a line is answered as it was; a plan may be another one of the same cost."""
    before = kept.read(number, number)
    head = KeptReplies.record(number, text.partition(b"\n")[0])[:-2]
    return before == KeptReplies.record(number, text) + b"\n" or kind == b"plan" and before.startswith(head + b"\\n")
