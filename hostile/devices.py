#!/usr/bin/env python3
"""Devices that fail: each read and each write in turn, a full disk, closed pipes, directories, files that shrink."""

import errno
import functools
import os
import subprocess
import tempfile
import threading
from collections.abc import Iterator, Sequence
from typing import IO, Any

import judge
import program
from memory import ENTRIES, KEPT, counts_add_up, fed, new_office
from program import NETWORKS, ROSTER, SCRIPTS, Outcome, Table, office_words, run, script, written

ERRORS = [errno.EIO, errno.EINTR, errno.EAGAIN]
RUN = office_words("run", ENTRIES, KEPT)
FEED = office_words("feed", ENTRIES, KEPT)
INPUTS = {"check": ("tables.jsonl", ["check"]), "run": ("office.jsonl", RUN)}


def path_of(name: str) -> str:
    return os.path.join(SCRIPTS, name)


def replies_to(word: str, given: bytes, output: bytes) -> judge.Replies:
    """The replies to what was given, where the output is right."""
    if word == "check":
        return judge.judge_check(given, output)
    return judge.Run(new_office()).judge(given, output)


def whole_lines(given: bytes) -> bytes:
    return given[:given.rfind(b"\n") + 1]


def wrong(outcome: Outcome, status: int, err: bytes) -> str | None:
    if (outcome.status, outcome.err) != (status, err):
        return f"status {outcome.status} and {outcome.err!r}, where {status} and {err!r} are right"
    return None


def judged(word: str, given: bytes, outcome: Outcome) -> str | None:
    try:
        replies_to(word, given, outcome.out)
    except judge.Lost as lost:
        return str(lost)
    return None


def failing_read(case: tuple[str, int, int, int]) -> str | None:
    """Each read gets at most `short` bytes, and the nth fails: 93 with the line that the next byte would belong to."""
    word, short, nth, error = case
    name, words = INPUTS[word]
    with open(path_of(name), "rb") as source:
        outcome = run(words, source, read_inode=os.fstat(source.fileno()).st_ino, read_short=short, read_fails=nth, read_errno=error)
    given = script(name)[:short * (nth - 1)]
    line = given.count(b"\n") + 1
    return wrong(outcome, 2, f"wagons: 93 {line}\n".encode()) or judged(word, whole_lines(given), outcome)


def failing_file(case: tuple[str, str, int, int, int]) -> str | None:
    """A read of the roster or of a network fails: 93, and nothing is written."""
    word, path, short, nth, error = case
    words = RUN if word == "run" else FEED + [path_of("office.jsonl")]
    outcome = run(words, script("office.jsonl"), read_inode=os.stat(path).st_ino, read_short=short, read_fails=nth, read_errno=error)
    return wrong(outcome, 2, b"wagons: 93\n") or (f"wrote {outcome.out!r}" if outcome.out else None)


def failing_feed(case: tuple[int, int, int]) -> str | None:
    """A read of a file of `feed` fails: it is reported as failed, and the lines before are done."""
    short, nth, error = case
    path = path_of("office.jsonl")
    outcome = run(FEED + [path], b"", read_inode=os.stat(path).st_ino, read_short=short, read_fails=nth, read_errno=error)
    given = whole_lines(script("office.jsonl")[:short * (nth - 1)])
    right = [f"file 1 failed 93\n{one.office.sheet()}\n".encode() for one in ways_of(given)]
    return wrong(outcome, 2, b"") or (None if outcome.out in right else f"{outcome.out!r} where {right[0]!r} is right")


@functools.cache
def ways_of(given: bytes) -> list[judge.Fed]:
    return list(judge.all_fed(new_office, given))


def shrinking(case: tuple[str, int, int, int]) -> str | None:
    """The file is cut before its nth read, and ends there."""
    word, short, nth, length = case
    name, words = INPUTS.get(word, ("office.jsonl", FEED))
    with written(script(name)) as copy:
        words = words + [copy] if word == "feed" else words
        with open(copy, "rb") as source:
            outcome = run(words, source, read_inode=os.fstat(source.fileno()).st_ino, read_short=short, shrink_at=nth,
                          shrink_to=length, shrink_file=copy)
    given = script(name)[:max(length, short * (nth - 1))]
    if outcome.fault() or outcome.status == 2:
        return f"status {outcome.status} and {outcome.err!r}"
    if word != "feed":
        return judged(word, given, outcome)
    right = [one.report() for one in ways_of(given)]
    return None if outcome.out.decode() in right else f"{outcome.out!r} where {right[0]!r} is right"


@functools.cache
def whole_output(word: str) -> bytes:
    """What the program writes where nothing fails, judged."""
    name, words = INPUTS[word]
    outcome = run(words, script(name))
    assert outcome.status == 1 and not outcome.err and judged(word, script(name), outcome) is None
    return outcome.out


def failing_write(case: tuple[str, int, int, int]) -> str | None:
    """Each write takes at most `short` bytes, and the nth fails: 94 with the line whose reply it is a part of."""
    word, short, nth, error = case
    name, words = INPUTS[word]
    outcome = run(words, script(name), write_short=short, write_fails=nth, write_errno=error)
    line, done = place_of_write(word, short, nth)
    if outcome.out != whole_output(word)[:done]:
        return f"{outcome.out!r} where {done} bytes are right"
    return wrong(outcome, 2, f"wagons: 94 {line}\n".encode())


@functools.cache
def writes_of(word: str, short: int) -> list[tuple[int, int]]:
    """For each write the line whose reply it is a part of, and how many bytes were written before it."""
    places: list[tuple[int, int]] = []
    done = 0
    for number, length in replies_of(whole_output(word)):
        for part in range(0, length, short):
            places.append((number, done + part))
        done += length
    return places


def replies_of(output: bytes) -> list[tuple[int, int]]:
    """The number of each reply, and its length with all its lines."""
    replies: list[tuple[int, int]] = []
    for row in output.splitlines(keepends=True):
        first = row.split(b" ")[0]
        if first.isdigit():
            replies.append((int(first), 0))
        number, length = replies[-1]
        replies[-1] = number, length + len(row)
    return replies


def place_of_write(word: str, short: int, nth: int) -> tuple[int, int]:
    return writes_of(word, short)[nth - 1]


def failing_report(case: tuple[tuple[str, ...], int, int, int]) -> str | None:
    """What is printed at the end in one text: help, the version, the report of `feed`."""
    words, short, nth, error = case
    whole = run(list(words)).out
    outcome = run(list(words), write_short=short, write_fails=nth, write_errno=error)
    if outcome.out != whole[:len(outcome.out)] or len(outcome.out) > short * (nth - 1):
        return f"wrote {outcome.out!r}"
    return wrong(outcome, 2, b"wagons: 94\n")


def run_to(words: Sequence[str], given: bytes | None, **streams: Any) -> Outcome:
    """Runs with standard output or input as they are given, without the library."""
    if given is not None:
        streams["input"] = given
    ended = subprocess.run([program.PROGRAM, *words], stderr=subprocess.PIPE, timeout=60, **streams)
    return Outcome(ended.returncode, b"", ended.stderr)


def closed_pipe() -> int:
    """A pipe that nobody reads any more."""
    reading, writing = os.pipe()
    os.close(reading)
    return writing


def odd_device(case: tuple[str, tuple[str, ...], bytes | None, int, bytes]) -> str | None:
    """Devices of the system itself."""
    name, said, given, status, err = case
    words = list(said)
    if name == "full disk":
        with open("/dev/full", "wb") as full:
            outcome = run_to(words, given, stdout=full)
    elif name == "closed pipe":
        writing = closed_pipe()
        outcome = run_to(words, given, stdout=writing)
        os.close(writing)
    elif name == "no standard output":
        outcome = run_to(["-c", 'exec "$0" "$@" >&-', program.PROGRAM, *words], given, executable="/bin/sh")
    elif name == "no standard input":
        outcome = run_to(["-c", 'exec "$0" "$@" <&-', program.PROGRAM, *words], None, executable="/bin/sh", stdout=subprocess.PIPE)
    elif name == "directory as standard input":
        folder = os.open("/tmp", os.O_RDONLY)
        outcome = run_to(words, None, stdin=folder, stdout=subprocess.PIPE)
        os.close(folder)
    else:
        outcome = run_to(words, given, stdout=subprocess.PIPE)
    return wrong(outcome, status, err)


def odd_devices() -> list[tuple[str, tuple[str, ...], bytes | None, int, bytes]]:
    """Name, words, input, and the right status and standard error."""
    office_script, tables = script("office.jsonl"), script("tables.jsonl")
    feed = FEED + [path_of("office.jsonl")]
    cases: list[tuple[str, tuple[str, ...], bytes | None, int, bytes]] = []
    for name in "full disk", "closed pipe", "no standard output":
        cases += [(name, ("check",), tables, 2, b"wagons: 94 1\n"), (name, tuple(RUN), office_script, 2, b"wagons: 94 1\n"),
                  (name, tuple(feed), b"", 2, b"wagons: 94\n"), (name, ("--help",), b"", 2, b"wagons: 94\n"),
                  (name, ("--version",), b"", 2, b"wagons: 94\n"), (name, ("run", "--help"), b"", 2, b"wagons: 94\n")]
    for name in "no standard input", "directory as standard input":
        cases += [(name, ("check",), None, 2, b"wagons: 93 1\n"), (name, tuple(RUN), None, 2, b"wagons: 93 1\n")]
    files: dict[str, list[str]] = {"run": [], "feed": [path_of("office.jsonl")]}
    for word, more in files.items():
        for path in "/tmp", "/no/such/file", "":
            roster = office_words(word, roster=path) + more
            network = office_words(word, networks=[NETWORKS[0], path]) + more
            cases += [("directory for a file", tuple(words), b"", 2, b"wagons: 93\n") for words in (roster, network)]
    cases.append(("directory for a file", tuple(FEED + ["/no/such/file"]), b"", 2, b"wagons: 93\n"))
    cases.append(("directory for a file", tuple(FEED + ["/tmp"]), b"", 2, b""))
    return cases


def no_thread(case: tuple[tuple[str, ...], int, bool]) -> str | None:
    """The nth thread can't be started: 46, after those that run have ended, and nothing is written. But where a thread would
    only look at what a file left behind, another does that, and all is as ever."""
    words, nth, is_needed = case
    outcome = run(list(words), b"", thread_fails=nth)
    if is_needed:
        return wrong(outcome, 2, b"wagons: 46\n") or (f"wrote {outcome.out!r}" if outcome.out else None)
    return wrong(outcome, 1, b"") or counts_add_up(outcome.out.decode(), outcome.status)


def thread_starts() -> Iterator[tuple[tuple[str, ...], int, bool]]:
    """Threads start for the distances, so many workers for each network, for each file, and at the end once more for each file."""
    files = [path_of("feed_1.jsonl")] * 16
    started: list[tuple[str, int, list[str]]] = [("run", 4, []), ("feed", 1, files), ("feed", 64, files)]
    for word, workers, more in started:
        words = tuple(office_words(word, workers=workers) + more)
        count, needed = run(words, b"", thread_fails=10**9).counts[3], len(NETWORKS) * workers + len(more)
        assert count == needed + len(more), (count, needed)
        yield from ((words, nth, nth <= needed) for nth in range(1, count + 1))


class Turns:
    """Lets senders write one after the other, a part at a time."""

    def __init__(self, senders: int) -> None:
        self.changed, self.next, self.left = threading.Condition(), 0, list(range(senders))
        self.opened = threading.Barrier(senders)

    def write(self, sender: int, out: IO[bytes], part: bytes, is_last: bool) -> None:
        with self.changed:
            if not self.changed.wait_for(lambda: self.left[self.next] == sender, 30):
                raise TimeoutError
            out.write(part)
            if is_last:
                self.left.remove(sender)
            else:
                self.next += 1
            self.next %= max(1, len(self.left))
            self.changed.notify_all()


def send(pipe: str, text: bytes, size: int, sender: int, turns: Turns) -> None:
    with open(pipe, "wb", buffering=0) as out:
        turns.opened.wait(30)
        for start in range(0, len(text), size):
            turns.write(sender, out, text[start:start + size], start + size >= len(text))


def fifos(size: int) -> str | None:
    """Three senders write into named pipes by turns, so many bytes at a time; the report is that of their files. A fourth pipe is
    closed without a byte."""
    names, turns = ["feed_1.jsonl", "feed_2.jsonl", "feed_3.jsonl"], Turns(3)
    with tempfile.TemporaryDirectory() as folder:
        pipes = [os.path.join(folder, str(k)) for k in range(4)]
        for pipe in pipes:
            os.mkfifo(pipe)
        senders = [threading.Thread(target=send, args=(pipes[k], script(names[k]), size + k, k, turns)) for k in range(3)]
        senders.append(threading.Thread(target=lambda: open(pipes[3], "wb").close()))
        for sender in senders:
            sender.start()
        outcome = run(office_words("feed", 1000, KEPT) + pipes)
        for sender in senders:
            sender.join()
    rows = outcome.out.decode().splitlines()
    right = [f"file {k} {fed(name).counts()}" for k, name in enumerate(names, 1)] + ["file 4 accepted 0 repeated 0 refused 0"]
    if rows[:4] != right:
        return f"{rows[:4]} where {right} is right"
    return outcome.fault() or counts_add_up(outcome.out.decode(), outcome.status)


def reads(name: str, short: int) -> range:
    """The numbers of all reads of a file, the last one at its end among them."""
    size = os.path.getsize(path_of(name))
    return range(1, -(-size // short) + 2)


def main() -> None:
    table = Table()
    table.row("each read of standard input, rosters, networks and files of `feed` failed")
    for word, (name, _) in INPUTS.items():
        cases = [(word, 1, nth, errno.EIO) for nth in reads(name, 1)]
        cases += [(word, short, nth, error) for short in (7, 64, 1000, 16384) for error in ERRORS for nth in reads(name, short)]
        table.try_all(f"`{word}`: each read of standard input failed", failing_read, cases)
    table.try_all("`run` and `feed`: each read of the roster and the networks failed", failing_file,
                  [(word, path, short, nth, errno.EIO) for word in ("run", "feed") for path in (ROSTER, *NETWORKS)
                   for short in (1, 16384) for nth in reads(path, short)])
    table.try_all("`feed`: each read of its file failed", failing_feed,
                  [(short, nth, error) for short in (7, 64, 1000, 16384) for error in ERRORS for nth in reads("office.jsonl", short)])
    table.row("each write failed")
    for word in INPUTS:
        whole = whole_output(word)
        cases = [(word, 1, nth, errno.EIO) for nth in range(1, len(whole) + 1)]
        cases += [(word, short, nth, error) for short in (7, 100000) for error in (0, errno.EIO, errno.ENOSPC, errno.EPIPE, errno.EINTR)
                  for nth in range(1, len(writes_of(word, short)) + 1)]
        table.try_all(f"`{word}`: each write failed", failing_write, cases)
    texts: list[tuple[str, ...]] = [("--help",), ("--version",), ("check", "--help"), ("run", "--help"), ("feed", "--help"), (*FEED, path_of("office.jsonl"))]
    table.try_all("help, the version and the report of `feed`: writes failed", failing_report,
                  [(words, short, nth, error) for words in texts for short in (1, 50) for error in (0, errno.EIO)
                   for nth in range(1, len(run(list(words)).out) // short + 1, 1 if short > 1 else 9)])
    table.row("files that shrink; full disks, closed pipes, directories, missing files; named pipes in turns; each start of a thread failed")
    table.try_all("a full disk, closed pipes, directories, files that aren't there", odd_device, odd_devices())
    cases = [(word, short, nth, length) for word in ("check", "run", "feed") for short in (50, 500) for nth in (2, 5, 9)
             for length in range(0, len(script(INPUTS.get(word, ("office.jsonl",))[0])), 97)]
    table.try_all("a file that shrinks while it is read", shrinking, cases)
    table.try_all("`run` and `feed`: each start of a thread failed", no_thread, thread_starts())
    table.try_all("`feed` of four named pipes, three of them written in turns", fifos, range(1, 201))
    table.end()


if __name__ == "__main__":
    main()
