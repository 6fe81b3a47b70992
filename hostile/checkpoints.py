#!/usr/bin/env python3
"""Checkpoints: random histories cut at random, and the example day cut after each line, and gone on with both ways; a
checkpoint cut after every byte, with every byte replaced, and read and written where memory is refused. The model of office.py says what a checkpoint must be, and what each
line does to it."""

import functools
import json
import os
import random
import subprocess
from collections.abc import Sequence

import office
from memory import ALL, KEPT, STARTS, Refusals
from program import HERE, HOSTILE, NETWORKS, PROGRAM, ROSTER, Table, office_words, run, written

# A roster and networks.
Files = tuple[str, tuple[str, ...]]

HISTORIES = int(os.environ.get("HOSTILE_HISTORIES", 10_000))
DAY = os.path.join(HERE, "..", "examples", "day")
FILES = ROSTER, tuple(NETWORKS)
DAY_FILES = f"{DAY}/roster.csv", (f"{DAY}/network.csv", f"{DAY}/network_closed.csv")
ENTRIES = 1000
PLACES = ["DE00001", "DE00002", "DE00003", "DE00004", "CZ00001"]
CLASSES = ["Eanos", "Falns", "Habbins"]
NEXT = {"loading": "release", "unloading": "release", "ready": "departure", "empty": "departure", "journey_loaded": "arrival",
        "journey_empty": "arrival", "yard_loaded": "yard_departure", "yard_empty": "yard_departure", "arrived_loaded": "delivery",
        "arrived_empty": "delivery"}


def checkpoint_of(state: office.Office) -> str:
    """The checkpoint of an office, as docs/FILES.md says it."""
    head: office.Fields = {"type": "checkpoint", "format": 1, "network": state.network}
    if state.wagons:
        head["newest"] = office.moment_text(state.newest())
    lines = [head]
    for number, wagon in sorted(state.wagons.items()):
        row: office.Fields = {"type": "wagon", "wagon": number, "class": wagon.kind, "load": wagon.load, "status": wagon.status, "place": wagon.place}
        if wagon.status == "empty":
            row["ready"] = office.moment_text(wagon.ready)
        row |= {"last": office.moment_text(wagon.last), "held": wagon.held}
        lines.append(row | ({"promise": wagon.promise} if wagon.promise else {}))
    for order in state.orders.values():
        if order.is_open():
            fields = order.fields | {"latest": office.moment_text(order.fields["latest"])}
            lines.append({"type": "order"} | {name: fields[name] for name in ("order", "place", "classes", "load", "latest", "penalty", "wagons")}
                         | {"promised": sorted(order.promised), "filled": order.filled})
    lines.append({"type": "end", "lines": len(lines)})
    return "".join(json.dumps(line, separators=(",", ":")) + "\n" for line in lines)


@functools.cache
def distances(networks: tuple[str, ...]) -> list[office.Distances]:
    return [office.distances(path) for path in networks]


def new_office(files: Files) -> office.Office:
    roster, networks = files
    return office.Office(office.read_rows(roster), distances(networks), ENTRIES, KEPT)


def words_of(word: str, files: Files) -> list[str]:
    roster, networks = files
    return office_words(word, ENTRIES, KEPT, roster=roster, networks=networks)


def fields_of(line: str) -> office.Fields:
    """The members of a line; none where it is no object."""
    try:
        fields = json.loads(line)
    except ValueError:
        return {}
    return fields if isinstance(fields, dict) else {}


def do(state: office.Office, line: str) -> None:
    """What a line does to the model's office. A plan line begins."""
    fields = fields_of(line)
    try:
        if fields.get("type") == "plan":
            state.begin({"at": office.moment_of(fields["at"])})
        else:
            state.do(*office.read_command(line.encode()))
    except office.Refused:
        pass


class History:
    """The lines of a run that is under way, its replies, and the model's office after them."""

    def __init__(self, files: Files, seed: int = 0) -> None:
        self.random, self.files = random.Random(seed), files
        self.state, self.now = new_office(files), 1_772_409_600
        self.lines: list[str] = []
        self.replies: list[list[str]] = []
        self.number = 0
        self.program = subprocess.Popen([PROGRAM, *words_of("run", files)], stdin=subprocess.PIPE, stdout=subprocess.PIPE)

    def send(self, fields: office.Fields) -> office.Fields:
        return self.send_line(json.dumps(fields))

    def send_line(self, line: str) -> office.Fields:
        """Sends a line, and keeps its reply; the members of the certificate where it is a plan."""
        assert self.program.stdin
        self.lines.append(line)
        self.program.stdin.write(line.encode() + b"\n")
        self.program.stdin.flush()
        reply = [self.read()]
        word = reply[0].split()[1]
        while word == "plan" and not reply[-1].startswith("{") or word == "sheet" and not reply[-1].startswith("network"):
            reply.append(self.read())
        self.replies.append(reply)
        do(self.state, line)
        return fields_of(reply[-1]) if word == "plan" else {}

    def read(self) -> str:
        assert self.program.stdout
        return self.program.stdout.readline().decode().rstrip("\n")

    def message(self, kind: str, wagon: office.Wagon, **more: object) -> office.Fields:
        self.number += 1
        self.now += self.random.choice([0, 60, 600])
        at = self.now - self.random.choice([0, 0, 0, 0, 90_000])
        place = wagon.place if self.random.random() < 0.7 else self.random.choice(PLACES)
        if kind == "delivery" and wagon.promise and self.random.random() < 0.8:
            place = self.state.orders[wagon.promise].fields["place"]
        return {"type": kind, "company": "0080", "number": self.number, "wagon": wagon.number, "place": place, "moment": office.moment_text(at)} | more

    def step(self) -> None:
        """One line, or a plan and its commit."""
        pick, state = self.random, self.state
        what = pick.choices(["move", "hold", "order", "withdraw", "plan", "network", "sheet", "again"], [50, 8, 14, 4, 16, 2, 3, 3])[0]
        wagon = pick.choice(list(state.wagons.values()))
        if what == "move":
            self.send(self.message(NEXT[wagon.status] if pick.random() < 0.9 else pick.choice(office.KINDS[:4]), wagon))
        elif what == "hold":
            self.send(self.message("exception", wagon, hold=pick.random() < 0.5))
        elif what == "order":
            self.send({"type": "order", "order": f"O{pick.randrange(12)}", "place": pick.choice(PLACES), "classes": pick.sample(CLASSES, pick.randint(1, 3)),
                       "load": pick.choice([0, 50_000, 56_000]), "latest": office.moment_text(self.now + 60 * pick.randint(60, 900)),
                       "penalty": pick.choice([0, 90, 1000]), "wagons": pick.randint(1, 3)})
        elif what == "withdraw":
            self.send({"type": "withdraw", "order": f"O{pick.randrange(12)}"})
        elif what == "plan":
            commit = self.send({"type": "plan", "at": office.moment_text(self.now)})
            self.send(commit)
        elif what == "network":
            self.send({"type": "network", "revision": pick.randint(1, 3)})
        elif what == "sheet":
            self.send({"type": "sheet"})
        elif self.lines:
            line = pick.choice(self.lines)
            self.send_line(line if fields_of(line)["type"] not in ("plan", "commit") else '{"type":"sheet"}')

    def close(self) -> None:
        assert self.program.stdin and self.program.stdout
        self.program.stdin.close()
        self.program.stdout.read()
        self.program.wait()


def names_before(fields: office.Fields, state: office.Office, begun: set[tuple[int, str]]) -> bool:
    """Whether a line speaks of what a checkpoint doesn't have: a message of before, a problem that wasn't begun since, an order
    that was closed."""
    kind = fields.get("type")
    if kind in office.KINDS:
        return (fields.get("company"), fields.get("number")) in state.messages
    if kind == "commit":
        return (fields["version"], fields["at"]) not in begun
    order = state.orders.get(fields.get("order", "")) if kind in ("order", "withdraw") else None
    return order is not None and not order.is_open()


def shifted(reply: Sequence[str], lines: int, entries: int, closed: set[str]) -> list[str]:
    """The reply of the undivided run, as the run from the checkpoint gives it."""
    first = reply[0].split(" ")
    rest = [line for line in reply[1:] if not (line.startswith("order ") and line.split(" ")[1] in closed)]
    first[0] = str(int(first[0]) - lines)
    if first[1] in ("accepted", "repeated", "begun", "plan", "sheet"):
        first[2] = str(int(first[2]) - entries)
    if first[1] == "plan":
        rest[-1] = json.dumps(json.loads(rest[-1]) | {"version": int(first[2])}, separators=(",", ":"))
    return [" ".join(first), *rest]


def cuts_of(history: History) -> list[int]:
    """Behind how many lines a history may be cut: not between a plan and its commit."""
    kinds = [fields_of(line).get("type") for line in history.lines]
    return [k for k in range(len(kinds) + 1) if not (0 < k < len(kinds) and kinds[k - 1] == "plan" and kinds[k] == "commit")]


def divided(seed: int) -> str | None:
    """A random history, cut at random."""
    history = History(FILES, seed)
    for _ in range(history.random.randint(5, 60)):
        history.step()
    history.close()
    return cut_at(history, history.random.choice(cuts_of(history)))


def day_history() -> History:
    """The example day, whole."""
    history = History(DAY_FILES)
    with open(f"{DAY}/day.jsonl", encoding="utf-8") as file:
        for line in file.read().splitlines():
            history.send_line(line)
    history.close()
    return history


def day_cut(cut: int) -> str | None:
    """The example day, cut behind a line."""
    history = day_history()
    return cut_at(history, cut) if cut in cuts_of(history) else None


def cut_at(history: History, cut: int) -> str | None:
    """What differs where a history is cut behind so many lines, saved and gone on with."""
    before = new_office(history.files)
    for line in history.lines[:cut]:
        do(before, line)
    given = "".join(line + "\n" for line in history.lines).encode()
    words = words_of("save", history.files)
    saved = run(words + ["--upto", str(cut)], given) if cut else run(words, b"")
    if saved.out.decode() != checkpoint_of(before):
        return f"saved {saved.out!r} {saved.err!r} where {checkpoint_of(before)!r} is right"
    return gone_on(history, cut, before, saved.out)


def from_words(word: str, path: str, files: Files = FILES) -> list[str]:
    words = [word, "--from", path, "--entries", str(ENTRIES), "--kept", str(KEPT), "--workers", "1"]
    for network in files[1]:
        words += ["--network", network]
    return words


def gone_on(history: History, cut: int, before: office.Office, checkpoint: bytes) -> str | None:
    """What differs between the rest of a history and the run from a checkpoint."""
    closed = {name for name, order in before.orders.items() if not order.is_open()}
    lines: list[str] = []
    wanted: list[str] = []
    begun: set[tuple[int, str]] = set()
    for line, reply in zip(history.lines[cut:], history.replies[cut:]):
        fields = fields_of(line)
        if reply[0].split()[1] in ("begun", "plan"):
            begun.add((int(reply[0].split()[2]), fields["at"]))
        if names_before(fields, before, begun):
            lines.append("")
            continue
        if fields.get("type") == "commit":
            line = json.dumps(fields | {"version": fields["version"] - before.length})
        lines.append(line)
        wanted += shifted(reply, cut, before.length, closed)
    with written(checkpoint) as path:
        given = "".join(line + "\n" for line in lines).encode()
        went = run(from_words("run", path, history.files), given)
        again = run(from_words("save", path, history.files))
        last = run(from_words("save", path, history.files), given)
    if went.out.decode().splitlines() != wanted:
        return f"cut at {cut}: {went.out!r} {went.err!r} where {wanted!r} is right"
    if again.out != checkpoint:
        return f"saved again: {again.out!r}"
    return None if last.out.decode() == checkpoint_of(history.state) else f"saved at the end: {last.out!r}"


# One checkpoint, cut and with its bytes replaced.

FAULTS = {51, 52, 53, 75, 79, 85, 86, 87, 88}


def sample() -> bytes:
    """A checkpoint with holds, promises, a filled wagon and an order with room."""
    history = History(FILES)
    while not (any(order.promised and order.filled for order in history.state.orders.values() if order.is_open())
               and any(wagon.held for wagon in history.state.wagons.values())):
        history.step()
    history.close()
    return checkpoint_of(history.state).encode()


def read_from(text: bytes) -> tuple[str | None, bytes | None]:
    """A text as a checkpoint: refused with a code and a line of its own, or an office that is saved as itself."""
    with written(text) as path:
        outcome = run(from_words("save", path))
    if outcome.fault():
        return outcome.fault(), None
    if outcome.status == 2:
        words = outcome.err.decode().split()
        is_fault = len(words) == 3 and words[0] == "wagons:" and int(words[1]) in FAULTS and 1 <= int(words[2]) <= text.count(b"\n") + 2
        return (None if is_fault and not outcome.out else f"{outcome.err!r}"), None
    return None, outcome.out


def cut_after(case: tuple[bytes, int]) -> str | None:
    text, length = case
    fault, out = read_from(text[:length])
    if length >= len(text) - 1:
        return fault or (None if out == text else f"{out!r}")
    return fault or (None if out is None else f"a checkpoint without its end is read: {out!r}")


def byte_replaced(case: tuple[bytes, int, int]) -> str | None:
    text, at, byte = case
    fault, out = read_from(text[:at] + bytes([byte]) + text[at + 1:])
    if fault or out is None:
        return fault
    # What is read is saved in one form, and that form is read as itself.
    again, same = read_from(out)
    return again or (None if same == out else f"{out!r} is saved as {same!r}")


def without_memory(case: tuple[bytes, Refusals]) -> str | None:
    """A checkpoint read and saved again, or `wagons: 1` and nothing else."""
    text, refusals = case
    with written(text) as path:
        outcome = run(from_words("save", path), b"", **refusals)
    if outcome.fault():
        return outcome.fault()
    if outcome.status == 2:
        return None if outcome.err in STARTS and not outcome.out else f"{outcome.err!r} and {outcome.out!r}"
    return None if outcome.status == 0 and outcome.out == text else f"status {outcome.status} and {outcome.out!r}"


def requests(text: bytes) -> int:
    """How many requests for memory there are where none is refused."""
    with written(text) as path:
        return run(from_words("save", path), b"", refuse_from=ALL).counts[0]


def main() -> None:
    table = Table()
    table.row("histories cut, saved, and gone on with both ways")
    table.try_all("histories cut at random, saved, and gone on with both ways", divided, range(HISTORIES))
    table.try_all("the example day cut after each line, and gone on with both ways", day_cut, range(42))
    text = sample()
    table.row("a checkpoint cut after every byte, and every byte replaced")
    table.try_all("a checkpoint cut after every byte", cut_after, [(text, length) for length in range(len(text) + 1)])
    table.try_all("every byte of a checkpoint replaced by each of 20 bytes", byte_replaced,
                  [(text, at, byte) for at in range(len(text)) for byte in HOSTILE if text[at] != byte])
    most = requests(text) + 5
    table.row("`save`: requests for memory refused")
    for which, count in ("one request for memory", 1), ("all requests from one on", ALL):
        table.try_all(f"`save` of a checkpoint: {which} refused", without_memory, [(text, {"refuse_from": n, "refuse_count": count}) for n in range(1, most)])
    table.end()


if __name__ == "__main__":
    main()
