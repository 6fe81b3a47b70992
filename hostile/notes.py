#!/usr/bin/env python3
"""Notes: of random journals, whole and from a checkpoint, and of the example day `review` and `review --json` print the notes of
docs/REPORTS.md, byte for byte, as the model of office.py says them by the office before and after each line. `run --notes`
answers as `run` does, and writes the notes of `review --json`; so does `feed --notes` of one file, with the file's number. Those of
several files make and end the promises of the sheet. Where memory is refused for a line, the notes say so; those of a feed end there,
and it says 94."""

import copy
import functools
import itertools
import json
import os
import re
import tempfile
from collections.abc import Callable, Sequence
from typing import NamedTuple

import judge
import memory
import office
from checkpoints import DAY, DAY_FILES, FILES, NEXT, Files, History, checkpoint_of, cuts_of, do, fields_of, from_words, new_office, words_of
from checkpoints import PLACES as KNOWN_PLACES
from desk import UNKNOWN
from program import Outcome, Table, office_words, run, script, written

JOURNALS = int(os.environ.get("HOSTILE_NOTES", 1_000))
# What the program has: notes on orders that become overdue, and the option `--notes` of `run`.
HAS_OVERDUE = True
HAS_RUN_NOTES = True
# A note's members, but for the first one, the line's number.
Note = dict[str, object]
DAY_SECONDS = 86_400
LINE_FEED, BYTE_ORDER_MARK = b"\n", b"\xef\xbb\xbf"
PLACES = [*KNOWN_PLACES * 2, "XX99999"]
CLASSES = ["Eanos", "Falns", "Habbins", "Eanosx"]


# The notes, by the office before and after a line.


def note(kind: str, **members: object) -> Note:
    return {"note": kind, **members}


def order_notes(state: office.Office, fields: office.Fields) -> list[Note]:
    """The notes of an order that fits no network, wagon or time."""
    name, notes = fields["order"], list[Note]()
    listed = [wagon for wagon in state.wagons.values() if wagon.kind in fields["classes"]]
    if all(fields["place"] not in network for network in state.networks):
        notes.append(note("place", order=name, place=fields["place"]))
    if not listed:
        notes.append(note("class", order=name))
    elif all(wagon.load < fields["load"] for wagon in listed):
        notes.append(note("load", order=name, load=fields["load"]))
    if fields["latest"] < state.newest():
        notes.append(note("past", order=name, latest=office.moment_text(fields["latest"])))
    return notes


class Heard:
    """The line, wagon and moment of each message, no matter how it was answered."""

    def __init__(self) -> None:
        self.messages: list[tuple[int, str, int]] = []

    def ahead(self, line: int, fields: office.Fields) -> list[Note]:
        """The note of a message where the one before is a day or more ahead of it, and of the one before that."""
        self.messages.append((line, fields["wagon"], fields["moment"]))
        if len(self.messages) < 3:
            return []
        (_, _, first), (of, wagon, moment), (_, _, last) = self.messages[-3:]
        if moment - max(first, last) < DAY_SECONDS:
            return []
        return [note("ahead", of=of, wagon=wagon, moment=office.moment_text(moment))]


class Missed(NamedTuple):
    """A line for whose notes memory was refused, and what of it was done all the same."""

    line: int
    is_done: bool
    is_heard: bool
    is_counted: bool


class Notes:
    """What a person should hear of, line by line, as `review --json` prints it."""

    def __init__(self, state: office.Office) -> None:
        self.state, self.heard = state, Heard()
        # Of each wagon the moments of the messages that were refused since its last accepted one.
        self.refusals: dict[str, list[int]] = {}

    def of(self, given: bytes, missed: Missed | None = None) -> str:
        rows: list[Note] = []
        for line, text in judge.lines_of(given):
            command = judge.read(text)
            if missed and line == missed.line:
                self.miss(missed, command)
                rows.append({"line": line, **note("memory")})
            elif isinstance(command, tuple):
                rows += [{"line": line, **found} for found in self.of_command(line, *command)]
        return "".join(json.dumps(row, separators=(",", ":")) + "\n" for row in rows)

    def miss(self, missed: Missed, command: judge.Command) -> None:
        """A line for whose notes memory was refused: how much of it was done."""
        heard, refusals = list(self.heard.messages), copy.deepcopy(self.refusals)
        if missed.is_done and isinstance(command, tuple):
            self.of_command(missed.line, *command)
        if not missed.is_heard:
            self.heard.messages = heard
        elif not missed.is_done and isinstance(command, tuple) and command[0] in office.KINDS:
            self.heard.ahead(missed.line, command[1])
        if not missed.is_counted:
            self.refusals = refusals

    def of_command(self, line: int, kind: str, fields: office.Fields) -> list[Note]:
        if kind in office.KINDS:
            return self.of_message(kind, fields) + self.heard.ahead(line, fields)
        makers = {"order": self.of_order, "withdraw": self.of_withdrawal, "commit": self.of_commit}
        try:
            if kind in makers:
                return makers[kind](fields)
            self.state.do("begin" if kind == "plan" else kind, fields)
        except office.Refused:
            pass
        return []

    def of_order(self, fields: office.Fields) -> list[Note]:
        self.state.place(fields)
        return order_notes(self.state, fields)

    def of_commit(self, fields: office.Fields) -> list[Note]:
        lacking = [order for order in self.state.orders.values() if order.lack()]
        self.state.commit(fields)
        promised = [note("promised", wagon=wagon, order=order) for wagon, order in fields["pairs"]]
        return promised + [note("complete", order=order.name) for order in lacking if not order.lack()]

    def of_withdrawal(self, fields: office.Fields) -> list[Note]:
        order = self.state.orders.get(fields["order"])
        promised = sorted(order.promised) if order else []
        self.state.withdraw(fields)
        return [note("ended", wagon=wagon, order=fields["order"], why="withdrawn") for wagon in promised]

    def of_message(self, kind: str, fields: office.Fields) -> list[Note]:
        """The notes of a message, but for `ahead`."""
        wagon, newest = self.state.wagons.get(fields["wagon"]), self.state.newest()
        promise = wagon.promise if wagon else None
        in_time = [order for order in self.state.orders.values() if order.is_open() and not order.is_overdue(newest)]
        try:
            reply = self.state.message(kind, fields)
        except office.Refused as fault:
            return self.refused(wagon, fault, fields["moment"])
        if wagon is None or not reply.startswith("accepted"):
            return []
        self.refusals.pop(wagon.number, None)
        notes = self.promise_ended(wagon, self.state.orders[promise], kind, fields) if promise and not wagon.promise else []
        return notes + [
            note("overdue", order=order.name, latest=office.moment_text(order.fields["latest"]), missing=order.lack(), promised=len(order.promised))
            for order in in_time if HAS_OVERDUE and order.is_overdue(self.state.newest())]

    def refused(self, wagon: office.Wagon | None, fault: office.Refused, moment: int) -> list[Note]:
        if wagon is None or fault.args[0] not in (31, 32, 33):
            return []
        refusals = self.refusals.setdefault(wagon.number, [])
        refusals.append(moment)
        return [note("refused", number=fault.args[0], wagon=wagon.number, status=wagon.status, place=wagon.place,
                     last=office.moment_text(wagon.last), times=len(refusals), since=office.moment_text(refusals[0]))]

    def promise_ended(self, wagon: office.Wagon, order: office.Order, kind: str, fields: office.Fields) -> list[Note]:
        """A message has ended a promise: the wagon fills the order, or the order lacks it again."""
        if wagon.status == "loading":
            notes = [note("delivered", wagon=wagon.number, order=order.name)]
            if order.state() == "filled":
                late = max(0, fields["moment"] - order.fields["latest"])
                notes.append(note("filled", order=order.name, late=-(-late // 60)))
            return notes
        why = "held" if kind == "exception" else "elsewhere"
        return [note("ended", wagon=wagon.number, order=order.name, why=why), note("short", order=order.name, missing=order.lack())]


class Silence:
    """What passes in silence, line by line, as `review` prints it."""

    def __init__(self, state: office.Office) -> None:
        self.state, self.heard, self.is_nearly_full = state, Heard(), False

    def of(self, given: bytes) -> str:
        rows: list[str] = []
        for line, text in judge.lines_of(given):
            command = judge.read(text)
            told = self.of_command(line, text, *command) if isinstance(command, tuple) else self.of_broken(line, text, command)
            rows += [f"{line} {row}" for row in [*told, *self.entries()]]
        if given and not given.endswith(b"\n"):
            rows.append(f"{len(given.split(LINE_FEED))} unended")
        return "".join(f"{row}\n" for row in rows)

    def of_command(self, line: int, text: bytes, kind: str, fields: office.Fields) -> list[str]:
        orders = order_notes(self.state, fields) if kind == "order" else []
        ahead = self.heard.ahead(line, fields) if kind in office.KINDS else []
        known = {"type", *(name for name, *_ in office.FIELDS[kind])}
        strange = sorted((name for name in office.read_object(text) if name not in known), key=str.encode)
        try:
            self.state.do("begin" if kind == "plan" else kind, fields)
        except office.Refused:
            pass
        rows = [" ".join(map(str, [*found.values(), *(fields["classes"] if found["note"] == "class" else [])])) for found in orders]
        return rows + [f'member "{shown(name)}"' for name in strange] + [" ".join(map(str, found.values())) for found in ahead]

    def of_broken(self, line: int, text: bytes, fault: office.Refused | office.Doubt) -> list[str]:
        if str(fault) != "21":
            return []
        outside = re.sub(rb'"(?:[^"\\]|\\.)*(?:"|$)', b"", text, flags=re.S)
        opened = sum(outside.count(byte) for byte in (b"{", b"[")) - sum(outside.count(byte) for byte in (b"}", b"]"))
        return ["mark"] * (line == 1 and text.startswith(BYTE_ORDER_MARK)) + ["open"] * (opened > 0)

    def entries(self) -> list[str]:
        """The book has become nine tenths full."""
        if self.is_nearly_full or 10 * self.state.length < 9 * self.state.entries:
            return []
        self.is_nearly_full = True
        return [f"entries {self.state.length} {self.state.entries}"]


def shown(name: str) -> str:
    """The first 60 bytes of a name. A byte that isn't printable ASCII, a quotation mark or a backslash is a question mark."""
    return "".join(chr(byte) if 32 <= byte < 127 and byte not in b'"\\' else "?" for byte in name.encode()[:60])


# Journals with faults.

BROKEN = ["{", "[1]", "null", "7", "nonsense", '{"type":"sheet"', '{"type":"Sheet"}', '{"order":"O1"}', '{"type":"release"}',
          '{"type":"withdraw","order":"o1"}', '{"type":"order","order":"O1","place":"DE00001","classes":[]}', "\ufeff{}"]
# Members that a command doesn't have, or that are those of another one.
STRANGE = ["more", "wagons", "Type", "", "hold", 'a "b"', "na\u00efve", "\a", "x" * 70]


class Journal(History):
    """A history in which much goes wrong."""

    def __init__(self, seed: int) -> None:
        super().__init__(FILES, seed)
        self.certificates: list[office.Fields] = []
        self.messages: list[office.Fields] = []

    def step(self) -> None:
        steps: dict[Callable[[], None], int] = {
            self.move: 55, self.hold: 4, self.order: 14, self.withdrawal: 3, self.plan: 10, self.commit: 5, self.again: 4, self.leap: 3,
            self.stranger: 2, self.broken: 3, self.other: 2}
        self.random.choices(list(steps), list(steps.values()))[0]()

    def send(self, fields: office.Fields) -> office.Fields:
        return super().send(fields if self.random.random() < 0.95 else fields | {self.random.choice(STRANGE): 1})

    def tell(self, message: office.Fields) -> None:
        self.messages.append(message)
        self.send(message)

    def some_wagon(self) -> office.Wagon:
        """Any wagon; half of the time one that is promised, where there is one."""
        wagons = list(self.state.wagons.values())
        promised = [wagon for wagon in wagons if wagon.promise]
        return self.random.choice(promised if promised and self.random.random() < 0.5 else wagons)

    def moved(self) -> office.Fields:
        """A message of some wagon, mostly one that its status allows, at the place where it must be or is wanted."""
        pick, wagon = self.random, self.some_wagon()
        self.now += pick.choice([0] * 15 + [10_000])
        kind = NEXT[wagon.status] if pick.random() < 0.93 else pick.choice(office.KINDS[:4])
        place = self.state.orders[wagon.promise].fields["place"] if wagon.promise and kind in ("arrival", "delivery") else wagon.place
        at = self.now + pick.choice([0, 60, 600]) - pick.choice([0] * 12 + [60, DAY_SECONDS])
        changes = {"place": place if pick.random() < 0.88 else pick.choice(PLACES), "moment": office.moment_text(at)}
        return self.message(kind, wagon) | changes

    def move(self) -> None:
        self.tell(self.moved())

    def hold(self) -> None:
        self.tell(self.message("exception", self.some_wagon(), hold=self.random.random() < 0.7))

    def leap(self) -> None:
        """A message that is far ahead, and then one that is a day behind it, or a second less or more."""
        moment = self.now + self.random.choice([DAY_SECONDS, 100_000, 40 * DAY_SECONDS])
        ahead = self.moved() | {"moment": office.moment_text(moment)}
        self.tell(ahead if self.random.random() < 0.15 else ahead | {"wagon": UNKNOWN})
        if self.random.random() < 0.8:
            self.tell(self.moved() | {"moment": office.moment_text(moment - DAY_SECONDS + self.random.choice([-1, 0, 0, 1]))})

    def stranger(self) -> None:
        """A message of an unknown wagon, or one with the number of another."""
        if self.messages and self.random.random() < 0.5:
            self.send(self.moved() | {"number": self.random.choice(self.messages)["number"]})
        else:
            self.tell(self.moved() | {"wagon": UNKNOWN})

    def again(self) -> None:
        """A message that came already, as it was or written in another way."""
        if self.messages:
            message = self.random.choice(self.messages[-8:])
            wagon = message["wagon"]
            self.send(self.random.choice([message, {"more": [1]} | message, message | {"wagon": f"{wagon[:4]} {wagon[4:11]}-{wagon[11]}"}]))

    def order(self) -> None:
        pick = self.random
        latest = self.now + 60 * pick.choice([-600, 60, 200, 200, 400, 400, 900, 5_000]) + pick.choice([0, 0, 1, 59])
        fields = {"type": "order", "order": f"O{pick.randrange(40)}", "place": pick.choice(PLACES), "classes": pick.sample(CLASSES, pick.randint(1, 3)),
                  "load": pick.choice([0, 0, 0, 50_000, 50_000, 56_000, 60_001]), "latest": office.moment_text(latest), "penalty": pick.choice([0, 90, 1000, 1000, 1000])}
        self.send(fields | ({"wagons": pick.randint(1, 3)} if pick.random() < 0.6 else {}))

    def withdrawal(self) -> None:
        promised = [order.name for order in self.state.orders.values() if order.promised]
        names = promised if promised and self.random.random() < 0.5 else [*self.state.orders, "NONE"]
        self.send({"type": "withdraw", "order": self.random.choice(names)})

    def plan(self) -> None:
        self.certificates.append(self.send({"type": "plan", "at": office.moment_text(self.now)}))
        if self.random.random() < 0.6:
            self.send(self.certificates[-1])

    def commit(self) -> None:
        """A plan of before, as it was or with something in it changed."""
        if self.certificates:
            commit = self.random.choice(self.certificates[-3:])
            changes = [{"version": commit["version"] + 1}, {"pairs": commit["pairs"][:-1]}, {"pairs": commit["pairs"] * 2}, {"u": [*commit["u"], 0]},
                       {"at": office.moment_text(self.now + 1)}]
            self.send(commit | self.random.choice([{}, {}, self.random.choice(changes)]))

    def broken(self) -> None:
        whole = json.dumps(self.moved())
        line = self.random.choice([*BROKEN, whole[:self.random.randrange(1, len(whole))], "", " \t"])
        if line.strip():
            self.send_line(line)
            return
        # A blank line gets no reply.
        assert self.program.stdin
        self.lines.append(line)
        self.program.stdin.write(line.encode() + b"\n")

    def other(self) -> None:
        self.send(self.random.choice([{"type": "sheet"}, {"type": "network", "revision": self.random.randint(1, 3)},
                                      {"type": "begin", "at": office.moment_text(self.now)}]))


# What the program prints of them.


def wrong(options: Sequence[str], given: bytes, begin: Callable[[], office.Office]) -> str | None:
    """What is wrong with the notes on these lines, where the office that the options open is the one that `begin` makes."""
    wanted = Notes(begin()).of(given).encode()
    for words, notes in (["review", "--json"], wanted), (["review"], Silence(begin()).of(given).encode()):
        told = run([*words, *options], given)
        if told.fault() or told.err or told.status != int(bool(notes)) or told.out != notes:
            return f"{words}: {difference(told.out, notes)}, status {told.status}, {told.err!r}"
    return wrong_beside_replies(options, given, wanted) if HAS_RUN_NOTES else None


def wrong_in_a_feed(options: Sequence[str], given: bytes, begin: Callable[[], office.Office]) -> str | None:
    """What is wrong with the notes of a feed of one file. A plan line of a feed commits its plan, so each is a begin here."""
    begun = given.replace(b'"type": "plan"', b'"type": "begin"')
    wanted = Notes(begin()).of(begun).replace('{"line":', '{"file":1,"line":').encode()
    told, notes = fed(options, [begun])
    if told.fault() or told.err or told.status not in (0, 1):
        return f"feed --notes: {told.fault()}, status {told.status}, {told.err!r}"
    return None if notes == wanted else f"feed --notes: {difference(notes, wanted)}"


def fed(options: Sequence[str], files: Sequence[bytes], **refusals: int) -> tuple[Outcome, bytes]:
    """What `feed --notes` tells of these files, and the notes that it wrote."""
    with tempfile.TemporaryDirectory() as folder:
        for number, given in enumerate(files):
            with open(f"{folder}/{number}", "wb") as file:
                file.write(given)
        names = [f"{folder}/{number}" for number in range(len(files))]
        told = run(["feed", "--notes", f"{folder}/notes", *options, *names], b"", **refusals)
        if not os.path.exists(f"{folder}/notes"):
            return told, b""
        with open(f"{folder}/notes", "rb") as file:
            return told, file.read()


def promises_by(notes: bytes) -> dict[str, str] | str:
    """The order that each wagon is promised to by all these notes; or the note that can't be."""
    promised, last = dict[str, str](), dict[int, int]()
    for text in notes.splitlines():
        said = json.loads(text)
        if last.get(said["file"], 0) > said["line"]:
            return f"{text!r} stands behind a later line of its file"
        last[said["file"]] = said["line"]
        if said["note"] == "promised":
            if said["wagon"] in promised:
                return f"{text!r}, and the wagon has a promise"
            promised[said["wagon"]] = said["order"]
        elif said["note"] in ("delivered", "ended") and promised.pop(said["wagon"], None) != said["order"]:
            return f"{text!r} ends a promise that wasn't"
    return promised


def promises_of_sheet(printed: bytes) -> dict[str, str]:
    """The order that each wagon is promised to by the sheet that a feed prints."""
    wagons = [line.split() for line in printed.decode().splitlines() if line.startswith("wagon ")]
    return {fields[1]: fields[8] for fields in wagons if fields[8] != "-"}


def of_files(seed: int) -> str | None:
    """A random journal dealt to two to four files, whose notes in the order of the answers end at the promises of the sheet."""
    journal = Journal(seed)
    for _ in range(journal.random.randint(20, 150)):
        journal.step()
    journal.close()
    files = [list[str]() for _ in range(journal.random.randint(2, 4))]
    for line in journal.lines:
        journal.random.choice(files).append(line)
    told, notes = fed(office_words("review", 1_000, memory.KEPT)[1:], ["".join(f"{line}\n" for line in lines).encode() for lines in files])
    if told.fault() or told.status not in (0, 1):
        return f"feed --notes: {told.fault()}, status {told.status}, {told.err!r}"
    found, wanted = promises_by(notes), promises_of_sheet(told.out)
    return None if found == wanted else f"feed --notes: {found} where the sheet has {wanted}"


def wrong_beside_replies(options: Sequence[str], given: bytes, wanted: bytes) -> str | None:
    """What differs where `run` writes the notes to a file beside its replies; on a full disk the replies are the same."""
    plain = run(["run", *options], given)
    full = run(["run", "--notes", "/dev/full", *options], given)
    with tempfile.TemporaryDirectory() as folder:
        noted = run(["run", "--notes", f"{folder}/notes", *options], given)
        with open(f"{folder}/notes", "rb") as file:
            notes = file.read()
    if (noted.out, noted.status, noted.err) != (plain.out, plain.status, plain.err):
        return f"run --notes: {difference(noted.out, plain.out)}, status {noted.status}, {noted.err!r}"
    if full.out != plain.out:
        return f"run --notes /dev/full: {difference(full.out, plain.out)}"
    return None if notes == wanted else f"the file of run --notes: {difference(notes, wanted)}"


def difference(found: bytes, wanted: bytes) -> str:
    """The first line that differs."""
    have, right = found.splitlines(), wanted.splitlines()
    at = next((k for k, (one, other) in enumerate(zip(have, right)) if one != other), min(len(have), len(right)))
    return f"{have[at:at + 1]!r} where {right[at:at + 1]!r} is right"


def from_checkpoint(files: Files, lines: Sequence[str], cut: int) -> str | None:
    """What is wrong with the notes of the lines behind a cut, in a run from the checkpoint at the cut."""
    before = new_office(files)
    for line in lines[:cut]:
        do(before, line)
    rest = [moved_commit(line, before.length) for line in lines[cut:]]
    with written(checkpoint_of(before).encode()) as path:
        return wrong(from_words("review", path, files)[1:], "".join(f"{line}\n" for line in rest).encode(), before.resumed)


def moved_commit(line: str, entries: int) -> str:
    """A line as it stands behind a checkpoint of so many entries: a commit of a later version names the version that this one has there."""
    fields = fields_of(line)
    if fields.get("type") != "commit" or fields["version"] < entries:
        return line
    return json.dumps(fields | {"version": fields["version"] - entries})


def of_random(seed: int) -> str | None:
    """A random journal, whole and from a checkpoint within it."""
    journal = Journal(seed)
    if journal.random.random() < 0.1:
        journal.send_line("\ufeff" + journal.random.choice(BROKEN))
    for _ in range(journal.random.randint(20, 150)):
        journal.step()
    journal.close()
    end = journal.random.choice(["\n", "\n", "\r\n"])
    given = end.join([*journal.lines, ""][:len(journal.lines) + journal.random.randint(0, 1)]).encode()
    entries = journal.random.choice([1_000, journal.state.length + 1, max(1, journal.state.length - 5)])
    options = office_words("review", entries, memory.KEPT)[1:]
    whole = wrong(options, given, lambda: memory.new_office(entries)) or wrong_in_a_feed(options, given, lambda: memory.new_office(entries))
    return whole or from_checkpoint(FILES, journal.lines, journal.random.choice(cuts_of(journal)))


def day_lines() -> list[str]:
    with open(f"{DAY}/day.jsonl", encoding="utf-8") as file:
        return file.read().splitlines()


def of_the_day(cut: int) -> str | None:
    """The example day, from the checkpoint behind a line; whole behind none."""
    lines = day_lines()
    if cut:
        return from_checkpoint(DAY_FILES, lines, cut)
    return wrong(words_of("review", DAY_FILES)[1:], "".join(f"{line}\n" for line in lines).encode(), lambda: new_office(DAY_FILES))


def of_a_script(name: str) -> str | None:
    """A script in which each refusal of `run` comes, in a small book."""
    return wrong(office_words("review", memory.ENTRIES, memory.KEPT)[1:], script(name), memory.new_office)


# Where memory is refused.


@functools.cache
def outputs_of_the_day() -> set[bytes]:
    """What `review --json` may print of the example day where one request for memory is refused: the notes of all lines, or in
    place of those of one line that memory was refused for it."""
    given = "".join(f"{line}\n" for line in day_lines()).encode()
    ways = [None, *(Missed(line, *how) for line, _ in judge.lines_of(given) for how in itertools.product([False, True], repeat=3))]
    return {Notes(new_office(DAY_FILES)).of(given, missed).encode() for missed in ways}


def without_memory(refused: int) -> str | None:
    """The example day where the n-th request for memory is refused."""
    given = "".join(f"{line}\n" for line in day_lines()).encode()
    told = run([*words_of("review", DAY_FILES), "--json"], given, refuse_from=refused, refuse_count=1)
    if told.fault() or told.status == 2:
        return None if told.err in memory.STARTS and not told.out else f"{told.fault()} {told.err!r} {told.out!r}"
    return None if told.status == 1 and told.out in outputs_of_the_day() else f"no line without its notes gives {told.out!r}"


def day_of_a_feed() -> bytes:
    """The lines of the example day, which begin with a message that the status table refuses: the first request that is made for a line
    is then one for which no receipt is needed. A plan line of a feed commits its plan, so each is a begin here."""
    wagon = next(iter(new_office(DAY_FILES).wagons.values()))
    refused = {"type": "delivery", "company": "1009", "number": 1, "wagon": wagon.number, "place": wagon.place, "moment": "2026-03-02T00:00:00Z"}
    return "".join(f"{line}\n" for line in [json.dumps(refused), *day_lines()]).replace('"type":"plan"', '"type":"begin"').encode()


@functools.cache
def notes_of_the_day() -> bytes:
    return Notes(new_office(DAY_FILES)).of(day_of_a_feed()).replace('{"line":', '{"file":1,"line":').encode()


def feed_without_memory(refused: int) -> str | None:
    """A feed of the example day where the n-th request for memory is refused."""
    told, notes = fed(words_of("feed", DAY_FILES)[1:], [day_of_a_feed()], refuse_from=refused, refuse_count=1)
    wanted = notes_of_the_day()
    if told.fault() or told.err in memory.STARTS:
        return None if told.err in memory.STARTS and not told.out else f"{told.fault()} {told.err!r} {told.out!r}"
    if told.err:
        return None if told.err == b"wagons: 94\n" and wanted.startswith(notes) and told.out else f"{told.err!r} and {notes!r}"
    # Where memory was refused for the lines of the file, none was read: the report says so.
    right = b"" if told.status == 2 else wanted
    return None if notes == right else f"the notes are {difference(notes, right)}"


def main() -> None:
    table = Table()
    table.row("`review` of random journals, of the example day and of scripts, whole and from a checkpoint, as text and as JSON")
    table.try_all("`review` of random journals, whole and from a checkpoint", of_random, range(JOURNALS), 2)
    table.try_all("`review` of the example day, whole and from the checkpoint behind each line", of_the_day, range(len(day_lines())))
    table.try_all("`review` of scripts, one of them with each refusal", of_a_script, ["office.jsonl", "feed_1.jsonl", "feed_2.jsonl", "feed_3.jsonl"])
    table.row("`feed --notes` of random journals dealt to two to four files")
    table.try_all("`feed --notes` of random journals dealt to two to four files", of_files, range(JOURNALS), 2)
    table.row("`review --json` of the example day: one request for memory refused")
    with open(f"{DAY}/day.jsonl", "rb") as file:
        most = memory.requests([*words_of("review", DAY_FILES), "--json"], file.read()) + 5
    table.try_all("`review --json` of the example day: one request for memory refused", without_memory, range(1, most))
    table.row("`feed --notes` of the example day: one request for memory refused")
    whole, _ = fed(words_of("feed", DAY_FILES)[1:], [day_of_a_feed()], refuse_from=memory.ALL)
    table.try_all("`feed --notes` of the example day: one request for memory refused", feed_without_memory, range(1, whole.counts[0] + 5))
    table.end()


if __name__ == "__main__":
    main()
