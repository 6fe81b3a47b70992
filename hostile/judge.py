"""Holds what the program wrote against the model of office.py."""

from collections.abc import Callable, Iterable, Iterator, Sequence

import office as model
from office import Doubt, Refused

# What a line says, or why it is refused, or what the model doesn't say of it.
Command = tuple[str, model.Fields] | Refused | Doubt


class Lost(Exception):
    """The program did what it must not do."""


class Unjudged(Exception):
    """The program read what the model leaves out: nothing is said of the lines behind."""


_commands: dict[bytes, Command] = {}


def read(line: bytes) -> Command:
    """A line's command, or its refusal or doubt as a value."""
    if line not in _commands:
        if len(_commands) > 200_000:
            _commands.clear()
        try:
            _commands[line] = model.read_command(line)
        except (Refused, Doubt) as fault:
            _commands[line] = fault
    return _commands[line]


def lines_of(script: bytes) -> list[tuple[int, bytes]]:
    """Each line that isn't blank, with its number."""
    pieces = script.split(b"\n")
    if not pieces[-1]:
        pieces.pop()
    return [(number, piece) for number, piece in enumerate(pieces, 1) if piece.strip(b" \t\r")]


class Replies:
    """The lines that the program wrote, from the first one on."""

    def __init__(self, output: bytes) -> None:
        text = output.decode("ascii", "replace")
        if text and not text.endswith("\n"):
            raise Lost("the output ends within a line")
        self.lines = text.split("\n")[:-1]
        self.next = 0
        self.refused = 0
        self.without_memory: list[int] = []

    def peek(self) -> str:
        return self.lines[self.next] if self.next < len(self.lines) else "(no reply)"

    def expect(self, text: str) -> None:
        """One or several lines, as the model has them."""
        for line in text.split("\n"):
            if self.peek() != line:
                raise Lost(f"{self.peek()!r} where {line!r} is right")
            self.next += 1

    def take(self) -> str:
        self.next += 1
        return self.lines[self.next - 1]

    def expect_refusal(self, number: int, fault: object) -> None:
        self.expect(f"{number} refused {fault}")
        self.refused += 1

    def expect_end(self) -> None:
        if self.next < len(self.lines):
            raise Lost(f"{self.peek()!r} where nothing more is right")


class Run:
    """A `run` over a script. With `may_refuse` any line may be answered `refused 1`, and has then done nothing, but for a
    plan, which has begun where `begins` says so (one truth value for each such plan, in turn)."""

    def __init__(self, office: model.Office, may_refuse: bool = False, begins: Iterable[bool] = ()) -> None:
        self.office, self.may_refuse, self.begins = office, may_refuse, iter(begins)
        self.without_memory: list[int] = []
        self.plans_without_memory = 0

    def judge(self, script: bytes, output: bytes, whole: bool = True) -> Replies:
        """Whether the output is right for all lines of the script; without `whole` it may end after any line's reply."""
        replies = Replies(output)
        for number, line in lines_of(script):
            if not whole and replies.next == len(replies.lines):
                break
            self.judge_line(replies, number, read(line))
        replies.expect_end()
        return replies

    def judge_line(self, replies: Replies, number: int, command: Command) -> None:
        if self.may_refuse and replies.peek() == f"{number} refused 1":
            self.refuse_for_memory(replies, number, command)
        elif isinstance(command, Refused):
            replies.expect_refusal(number, command)
        elif isinstance(command, Doubt):
            if replies.peek() not in [f"{number} refused {code}" for code in command.codes]:
                raise Unjudged(str(command))
            replies.expect_refusal(number, replies.peek().split(" ", 2)[2])
        elif command[0] == "plan":
            self.judge_plan(replies, number, command[1])
        else:
            try:
                replies.expect(f"{number} {self.office.do(*command)}")
            except Refused as fault:
                replies.expect_refusal(number, fault)

    def refuse_for_memory(self, replies: Replies, number: int, command: Command) -> None:
        replies.expect_refusal(number, 1)
        self.without_memory.append(number)
        if isinstance(command, tuple) and command[0] == "plan":
            self.plans_without_memory += 1
            if next(self.begins, False):
                self.office.begun(command[1])

    def judge_plan(self, replies: Replies, number: int, fields: model.Fields) -> None:
        """The plan's prices must prove it, and its lines must say the same as its certificate."""
        problem, version = self.office.begun(fields), self.office.length
        table = problem.table
        start = replies.next
        while replies.next < len(replies.lines) and not replies.peek().startswith("{"):
            replies.next += 1
        if replies.next == len(replies.lines):
            raise Lost(f"{number}: a plan without a certificate")
        certificate = read(replies.take().encode())
        end = replies.next
        replies.next = start
        if not isinstance(certificate, tuple) or certificate[0] != "commit":
            raise Lost(f"{number}: the certificate is no commit")
        commit = certificate[1]
        if (commit["version"], commit["at"]) != (version, fields["at"]):
            raise Lost(f"{number}: the certificate is of another problem")
        try:
            cost = model.judge_prices(table, commit["pairs"], commit["u"], commit["v"])
        except Refused as fault:
            raise Lost(f"{number}: the certificate is refused: {fault}") from None
        replies.expect(f"{number} plan {version} {problem.size()} {cost}")
        for j, order in enumerate(table["orders"]):
            wagons = sorted(wagon for wagon, other in commit["pairs"] if other == order)
            for wagon in wagons:
                replies.expect(f"assign {wagon} {order} {table['cells'][table['wagons'].index(wagon)][j]}")
            for _ in range(table["lacks"][j] - len(wagons)):
                replies.expect(f"refuse {order} {table['penalties'][j]}")
        if replies.next != end - 1:
            raise Lost(f"{number}: {replies.peek()!r} stands in the plan")
        replies.next = end


def judge_check(script: bytes, output: bytes, may_refuse: bool = False) -> Replies:
    """Whether the output is right for all table lines of a script."""
    replies = Replies(output)
    for number, line in lines_of(script):
        if may_refuse and replies.peek() == f"{number} refused 1":
            replies.without_memory.append(number)
            replies.expect_refusal(number, 1)
            continue
        try:
            reply = checked(line)
        except Doubt as doubt:
            if replies.peek() not in [f"{number} refused {code}" for code in doubt.codes]:
                raise Unjudged(str(doubt)) from None
            reply = replies.peek().split(" ", 1)[1]
        replies.expect(f"{number} {reply}")
        replies.refused += reply.startswith("refused")
    replies.expect_end()
    return replies


_checked: dict[bytes, str | Doubt] = {}


def checked(line: bytes) -> str:
    if line not in _checked:
        if len(_checked) > 200_000:
            _checked.clear()
        try:
            _checked[line] = model.check_line(line)
        except Doubt as doubt:
            _checked[line] = doubt
    found = _checked[line]
    if isinstance(found, Doubt):
        raise found
    return found


class Fed:
    """What becomes of one file of `feed`, by the model: the counts, and the office after it. `skip` is a line that is refused
    for memory, `begins` whether it, being a plan, has begun. Where a plan line has several best plans, `picks` says which
    is taken, in turn, and else the first; `options` is how many each plan line had. Lines in doubt count as refused."""

    def __init__(self, office: model.Office, script: bytes, skip: int | None = None, begins: bool = False, picks: Sequence[int] = ()) -> None:
        self.office, self.picks, self.in_doubt = office, picks, False
        self.options: list[int] = []
        self.accepted = self.repeated = self.refused = 0
        for number, line in lines_of(script):
            command = read(line)
            if isinstance(command, tuple) and command[0] == "sheet":
                continue
            self.in_doubt = self.in_doubt or isinstance(command, Doubt)
            if number == skip or isinstance(command, (Refused, Doubt)):
                self.refused += 1
                if number == skip and begins and isinstance(command, tuple) and command[0] == "plan":
                    office.begun(command[1])
                continue
            self.count(*command)

    def count(self, kind: str, fields: model.Fields) -> None:
        try:
            if kind == "plan":
                reply = self.plan(fields)
            else:
                reply = self.office.do(kind, fields)
        except Refused:
            self.refused += 1
            return
        self.accepted += reply.startswith("accepted")
        self.repeated += reply.startswith("repeated")

    def plan(self, fields: model.Fields) -> str:
        problem = self.office.begun(fields)
        plans = model.optima(problem.table)
        pick = self.picks[len(self.options)] if len(self.options) < len(self.picks) else 0
        self.options.append(len(plans))
        self.office.has_room()
        for number, name in plans[pick]:
            self.office.wagons[number].promise = name
            self.office.orders[name].promised.add(number)
        return self.office.accept()

    def counts(self) -> str:
        return f"accepted {self.accepted} repeated {self.repeated} refused {self.refused}"

    def report(self) -> str:
        return f"file 1 {self.counts()}\n{self.office.sheet()}\n"


def all_fed(new_office: Callable[[], model.Office], script: bytes, skip: int | None = None, begins: bool = False) -> Iterator[Fed]:
    """What may become of a file: one `Fed` for each choice among best plans."""
    todo: list[tuple[int, ...]] = [()]
    while todo:
        picks = todo.pop()
        one = Fed(new_office(), script, skip, begins, picks)
        yield one
        for n in range(len(picks), len(one.options)):
            todo += [(*picks, *[0] * (n - len(picks)), pick) for pick in range(1, one.options[n])]
