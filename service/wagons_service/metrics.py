"""What is counted, as Prometheus reads it."""

import re
from bisect import bisect_left
from collections import Counter
from collections.abc import Iterator

from .program import Replies

# As a line names its company; what is counted needn't be right where it names several.
COMPANY = re.compile(rb'"company"\s*:\s*"([0-9A-Z]{4})"')
# So many pairs are told apart, since lines may name any company.
MOST_REFUSALS = 2000
# Upper bounds in seconds.
BOUNDS = (0.001, 0.002, 0.005, 0.01, 0.02, 0.05, 0.1, 0.2, 0.5, 1.0, 5.0)


class Metrics:
    def __init__(self) -> None:
        self.replies: Counter[str] = Counter()
        # By the refusal's number and the company that the line names.
        self.refusals: Counter[tuple[str, str]] = Counter()
        self.requests: Counter[int] = Counter()
        self.restarts = 0
        self.sending = 0
        self.listening = 0
        self._times = [0] * (len(BOUNDS) + 1)
        self._seconds = 0.0

    def count(self, replies: Replies) -> None:
        for kind, times in Counter(replies.kinds).items():
            self.replies[kind.decode()] += times

    def count_refusal(self, text: bytes, line: bytes) -> None:
        found = COMPANY.search(line)
        key = code_of(text), found[1].decode() if found else ""
        self.refusals[key if key in self.refusals or len(self.refusals) < MOST_REFUSALS else (key[0], "other")] += 1

    def time(self, lines: int, seconds: float) -> None:
        """So many lines had their replies so long after their request was read."""
        place = bisect_left(BOUNDS, seconds)
        self._times[place] += lines
        self._seconds += lines * seconds

    def text(self, lines: int, size: int, is_running: bool) -> str:
        """Prometheus' text; `lines` and `size` are those of the journal."""
        return "".join(f"{line}\n" for line in self._lines(lines, size, is_running))

    def _lines(self, lines: int, size: int, is_running: bool) -> Iterator[str]:
        yield from one("wagons_up", "gauge", "1 where the office takes lines", int(is_running))
        yield from one("wagons_lines_total", "counter", "lines in the journal", lines)
        yield from one("wagons_journal_bytes", "gauge", "size of the journal", size)
        yield from many("wagons_replies_total", "replies by kind", "kind", self.replies)
        yield from head("wagons_refusals_total", "counter", "refused lines by the refusal's number and the company that they name")
        for (code, company), times in sorted(self.refusals.items()):
            yield f'wagons_refusals_total{{code="{code}",company="{company}"}} {times}'
        yield from many("wagons_requests_total", "requests by status", "status", self.requests)
        yield from one("wagons_program_restarts_total", "counter", "restarts of the program", self.restarts)
        yield from one("wagons_senders", "gauge", "requests with lines that are open now", self.sending)
        yield from one("wagons_listeners", "gauge", "streams of events that are open now", self.listening)
        yield from self._histogram("wagons_line_seconds")

    def _histogram(self, name: str) -> Iterator[str]:
        yield from head(name, "histogram", "from a request that was read to the last of its replies, for each line")
        total = 0
        for bound, times in zip((*map(str, BOUNDS), "+Inf"), self._times):
            total += times
            yield f'{name}_bucket{{le="{bound}"}} {total}'
        yield f"{name}_sum {self._seconds:.6f}"
        yield f"{name}_count {total}"


def code_of(refusal: bytes) -> str:
    """The number of a refusal, behind its line's number and `refused`."""
    return refusal.split(b" ", 3)[2].decode()


def head(name: str, kind: str, what: str) -> Iterator[str]:
    yield f"# HELP {name} {what}"
    yield f"# TYPE {name} {kind}"


def one(name: str, kind: str, what: str, value: float) -> Iterator[str]:
    yield from head(name, kind, what)
    yield f"{name} {value}"


def many(name: str, what: str, label: str, values: Counter[str] | Counter[int]) -> Iterator[str]:
    yield from head(name, "counter", what)
    for key, value in sorted(values.items(), key=lambda item: str(item[0])):
        yield f'{name}{{{label}="{key}"}} {value}'
