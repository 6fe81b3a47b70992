"""How much each token may use, how far a journal is filled, and how long the service waits."""

import argparse
from dataclasses import dataclass, field, fields

# As `wagons run` has it.
DEFAULT_ENTRIES = 100_000


@dataclass(frozen=True, slots=True)
class Share:
    """What one token may use: of lines and bytes each second, of identifiers in all, and of the others at once."""

    lines: int = 5_000
    bytes: int = 2_000_000
    requests: int = 64
    listeners: int = 50
    replies: int = 8
    identifiers: int = 200_000

    @classmethod
    def read(cls, text: str) -> "Share":
        """`NAME=N,NAME=N..`; what isn't named stays as it is."""
        names = [name.name for name in fields(cls)]
        values = {}
        for part in text.split(","):
            name, _, value = part.partition("=")
            if name not in names or not (value.isascii() and value.isdigit() and 0 < int(value) < 10**12):
                raise argparse.ArgumentTypeError(f"{part!r} is no NAME=N, where NAME is one of {', '.join(names)} and N from 1 on")
            values[name] = int(value)
        return cls(**values)


@dataclass(frozen=True, slots=True)
class Limits:
    entries: int = DEFAULT_ENTRIES
    # In per cent; 0 where no new journal begins by itself.
    next_at: int = 80
    answer_within: float = 30.0
    ahead: float = 24.0
    # In minutes; 0 where nothing is kept aside.
    retry: float = 0.0
    patience: float = 30.0
    share: Share = field(default_factory=Share)

    @classmethod
    def of(cls, given: argparse.Namespace) -> "Limits":
        return cls(given.entries or DEFAULT_ENTRIES, given.next_at, given.answer_within, given.ahead, given.retry, given.patience, given.share)


def add_arguments(parser: argparse.ArgumentParser) -> None:
    defaults = Limits()
    parser.add_argument("--next-at", metavar="PERCENT", type=percent, default=defaults.next_at,
                        help="a new journal begins by itself when so much of its lines or its book is used; 80 where nothing is said, 0 for never")
    parser.add_argument("--answer-within", metavar="SECONDS", type=positive, default=defaults.answer_within,
                        help="a program that gives no reply for so long is killed and started again; 30 where nothing is said")
    parser.add_argument("--ahead", metavar="HOURS", type=positive, default=defaults.ahead,
                        help="how far past this machine's clock the moment of a railway's message may be; 24 where nothing is said")
    parser.add_argument("--retry", metavar="MINUTES", type=positive, default=defaults.retry,
                        help="a message that came before the one that it follows is kept aside for so long, and offered again; not at all where nothing is said")
    parser.add_argument("--share", metavar="NAME=N,..", type=Share.read, default=defaults.share,
                        help="what each token may use: " + ",".join(f"{name.name}={getattr(defaults.share, name.name)}" for name in fields(Share)))
    parser.add_argument("--patience", metavar="SECONDS", type=positive, default=defaults.patience,
                        help="who sends no whole head for so long, or stops reading, is cut off; 30 where nothing is said")


def percent(text: str) -> int:
    if not (text.isascii() and text.isdigit() and int(text) <= 100):
        raise argparse.ArgumentTypeError(f"{text!r} is no number from 0 to 100")
    return int(text)


def positive(text: str) -> float:
    try:
        value = float(text)
    except ValueError:
        value = 0.0
    if not 0 < value < 1e9:
        raise argparse.ArgumentTypeError(f"{text!r} is no number above 0")
    return value
