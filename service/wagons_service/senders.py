"""Who may send what: tokens and roles.

What a line says of its sender is never trusted: the token says whose messages it may send.
"""

import hashlib
import hmac
import ipaddress
import json
import logging
import math
import os
import re
from collections.abc import Iterable, Mapping, Sequence
from dataclasses import dataclass, replace
from datetime import UTC, datetime
from enum import Enum
from typing import Any

from .moments import seconds_of

log = logging.getLogger("wagons-service")

MESSAGES = frozenset(
    ["release", "departure", "yard_arrival", "yard_departure", "exception", "arrival", "delivery"])
COMPANY = re.compile("[0-9A-Z]{4}")
NAME = re.compile("[A-Za-z0-9._-]{1,64}")
# What the office doesn't read of a wagon's number.
NOT_READ = str.maketrans("", "", " -")
LEAST_TOKEN = 16
# So many bytes of a line stand in a sentence about it.
MOST_SAID = 300


class Role(Enum):
    RAILWAY = "railway"
    DISPATCHER = "dispatcher"
    READER = "reader"


class Forbidden(Exception):
    """The sender may not do this; the text says why."""


class NoLine(Exception):
    """A line can't be judged; the text says why."""


class Ahead(Exception):
    """A line names a moment that is too far past the service's clock; the text says which line."""


class BadTokens(Exception):
    """A file of tokens that can't be used; the text says why, and has no token."""


@dataclass(frozen=True, slots=True)
class Sender:
    role: Role
    company: str | None = None
    # Who it is, for those who look later; and until when the token is good.
    name: str = ""
    until: datetime | None = None
    # Which token it is: a part of the token's digest, from which nobody finds the token. Empty where none is needed.
    key: str = ""

    @property
    def has_expired(self) -> bool:
        return self.until is not None and datetime.now(UTC) >= self.until

    @property
    def may_look(self) -> bool:
        """Whether all lines and the whole office may be seen."""
        return self.role is not Role.RAILWAY

    def judge_notes(self) -> None:
        """Raises `Forbidden` where the sender may not see notes."""
        if not self.may_look:
            raise Forbidden("A railway's token doesn't see notes; what changes for its wagons is told at /events.")

    def judge_role(self) -> None:
        """Raises `Forbidden` where the sender may send nothing at all."""
        if self.role is Role.READER:
            raise Forbidden("A reader's token sends no lines.")

    def judge(self, lines: Sequence[bytes], before: int = 0, latest: float = math.inf) -> None:
        """Raises `Forbidden`, `NoLine` or `Ahead` for the first line that the sender may not send; so many stand before these.

        A wagon whose last message is of a moment far ahead refuses all true ones, so no railway names a later one than `latest`.
        """
        self.judge_role()
        if self.role is Role.RAILWAY:
            for number, line in enumerate(lines, before + 1):
                moment = seconds_of(self._judge_message(number, line).get("moment"))
                if moment is not None and moment > latest:
                    text = line[:MOST_SAID].decode("utf-8", "replace")
                    raise Ahead(f"Line {number} of the request names a moment that is too far past this service's clock: {text}")

    def _judge_message(self, number: int, line: bytes) -> Mapping[str, Any]:
        """The members of a line that the sender may send."""
        try:
            fields = read(line)
        except ValueError:
            raise NoLine(f"Line {number} of the request isn't JSON, so nobody can say whose it is.") from None
        kind = fields.get("type") if isinstance(fields, dict) else None
        if not isinstance(kind, str) or kind not in MESSAGES:
            raise Forbidden(f"Line {number} of the request isn't a movement message; a railway's token sends no other line.")
        if fields.get("company") != self.company:
            raise Forbidden(f"Line {number} of the request isn't a message of company {self.company}, which the token is for.")
        members: Mapping[str, Any] = fields
        return members

    def may_see(self, line: bytes) -> bool:
        """Whether the sender may see a line of the journal and its reply."""
        return self.may_look or company_of(line) == self.company


# Without tokens only this machine is listened to, and whoever is on it may do all.
ANYONE = Sender(Role.DISPATCHER, name="anyone")


def no_constant(_text: str) -> None:
    raise ValueError("NaN and Infinity are no JSON")


DECODER = json.JSONDecoder(parse_constant=no_constant, parse_int=str, parse_float=str)


def read(line: bytes) -> Any:
    """A line's JSON value, with its numbers as they are written; of a member given twice the last counts, as in the office."""
    try:
        return DECODER.decode(line.decode("utf-8"))
    except RecursionError:
        raise ValueError("nested too deep") from None


def company_of(line: bytes) -> str | None:
    """Whose message a line is; of no company where it is none."""
    message = message_of(line)
    return message[0] if message else None


def message_of(line: bytes) -> tuple[str, str] | None:
    """Whose message a line is and of which wagon, whose number may have no digits where it isn't accepted."""
    try:
        fields = read(line)
    except ValueError:
        return None
    kind = fields.get("type") if isinstance(fields, dict) else None
    company = fields.get("company") if isinstance(kind, str) and kind in MESSAGES else None
    if not isinstance(company, str) or not COMPANY.fullmatch(company):
        return None
    wagon = fields.get("wagon")
    return company, wagon.translate(NOT_READ) if isinstance(wagon, str) else ""


class Tokens:
    """The tokens of a file, each known by its digest alone, so that comparing takes the same time for every text."""

    def __init__(self, senders: Mapping[bytes, Sender]) -> None:
        self._senders = senders

    @classmethod
    def read(cls, path: str) -> "Tokens":
        """Reads lines `TOKEN ROLE [COMPANY] [name=..] [until=..]`; blank lines and those that begin with # are skipped."""
        try:
            with open(path, encoding="utf-8") as file:
                lines = file.read().split("\n")
                if os.fstat(file.fileno()).st_mode & 0o007:
                    log.warning("whoever is on this machine can read %s; take the right from others (chmod o=)", path)
        except (OSError, UnicodeDecodeError) as fault:
            raise BadTokens(f"the tokens couldn't be read: {fault}") from None
        senders: dict[bytes, Sender] = {}
        for number, line in enumerate(lines, 1):
            words = line.split()
            if words and not words[0].startswith("#"):
                digest = digest_of(words[0])
                if digest in senders:
                    raise BadTokens(f"{path}: line {number} has a token that stands there already")
                senders[digest] = replace(sender_of(words, f"{path}: line {number}"), key=digest.hex()[:16])
        return cls(senders)

    def __len__(self) -> int:
        return len(self._senders)

    @property
    def senders(self) -> Iterable[Sender]:
        return self._senders.values()

    def has(self, sender: Sender) -> bool:
        """Whether a token is still known, with the same role, and hasn't expired."""
        return sender in self._senders.values() and not sender.has_expired

    def named(self, name: str, company: str) -> Sender | None:
        """One of those who have a name, and who may send messages of a company."""
        return next((it for it in self._senders.values() if it.name == name and it.role is not Role.READER and it.company in (None, company)
                     and not it.has_expired), None)

    def find(self, token: str) -> Sender | None:
        """Whose token it is; nobody's where it has expired."""
        found = self._find(token)
        return None if found is None or found.has_expired else found

    def has_expired(self, token: str) -> bool:
        found = self._find(token)
        return found is not None and found.has_expired

    def _find(self, token: str) -> Sender | None:
        """All are compared, each in constant time."""
        digest, found = digest_of(token), None
        for known, sender in self._senders.items():
            if hmac.compare_digest(known, digest):
                found = sender
        return found


def digest_of(token: str) -> bytes:
    return hashlib.sha256(token.encode("utf-8", "surrogateescape")).digest()


def sender_of(words: Sequence[str], where: str) -> Sender:
    token, *rest = words
    if len(token) < LEAST_TOKEN:
        raise BadTokens(f"{where} has a token of under {LEAST_TOKEN} characters")
    more = [word for word in rest if "=" in word]
    match [word for word in rest if "=" not in word]:
        case ["railway", company] if COMPANY.fullmatch(company):
            return named(Sender(Role.RAILWAY, company, f"railway-{company}"), more, where)
        case ["railway", *_]:
            raise BadTokens(f"{where}: behind `railway` stands one company of four characters 0-9, A-Z")
        case ["dispatcher" | "reader" as role]:
            return named(Sender(Role(role), name=role), more, where)
    raise BadTokens(f"{where} must be TOKEN dispatcher, TOKEN reader or TOKEN railway COMPANY")


def named(sender: Sender, words: Sequence[str], where: str) -> Sender:
    """The sender with its name and its expiry, where they are given."""
    given = dict(word.split("=", 1) for word in words)
    if len(given) < len(words) or given.keys() - {"name", "until"}:
        raise BadTokens(f"{where}: only `name=` and `until=` may stand at the end, each once")
    name = given.get("name", sender.name)
    if not NAME.fullmatch(name):
        raise BadTokens(f"{where}: a name has 1 to 64 letters, digits, dots, hyphens and underlines")
    try:
        until = datetime.fromisoformat(given["until"]) if "until" in given else None
        if until and until.tzinfo is None:
            raise ValueError
    except ValueError:
        raise BadTokens(f"{where}: behind `until=` stands a moment with Z or an offset, as 2027-01-31T00:00:00Z") from None
    return replace(sender, name=name, until=until)


def is_loopback(host: str) -> bool:
    """Whether only this machine is reached, or reaches, by this name."""
    try:
        return host == "localhost" or ipaddress.ip_address(host).is_loopback
    except ValueError:
        return False
