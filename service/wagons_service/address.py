"""The address of a stream."""

import os
import re
from dataclasses import dataclass
from urllib.parse import unquote

ADDRESS = re.compile(r"redis(?P<tls>s?)://((?P<user>[^@/]*)@)?(?P<hosts>[^@/]+)/(?P<path>.*)")
NAME = re.compile(r"[A-Za-z0-9_.-]{1,64}")
PASSWORD = "WAGONS_REDIS_PASSWORD"


class BadAddress(Exception):
    """What should be the address of a stream is none."""


@dataclass(frozen=True, slots=True)
class Address:
    """`redis://[USER[:PASSWORD]@]HOST:PORT[,HOST:PORT..]/[INBOX/]STREAM`, or `rediss://..` with TLS."""

    hosts: tuple[tuple[str, int], ...]
    user: str
    password: str
    is_tls: bool
    inbox: str | None
    stream: str

    @classmethod
    def read(cls, text: str) -> "Address":
        found = ADDRESS.fullmatch(text)
        names = found["path"].split("/") if found else []
        if not found or len(names) > 2 or not all(map(NAME.fullmatch, names)):
            raise BadAddress(f"{text!r} isn't redis://HOST:PORT/STREAM")
        user, _, password = (found["user"] or "").partition(":")
        return cls(
            tuple(host_of(host, text) for host in found["hosts"].split(",")), unquote(user), unquote(password) or os.environ.get(PASSWORD, ""),
            found["tls"] == "s", names[0] if len(names) == 2 else None, names[-1])


def host_of(text: str, where: str) -> tuple[str, int]:
    host, _, port = text.rpartition(":")
    if not host or not (port.isascii() and port.isdigit() and 0 < int(port) < 65536):
        raise BadAddress(f"{where!r} has no HOST:PORT: {text!r}")
    return host.strip("[]"), int(port)
