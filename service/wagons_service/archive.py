"""Journals that are over for long are compressed, each file beside itself as `.gz`, and are read from there as before.

Nothing is removed before its compressed form was read again from the disk, and is the same.
"""

import gzip
import hashlib
import logging
import os
import tempfile
import threading
import time
import zlib
from typing import IO, TYPE_CHECKING

if TYPE_CHECKING:
    from .journal import Folder

log = logging.getLogger("wagons-service")

FILES = ("journal.jsonl", "replies.jsonl", "senders.jsonl")
SECONDS_BETWEEN_LOOKS = 3600
SECONDS_A_DAY = 86_400
CHUNK = 1 << 20
LEVEL = 6


class NotReadable(Exception):
    """A compressed file that can't be read."""


def opened(path: str) -> int:
    """A file that is there, or is made; of a compressed one what it had, which nobody else sees."""
    try:
        return os.open(path, os.O_RDWR | os.O_CLOEXEC)
    except FileNotFoundError:
        if not os.path.exists(f"{path}.gz"):
            return os.open(path, os.O_RDWR | os.O_CREAT | os.O_CLOEXEC, 0o600)
    with tempfile.TemporaryFile(dir=os.path.dirname(path)) as file:
        unpack(f"{path}.gz", file)
        return os.dup(file.fileno())


def unpack(packed: str, file: IO[bytes]) -> bytes:
    """Writes what a compressed file had: its SHA-256."""
    digest = hashlib.sha256()
    try:
        with gzip.open(packed) as whole:
            while chunk := whole.read(CHUNK):
                digest.update(chunk)
                file.write(chunk)
        file.flush()
    except (EOFError, zlib.error, gzip.BadGzipFile) as fault:
        raise NotReadable(f"{packed} can't be unpacked: {fault}") from None
    return digest.digest()


def unpack_all(folder: str) -> None:
    """Unpacks a journal that is to be written again, since the one behind it is gone."""
    for path in (f"{folder}/{name}" for name in FILES):
        if os.path.exists(f"{path}.gz") and not os.path.exists(path):
            with open(f"{path}.new", "wb") as file:
                unpack(f"{path}.gz", file)
                os.fsync(file.fileno())
            os.rename(f"{path}.new", path)


def compress(path: str) -> None:
    """Puts a compressed file in a file's place."""
    new, digest = f"{path}.gz.new", hashlib.sha256()
    with open(path, "rb") as whole, open(new, "wb") as packed:
        with gzip.GzipFile("", "wb", LEVEL, packed) as file:
            while chunk := whole.read(CHUNK):
                digest.update(chunk)
                file.write(chunk)
        packed.flush()
        os.fsync(packed.fileno())
    with open(os.devnull, "wb") as nothing:
        if unpack(new, nothing) != digest.digest():
            raise NotReadable(f"{new} isn't what {path} is")
    os.rename(new, f"{path}.gz")
    sync(os.path.dirname(path))
    os.unlink(path)


def sync(folder: str) -> None:
    at = os.open(folder, os.O_RDONLY | os.O_DIRECTORY)
    try:
        os.fsync(at)
    finally:
        os.close(at)


def compress_old(path: str, last: int, days: int) -> None:
    """Compresses the journals before the last one whose last line came so many days ago."""
    for number in range(1, last):
        folder = f"{path}/{number}"
        try:
            age = time.time() - os.stat(f"{folder}/journal.jsonl").st_mtime
        except FileNotFoundError:
            continue
        if age >= days * SECONDS_A_DAY:
            # The journal itself is the last one, since it says whether they all are.
            for name in reversed(FILES):
                if os.path.exists(f"{folder}/{name}"):
                    compress(f"{folder}/{name}")
            log.info("journal %d is compressed", number)


def keep_small(folder: "Folder", days: int) -> None:
    """Looks each hour, in a thread that takes what others leave. The service doesn't wait for it at its end."""

    def look() -> None:
        os.setpriority(os.PRIO_PROCESS, threading.get_native_id(), 19)
        while True:
            try:
                compress_old(folder.path, folder.last, days)
            except (OSError, NotReadable) as fault:
                log.warning("a journal couldn't be compressed, and stays as it is: %s", fault)
            time.sleep(SECONDS_BETWEEN_LOOKS)

    threading.Thread(target=look, daemon=True).start()
