"""The folder of a service that keeps no copy of its stream: its journals are there for the time of a run.

A service that is killed leaves its folder behind, and the next one that starts removes it. A folder is removed only if this
module made it and nobody has it locked, so neither one that is in use nor a copy.
"""

import fcntl
import logging
import os
import shutil
import stat
import tempfile
import time
from contextlib import suppress

log = logging.getLogger("wagons-service")

PREFIX = "wagons-service-"
# The file by which a folder is known to be temporary.
MARK = "temporary"
# Within so long a service that starts has locked its folder.
SECONDS_TO_BE_LOCKED = 3600


def folder(copy: str | None) -> str:
    """The folder of the copy, which is nobody's to remove, or a new temporary one."""
    if copy:
        with suppress(FileNotFoundError):
            os.unlink(f"{copy}/{MARK}")
        return copy
    for name in os.listdir(tempfile.gettempdir()):
        if name.startswith(PREFIX):
            with suppress(OSError):
                _remove_left(f"{tempfile.gettempdir()}/{name}")
    found = tempfile.mkdtemp(prefix=PREFIX)
    with open(f"{found}/{MARK}", "x", encoding="ascii"):
        return found


def _remove_left(path: str) -> None:
    """Removes a temporary folder whose service is gone."""
    told = os.lstat(path)
    names = os.listdir(path) if stat.S_ISDIR(told.st_mode) and told.st_uid == os.geteuid() else []
    # Before its first journal is there, a service that starts may be about to lock it.
    is_begun = any(map(str.isdigit, names)) or time.time() - told.st_mtime > SECONDS_TO_BE_LOCKED
    if MARK in names and is_begun:
        lock = os.open(f"{path}/lock", os.O_RDWR | os.O_CREAT | os.O_CLOEXEC, 0o600)
        try:
            fcntl.flock(lock, fcntl.LOCK_EX | fcntl.LOCK_NB)
            log.info("removes %s, which a service that was killed left", path)
            shutil.rmtree(path, ignore_errors=True)
        finally:
            os.close(lock)
