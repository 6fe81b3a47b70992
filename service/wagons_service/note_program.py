"""The program `wagons review --json` as a child: lines go in, and notes come out.

It prints nothing of a line without a note, so no output says how far it is; its reading does. It reads on only when all lines
that it has read are done, and their notes written. So it is given one byte more behind them: when that is read, they are done.
"""

import asyncio
import fcntl
import subprocess
import sys
import termios
from collections.abc import Sequence
from contextlib import suppress
from os import set_blocking

from .program import CHUNK, WORDS

# Begins the next line, in which it changes nothing. With it a line of the most bytes is too long: the program stops (92), and is
# started again without it.
SPACE = b" "


class NoteProgram:
    def __init__(self, command: Sequence[str]) -> None:
        """Starts a command; with `OSError` it couldn't be started."""
        pipe = subprocess.PIPE
        # In a session of its own, as the office's.
        self._process = subprocess.Popen(command, bufsize=0, stdin=pipe, stdout=pipe, stderr=pipe, start_new_session=True)
        assert self._process.stdin and self._process.stdout and self._process.stderr
        self._input, self._output, self._errors = self._process.stdin, self._process.stdout, self._process.stderr
        for file in self._input, self._output, self._errors:
            set_blocking(file.fileno(), False)
        self._rest = b""
        self._has_space = False

    def give(self, lines: bytes) -> None:
        """Gives it lines, each with its line feed."""
        self._rest += lines
        self._has_space = False

    def give_space(self) -> None:
        """Gives it the byte behind the lines, unless it was given before. All lines must be read."""
        if not self._has_space:
            self._rest += SPACE
            self._has_space = True

    def write(self) -> int:
        """Writes what fits of what it was given: how many bytes it has still to read."""
        with suppress(BrokenPipeError):
            # None where nothing fits.
            self._rest = self._rest[self._input.write(self._rest) or 0:] if self._rest else b""
        unread = fcntl.ioctl(self._input.fileno(), termios.FIONREAD, bytes(4))
        return len(self._rest) + int.from_bytes(unread, sys.byteorder)

    def read(self) -> bytes:
        """What it has printed, up to a chunk; nothing where there is no more."""
        return self._output.read(CHUNK) or b""

    @property
    def has_ended(self) -> bool:
        return self._process.poll() is not None

    @property
    def words(self) -> str:
        """How it ended."""
        status = self._process.returncode
        if status < 0:
            return f"the program was ended by signal {-status}"
        said = (self._errors.read(WORDS) or b"").decode("utf-8", "replace").strip()
        return said or f"the program ended with status {status}"

    def end(self) -> None:
        """Ends it at once; its process goes away meanwhile."""
        self._process.kill()
        asyncio.get_running_loop().run_in_executor(None, self._process.wait)
