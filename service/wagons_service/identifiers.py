"""Numbers for textual identifiers of messages: each text of a company has one number for good.

They are kept in a file beside the journal, and a number is on the disk before a line that has it is in the journal.
"""

import json
import os
from collections import Counter

from .journal import FileOfLines, sync_folder

# Companies that number their messages themselves mostly begin low, so these begin in the upper half.
FIRST_NUMBER = 2_147_483_648
LAST_NUMBER = 4_294_967_295
MOST_LENGTH = 256
MOST_IDENTIFIERS = 1_000_000


class NoNumberLeft(Exception):
    """There are as many identifiers as are kept for whoever sends."""


class Identifiers:
    def __init__(self, path: str, share: int = MOST_IDENTIFIERS) -> None:
        self._share = share
        self._file = FileOfLines(path)
        # What a service that was killed left in memory alone is on the disk before a line has it, and so is the file itself.
        self._file.sync()
        sync_folder(os.path.dirname(path) or ".")
        self._numbers: dict[tuple[str, str], int] = {}
        # How many each token has. Those of no token are older, or were made without tokens.
        self._many: Counter[str] = Counter()
        # The token that sends now, as `Sender.key` has it.
        self.owner = ""
        self._last: dict[str, int] = {}
        self._new: list[tuple[str, str]] = []
        for place in range(1, self._file.count + 1):
            company, text, number, *owner = json.loads(self._file.read(place, place))
            self._numbers[company, text] = number
            self._many["".join(owner)] += 1
            self._last[company] = max(number, self._last.get(company, 0))

    @property
    def count(self) -> int:
        return len(self._numbers)

    def number(self, company: str, text: str) -> int:
        """The number of a text; a new one counts from `keep` on."""
        known = self._numbers.get((company, text))
        if known is not None:
            return known
        number = self._last.get(company, FIRST_NUMBER - 1) + 1
        most = self._share if self.owner else MOST_IDENTIFIERS
        if self._many[self.owner] >= most or number > LAST_NUMBER:
            raise NoNumberLeft(f"this token has {most:,} textual identifiers already, which is its share")
        self._many[self.owner] += 1
        self._numbers[company, text] = self._last[company] = number
        self._new.append((company, text))
        return number

    def keep(self) -> None:
        """Puts the new numbers on the disk."""
        if self._new:
            owner = [self.owner] if self.owner else []
            rows = [json.dumps([company, text, self._numbers[company, text], *owner]).encode() for company, text in self._new]
            self._file.append(rows, is_synced=True)
            self._new = []

    def forget(self) -> None:
        """Takes back the new numbers, of a request that is refused."""
        for company, text in reversed(self._new):
            self._last[company] = self._numbers.pop((company, text)) - 1
            self._many[self.owner] -= 1
        self._new = []

    def close(self) -> None:
        self._file.close()
