"""The journals before the last one: each is opened once, and by a thread of their own, since that reads all of it."""

import asyncio
import os
from collections import OrderedDict
from concurrent.futures import ThreadPoolExecutor

from .journal import Folder, Journal

MOST_OPEN = 4


class OldJournals:
    def __init__(self, folder: Folder) -> None:
        self._folder = folder
        self._reader = ThreadPoolExecutor(1, "old-journals")
        # By the number and the folder's own identity, since a stream's journal may begin again.
        self._open: OrderedDict[tuple[int, int], asyncio.Future[Journal]] = OrderedDict()

    async def find(self, number: int) -> Journal:
        key = number, os.stat(f"{self._folder.path}/{number}").st_ino
        if key not in self._open:
            self._open[key] = asyncio.get_running_loop().run_in_executor(self._reader, self._folder.journal, number)
            # What falls out is closed when the last one has read it.
            while len(self._open) > MOST_OPEN:
                self._open.popitem(last=False)
        self._open.move_to_end(key)
        opened = self._open[key]
        try:
            return await asyncio.shield(opened)
        except Exception:
            self._open.pop(key, None)
            raise
