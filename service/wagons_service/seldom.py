"""Says a fault that repeats once a minute, with its count, so that nobody fills the log."""

import logging
import time
from collections.abc import Callable
from dataclasses import dataclass

SECONDS = 60.0
# So often within that time a fault is said as it comes.
MOST_AT_ONCE = 3
MOST_KEPT = 1000


@dataclass(slots=True)
class _Fault:
    name: str
    level: int
    text: str
    since: float
    said: int = 1
    kept_back: int = 0


class Seldom(logging.Filter):
    def __init__(self, clock: Callable[[], float] = time.monotonic) -> None:
        super().__init__()
        self._clock = clock
        self._faults: dict[tuple[str, str], _Fault] = {}

    def filter(self, record: logging.LogRecord) -> bool:
        if record.levelno < logging.WARNING or getattr(record, "is_count", False):
            return True
        text = record.getMessage()
        fault = self._faults.get((record.name, text))
        if fault is None:
            if len(self._faults) < MOST_KEPT:
                self._faults[record.name, text] = _Fault(record.name, record.levelno, text, self._clock())
            return True
        is_said = fault.said < MOST_AT_ONCE
        fault.said += is_said
        fault.kept_back += not is_said
        return is_said

    def say_counts(self) -> None:
        """To be called now and then: says how often a fault came that wasn't said."""
        now = self._clock()
        for key, fault in list(self._faults.items()):
            if now - fault.since >= SECONDS:
                if fault.kept_back:
                    logging.getLogger(fault.name).log(fault.level, "%s (%d times more within a minute)", fault.text, fault.kept_back, extra={"is_count": True})
                    # It goes on, so it isn't said at once again.
                    fault.since, fault.kept_back = now, 0
                else:
                    del self._faults[key]
