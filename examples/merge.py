#!/usr/bin/env python3
"""Merges journals of several railways by the moments of their lines: merge.py JOURNAL.. > MERGED

Each journal has one JSON object a line. A line goes by its `moment` or, where it is a `begin` or a `plan`, by its `at`. A line
without one stays behind the line before it, and so does a line that is earlier than one before it: the lines of a journal keep
their order. Of lines of one moment those of the journal that is named first come first. Lines are printed as they were read.
"""

import heapq
import json
import sys
from collections.abc import Iterator
from datetime import UTC, datetime

FIRST = datetime.min.replace(tzinfo=UTC)


def moment_of(line: bytes) -> datetime:
    """The moment of a line; the first one that there is where it has none that can be read."""
    try:
        told = json.loads(line)
        moment = datetime.fromisoformat(told.get("moment") or told["at"])
        return moment if moment.tzinfo else FIRST
    except (ValueError, KeyError, TypeError, AttributeError):
        return FIRST


def lines_of(path: str) -> Iterator[tuple[datetime, bytes]]:
    """The lines of a journal, each with the moment at which it comes."""
    reached = FIRST
    with open(path, "rb") as file:
        for line in file:
            if line.strip():
                reached = max(reached, moment_of(line))
                yield reached, line if line.endswith(b"\n") else line + b"\n"


if __name__ == "__main__":
    if len(sys.argv) < 2:
        sys.exit(__doc__)
    for _, merged in heapq.merge(*map(lines_of, sys.argv[1:]), key=lambda it: it[0]):
        sys.stdout.buffer.write(merged)
