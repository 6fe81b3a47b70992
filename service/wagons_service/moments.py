"""Moments as the program reads them, to see which of them are far ahead.

It reads a date, a time and an offset with or without separators, a fraction, and annotations in brackets, which say nothing
of the instant. What isn't read here it refuses itself, or it lies before the year 2000.
"""

import re
from contextlib import suppress
from datetime import date, datetime

FORM = re.compile(
    r"(?:\+00)?(?P<year>[0-9]{4})(?P<dash>-?)(?P<month>[0-9]{2})(?P=dash)(?P<day>[0-9]{2})[ Tt]"
    r"(?P<hour>[0-9]{2})(?::?(?P<minute>[0-9]{2})(?::?(?P<second>[0-9]{2})(?:[.,][0-9]{1,9})?)?)?"
    r"(?:[Zz]|(?P<sign>[+-])(?P<hours>[0-9]{2})(?::?(?P<minutes>[0-9]{2})(?::?(?P<seconds>[0-9]{2}))?)?)")
# The length of 2026-03-02T06:00:00Z.
PLAIN = 20
EPOCH = date(1970, 1, 1).toordinal()


def seconds_of(text: object) -> int | None:
    """The seconds since 1970 of a line's moment, or `None` where the program refuses it whatever they are."""
    if not isinstance(text, str):
        return None
    if len(text) == PLAIN and text[10] == "T" and text[19] == "Z" and text[5] != "W":
        # As nearly all are written, which Python reads in a tenth of the time. A second 60 it doesn't read.
        with suppress(ValueError):
            return int(datetime.fromisoformat(text).timestamp())
    found = FORM.match(text)
    if not found:
        return None
    year, month, day, hour, minute, second, hours, minutes, seconds = (
        int(found[name] or 0) for name in ("year", "month", "day", "hour", "minute", "second", "hours", "minutes", "seconds"))
    try:
        days = date(year, month, day).toordinal() - EPOCH
    except ValueError:
        return None
    offset = 3600 * hours + 60 * minutes + seconds
    return 86400 * days + 3600 * hour + 60 * minute + second + (offset if found["sign"] == "-" else -offset)
