"""What made-up railways write: a wagon's number, a place, a moment and a line."""

import json
import time


def wagon_number(eleven: str) -> str:
    """A wagon's number of these eleven digits, with its check digit behind them."""
    total = sum(sum(map(int, str(int(digit) * (2 - at % 2)))) for at, digit in enumerate(eleven))
    return eleven + str(-total % 10)


def place(k: int) -> str:
    return f"DE{k:05}"


def moment(seconds: int) -> str:
    return time.strftime("%Y-%m-%dT%H:%M:%SZ", time.gmtime(seconds))


def line(fields: object) -> str:
    """A line of JSON, without the end of the line."""
    return json.dumps(fields, separators=(",", ":"))
