#!/usr/bin/env python3
"""Keys that senders choose so that they collide in a hash map: they may take no longer than others. It is timed, so it is
tried while nothing else runs."""

import os
import random
import time
from collections.abc import Iterable, Sequence

from memory import KEPT
from program import MOST, Table, office_words, run

# In the short form there are fewer keys, and a busy machine changes its pace within a run: only much more time counts. So many
# keys in one bucket would take more still.
KEYS = MOST or int(os.environ.get("HOSTILE_KEYS", 200_000))
SAME_TIME = 4.0 if MOST else 1.3
FNV_START, FNV_PRIME = 0xCBF29CE484222325, 0x100000001B3
BITS = 20
LETTERS = b"0123456789ABCDEFGHIJKLMNOPQRSTUVWXYZ-"


def colliding_names(count: int) -> list[str]:
    """Order names that all fall into one bucket of a map of up to 2^20 buckets under the hash FNV-1a: a name's last four
    characters are chosen so that the last 20 bits of its hash are 0."""
    mask = (1 << BITS) - 1
    back = pow(FNV_PRIME, -1, 1 << BITS)
    ends: dict[int, bytes] = {}
    dice = random.Random(5)
    while len(ends) < 1 << 17:
        end = bytes(dice.choice(LETTERS) for _ in range(4))
        state = 0
        for byte in reversed(end):
            state = ((state * back) ^ byte) & mask
        ends[state] = end
    names: set[str] = set()
    while len(names) < count:
        start = bytes(dice.choice(LETTERS) for _ in range(12))
        state = FNV_START & mask
        for byte in start:
            state = ((state ^ byte) * FNV_PRIME) & mask
        if state in ends:
            names.add((start + ends[state]).decode())
    return sorted(names, key=lambda _: dice.random())


def other_names(count: int) -> list[str]:
    dice = random.Random(6)
    names: set[str] = set()
    while len(names) < count:
        names.add(bytes(dice.choice(LETTERS) for _ in range(16)).decode())
    return sorted(names, key=lambda _: dice.random())


def order_lines(names: Iterable[str]) -> bytes:
    """Orders by these names, each withdrawn at once."""
    order = '{{"type":"order","order":"{0}","place":"DE00001","classes":["Eanos"],"load":1,"latest":"2026-03-02T01:00:00Z","penalty":1}}\n'
    return "".join(order.format(name) + f'{{"type":"withdraw","order":"{name}"}}\n' for name in names).encode()


def message_lines(numbers: Iterable[int]) -> bytes:
    hold = '{{"type":"exception","company":"1001","number":{0},"wagon":"318053700015","place":"DE00001","moment":"2026-03-02T01:00:00Z","hold":true}}\n'
    return "".join(hold.format(number) for number in numbers).encode()


def member_lines(names: Sequence[str]) -> bytes:
    """Objects of a thousand members by these names, none of which is known."""
    rows = [names[k:k + 1000] for k in range(0, len(names), 1000)]
    return "".join("{" + ",".join(f'"{name}":1' for name in row) + ',"type":"sheet "}\n' for row in rows).encode()


def least_time(given: bytes) -> tuple[float, int]:
    """The least of five runs in seconds, and how many lines weren't accepted."""
    times = []
    for _ in range(5):
        start = time.perf_counter()
        outcome = run(office_words("run", 1_000_000, KEPT), given)
        times.append(time.perf_counter() - start)
    return min(times), sum(b" accepted " not in row for row in outcome.out.splitlines())


def colliding_keys(table: Table) -> None:
    """Beside as many keys that don't collide."""
    dice = random.Random(7)
    low_bits_alike = dice.sample([k << 14 for k in range(1 << 18)], KEYS)
    cases = [("order names", order_lines(colliding_names(KEYS)), order_lines(other_names(KEYS)), 0),
             ("message numbers", message_lines(low_bits_alike), message_lines(dice.sample(range(1 << 32), KEYS)), 0),
             ("names of members", member_lines(colliding_names(KEYS)), member_lines(other_names(KEYS)), KEYS // 1000)]
    for name, colliding, others, refused in cases:
        (first, first_refused), (second, second_refused) = least_time(colliding), least_time(others)
        losses = []
        if first > SAME_TIME * second:
            losses.append(f"{first:.2f} s, and {second:.2f} s for others")
        if (first_refused, second_refused) != (refused, refused):
            losses.append(f"{first_refused} and {second_refused} lines were refused")
        table.add(f"{name} that collide in a hash map ({first / second:.2f} of the time of others)", KEYS, losses)


def main() -> None:
    table = Table()
    table.row(f"keys that collide in a hash map: at most {SAME_TIME} times the time of others")
    colliding_keys(table)
    table.end()


if __name__ == "__main__":
    main()
