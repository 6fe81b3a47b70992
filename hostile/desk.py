#!/usr/bin/env python3
"""What a desk asks of an office: of random histories and of the example day `fleet`, `orders`, `moves` and `trace` print the rows of
the model of office.py as JSON lines, and the same rows as CSV and as tables. Where memory is refused, nothing is printed."""

import csv
import io
import json
import os
import random
import re
from collections.abc import Sequence

import office
import traces
from checkpoints import History, words_of
from memory import ALL
from problems import day_at, random_history, refused_cases, without_memory
from program import Table, run

HISTORIES = int(os.environ.get("HOSTILE_DESK", 1_000))
# A row as JSON has it, and the cells of a table's row.
Row = dict[str, object]
LAST_SECOND = 4_102_444_799
# A wagon that no roster has.
UNKNOWN = "338479619995"
FLEET = "wagon class load_limit status place place_name last ready held order".split()
ORDERS = "order place place_name classes load latest penalty state wanted missing promised filled".split()
MOVES = ("kind wagon class status place place_name since order to to_name km minutes arrival latest spare late wanted filled promised "
         "missing penalty state").split()
WAGON_TRACE = "line entry refused event company moment version was_status was_place status place held order"
ORDER_TRACE = "line entry refused event wagon company moment version state missing promised filled"
TABLES = {"fleet": FLEET, "orders": ORDERS}


def row_of(names: Sequence[str], **values: object) -> Row:
    return {name: values.get(name) for name in names}


def fleet_rows(state: office.Office) -> list[Row]:
    return [
        row_of(FLEET, wagon=number, load_limit=wagon.load, status=wagon.status, place=wagon.place, last=office.moment_text(wagon.last),
               ready=office.moment_text(wagon.ready) if wagon.status == "empty" else None, held="held" if wagon.held else None,
               order=wagon.promise, **{"class": wagon.kind})
        for number, wagon in sorted(state.wagons.items())]


def order_rows(state: office.Office) -> list[Row]:
    return [
        row_of(ORDERS, order=order.name, place=order.fields["place"], classes=" ".join(order.fields["classes"]), load=order.fields["load"],
               latest=office.moment_text(order.fields["latest"]), penalty=order.fields["penalty"], state=order.state(), wanted=order.wagons,
               missing=order.lack(), promised=" ".join(sorted(order.promised)) or None, filled=" ".join(order.filled) or None)
        for order in state.orders.values()]


class Choice:
    """What `moves` is asked, drawn by chance."""

    def __init__(self, state: office.Office, dice: random.Random) -> None:
        self.late = dice.random() < 0.3
        self.wagon = dice.choice(sorted(state.wagons)) if dice.random() < 0.2 else None
        self.order = dice.choice([*state.orders, "NONE"]) if not self.wagon and dice.random() < 0.2 else None
        self.silent = dice.choice([1, 2, 12, 100_000]) if dice.random() < 0.5 else None

    def options(self) -> list[str]:
        given = {"--wagon": self.wagon, "--order": self.order, "--silent": self.silent}
        return ["--late"] * self.late + [word for name, value in given.items() if value is not None for word in (name, str(value))]


def arrival_of(wagon: office.Wagon, to: str, minutes: int, at: int) -> int:
    """The earliest second at which a wagon that hasn't arrived there is at a place so many minutes away."""
    if wagon.status.startswith("journey"):
        leaves = wagon.last
    else:
        leaves = max(wagon.ready if wagon.status == "empty" else wagon.last, at)
    return max(leaves + 60 * minutes, at)


def movement(state: office.Office, wagon: office.Wagon, order: office.Order, at: int) -> Row:
    to, latest = order.fields["place"], order.fields["latest"]
    km: int | None = 0
    minutes: int | None = 0
    arrival: int | None = wagon.last
    if not (wagon.status.startswith("arrived") and wagon.place == to):
        way = state.networks[state.network - 1].get(wagon.place, {}).get(to)
        km, minutes = way or (None, None)
        arrival = None if minutes is None else arrival_of(wagon, to, minutes, at)
    late = arrival is not None and arrival > latest
    return row_of(
        MOVES, kind="movement", wagon=wagon.number, status=wagon.status, place=wagon.place, since=office.moment_text(wagon.last), order=order.name,
        to=to, km=km, minutes=minutes, arrival=office.moment_text(arrival) if arrival is not None and arrival <= LAST_SECOND else None,
        latest=office.moment_text(latest), spare=None if late or arrival is None else (latest - arrival) // 60,
        late=-((latest - arrival) // 60) if late and arrival is not None else None,
        state="no way" if arrival is None else "late" if late else "in time", **{"class": wagon.kind})


def need(order: office.Order, at: int) -> Row:
    is_past = order.is_open() and order.fields["latest"] < at
    words = [word for word, holds in (("short", order.lack() > 0), ("past", is_past)) if holds]
    filled = "filled late" if order.late else "filled"
    state = " and ".join(words) or (filled if order.state() == "filled" else "promised")
    return row_of(
        MOVES, kind="order", order=order.name, to=order.fields["place"], latest=office.moment_text(order.fields["latest"]), wanted=order.wagons,
        filled=len(order.filled), promised=len(order.promised), missing=order.lack(), penalty=order.fields["penalty"], late=order.late or None, state=state)


def move_rows(state: office.Office, at: int, choice: Choice) -> list[Row]:
    wagons = [wagon for _, wagon in sorted(state.wagons.items()) if choice.wagon in (None, wagon.number)]
    movements = [movement(state, wagon, state.orders[wagon.promise], at) for wagon in wagons if wagon.promise and choice.order in (None, wagon.promise)]
    needs = [need(order, at) for order in state.orders.values() if not order.withdrawn and not choice.wagon and choice.order in (None, order.name)]
    silent = [
        row_of(MOVES, kind="silent", wagon=wagon.number, status=wagon.status, place=wagon.place, since=office.moment_text(wagon.last), state="silent",
               **{"class": wagon.kind})
        for wagon in wagons if choice.silent and not choice.order and wagon.last + 3600 * choice.silent <= at]
    if choice.late:
        movements = [row for row in movements if row["state"] != "in time"]
        needs = [row for row in needs if row["state"] not in ("filled", "filled late", "promised")]
    return movements + needs + silent


def lines_of(rows: Sequence[Row]) -> str:
    return "".join(json.dumps(row, separators=(",", ":")) + "\n" for row in rows)


def texts(row: Row) -> dict[str, str]:
    return {name: "" if value is None else str(value) for name, value in row.items()}


def cells_of(row: Row) -> list[str]:
    """What stands in a table's row, from the left, but for empty cells."""
    cells = texts(row)
    if "line" in row:
        names = (WAGON_TRACE if "was_status" in row else ORDER_TRACE).split()
        return [cell for name in names if (cell := cells[name])]
    if "kind" not in row:
        return [cell for cell in cells.values() if cell]
    names = {
        "movement": "wagon class status place since order to km minutes arrival latest", "order": "order to latest wanted filled promised missing penalty",
        "silent": "wagon class status place since"}[cells["kind"]].split()
    told = {"in time": f"{cells['spare']} min to spare", "late": f"late by {cells['late']} min", "silent": "", "filled late": f"filled late by {cells['late']} min"}.get(cells["state"], cells["state"])
    return [cell for cell in [*(cells[name] for name in names), told] if cell]


def table_rows(text: str) -> list[list[str]]:
    """The rows of tables, each by its cells; titles and the first line are left out."""
    titles = r"(wagon|order|silent|line)  .*"
    return [re.split("  +", line.strip()) for line in text.splitlines() if line and not re.fullmatch(titles, line) and not line.startswith("movements of ")]


def wrong(words: Sequence[str], given: bytes, rows: list[Row], names: Sequence[str], notes: list[bytes]) -> str | None:
    """What is wrong with what a word prints, in any of its forms, and with its notes for people."""
    told = run([*words, "--json"], given)
    if told.fault() or told.status or told.notes != notes or told.out.decode() != lines_of(rows):
        return f"{words}: {told.out!r} {told.notes!r} {told.err!r} where {lines_of(rows)!r} and {notes!r} are right"
    sheet = run([*words, "--csv"], given)
    if list(csv.reader(io.StringIO(sheet.out.decode()))) != [list(names), *(list(texts(row).values()) for row in rows)]:
        return f"{words}: {sheet.out!r} where {rows!r} is right"
    table = run(words, given)
    if table.fault() or table_rows(table.out.decode()) != [cells_of(row) for row in rows]:
        return f"{words}: {table.out!r} where {rows!r} is right"
    return None


def traced(history: History, dice: random.Random) -> list[str]:
    """Two wagons and two orders whose traces are asked for; one of each may be unknown."""
    state = history.state
    return [dice.choice(sorted(state.wagons)), dice.choice([*sorted(state.wagons), UNKNOWN]),
            *dice.choices([*state.orders, "NONE"], k=2)]


def judged(history: History, at: int, dice: random.Random) -> str | None:
    """What is wrong with what is told of a history's last version, which changes nothing."""
    state = history.state
    given = "".join(line + "\n" for line in history.lines).encode()
    for word, rows in (("fleet", fleet_rows(state)), ("orders", order_rows(state))):
        if fault := wrong(words_of(word, history.files), given, rows, TABLES[word], []):
            return fault
    for asked in traced(history, dice):
        option = "--wagon" if asked.isdigit() else "--order"
        rows, columns = traces.trace_rows(history, asked), traces.WAGON if asked.isdigit() else traces.ORDER
        if fault := wrong([*words_of("trace", history.files), option, asked], given, rows, columns, []):
            return fault
    moment = max(at + 60 * dice.randint(-600, 600) + dice.choice([0, 0, 1, 59]), 946_684_800)
    choice = Choice(state, dice)
    words = [*words_of("moves", history.files), "--at", office.moment_text(moment), *choice.options()]
    head = f"movements of version {state.length} at {office.moment_text(moment)}\n\n"
    if not run(words, given).out.decode().startswith(head):
        return f"{words}: its first line isn't {head!r}"
    return wrong(words, given, move_rows(state, moment, choice), MOVES, state.early_notes(moment))


def of_random(seed: int) -> str | None:
    return judged(*random_history(seed), random.Random(seed))


def of_the_day(minute: int) -> str | None:
    return judged(*day_at(minute), random.Random(minute))


ASKED = [["fleet"], ["trace", "--wagon", "318053700015"], ["trace", "--json", "--order", "O1"], ["orders", "--json"], ["moves", "--at", "2026-03-02T06:00:00Z", "--silent", "1"], ["moves", "--at", "2026-03-02T06:00:00Z", "--csv"]]


def main() -> None:
    table = Table()
    table.row("`fleet`, `orders`, `moves` and `trace` of random histories and the example day, in each form")
    table.try_all("`fleet`, `orders`, `moves` and `trace` of random histories", of_random, range(HISTORIES))
    table.try_all("`fleet`, `orders`, `moves` and `trace` of the example day around many moments", of_the_day, range(0, 720, 20))
    table.row("`fleet`, `orders`, `moves` and `trace` from a checkpoint: requests for memory refused")
    table.try_all("from a checkpoint: one request for memory refused", without_memory, list(refused_cases(1, ASKED)))
    table.try_all("from a checkpoint: all requests from one on refused", without_memory, list(refused_cases(ALL, ASKED)))
    table.end()


if __name__ == "__main__":
    main()
