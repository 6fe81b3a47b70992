"""A second office, written from the manual alone, which docs/FORMATS.md begins: it reads lines, keeps wagons and orders, and judges prices.

It is slow and small, and shares nothing with the program, so that the two can be held against each other. It doesn't
plan: `optima` tries all plans of a small problem.
"""

import copy
import datetime
import heapq
import itertools
import json
import math
import re
from collections.abc import Callable, Sequence
from typing import Any, NoReturn

Fields = dict[str, Any]
Reader = Callable[[Any], Any]
# A wagon and an order.
Pair = tuple[str, str]
# From each place to each other one the kilometres and the minutes.
Distances = dict[str, dict[str, tuple[int, int]]]
# A free wagon's number, class, load limit, place, and since when it is ready.
Free = tuple[str, str, int, str, int]

MOST_NUMBER = 2**64 - 1
FIRST_MOMENT, LAST_MOMENT = 946684800, 4102444799
MOST_NESTING = 127
EPOCH = datetime.datetime(1970, 1, 1, tzinfo=datetime.timezone.utc)
PLAIN_MOMENT = re.compile("([0-9]{4}-[0-9]{2}-[0-9]{2})[Tt ]([0-9]{2}:[0-9]{2}:[0-9]{2})(?:[.][0-9]{1,9})?(?:[Zz]|([+-])([0-9]{2}):([0-9]{2}))")
STATUSES = ["empty", "loading", "ready", "journey_loaded", "journey_empty", "yard_loaded", "yard_empty", "arrived_loaded",
            "arrived_empty", "unloading"]
KINDS = ["release", "departure", "yard_arrival", "yard_departure", "exception", "arrival", "delivery"]


class Doubt(Exception):
    """What the model leaves to the program: its text says what, and `codes` which refusals would be right."""

    def __init__(self, text: str, *codes: str) -> None:
        super().__init__(text)
        self.codes = codes


class Refused(Exception):
    """A refusal: its code and details."""

    def __str__(self) -> str:
        return " ".join(map(str, self.args))


# Reading.


class NoNumber:
    """A JSON number that is none here: with a sign, a fraction or an exponent, or over 64 bits."""


def whole(text: str) -> int | NoNumber:
    if text.startswith("-") or int(text) > MOST_NUMBER:
        return fraction(text)
    return int(text)


def fraction(text: str) -> NoNumber:
    """A number that isn't used here; but it must fit a float."""
    size = abs(float(text))
    if size == math.inf:
        raise ValueError("past the largest float")
    if size > 1.7e308:
        raise Doubt("a number near the largest float", "21")
    return NoNumber()


def nesting(text: str) -> int:
    """How deep lists and objects stand in one another, outside texts."""
    depth = most = 0
    for token in re.findall(r'"(?:[^"\\]|\\.)*"?|[\[{]|[\]}]', text, re.S):
        if token in "[{":
            depth += 1
            most = max(most, depth)
        elif token in "]}":
            depth -= 1
    return most


def no_constant(_text: str) -> NoReturn:
    raise ValueError("NaN and Infinity are no JSON")


def has_half_character(value: object) -> bool:
    if isinstance(value, str):
        return any("\ud800" <= c <= "\udfff" for c in value)
    return isinstance(value, list) and any(map(has_half_character, value))


def members(pairs: list[tuple[str, Any]]) -> dict[str, Any]:
    """A member that stands twice counts as the last; but each must be read."""
    if any(has_half_character(name) or has_half_character(value) for name, value in pairs):
        raise ValueError("half a character")
    return dict(pairs)


DECODER = json.JSONDecoder(parse_int=whole, parse_float=fraction, parse_constant=no_constant, object_pairs_hook=members)


def read_object(line: bytes) -> dict[str, Any]:
    """The members of a line, by Python's reader of JSON."""
    try:
        text = line.decode("utf-8").strip(" \t\r")
        if nesting(text) > MOST_NESTING:
            raise ValueError("nested too deep")
        value = DECODER.decode(text)
        if has_half_character(value):
            raise ValueError("half a character")
    except ValueError:
        raise Refused(21) from None
    if not isinstance(value, dict):
        raise Refused(22)
    return value


def is_kind(value: object, kind: type) -> bool:
    return type(value) is kind


def text_of(value: Any, pattern: str, code: int) -> str:
    if not is_kind(value, str):
        raise Refused(19)
    text: str = value
    if not re.fullmatch(pattern, text):
        raise Refused(code)
    return text


def wagon_of(value: Any) -> str:
    if not is_kind(value, str):
        raise Refused(19)
    digits: str = value.replace(" ", "").replace("-", "")
    if not re.fullmatch("[0-9]{12}", digits):
        raise Refused(11)
    total = sum(sum(map(int, str(int(c) * (2 - i % 2)))) for i, c in enumerate(digits[:11]))
    if (total + int(digits[11])) % 10:
        raise Refused(12)
    return digits


def moment_of(value: Any) -> int:
    if not is_kind(value, str):
        raise Refused(19)
    plain = PLAIN_MOMENT.fullmatch(value)
    if not plain or plain[2].endswith(":60") or value[:4] == "0000" or plain[4] and (plain[4] > "23" or plain[5] > "59"):
        raise Doubt("a moment that isn't written plainly", "17", "18")
    try:
        at = datetime.datetime.fromisoformat(f"{plain[1]}T{plain[2]}+00:00")
    except ValueError:
        raise Refused(17) from None
    east = int(plain[3] + plain[4]) * 3600 + int(plain[3] + plain[5]) * 60 if plain[4] else 0
    seconds: int = (at - EPOCH) // datetime.timedelta(seconds=1) - east
    if not FIRST_MOMENT <= seconds <= LAST_MOMENT:
        raise Refused(18)
    return seconds


def moment_text(seconds: int) -> str:
    at = datetime.datetime.fromtimestamp(seconds, datetime.timezone.utc)
    return at.strftime("%Y-%m-%dT%H:%M:%SZ")


def number_to(most: int, least: int = 0) -> Reader:
    def read(value: Any) -> int:
        if not is_kind(value, int):
            raise Refused(19)
        number: int = value
        if not least <= number <= most:
            raise Refused(20)
        return number
    return read


def list_of(read: Reader, least: int = 0, most: int | None = None) -> Reader:
    def read_list(value: Any) -> list[Any]:
        if not is_kind(value, list):
            raise Refused(19)
        if len(value) < least or most is not None and len(value) > most:
            raise Refused(20)
        return [read(item) for item in value]
    return read_list


def pair_of(value: Any) -> Pair:
    if not is_kind(value, list):
        raise Refused(19)
    if len(value) != 2:
        raise Refused(20)
    return wagon_of(value[0]), order_of(value[1])


def flag(value: Any) -> bool:
    if not is_kind(value, bool):
        raise Refused(19)
    return value is True


def place_of(value: Any) -> str:
    return text_of(value, "[A-Z]{2}[0-9]{5}", 13)


def class_of(value: Any) -> str:
    return text_of(value, "[A-Za-z]{1,12}", 14)


def order_of(value: Any) -> str:
    return text_of(value, "[A-Z0-9-]{1,16}", 16)


def company_of(value: Any) -> str:
    return text_of(value, "[A-Z0-9]{4}", 15)


def or_null(read: Reader) -> Reader:
    return lambda value: None if value is None else read(value)


OPTIONAL = object()
COST = number_to(1_000_000_000)
PRICES = list_of(number_to(MOST_NUMBER))
MESSAGE: list[tuple[Any, ...]] = [("company", company_of), ("number", number_to(4_294_967_295)), ("wagon", wagon_of), ("place", place_of),
           ("moment", moment_of)]
FIELDS: dict[str, Sequence[tuple[Any, ...]]] = {kind: MESSAGE for kind in KINDS} | {
    "exception": MESSAGE + [("hold", flag)],
    "order": [("order", order_of), ("place", place_of), ("classes", list_of(class_of, 1, 8)), ("load", number_to(200_000)),
              ("latest", moment_of), ("penalty", COST), ("wagons", number_to(20, 1), 1)],
    "withdraw": [("order", order_of)],
    "begin": [("at", moment_of)],
    "plan": [("at", moment_of)],
    "commit": [("version", number_to(1_000_000)), ("at", moment_of), ("pairs", list_of(pair_of)), ("u", PRICES), ("v", PRICES)],
    "network": [("revision", number_to(8, 1))],
    "sheet": [],
}
TABLE: list[tuple[Any, ...]] = [("wagons", list_of(wagon_of)), ("orders", list_of(order_of)), ("cells", list_of(list_of(or_null(COST)))),
         ("penalties", list_of(COST)), ("lacks", list_of(number_to(20, 1)), None), ("pairs", list_of(pair_of)), ("u", PRICES),
         ("v", PRICES)]


def read_fields(members: Fields, fields: Sequence[tuple[Any, ...]]) -> Fields:
    values: Fields = {}
    for name, read, *default in fields:
        if name not in members:
            if not default:
                raise Refused(24, name)
            values[name] = default[0]
            continue
        try:
            values[name] = read(members[name])
        except Refused as fault:
            raise Refused(25, name, fault.args[0]) from None
        except Doubt as doubt:
            raise Doubt(str(doubt), *(f"25 {name} {code}" for code in doubt.codes)) from None
    return values


def read_command(line: bytes) -> tuple[str, Fields]:
    members = read_object(line)
    if "type" not in members:
        raise Refused(24, "type")
    if not is_kind(members["type"], str):
        raise Refused(25, "type", 19)
    if members["type"] not in FIELDS:
        raise Refused(23)
    return members["type"], read_fields(members, FIELDS[members["type"]])


# Networks, tables and prices.


def read_rows(path: str) -> list[list[str]]:
    with open(path) as file:
        return [row.split(",") for row in file.read().splitlines()[1:]]


def distances(path: str) -> Distances:
    """The least (km, minutes) from each place to each other one."""
    lines: dict[str, list[tuple[str, int, int]]] = {}
    for start, end, km, minutes, way in read_rows(path):
        lines.setdefault(start, []).append((end, int(km), int(minutes)))
        lines.setdefault(end, [])
        if way == "both":
            lines[end].append((start, int(km), int(minutes)))
    return {start: distances_from(lines, start) for start in lines}


def distances_from(lines: dict[str, list[tuple[str, int, int]]], start: str) -> dict[str, tuple[int, int]]:
    least: dict[str, tuple[int, int]] = {}
    turns = [((0, 0), start)]
    while turns:
        (km, minutes), place = heapq.heappop(turns)
        if place in least:
            continue
        least[place] = km, minutes
        for end, more_km, more_minutes in lines[place]:
            if end not in least:
                heapq.heappush(turns, ((km + more_km, minutes + more_minutes), end))
    return least


def judge_prices(table: Fields, pairs: Sequence[Pair], u: Sequence[int], v: Sequence[int]) -> int:
    """The cost of the pairs, where the prices prove it least. `table` has wagons, orders, cells, penalties and lacks."""
    wagons = {wagon: i for i, wagon in enumerate(table["wagons"])}
    orders = {order: j for j, order in enumerate(table["orders"])}
    for wagon, order in pairs:
        if wagon not in wagons or order not in orders:
            raise Refused(84, wagon, order)
    if len(u) != len(wagons) or len(v) != len(orders):
        raise Refused(61)
    cells = table["cells"]
    for wagon, order in pairs:
        if cells[wagons[wagon]][orders[order]] is None:
            raise Refused(62, wagon, order)
    used: set[str] = set()
    given = dict.fromkeys(orders, 0)
    for wagon, order in pairs:
        if wagon in used or given[order] == table["lacks"][orders[order]]:
            raise Refused(63, wagon, order)
        used.add(wagon)
        given[order] += 1
    for wagon, i in wagons.items():
        for order, j in orders.items():
            if cells[i][j] is not None and v[j] > cells[i][j] + u[i]:
                raise Refused(64, wagon, order)
    for order, j in orders.items():
        if v[j] > table["penalties"][j]:
            raise Refused(65, order)
    cost = plan_cost(table, pairs)
    left, right = cost + sum(u), sum(price * lack for price, lack in zip(v, table["lacks"]))
    if left != right:
        raise Refused(66, left, right)
    return cost


def plan_cost(table: Fields, pairs: Sequence[Pair]) -> int:
    cost: int = sum(penalty * lack for penalty, lack in zip(table["penalties"], table["lacks"]))
    for wagon, order in pairs:
        i, j = table["wagons"].index(wagon), table["orders"].index(order)
        cost += table["cells"][i][j] - table["penalties"][j]
    return cost


def check_line(line: bytes) -> str:
    """The reply to a line of `check`, without its number."""
    try:
        table = read_fields(read_object(line), TABLE)
        wagons, orders = table["wagons"], table["orders"]
        lacks: list[int] = [1] * len(orders) if table["lacks"] is None else table["lacks"]
        table["lacks"] = lacks
        if len(wagons) > 1000 or len(orders) > 500 or sum(lacks) > 500:
            raise Refused(53)
        for code, names in (51, wagons), (52, orders):
            for k, name in enumerate(names):
                if name in names[:k]:
                    raise Refused(code, name)
        lengths = [len(row) for row in table["cells"]] + [len(table["penalties"]), len(lacks)]
        if len(table["cells"]) != len(wagons) or any(length != len(orders) for length in lengths):
            raise Refused(54)
        return f"optimal {judge_prices(table, table['pairs'], table['u'], table['v'])}"
    except Refused as fault:
        return f"refused {fault}"


# The office.


class Wagon:
    def __init__(self, number: str, kind: str, load: int, status: str, place: str, last: int) -> None:
        self.number, self.kind, self.load, self.status, self.place = number, kind, load, status, place
        self.last = self.ready = last
        self.held = False
        self.promise: str | None = None

    def free(self) -> Free | None:
        if self.status != "empty" or self.held or self.promise:
            return None
        return self.number, self.kind, self.load, self.place, self.ready

    def row(self) -> str:
        hold = "held" if self.held else "-"
        return f"wagon {self.number} {self.kind} {self.load} {self.status} {self.place} {moment_text(self.last)} {hold} {self.promise or '-'}"


class Order:
    def __init__(self, fields: Fields) -> None:
        self.fields, self.withdrawn = fields, False
        self.name: str = fields["order"]
        self.wagons: int = fields["wagons"]
        self.promised: set[str] = set()
        self.filled: list[str] = []
        # By how many minutes the last of its wagons came late, once it has all of them.
        self.late = 0

    def lack(self) -> int:
        return 0 if self.withdrawn else self.wagons - len(self.promised) - len(self.filled)

    def state(self) -> str:
        if self.withdrawn:
            return "withdrawn"
        if len(self.filled) == self.wagons:
            return "filled"
        return "waiting" if self.lack() else "promised"

    def is_open(self) -> bool:
        return self.state() in ("waiting", "promised")

    def is_overdue(self, newest: int) -> bool:
        """Whether it is open, and its latest moment lies before the newest message of some wagon."""
        latest: int = self.fields["latest"]
        return self.is_open() and latest < newest

    def row(self) -> str:
        wagons = sorted(self.promised) + [f"{wagon}*" for wagon in self.filled]
        text = f"order {self.name} {self.fields['place']} {moment_text(self.fields['latest'])} {self.fields['penalty']}"
        return f"{text} {self.state()} {self.wagons} {','.join(wagons) or '-'}"


class Problem:
    """The free wagons and waiting orders of a version, and which wagon may serve which order at what distance."""

    def __init__(self, office: "Office", at: int) -> None:
        self.free = [free for _, row in sorted(office.wagons.items()) if (free := row.free())]
        waiting = [order for order in office.orders.values() if order.lack()]
        self.table = {
            "wagons": [wagon[0] for wagon in self.free], "orders": [order.name for order in waiting],
            "penalties": [order.fields["penalty"] for order in waiting], "lacks": [order.lack() for order in waiting],
            "cells": [[office.cell(wagon, order.fields, at) for order in waiting] for wagon in self.free],
        }

    def size(self) -> str:
        return f"{len(self.free)} {len(self.table['orders'])}"


class Office:
    """What `wagons run` keeps. Each command answers its reply without the line's number, or raises `Refused`."""

    def __init__(self, roster: Sequence[Sequence[str]], networks: Sequence[Distances], entries: int = 100_000, kept: int = 8) -> None:
        self.networks, self.entries, self.most_kept = networks, entries, kept
        self.wagons: dict[str, Wagon] = {}
        for number, kind, load, status, place, moment in roster:
            self.wagons[wagon_of(number)] = Wagon(wagon_of(number), kind, int(load), status, place, moment_of(moment))
        self.orders: dict[str, Order] = {}
        self.messages: dict[tuple[str, int], tuple[int, tuple[object, ...]]] = {}
        self.kept: dict[tuple[int, int], Problem] = {}
        self.length, self.network = 0, 1

    def cell(self, wagon: Free, order: Fields, at: int) -> int | None:
        _, kind, load, place, ready = wagon
        distance = self.networks[self.network - 1].get(place, {}).get(order["place"])
        if kind not in order["classes"] or order["load"] > load or distance is None:
            return None
        return distance[0] if max(ready, at) + 60 * distance[1] <= order["latest"] else None

    def newest(self) -> int:
        """The newest of all wagons' last messages; 0 where there is no wagon."""
        return max((wagon.last for wagon in self.wagons.values()), default=0)

    def early_notes(self, at: int) -> list[bytes]:
        """What is said of a moment to look at that is before the newest message."""
        if at >= self.newest():
            return []
        return [f"note: --at {moment_text(at)} is before the newest message, {moment_text(self.newest())}\n".encode()]

    def resumed(self) -> "Office":
        """The office of a run that begins with this one's checkpoint (docs/FILES.md): without closed orders, messages and problems."""
        office = Office([], self.networks, self.entries, self.most_kept)
        office.wagons, office.network = copy.deepcopy(self.wagons), self.network
        office.orders = copy.deepcopy({name: order for name, order in self.orders.items() if order.is_open()})
        return office

    def accept(self) -> str:
        self.length += 1
        return f"accepted {self.length}"

    def has_room(self) -> None:
        if self.length == self.entries:
            raise Refused(72)

    def do(self, kind: str, fields: Fields) -> str:
        if kind in KINDS:
            return self.message(kind, fields)
        commands: dict[str, Callable[[Fields], str]] = {
            "order": self.place, "withdraw": self.withdraw, "network": self.revise, "begin": self.begin, "commit": self.commit, "sheet": self.sheet}
        return commands[kind](fields)

    def message(self, kind: str, fields: Fields) -> str:
        name = fields["company"], fields["number"]
        message = kind, fields["wagon"], fields["place"], fields["moment"], fields.get("hold")
        if name in self.messages:
            entry, other = self.messages[name]
            if message == other:
                return f"repeated {entry}"
            raise Refused(71)
        self.has_room()
        if fields["wagon"] not in self.wagons:
            raise Refused(73)
        self.step(self.wagons[fields["wagon"]], kind, fields)
        reply = self.accept()
        self.messages[name] = self.length, message
        return reply

    def step(self, wagon: Wagon, kind: str, fields: Fields) -> None:
        place, moment, word = fields["place"], fields["moment"], wagon.status
        if moment < wagon.last:
            raise Refused(31)
        if kind == "exception":
            wagon.held = fields["hold"]
            if wagon.held:
                self.end_promise(wagon)
            elif word == "empty":
                wagon.ready = moment
            wagon.last = moment
            return
        status, here = {
            ("release", "loading"): ("ready", True), ("release", "unloading"): ("empty", True),
            ("departure", "ready"): ("journey_loaded", True), ("departure", "empty"): ("journey_empty", True),
            ("yard_arrival", "journey_loaded"): ("yard_loaded", False), ("yard_arrival", "journey_empty"): ("yard_empty", False),
            ("yard_departure", "yard_loaded"): ("journey_loaded", True), ("yard_departure", "yard_empty"): ("journey_empty", True),
            ("arrival", "journey_loaded"): ("arrived_loaded", False), ("arrival", "journey_empty"): ("arrived_empty", False),
            ("delivery", "arrived_loaded"): ("unloading", False), ("delivery", "arrived_empty"): ("empty", False),
        }.get((kind, word), (None, False))
        if status is None:
            raise Refused(32)
        if here and place != wagon.place:
            raise Refused(33)
        if (kind, word) == ("delivery", "arrived_empty"):
            status = self.deliver(wagon, place, moment)
        if status == "empty":
            wagon.ready = moment
        wagon.status, wagon.place, wagon.last = status, place, moment

    def deliver(self, wagon: Wagon, place: str, moment: int) -> str:
        if not wagon.promise or self.orders[wagon.promise].fields["place"] != place:
            self.end_promise(wagon)
            return "empty"
        order = self.orders[wagon.promise]
        self.end_promise(wagon)
        order.filled.append(wagon.number)
        if order.state() == "filled":
            order.late = max(-(-(moment - order.fields["latest"]) // 60), 0)
        return "loading"

    def end_promise(self, wagon: Wagon) -> None:
        if wagon.promise:
            self.orders[wagon.promise].promised.discard(wagon.number)
        wagon.promise = None

    def place(self, fields: Fields) -> str:
        self.has_room()
        if fields["order"] in self.orders:
            raise Refused(74)
        if sum(order.wagons for order in self.orders.values() if order.is_open()) + fields["wagons"] > 500:
            raise Refused(75)
        self.orders[fields["order"]] = Order(fields)
        return self.accept()

    def withdraw(self, fields: Fields) -> str:
        self.has_room()
        order = self.orders.get(fields["order"])
        if order is None:
            raise Refused(76)
        if not order.is_open():
            raise Refused(77)
        for number in list(order.promised):
            self.end_promise(self.wagons[number])
        order.withdrawn = True
        return self.accept()

    def revise(self, fields: Fields) -> str:
        self.has_room()
        if fields["revision"] > len(self.networks):
            raise Refused(79)
        if fields["revision"] == self.network:
            raise Refused(80)
        self.network = fields["revision"]
        return self.accept()

    def begin(self, fields: Fields) -> str:
        return f"begun {self.length} {self.begun(fields).size()}"

    def begun(self, fields: Fields) -> Problem:
        key = self.length, fields["at"]
        if key not in self.kept:
            self.kept[key] = Problem(self, fields["at"])
            if len(self.kept) > self.most_kept:
                del self.kept[next(iter(self.kept))]
            return self.kept.get(key) or Problem(self, fields["at"])
        return self.kept[key]

    def commit(self, fields: Fields) -> str:
        problem = self.kept.get((fields["version"], fields["at"]))
        if problem is None:
            raise Refused(81)
        self.has_room()
        pairs = fields["pairs"]
        judge_prices(problem.table, pairs, fields["u"], fields["v"])
        free = {wagon[0]: wagon for wagon in problem.free}
        for number, _ in pairs:
            if self.wagons[number].free() != free[number]:
                raise Refused(82, number)
        given: dict[str, int] = {}
        for _, name in pairs:
            given[name] = given.get(name, 0) + 1
            if given[name] > self.orders[name].lack():
                raise Refused(83, name)
        for number, name in pairs:
            self.wagons[number].promise = name
            self.orders[name].promised.add(number)
        return self.accept()

    def sheet(self, _fields: Fields | None = None) -> str:
        rows = [f"sheet {self.length}"] + [wagon.row() for _, wagon in sorted(self.wagons.items())]
        rows += [order.row() for order in self.orders.values()]
        if len(self.networks) > 1:
            rows.append(f"network {self.network}")
        return "\n".join(rows)


def optima(table: Fields) -> list[list[Pair]]:
    """All plans of the least cost, as lists of pairs; for small tables."""
    choices = [[None] + [j for j, cost in enumerate(row) if cost is not None] for row in table["cells"]]
    least: int | None = None
    plans: list[list[Pair]] = []
    for taken in itertools.product(*choices):
        if any(taken.count(j) > lack for j, lack in enumerate(table["lacks"])):
            continue
        pairs = [(table["wagons"][i], table["orders"][j]) for i, j in enumerate(taken) if j is not None]
        cost = plan_cost(table, pairs)
        if least is None or cost < least:
            least, plans = cost, []
        if cost == least:
            plans.append(pairs)
    return plans
