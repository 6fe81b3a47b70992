#!/usr/bin/env python3
"""Problems as table lines, and reasons: of random histories and of the example day the line of `table` is the one that the
model of office.py writes, `solve` finds the cost that a `plan` line says, and `why` counts as the model does. It is asked about
each order and each wagon too: each pair must have the line that the model writes, and the JSON lines must say the same. Where
few plans are possible all of them are tried, and each bound of `why` must hold of them."""

import itertools
import json
import math
import os
import random
import sys
from collections.abc import Callable, Iterator, Sequence

import office
from checkpoints import DAY, DAY_FILES, FILES, History, day_history, words_of
from memory import ALL, STARTS, Refusals
from program import ROOT, Outcome, Table, run, written

sys.path.append(f"{ROOT}/tools")
from made_up import wagon_number  # noqa: E402

# Plans with their costs, each as the order of each wagon, by its place in the table.
Plans = list[tuple[int, tuple[int | None, ...]]]
# A wagon and an order by their places in the table, and their line where they fail a test.
Pair = tuple[tuple[int, int], str | None]

HISTORIES = int(os.environ.get("HOSTILE_PROBLEMS", 1_000))
MOST_PLANS = 20_000
MOST_PENALTY = 1_000_000_000


def table_of(state: office.Office, at: int) -> str:
    """The table line of an office's problem, as docs/PLANS.md says it."""
    table = office.Problem(state, at).table
    members = {name: table[name] for name in ("cells", "lacks", "orders", "penalties", "wagons")}
    return json.dumps(members, separators=(",", ":")) + "\n"


def judged(history: History, at: int) -> str | None:
    """What is wrong with the table of a history's last version at a moment."""
    given = "".join(line + "\n" for line in history.lines).encode()
    moment = office.moment_text(at)
    table = run([*words_of("table", history.files), "--at", moment], given)
    if table.fault() or table.notes != history.state.early_notes(at) or table.out.decode() != table_of(history.state, at):
        return f"{table.out!r} {table.notes!r} {table.err!r} where {table_of(history.state, at)!r} is right"
    plan = json.dumps({"type": "plan", "at": moment}).encode()
    planned = [line for line in run(words_of("run", history.files), given + plan + b"\n").out.decode().splitlines() if " plan " in line][-1]
    solved = run(["solve"], table.out)
    cost = json.loads(solved.out)["cost"]
    checked = run(["check"], solved.out).out.decode()
    right = int(planned.split()[-1])
    return None if cost == right and checked == f"1 optimal {right}\n" else f"{solved.out!r} and {checked!r} where {planned!r}"


def random_history(seed: int) -> tuple[History, int]:
    history = History(FILES, seed)
    for _ in range(history.random.randint(5, 60)):
        history.step()
    history.close()
    return history, history.now


def day_at(minute: int) -> tuple[History, int]:
    """The example day's last version, at a moment."""
    return day_history(), office.moment_of("2026-03-02T06:00:00Z") + 60 * minute


def of_random(seed: int) -> str | None:
    return judged(*random_history(seed))


def of_the_day(minute: int) -> str | None:
    return judged(*day_at(minute))


# Reasons.


def counts(state: office.Office, free: Sequence[office.Free], fields: office.Fields, at: int) -> list[int]:
    """How many free wagons pass each test for an order, one after the other."""
    ways = state.networks[state.network - 1]
    tests: list[Callable[[office.Free], object]] = [
        lambda w: w[1] in fields["classes"], lambda w: fields["load"] <= w[2], lambda w: fields["place"] in ways.get(w[3], {}),
        lambda w: max(w[4], at) + 60 * ways[w[3]][fields["place"]][1] <= fields["latest"],
        lambda w: ways[w[3]][fields["place"]][0] < fields["penalty"],
    ]
    found: list[int] = []
    for test in tests:
        free = [wagon for wagon in free if test(wagon)]
        found.append(len(free))
    return found


def plans_of(table: office.Fields) -> Plans | None:
    """All plans of a table, each with its cost and what each wagon serves."""
    choices: list[list[int | None]] = [[None, *(j for j, cost in enumerate(row) if cost is not None)] for row in table["cells"]]
    if math.prod(map(len, choices)) > MOST_PLANS:
        return None
    plans: Plans = []
    for taken in itertools.product(*choices):
        if all(taken.count(j) <= lack for j, lack in enumerate(table["lacks"])):
            km = sum(table["cells"][i][j] for i, j in enumerate(taken) if j is not None)
            plans.append((km + sum(p * (lack - taken.count(j)) for j, (p, lack) in enumerate(zip(table["penalties"], table["lacks"]))), taken))
    return plans


def least(plans: Plans) -> float:
    return min((cost for cost, _ in plans), default=math.inf)


def with_lack(table: office.Fields, j: int, change: int) -> office.Fields:
    lacks = list(table["lacks"])
    lacks[j] += change
    return table | {"lacks": lacks}


def without(table: office.Fields, i: int | None = None, j: int | None = None) -> office.Fields:
    """A table without a wagon, and with one wagon less for an order."""
    return drop_filled({**(table if j is None else with_lack(table, j, -1)), "cells": [row for k, row in enumerate(table["cells"]) if k != i],
                        "wagons": [name for k, name in enumerate(table["wagons"]) if k != i]})


def drop_filled(table: office.Fields) -> office.Fields:
    """A table without the orders that lack nothing."""
    kept = [j for j, lack in enumerate(table["lacks"]) if lack]
    return {"wagons": table["wagons"], "cells": [[row[j] for j in kept] for row in table["cells"]]} | {
        name: [table[name][j] for j in kept] for name in ("orders", "penalties", "lacks")}


def least_cost(table: office.Fields) -> float:
    """What the best plan of a table costs: among all plans where they are few, else by `wagons solve`."""
    plans = plans_of(table)
    if plans is not None:
        return least(plans)
    cost: int = json.loads(run(["solve"], json.dumps(table).encode() + b"\n").out)["cost"]
    return cost


def wrong_number(table: office.Fields, cost: int, orders: Sequence[Sequence[str]], wagons: Sequence[tuple[int, int]]) -> str | None:
    """A number of an order or a wagon that isn't the difference of two least costs."""
    if least_cost(table) != cost:
        return f"cost {cost}, and {least_cost(table)} is the least"
    for j, (more, less) in enumerate(orders):
        is_full = table["lacks"][j] == 20 or sum(table["lacks"]) == 500
        if more != ("-" if is_full else str(least_cost(with_lack(table, j, 1)) - cost)):
            return f"{more} for one more of {table['orders'][j]}"
        if less != str(cost - least_cost(without(table, None, j))):
            return f"{less} for one less of {table['orders'][j]}"
    for i, without_it in wagons:
        if least_cost(without(table, i)) != cost + without_it:
            return f"{without_it} without {table['wagons'][i]}"
    return None


def broken_bound(table: office.Fields, plans: Plans, cost: int, orders: Sequence[tuple[int, int | None, str]], wagons: Sequence[tuple[int, int]]) -> str | None:
    """A bound that a plan breaks; no price stands where numbers are exact. What further wagons of an order cost is exact then, too."""
    if least(plans) != cost:
        return f"cost {cost}, and {least(plans)} is the least"
    for j, (gets, price, further) in enumerate(orders):
        more, fewer = (plans_of(with_lack(table, j, change)) or [] for change in (1, -1))
        if price is not None and (least(more) < cost + price or least(fewer) < cost - price):
            return f"the price {price} of {table['orders'][j]}"
        served = least([plan for plan in plans if plan[1].count(j) > gets])
        if further != "-" and not is_further(further, served - cost, price is None, table["penalties"][j]):
            return f"{further} for more of {table['orders'][j]}"
    for i, without in wagons:
        if least([plan for plan in plans if plan[1][i] is None]) < cost + without:
            return f"{without} without {table['wagons'][i]}"
    return None


def is_further(said: str, more: float, is_exact: bool, penalty: int) -> bool:
    """Whether the best plan that gives an order more wagons may cost so much more, by what is said of it."""
    if said == "none":
        return more == math.inf
    if said == "over":
        return is_exact and more >= MOST_PENALTY - penalty
    return more == int(said) if is_exact else more >= int(said)


def further_of(table: office.Fields, j: int, gets: int) -> str:
    """What the best plan costs more that gives an order more wagons, by the plan of a table in which it wants one more than it gets,
    at the highest penalty."""
    lack, penalty = table["lacks"][j], table["penalties"][j]
    changed = table | {name: [value if k == j else other for k, other in enumerate(table[name])]
                       for name, value in (("lacks", gets + 1), ("penalties", MOST_PENALTY))}
    solved = json.loads(run(["solve"], json.dumps(changed).encode() + b"\n").out)
    served = sum(order == table["orders"][j] for _, order in solved["pairs"])
    cost: int = solved["cost"]
    return str(cost + penalty * (lack - gets - 1)) if served > gets else "none"


def reasons(history: History, at: int) -> str | None:
    """What is wrong with the reasons of a history's last version at a moment, as exact numbers and as bounds."""
    return reasons_of(history, at, []) or reasons_of(history, at, ["--quick"])


def reasons_of(history: History, at: int, quick: list[str]) -> str | None:
    state = history.state
    problem = office.Problem(state, at)
    given = "".join(line + "\n" for line in history.lines).encode()
    why = run([*words_of("why", history.files), "--at", office.moment_text(at), *quick], given)
    if why.fault() or why.status == 2 or why.notes != state.early_notes(at):
        return f"{why.out!r} {why.notes!r} {why.err!r}"
    lines = plain(why.out.decode(), bool(quick))
    if lines is None:
        return f"the headings of {why.out!r}"
    rows = [row.split() for row in lines]
    orders = [row for row in rows if row[0] == "order"]
    wagons = [row for row in rows if row[0] == "wagon"]
    cost, go, stay, miss = map(int, rows[0][4:])
    waiting = [order for order in state.orders.values() if order.lack()]
    wanted = [["order", order.name, str(order.lack())] + [str(n) for n in counts(state, problem.free, order.fields, at)] for order in waiting]
    if [row[:3] + row[5:10] for row in orders] != wanted or any(int(row[2]) != int(row[3]) + int(row[4]) for row in orders):
        return f"{why.out!r} where {wanted!r} is right"
    if rows[0][:4] != ["why", str(state.length), str(len(problem.free)), str(len(waiting))] or (go, stay) != (len(wagons), len(problem.free) - go) or miss != sum(int(row[4]) for row in orders):
        return f"{rows[0]!r}"
    ways = state.networks[state.network - 1]
    free = {wagon[0]: wagon for wagon in problem.free}
    for _, number, name, km, arrival, _ in wagons:
        way = ways[free[number][3]][state.orders[name].fields["place"]]
        if int(km) != way[0] or arrival != office.moment_text(max(free[number][4], at) + 60 * way[1]):
            return f"{number} {km} {arrival}"
    stays = [(problem.table["wagons"].index(row[1]), int(row[5])) for row in wagons]
    if not quick and (wrong := wrong_number(problem.table, cost, [row[10:12] for row in orders], stays)):
        return wrong
    plans = plans_of(problem.table)
    if plans is None:
        return None if quick else wrong_further(problem.table, cost, orders)
    served = [(int(row[3]), int(row[10]) if quick else None, row[-1]) for row in orders]
    return broken_bound(problem.table, plans, cost, served, stays)


def wrong_further(table: office.Fields, cost: int, orders: Sequence[Sequence[str]]) -> str | None:
    """What is wrong with what further wagons of each order cost, where all plans are too many to be tried."""
    for j, row in enumerate(orders):
        right = "-" if row[4] == "0" else further_of(table, j, int(row[3]))
        if row[-1] != (str(int(right) - cost) if right.isdigit() else right):
            return f"{row[-1]} for more of {table['orders'][j]}, and {right} is the least"
    return None


# One order or one wagon.

# The words of each kind of line, as its heading has them.
HEADINGS = {
    "why": "why version free orders cost go stay miss", "order": "order name lacks gets misses class load way time cheaper more less further",
    "quick order": "order name lacks gets misses class load way time cheaper price further", "wagon": "wagon number order km arrival without",
    "stays": "stays number", "fits": "fits number name km more", "class": "class number name class classes", "count": "class count name classes",
    "load": "load number name limit load", "way": "way number name from to", "late": "late number name arrival latest",
    "costly": "costly number name km penalty"}
TESTS = ["class", "load", "way", "late", "costly"]


def plain(text: str, is_quick: bool) -> list[str] | None:
    """The lines of a text without their headings; none where a heading isn't what it must be, before the first line of each kind."""
    lines = [line for line in text.splitlines() if not line.startswith("#")]
    headed: list[str] = []
    for line, before in zip(lines, ["", *lines]):
        word = line.split(" ")[0]
        if word != before.split(" ")[0]:
            kind = "count" if word == "class" and len(line.split(" ")) == 4 else "quick order" if word == "order" and is_quick else word
            headed.append(f"# {HEADINGS[kind]}")
        headed.append(line)
    return lines if text == "".join(f"{line}\n" for line in headed) else None

NAMES: dict[str, list[str]] = {
    "order": ["lacks", "gets", "misses", "class", "load", "way", "time", "cheaper", "more", "less", "further"],
    "quick order": ["lacks", "gets", "misses", "class", "load", "way", "time", "cheaper", "price", "further"],
    "wagon": ["order", "km", "arrival", "without"], "stays": [], "fits": ["order", "km", "more"], "class": ["order", "has", "wants"], "count": ["order", "wants"],
    "load": ["order", "has", "wants"], "way": ["order", "from", "to"], "late": ["order", "arrival", "latest"],
    "costly": ["order", "km", "penalty"], "why": ["free", "orders", "cost", "go", "stay", "miss"],
}
TEXTS = {"from", "to", "arrival", "latest"}


def member_of(word: str, name: str, value: str) -> object:
    """The value of a member of a JSON line, by its word in the text."""
    if name == "wants" and word == "class":
        return value.split(",")
    if name in ("further", "more") and not value.isdigit():
        return None if value == "-" else value
    if name in TEXTS or name == "order" or word == "class":
        return value
    return int(value)


def json_of(line: str) -> str:
    """The JSON line that says what a line of text says."""
    word, first, *values = line.split(" ")
    is_count = word == "class" and len(values) == 2
    said: dict[str, object] = {word: int(first) if word == "why" or is_count else first}
    names = NAMES["quick order" if word == "order" and len(values) == 10 else "count" if is_count else word]
    said |= {name: member_of(word, name, value) for name, value in zip(names, values)}
    if word == "fits":
        said["planned"] = values[3:] == ["planned"]
    return json.dumps(said, separators=(",", ":"))


def failed_line(state: office.Office, wagon: office.Free, order: office.Order, at: int) -> str | None:
    """The line of a pair that fails a test; none where it fails none."""
    number, kind, load, place, ready = wagon
    fields, pair = order.fields, f"{wagon[0]} {order.name}"
    way = state.networks[state.network - 1].get(place, {}).get(fields["place"])
    if kind not in fields["classes"]:
        return f"class {pair} {kind} {','.join(fields['classes'])}"
    if fields["load"] > load:
        return f"load {pair} {load} {fields['load']}"
    if way is None:
        return f"way {pair} {place} {fields['place']}"
    arrival = max(ready, at) + 60 * way[1]
    if arrival > fields["latest"]:
        return f"late {pair} {office.moment_text(arrival)} {office.moment_text(fields['latest'])}"
    return f"costly {pair} {way[0]} {fields['penalty']}" if way[0] >= fields["penalty"] else None


def failures_of(pairs: Sequence[Pair], is_order: bool) -> list[str]:
    """The lines of pairs that fail a test, by the test. About an order, wagons of other classes are only counted."""
    by_test = {word: [line for _, line in pairs if line and line.startswith(f"{word} ")] for word in TESTS}
    if is_order and (others := by_test["class"]):
        _, _, name, _, classes = others[0].split(" ")
        by_test["class"] = [f"class {len(others)} {name} {classes}"]
    return [line for word in TESTS for line in by_test[word]]


def wrong_pairs(table: office.Fields, lines: Sequence[str], pairs: Sequence[Pair], failures: Sequence[str], plans: Plans | None, whole: Sequence[str],
                is_quick: bool) -> str | None:
    """What is wrong with the lines of pairs, each with its line where it fails a test."""
    fits = {f"{table['wagons'][i]} {table['orders'][j]}": (i, j) for (i, j), line in pairs if not line}
    if lines[len(fits):] != failures:
        return f"{lines!r} where {failures!r} is right"
    cost, last = int(whole[0].split()[4]), -1
    for line in lines[:len(fits)]:
        word, number, name, km, more, *rest = line.split(" ")
        i, j = fits.pop(f"{number} {name}", (-1, -1))
        planned = any(row.startswith(f"wagon {number} {name} ") for row in whole)
        as_good = "another plan may be as good" if is_quick else "another plan is as good"
        words = ["planned"] if planned else as_good.split() if more == "0" else []
        if word != "fits" or i < 0 or int(km) != table["cells"][i][j] or int(more) < last or rest != words:
            return f"{line!r}"
        last = int(more)
        if is_quick and plans is not None and least([plan for plan in plans if plan[1][i] == j]) < cost + last:
            return f"the bound of {line!r}"
        if not is_quick and int(km) + least_cost(without(table, i, j)) != cost + last:
            return f"the number of {line!r}"
    return None


def asked(history: History, at: int) -> str | None:
    """What is wrong with what is said of each order and of each wagon, as text and as JSON lines, as exact numbers and as bounds."""
    return asked_of(history, at, []) or asked_of(history, at, ["--quick"])


def asked_of(history: History, at: int, quick: list[str]) -> str | None:
    state = history.state
    problem = office.Problem(state, at)
    table, waiting = problem.table, [order for order in state.orders.values() if order.lack()]
    given = "".join(line + "\n" for line in history.lines).encode()
    words = [*words_of("why", history.files), "--at", office.moment_text(at), *quick]
    whole = plain(run(words, given).out.decode(), bool(quick)) or []
    plans = plans_of(table)
    failed = [[failed_line(state, wagon, order, at) for order in waiting] for wagon in problem.free]
    questions = [(["--order", order.name], [((i, j), failed[i][j]) for i in range(len(failed))]) for j, order in enumerate(waiting)]
    questions += [(["--wagon", wagon[0]], [((i, j), line) for j, line in enumerate(failed[i])]) for i, wagon in enumerate(problem.free)]
    for (option, name), pairs in questions:
        told = run([*words, option, name], given)
        first, *lines = plain(told.out.decode(), bool(quick)) or [""]
        heads = [row for row in whole if row.startswith(f"{option[2:]} {name} ")] or [f"stays {name}"]
        if told.fault() or told.notes != state.early_notes(at) or first != heads[0]:
            return f"{told.out!r} {told.notes!r} {told.err!r}"
        if wrong := wrong_pairs(table, lines, pairs, failures_of(pairs, option == "--order"), plans, whole, bool(quick)):
            return f"{option} {name}: {wrong}"
        if run([*words, option, name, "--json"], given).out.decode().splitlines() != [json_of(line) for line in (first, *lines)]:
            return f"{option} {name} --json"
    if run([*words, "--json"], given).out.decode().splitlines() != [json_of(line) for line in whole]:
        return "--json"
    nobody = run([*words, "--order", "NO-SUCH-ORDER"], given)
    return None if (nobody.status, nobody.out, nobody.err) == (2, b"", b"wagons: 84 NO-SUCH-ORDER\n") else f"{nobody.err!r}"


def asked_of_random(seed: int) -> str | None:
    return asked(*random_history(seed))


def asked_of_the_day(minute: int) -> str | None:
    return asked(*day_at(minute))


def reasons_of_random(seed: int) -> str | None:
    return reasons(*random_history(seed))


def reasons_of_the_day(minute: int) -> str | None:
    return reasons(*day_at(minute))


# Where memory is refused, and tables of full size.

MORNING = "2026-03-02T06:00:00Z"
WORDS = [[*words, "--at", MORNING] for words in (["table"], ["why"], ["why", "--order", "SALT-1"], ["why", "--wagon", "318127710032", "--json"])]


def morning() -> bytes:
    """The office of the example day at six o'clock, as a checkpoint."""
    with open(f"{DAY}/day.jsonl", "rb") as file:
        return run(words_of("save", DAY_FILES), b"".join(file.readlines()[:8])).out


def from_morning(asked: Sequence[str], text: bytes, **refusals: int | str) -> Outcome:
    with written(text) as path:
        networks = [word for network in DAY_FILES[1] for word in ("--network", network)]
        return run([*asked, "--from", path, *networks], b"", **refusals)


def without_memory(case: tuple[list[str], bytes, bytes, Refusals]) -> str | None:
    """What is told without a refusal, or `wagons: 1` and nothing else."""
    asked, text, right, refusals = case
    outcome = from_morning(asked, text, **refusals)
    if outcome.fault():
        return outcome.fault()
    if outcome.status == 2:
        return None if outcome.err in STARTS and not outcome.out else f"{outcome.err!r} and {outcome.out!r}"
    return None if outcome.out == right else f"{outcome.out!r} where {right!r} is right"


def refused_cases(count: int, words: Sequence[list[str]]) -> Iterator[tuple[list[str], bytes, bytes, Refusals]]:
    text = morning()
    for asked in words:
        right = from_morning(asked, text).out
        most = from_morning(asked, text, refuse_from=ALL).counts[0]
        yield from ((asked, text, right, {"refuse_from": n, "refuse_count": count}) for n in range(1, most))


def full_table(wagons: int, orders: int) -> bytes:
    dice = random.Random(wagons)
    cells = [[None if dice.random() < 0.1 else dice.randint(1, 9_999) for _ in range(orders)] for _ in range(wagons)]
    fields = {"wagons": [wagon_number(str(33_847_961_000 + k)) for k in range(wagons)], "orders": [f"O{k}" for k in range(orders)], "cells": cells, "penalties": [20_000] * orders}
    return json.dumps(fields).encode() + b"\n"


def of_full_size(size: tuple[int, int]) -> str | None:
    """A table of full size is solved and judged; one wagon or order more is refused with 53."""
    limit = ["--line-bytes", "67108864"]
    solved = run(["solve", *limit], full_table(*size))
    if size != (1_000, 500):
        return None if solved.out == b'{"line":1,"refused":"53"}\n' else f"{solved.out[:200]!r}"
    cost = json.loads(solved.out)["cost"]
    checked = run(["check", *limit], solved.out).out.decode()
    return None if checked == f"1 optimal {cost}\n" else f"{checked!r}"


def main() -> None:
    table = Table()
    table.row("`table` and `why` of random histories and the example day, beside all plans where these are few")
    table.try_all("`table` of random histories, and `solve` beside `plan`", of_random, range(HISTORIES))
    table.try_all("`table` of the example day at many moments, and `solve` beside `plan`", of_the_day, range(0, 720, 20))
    table.try_all("`why` of random histories, its numbers tried by plans of their own, its bounds by all plans where they are few", reasons_of_random, range(HISTORIES))
    table.try_all("`why` of the example day at many moments", reasons_of_the_day, range(0, 720, 20))
    table.try_all("`why` of each order and wagon of random histories, as text and JSON, its bounds tried likewise", asked_of_random, range(HISTORIES))
    table.try_all("`why` of each order and wagon of the example day at many moments", asked_of_the_day, range(0, 720, 60))
    table.row("`table` and `why` from a checkpoint: requests for memory refused")
    table.try_all("`table` and `why` from a checkpoint: one request for memory refused", without_memory, list(refused_cases(1, WORDS)))
    table.try_all("`table` and `why` from a checkpoint: all requests from one on refused", without_memory, list(refused_cases(ALL, WORDS)))
    table.row("tables of full size, and one wagon or order more")
    table.try_all("a table of 1,000 by 500 solved and judged, one wagon or order more refused", of_full_size, [(1_000, 500), (1_001, 500), (1_000, 501)])
    table.end()


if __name__ == "__main__":
    main()
