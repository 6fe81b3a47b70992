"""Writes the tables of the bench from a seed into a folder: a table line each, NAME.json, and its numbers, NAME.txt.

tables.py FOLDER [PART]: with a part, only one in so many of the wagons and of the orders.
"""
import json
import random
import sys

from table_numbers import numbers_of

# A row of costs for each wagon; an order that it may not serve has none.
Rows = list[list[int | None]]
FOLDER = sys.argv[1]
PART = int(sys.argv[2]) if len(sys.argv) > 2 else 1
MOST = 1_000_000


def full(wagons: int, orders: int, most: int) -> Rows:
    return [[random.randint(1, most) for _ in range(orders)] for _ in range(wagons)]


def thinned(rows: Rows, share: float) -> Rows:
    return [[cost if random.random() < share else None for cost in row] for row in rows]


def products(wagons: int, orders: int) -> Rows:
    return [[(i + 1) * (j + 1) for j in range(orders)] for i in range(wagons)]


def along_a_line(wagons: int, orders: int) -> Rows:
    wagon_at = [random.randint(1, 1_000) for _ in range(wagons)]
    order_at = [random.randint(1, 1_000) for _ in range(orders)]
    return [[abs(here - there) for there in order_at] for here in wagon_at]


def near_diagonal(wagons: int, orders: int) -> Rows:
    """A cell where wagon and order are near in their lists, the nearer the cheaper."""
    apart = [[abs(i * orders - j * wagons) // wagons for j in range(orders)] for i in range(wagons)]
    return [[50 * far + random.randint(1, 100) if far < 25 else None for far in row] for row in apart]


def clusters(wagons: int, orders: int) -> Rows:
    """Ten yards, each with a part of the wagons and orders: a cost depends on the two yards alone."""
    between = full(10, 10, 100)
    return [[between[i % 10][j % 10] for j in range(orders)] for i in range(wagons)]


def network(places: int) -> list[list[int]]:
    """The kilometres between places of a network like a railway's: each has lines to the two nearest and to one before it."""
    at = [(random.randrange(600), random.randrange(600)) for _ in range(places)]
    km = [[0 if a == b else 1_000_000 for b in range(places)] for a in range(places)]
    for a, (x, y) in enumerate(at):
        near = sorted((int(1.2 * ((x - other_x) ** 2 + (y - other_y) ** 2) ** 0.5) + 1, b) for b, (other_x, other_y) in enumerate(at) if b != a)
        for way, b in near[:2] + [entry for entry in near if entry[1] < a][:1]:
            km[a][b] = km[b][a] = way
    for middle in range(places):
        for row in km:
            row[:] = [min(way, row[middle] + further) for way, further in zip(row, km[middle])]
    return km


def office(wagons: int, orders: int, cut: int) -> tuple[Rows, list[int], list[int]]:
    """What an office plans: its rows, penalties and lacks. Wagons stand at 60 places, in cuts of up to so many alike. They
    have one of eight classes and of five load limits, and a third of them is ready at once, the others within two days.
    An order lists one to three classes; about half of the pairs that suit are in time. All orders lack 500 wagons at most."""
    km = network(60)
    fleet: list[tuple[int, int, int, int]] = []
    while len(fleet) < wagons:
        wagon = (random.randrange(60), random.randrange(8), random.choice([20, 25, 40, 55, 60]), 60 * max(0, random.randrange(72) - 24))
        fleet += [wagon] * min(random.randint(1, cut), wagons - len(fleet))
    random.shuffle(fleet)
    rows: Rows = [[] for _ in fleet]
    penalties: list[int] = []
    lacks: list[int] = []
    left = 500 - orders
    for _ in range(orders):
        place, load, latest = random.randrange(60), random.choice([15, 20, 25, 40, 55]), 60 * random.randrange(62)
        classes = random.sample(range(8), random.randint(1, 3))
        for row, (at, of_class, limit, ready) in zip(rows, fleet):
            way = km[at][place]
            row.append(way if of_class in classes and load <= limit and ready + way * 3 // 2 <= latest else None)
        more = min(random.randrange(3), left)
        left -= more
        lacks.append(1 + more)
        penalties.append(100 * random.randint(5, 30))
    return rows, penalties, lacks


def write_all(name: str, rows: Rows, penalties: list[int], lacks: list[int]) -> None:
    line = {
        "wagons": [], "orders": [], "cells": rows, "penalties": penalties,
        "lacks": lacks, "pairs": [], "u": [], "v": [],
    }
    with open(f"{FOLDER}/{name}.json", "w") as file:
        json.dump(line, file, separators=(",", ":"))
    with open(f"{FOLDER}/{name}.txt", "w") as file:
        file.write(numbers_of(line))


def write(name: str, rows: Rows, penalty: int = 1_000_000_000, lack: int = 1) -> None:
    orders = len(rows[0])
    write_all(name, rows, [penalty] * orders, [lack] * orders)


random.seed(20_260_301)
write("full", full(1_000 // PART, 500 // PART, MOST))
write("full_small_costs", full(1_000 // PART, 500 // PART, 100))
write("a_tenth", thinned(full(1_000 // PART, 500 // PART, MOST), 0.1))
write("square", full(500 // PART, 500 // PART, MOST))
write("too_few_wagons", full(300 // PART, 500 // PART, MOST))
# With these penalties about a third of the orders are refused.
write("a_third_refused", full(1_000 // PART, 500 // PART, MOST), penalty=1_200)
write("lacks_of_10", full(1_000 // PART, 50 // PART, MOST), lack=10)
write("lacks_of_20", full(1_000 // PART, 25 // PART, MOST), lack=20)
write("products_square", products(500 // PART, 500 // PART))
write("products", products(1_000 // PART, 500 // PART))
write("along_a_line", along_a_line(1_000 // PART, 500 // PART))
write("a_hundredth", thinned(full(1_000 // PART, 500 // PART, MOST), 0.01))
write("near_diagonal", near_diagonal(1_000 // PART, 500 // PART))
write("clusters", clusters(1_000 // PART, 500 // PART))
write_all("office", *office(1_000 // PART, 300 // PART, 1))
write_all("office_cuts", *office(1_000 // PART, 300 // PART, 20))
