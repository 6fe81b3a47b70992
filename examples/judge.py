#!/usr/bin/python3
"""Plans tables by a solver that knows nothing of wagons (HiGHS, by scipy), and prints each with its plan and the solver's own
prices, for `wagons check` to judge. Table lines come on standard input, one JSON object a line."""

import json
import sys
from typing import Any

import numpy
from scipy.optimize import linprog  # type: ignore[import]  # Debian's scipy has no types.


def solved(table: dict[str, Any]) -> dict[str, Any]:
    """A table with the pairs and prices of a linear program: a variable for each cell, and one for what each order misses."""
    wagons, orders = range(len(table["wagons"])), range(len(table["orders"]))
    lacks = table.get("lacks", [1] * len(orders))
    cells = [(i, j) for i in wagons for j in orders if table["cells"][i][j] is not None]
    costs = [table["cells"][i][j] for i, j in cells] + table["penalties"]
    at_most_once = numpy.zeros((len(wagons), len(costs)))
    as_it_lacks = numpy.zeros((len(orders), len(costs)))
    for k, (i, j) in enumerate(cells):
        at_most_once[i, k] = as_it_lacks[j, k] = 1
    for j in orders:
        as_it_lacks[j, len(cells) + j] = 1
    found = linprog(costs, A_ub=at_most_once, b_ub=[1] * len(wagons), A_eq=as_it_lacks, b_eq=lacks, method="highs-ds")
    pairs = [[table["wagons"][i], table["orders"][j]] for k, (i, j) in enumerate(cells) if round(found.x[k]) == 1]
    # What one wagon more would spare, and one wagon less wanted: the marginals, a wagon's with its sign turned.
    prices = {"u": [-round(u) for u in found.ineqlin.marginals], "v": [round(v) for v in found.eqlin.marginals]}
    return {**table, "pairs": pairs, **prices}


for line in sys.stdin:
    print(json.dumps(solved(json.loads(line))))
