"""Times scipy's linear_sum_assignment on a table line from standard input: TIMES.

Each unit that an order lacks is a row, each wagon a column; a unit that is refused takes a column more, at its penalty.
Where there are no fewer wagons than units, a shorter form is timed too, which leaves those columns out: a wagon that
costs more than the penalty stands for the refusal. The cost goes to standard output, and the least time of the call
alone for each form to standard error, in microseconds.
"""
import json
import sys
import time

import numpy
from scipy.optimize import linear_sum_assignment  # type: ignore[import]  # Debian's scipy has no types.

line = json.load(sys.stdin)
lacks = numpy.array(line["lacks"])
penalties = numpy.repeat(numpy.array(line["penalties"], dtype=float), lacks)
units = len(penalties)
costs = numpy.array(
    [[numpy.inf if cost is None else cost for cost in row] for row in line["cells"]], dtype=float
).reshape(len(line["cells"]), len(lacks))
served = numpy.ascontiguousarray(numpy.repeat(costs, lacks, axis=1).T)
refused = numpy.repeat(penalties[:, None], units, axis=1)

forms = [numpy.ascontiguousarray(numpy.hstack([served, refused]))]
if served.shape[1] >= units:
    forms.append(numpy.minimum(served, penalties[:, None]))
costs_found: set[int] = set()
times: list[int] = []
for matrix in forms:
    turns = []
    for _ in range(int(sys.argv[1])):
        start = time.perf_counter_ns()
        rows, columns = linear_sum_assignment(matrix)
        turns.append(time.perf_counter_ns() - start)
    costs_found.add(int(matrix[rows, columns].sum()))
    times.append(min(turns) // 1_000)
assert len(costs_found) == 1, costs_found
print(costs_found.pop())
print(*times, file=sys.stderr)
