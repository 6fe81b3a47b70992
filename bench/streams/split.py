#!/usr/bin/python3
"""What it costs in kilometres to cut a fleet into offices: split.py [FLEETS [WAGONS]]. It needs Debian's python3-scipy.

Made-up fleets, 8,000 wagons each, are planned as one office and as 2, 4 and 8 offices, cut in four ways. Each plan is one
of least cost, by scipy's linear_sum_assignment, since `wagons` itself has at most 1,000 wagons an office. The numbers are
the medians over the fleets of what the offices' plans cost more than the plan of one office, penalties among the cost.
"""

import statistics
import sys
from typing import Any

import numpy
from scipy.optimize import linear_sum_assignment  # type: ignore[import]  # Debian's scipy has no types.

# Rows of numbers: places, or who is chosen of them.
Numbers = numpy.ndarray[Any, Any]
PLACES = 400
CLASSES = 8
# So many of a hundred wagons are free at once, and so many are wanted.
FREE, WANTED = 40, 20
# So many of a hundred orders take the other class of their pair too: 0 and 1 are a pair, 2 and 3, ..
BOTH = 20
PENALTY = 1000
# Straight kilometres become kilometres of line.
DETOUR = 1.3
CUTS = ["class", "class and region", "region", "at random"]


class Fleet:
    """Free wagons and wanted ones, at places of 1,200 by 1,000 km. Where many come free, few are wanted: both are uneven."""

    def __init__(self, seed: int, wagons: int) -> None:
        self.draw = draw = numpy.random.default_rng(seed)
        places = draw.uniform((0, 0), (1200, 1000), (PLACES, 2))
        unloads, loads = (weights / weights.sum() for weights in draw.lognormal(0, 1, (2, PLACES)))
        free, wanted = wagons * FREE // 100, wagons * WANTED // 100
        self.wagons, self.wagon_class = places[draw.choice(PLACES, free, p=unloads)], draw.integers(CLASSES, size=free)
        self.orders, self.order_class = places[draw.choice(PLACES, wanted, p=loads)], draw.integers(CLASSES, size=wanted)
        self.takes_both = draw.integers(100, size=wanted) < BOTH
        # The kilometres to each place within a day or three.
        self.reach = draw.choice([400, 800, 1600], wanted)

    def costs(self, orders: Numbers, wagons: Numbers) -> Numbers:
        """Kilometres of each pair; a pair that isn't allowed costs as much as a refusal, and so is none."""
        apart = self.orders[orders][:, None, :] - self.wagons[wagons][None, :, :]
        km = numpy.rint(DETOUR * numpy.hypot(apart[..., 0], apart[..., 1]))
        wants, has = self.order_class[orders][:, None], self.wagon_class[wagons][None, :]
        suits = (wants == has) | (self.takes_both[orders][:, None] & (wants // 2 == has // 2))
        return numpy.where(suits & (km <= self.reach[orders][:, None]), numpy.minimum(km, PENALTY), PENALTY)

    def least(self, orders: Numbers, wagons: Numbers) -> tuple[int, int]:
        """What a plan of least cost costs, and how many wanted wagons it misses."""
        if not len(orders):
            return 0, 0
        costs = self.costs(orders, wagons)
        if len(wagons) < len(orders):
            costs = numpy.hstack([costs, numpy.full((len(orders), len(orders) - len(wagons)), PENALTY)])
        found = costs[linear_sum_assignment(costs)]
        return int(found.sum()), int((found == PENALTY).sum())

    def offices(self, cut: str, count: int) -> tuple[Numbers, Numbers]:
        """The office of each order and each wagon."""
        if cut == "at random":
            return self.draw.integers(count, size=len(self.orders)), self.draw.integers(count, size=len(self.wagons))
        if cut == "class":
            return self.order_class * count // CLASSES, self.wagon_class * count // CLASSES
        if cut == "region":
            return self.regions(count)
        groups = max(count // 2, 1)
        orders, wagons = self.regions(2)
        return self.order_class * groups // CLASSES * 2 + orders, self.wagon_class * groups // CLASSES * 2 + wagons

    def regions(self, count: int) -> tuple[Numbers, Numbers]:
        """By stripes from west to east with as many free wagons each; eight regions are four stripes of two halves."""
        stripes = count if count <= 4 else count // 2
        bounds = numpy.quantile(self.wagons[:, 0], numpy.linspace(0, 1, stripes + 1)[1:-1])
        middle = numpy.median(self.wagons[:, 1])

        def region(places: Numbers) -> Numbers:
            stripe: Numbers = numpy.searchsorted(bounds, places[:, 0])
            half: Numbers = stripe * 2 + (places[:, 1] > middle)
            return stripe if stripes == count else half

        return region(self.orders), region(self.wagons)

    def least_in(self, cut: str, count: int) -> tuple[int, int]:
        orders, wagons = self.offices(cut, count)
        plans = [self.least(numpy.flatnonzero(orders == office), numpy.flatnonzero(wagons == office)) for office in range(count)]
        return sum(cost for cost, _ in plans), sum(missed for _, missed in plans)


def main() -> None:
    fleets = int(sys.argv[1]) if len(sys.argv) > 1 else 5
    wagons = int(sys.argv[2]) if len(sys.argv) > 2 else 8000
    every = [Fleet(seed, wagons) for seed in range(fleets)]
    one = [fleet.least_in("class", 1) for fleet in every]
    cost, missed = (statistics.median(values) for values in zip(*one))
    print(f"one office: {cost:,.0f} km and penalties, {missed:,.0f} of {wagons * WANTED // 100:,} wanted wagons missed; medians of {fleets} fleets")
    print("| Cut by | 2 offices | 4 offices | 8 offices |")
    print("|---|---|---|---|")
    for cut in CUTS:
        cells = []
        for count in (2, 4, 8):
            more = [(fleet.least_in(cut, count), alone) for fleet, alone in zip(every, one)]
            percent = statistics.median(100 * (parts[0] / alone[0] - 1) for parts, alone in more)
            missing = statistics.median(parts[1] - alone[1] for parts, alone in more)
            cells.append(f"{percent:.1f} % more, {missing:.0f} more missed")
        print(f"| {cut} | {' | '.join(cells)} |", flush=True)


if __name__ == "__main__":
    main()
