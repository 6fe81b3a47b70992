#!/usr/bin/env python3
"""The share of the time of a feed's threads that they wait: waiting.py TRACE FILES.

TRACE is what `strace -f -ttt -T -e trace=futex,clone,clone3,exit` wrote. The last FILES threads that were started are those
of the files; each one's time goes from its start to its end, and it waits while it is in a call of futex.
"""

import re
import sys


def main() -> None:
    path, files = sys.argv[1], int(sys.argv[2])
    begun: dict[str, float] = {}
    ended: dict[str, float] = {}
    waited: dict[str, float] = {}
    order: list[str] = []
    with open(path) as trace:
        for row in trace:
            found = re.match(r"(\d+) +([\d.]+) (.*)", row)
            assert found, row
            thread, at, call = found.groups()
            made = re.search(r"clone3?.* = (\d+)( <[\d.]+>)?$", call)
            if made:
                order.append(made[1])
                begun[made[1]] = float(at)
            ended[thread] = float(at)
            took = re.search(r"futex.*<([\d.]+)>$", call)
            if took:
                waited[thread] = waited.get(thread, 0) + float(took[1])
    threads = order[-files:]
    whole = sum(ended[thread] - begun[thread] for thread in threads)
    print(f"{sum(waited.get(thread, 0) for thread in threads) / whole:.1%}")


if __name__ == "__main__":
    main()
