#!/usr/bin/env bash
# Times `wagons why` over 1,000 free wagons and 300 waiting orders (those of bench/run) beside `wagons run` with one plan line
# over the same lines, each less `wagons run` over the lines alone, in one run, and prints the ratio. With `--quick` it is to be
# at most 5.0. Without it each number has a plan of its own: all orders and all wagons that go are to take at most 1,000 ms, one
# order with all its pairs 50 ms.
# WAGONS=FILE times another build than out/wagons.
#
# bench/why/run.sh [TURNS | --smoke]: twenty turns where nothing is said; --smoke takes one, and prints no time.
set -euo pipefail
cd "$(dirname "$0")"
smoke=
if [ "${1:-}" = --smoke ]; then
  # What it says of times goes nowhere.
  smoke=1
  exec 3>&1 > /dev/null
  set -- 1
fi
wagons=$(../../tools/program wagons "${WAGONS:-}")
work=$(mktemp -d)
trap 'rm -rf "$work"' EXIT
/usr/bin/python3 ../run/day.py "$wagons" "$work" 1000 > /dev/null
/usr/bin/python3 ../run/waiting.py "$work" 1
/usr/bin/python3 - "$wagons" "$work" "${1:-20}" <<'END'
import json, subprocess, sys, time

wagons, work, turns = sys.argv[1], sys.argv[2], int(sys.argv[3])
options = ["--roster", f"{work}/roster.csv", "--network", f"{work}/network.csv"]
with open(f"{work}/plans.jsonl", encoding="utf-8") as file:
    at = json.loads(file.read().splitlines()[-1])["at"]


def taken(words, lines):
    """How long the program takes over these lines, in milliseconds."""
    with open(f"{work}/{lines}.jsonl", "rb") as file:
        begun = time.perf_counter()
        subprocess.run([wagons, *words, *options], stdin=file, stdout=subprocess.DEVNULL, check=True)
        return 1000 * (time.perf_counter() - begun)


quick = ["why", "--quick", "--at", at]
asked = {"why --quick": quick, "why --quick --json": [*quick, "--json"], "why --quick --order P0": [*quick, "--order", "P0"],
         "why": ["why", "--at", at], "why --order P0": ["why", "--at", at, "--order", "P0"]}
limits = {name: "limit 5.0" for name in asked if "--quick" in name} | {"why": "limit 1,000 ms", "why --order P0": "limit 50 ms"}
# All take turns, and each has its least time, so that what else the machine does falls out.
rows = [[taken(["run"], "orders"), taken(["run"], "plans"), *(taken(words, "orders") for words in asked.values())] for _ in range(turns)]
orders, plan, *told = (min(column) for column in zip(*rows))
print(f"the orders alone {orders:.1f} ms, with a plan line {plan - orders:.1f} ms more")
for name, time_told in zip(asked, told):
    limit = f" ({limits[name]})" if name in limits else ""
    print(f"{name}: {time_told - orders:.1f} ms more, {(time_told - orders) / (plan - orders):.2f} of the plan line{limit}")
END
[ -z "$smoke" ] || echo "bench/why: an office and an order of 300, as text and as JSON" >&3
