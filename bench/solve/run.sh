#!/usr/bin/env bash
# Times `wagons solve` over 1,010 tables beside `wagons check` over the same tables with their plans, in one run, and
# prints the ratio, which is to be at most 2.0. Then it times `solve` over one table of 1,000 wagons and 500 orders beside
# Python's reader of JSON over that line alone. WAGONS=FILE times another build than out/wagons.
#
# bench/solve/run.sh [TURNS | --smoke]: twenty turns where nothing is said; --smoke takes one, and prints no time.
set -euo pipefail
cd "$(dirname "$0")"
smoke=
if [ "${1:-}" = --smoke ]; then
  # What it says of times goes nowhere.
  smoke=1
  exec 3>&1 > /dev/null
  set -- 1
fi
wagons=$(../../tools/program wagons "${WAGONS:-}")
work=$(mktemp -d)
trap 'rm -rf "$work"' EXIT
/usr/bin/python3 tables.py > "$work/tables.jsonl"
"$wagons" solve < "$work/tables.jsonl" > "$work/solved.jsonl"
"$wagons" check < "$work/solved.jsonl" > "$work/checked"
tables=$(wc -l < "$work/tables.jsonl")
optimal=$(grep -c ' optimal ' "$work/checked")
echo "tables: $tables, longest with its plan: $(wc -L < "$work/solved.jsonl") bytes, optimal by check: $optimal"
[ "$tables" = "$optimal" ] || exit 1
# The costs that solve prints are those that check finds.
grep -o '"cost":[0-9]*' "$work/solved.jsonl" | cut -d: -f2 | cmp - <(awk '{ print $3 }' "$work/checked")

once() { # how long a word takes over a file, in tenths of a millisecond
  local start end
  start=$(date +%s%N)
  "$wagons" "$1" < "$2" > /dev/null
  end=$(date +%s%N)
  echo $(( (end - start) / 100000 ))
}

# The two take turns, and each has its least time, so that what else the machine does falls out.
solve_time=999999999
check_time=999999999
for _ in $(seq "${1:-20}"); do
  now=$(once solve "$work/tables.jsonl")
  (( now < solve_time )) && solve_time=$now
  now=$(once check "$work/solved.jsonl")
  (( now < check_time )) && check_time=$now
done
awk -v s="$solve_time" -v c="$check_time" 'BEGIN { printf "wagons solve %.1f ms, wagons check %.1f ms, ratio %.2f (limit 2.0)\n", s / 10, c / 10, s / c }'

# A table of full size: reading, planning and printing, beside Python's reading alone. Python's start isn't counted.
/usr/bin/python3 tables.py full > "$work/full.jsonl"
"$wagons" solve --line-bytes 67108864 < "$work/full.jsonl" > "$work/full_solved.jsonl"
[ "$("$wagons" check --line-bytes 67108864 < "$work/full_solved.jsonl" | cut -d' ' -f1,2)" = "1 optimal" ] || exit 1
/usr/bin/python3 - "$wagons" "$work/full.jsonl" "${1:-20}" <<'END'
import json, subprocess, sys, time

wagons, path, turns = sys.argv[1], sys.argv[2], int(sys.argv[3])
with open(path, encoding="utf-8") as file:
    line = file.read()


def taken(call):
    begun = time.perf_counter()
    call()
    return 1000 * (time.perf_counter() - begun)


def solve():
    with open(path, "rb") as file:
        subprocess.run([wagons, "solve", "--line-bytes", "67108864"], stdin=file, stdout=subprocess.DEVNULL, check=True)


# The two take turns, and each has its least time.
times = [(taken(solve), taken(lambda: json.loads(line))) for _ in range(turns)]
solve_time, json_time = (min(column) for column in zip(*times))
print(f"{len(line)} bytes: wagons solve {solve_time:.1f} ms, Python's json alone {json_time:.1f} ms, ratio {solve_time / json_time:.2f} (limit 1.5)")
END
[ -z "$smoke" ] || echo "bench/solve: $tables tables and one of full size, each optimal at the cost that solve printed" >&3
