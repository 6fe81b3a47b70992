#!/usr/bin/env bash
# Times `wagons check` beside a program that only parses the same lines with Rust's serde_json, in one run, and prints the
# ratio and the memory that `wagons check` held: first lines in the manual's order, then lines as `wagons solve` prints
# them, with `lacks`. WAGONS=FILE times another build than out/wagons. --smoke takes few lines once, and prints no time.
set -euo pipefail
cd "$(dirname "$0")"
smoke=
if [ "${1:-}" = --smoke ]; then
  # What it says of times goes nowhere.
  smoke=1
  exec 3>&1 > /dev/null
fi
lines=${smoke:+1000}
tables=${smoke:+100}
turns=${smoke:-20}
wagons=$(../../tools/program wagons "${WAGONS:-}")
../../tools/packages bench/check librust-serde-json-dev
(cd peer && cargo build --release --offline --quiet)
work=$(mktemp -d)
trap 'rm -rf "$work"' EXIT
peer/target/release/lines "${lines:-100000}" > "$work/manual.jsonl"
/usr/bin/python3 ../solve/tables.py lacks "${tables:-20000}" | "$wagons" solve > "$work/solved.jsonl"

once() { # once FILE COMMAND..: how long a command takes over the lines of a file, in tenths of a millisecond
  local start end file=$1
  shift
  start=$(date +%s%N)
  "$@" < "$file" > /dev/null
  end=$(date +%s%N)
  echo $(( (end - start) / 100000 ))
}

timed() { # timed NAME LIMIT: what the two take over the lines of that name, and the limit of their ratio
  local lines=$work/$1.jsonl now peer_time=999999999 wagons_time=999999999
  echo "$1: $(wc -l < "$lines") lines, longest: $(wc -L < "$lines") bytes, in all: $(wc -c < "$lines") bytes"
  # The two take turns, and each has its least time, so that what else the machine does falls out.
  for _ in $(seq "$turns"); do
    now=$(once "$lines" peer/target/release/check_peer)
    (( now < peer_time )) && peer_time=$now
    now=$(once "$lines" "$wagons" check)
    (( now < wagons_time )) && wagons_time=$now
  done
  "$wagons" check < "$lines" > "$work/out"
  [ "$(grep -c ' optimal ' "$work/out")" = "$(wc -l < "$lines")" ] || { echo "bench/check: not each line of $1 is optimal" >&2; exit 1; }
  [ "$(peer/target/release/check_peer < "$lines")" = "$(wc -l < "$lines")" ] || { echo "bench/check: serde_json doesn't read each line of $1" >&2; exit 1; }
  echo "$1: each line is optimal"
  awk -v n="$1" -v l="$2" -v w="$wagons_time" -v p="$peer_time" 'BEGIN {
    printf "%s: wagons check %.1f ms, serde_json alone %.1f ms, ratio %.2f (limit %s)\n", n, w / 10, p / 10, w / p, l }'
}

timed manual 0.9
timed solved 1.0
"$wagons" check < "$work/manual.jsonl" > /dev/null &
most=0
while [ -r "/proc/$!/status" ]; do
  now=$(awk '/VmHWM/ { print $2 }' "/proc/$!/status" 2>/dev/null || true)
  [ -n "$now" ] && (( now > most )) && most=$now
done
echo "resident memory of wagons check: at most $most kB"
[ -z "$smoke" ] || echo "bench/check: $lines lines and $tables tables with lacks, each optimal" >&3
