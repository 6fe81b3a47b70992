#!/usr/bin/env bash
# Times the tables of two networks of 2,000 places, one of 20,000 lines both ways between any two places and one like a
# railway's, on one thread and by two workers, beside LEMON's Dijkstra from each place, and prints the ratios and the sums
# of all distances. BENCH=FILE times another build than out/benches.
#
# bench/distances/run.sh [TURNS | --smoke]: seven turns where nothing is said; --smoke takes one over few places, and prints no
# time.
set -euo pipefail
cd "$(dirname "$0")"
smoke=
if [ "${1:-}" = --smoke ]; then
  # What it says of times goes nowhere.
  smoke=1
  exec 3>&1 > /dev/null
  set -- 1
fi
places=${smoke:+200}
places=${places:-2000}
ours=$(../../tools/program benches "${BENCH:-}")
../../tools/packages bench/distances liblemon-dev
work=$(mktemp -d)
trap 'rm -rf "$work"' EXIT
for name in network dijkstra; do
  ${CXX:-g++} -std=c++17 -O3 -DNDEBUG -o "$work/$name" "peer/$name.cpp"
done
"$work/network" "$places" > "$work/random.csv"
"$work/network" "$places" railway > "$work/railway.csv"

# Each has its least time of several turns, so that what else the machine does falls out.
declare -A least sums
once() { # network, name, command ..: its sums, and its time in microseconds if that is the least so far
  local network=$1 name=$1_$2 now
  shift 2
  sums[$name]=$("$@" < "$work/$network.csv" 2> "$work/time")
  now=$(cat "$work/time")
  if [ -z "${least[$name]:-}" ] || (( now < least[$name] )); then least[$name]=$now; fi
}

for network in random railway; do
  for _ in $(seq "${1:-7}"); do
    once "$network" lemon "$work/dijkstra"
    once "$network" one "$ours" distances 0 1
    once "$network" worker "$ours" distances 1 1
    once "$network" two "$ours" distances 2 1
  done
  echo "== $network: $(($(wc -l < "$work/$network.csv") - 1)) lines both ways"
  for name in lemon one worker two; do
    echo "$name: ${least[${network}_$name]} us, all kilometres and minutes: ${sums[${network}_$name]}"
    [ "${sums[${network}_$name]}" = "${sums[${network}_lemon]}" ] || { echo "the sums differ" >&2; exit 1; }
  done
  awk -v l="${least[${network}_lemon]}" -v o="${least[${network}_one]}" -v t="${least[${network}_two]}" 'BEGIN {
    printf "one thread against LEMON: %.2f\ntwo workers against one thread: %.2f\n", o / l, t / o
  }'
done
[ -z "$smoke" ] || echo "bench/distances: two networks of $places places with the sums of LEMON" >&3
