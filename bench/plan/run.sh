#!/usr/bin/env bash
# Times planning beside scipy's linear_sum_assignment and LEMON's NetworkSimplex on the same tables, in one run, and
# prints the ratios. BENCH=FILE times another build than out/benches.
#
# bench/plan/run.sh [TURNS | --smoke]: five turns where nothing is said; --smoke takes one over tables of a tenth of the size, and
# prints no time.
set -euo pipefail
cd "$(dirname "$0")"
smoke=
if [ "${1:-}" = --smoke ]; then
  # What it says of times goes nowhere.
  smoke=1
  exec 3>&1 > /dev/null
  set -- 1
fi
ours=$(../../tools/program benches "${BENCH:-}")
# Debian's own Python has Debian's scipy.
python=/usr/bin/python3
../../tools/packages bench/plan python3-scipy liblemon-dev
work=$(mktemp -d)
trap 'rm -rf "$work"' EXIT
${CXX:-g++} -std=c++17 -O3 -DNDEBUG -o "$work/simplex" simplex.cpp
"$python" tables.py "$work" ${smoke:+10}

# Each has its least time of several turns, so that what else the machine does falls out.
declare -A least costs
keep() { # name, time: keeps the least time
  if [ -z "${least[$1]:-}" ] || (( $2 < least[$1] )); then least[$1]=$2; fi
}
once() { # name, input, command ..: keeps the cost and the least time, and that of a shorter form
  local name=$1 input=$2 now shorter
  shift 2
  costs[$name]=$("$@" < "$input" 2> "$work/times")
  read -r now shorter < "$work/times"
  keep "$name" "$now"
  if [ -n "$shorter" ]; then keep shorter "$shorter"; fi
}
printf '%-18s %10s %10s %10s %10s %8s %8s %8s\n' table ours scipy shorter LEMON ratio shorter LEMON
for table in "$work"/*.json; do
  least=()
  for _ in $(seq "${1:-5}"); do
    once lemon "${table%.json}.txt" "$work/simplex" 3
    once ours "$table" "$ours" plan 3
    once scipy "$table" "$python" peer.py 3
    [ "${costs[ours]}" = "${costs[scipy]}" ] && [ "${costs[ours]}" = "${costs[lemon]}" ] || {
      echo "the costs differ: ${costs[*]}" >&2
      exit 1
    }
  done
  awk -v n="$(basename "$table" .json)" -v o="${least[ours]}" -v s="${least[scipy]}" -v h="${least[shorter]:-0}" -v l="${least[lemon]}" 'BEGIN {
    printf "%-18s %7d us %7d us %7d us %7d us %8.2f %8.2f %8.2f\n", n, o, s, h, l, o / s, (h > 0 ? o / h : 0), o / l
  }'
done
[ -z "$smoke" ] || echo "bench/plan: $(ls "$work"/*.json | wc -l) tables at the costs of scipy and LEMON" >&3
