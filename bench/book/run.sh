#!/usr/bin/env bash
# Times the calls of a book behind histories of 1,000 to 1,000,000 entries, with 1,000 wagons and 400 waiting orders, and
# a begin with 1,000 free wagons and no order; prints medians, worst calls and ratios. BENCH=FILE times another
# build than out/benches. Arguments are the histories, where others are wanted; --smoke takes one short one once, and prints
# no time.
set -euo pipefail
cd "$(dirname "$0")"
smoke=
if [ "${1:-}" = --smoke ]; then
  # What it says of times goes nowhere.
  smoke=1
  exec 3>&1 > /dev/null
  set -- 1000
fi
ours=$(../../tools/program benches "${BENCH:-}")
work=$(mktemp -d)
trap 'rm -rf "$work"' EXIT
lengths=("$@")
[ ${#lengths[@]} -gt 0 ] || lengths=(1000 10000 100000 1000000)

printf '%-10s %-10s %12s %12s %8s\n' entries call median worst ratio
for entries in "${lengths[@]}"; do
  # Three turns, each with the same history; the least median counts, and the worst call of all.
  : > "$work/all"
  for _ in $(seq "${smoke:-3}"); do "$ours" book "$entries" 1000 400 40 2>> "$work/all" > /dev/null; done
  awk '!($1 in median) || $2 < median[$1] { median[$1] = $2 } $3 > worst[$1] { worst[$1] = $3 }
    END { for (name in median) print name, median[name], worst[name] }' "$work/all" | sort > "$work/$entries"
  while read -r name median worst; do
    first=$(awk -v n="$name" '$1 == n { print $2 }' "$work/${lengths[0]}")
    awk -v e="$entries" -v n="$name" -v m="$median" -v w="$worst" -v f="$first" 'BEGIN {
      printf "%-10d %-10s %9.1f us %9.1f us %8.2f\n", e, n, m / 1000, w / 1000, (f > 0 ? m / f : 0)
    }'
  done < "$work/$entries"
done

# A begin without an order, and one with 500 waiting orders beside the making of its table.
"$ours" book "${lengths[0]}" 1000 0 40 2>&1 > /dev/null | awk '$1 == "begin" { printf "begin, no other order: %.1f us (%.1f us at worst)\n", $2 / 1000, $3 / 1000 }'
"$ours" book "${lengths[0]}" 1000 499 40 2>&1 > /dev/null | awk '{ median[$1] = $2 }
  END { printf "begin, 500 waiting orders: %.1f us, %.2f of its table\n", median["begin"] / 1000, median["begin"] / median["table"] }'
[ -z "$smoke" ] || echo "bench/book: the calls of a book behind ${lengths[0]} entries" >&3
