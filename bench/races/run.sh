#!/usr/bin/env bash
# Runs the tests of many seats over one book many times over: no schedule of the threads may make one fail.
#
# bench/races/run.sh [TURNS | --smoke]: 1,000 turns where nothing is said, and two with --smoke. TESTS=FILE names a build of the
# tests of seat_tests; else rt proves and builds them.
set -euo pipefail
tests=${TESTS:+$(realpath "$TESTS")}
cd "$(dirname "$0")/../.."
turns=${1:-1000}
[ "$turns" != --smoke ] || turns=2
if [ -z "$tests" ]; then
  (cd crates/seat_tests && rt test > /dev/null)
  tests=crates/seat_tests/out/seat_tests_tests
fi
said=$(mktemp)
trap 'rm "$said"' EXIT
for name in tests::crowds::counts_add_up tests::races::one_of_two_commits; do
  for turn in $(seq "$turns"); do
    "$tests" "$name" > "$said" 2>&1 || { cat "$said"; echo "bench/races: $name failed in turn $turn" >&2; exit 1; }
  done
done
echo "bench/races: two tests of many seats $turns times, none failed"
