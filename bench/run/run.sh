#!/usr/bin/env bash
# Times `wagons run` on a script of messages (day.py) beside a program that only parses the same lines with Rust's
# serde_json (the peer of bench/check) and beside one that keeps the same rows and history in SQLite (peer.c), in one
# run, and prints the ratios and the memory that `wagons run` held; then a `plan` line beside planning alone
# (crates/benches), and beside the fastest peer of bench/plan, which plans alone. WAGONS=FILE and BENCH=FILE time
# other builds than out/wagons and out/benches.
#
# bench/run/run.sh [MESSAGES [TURNS] | --smoke]: 300,000 messages and five turns where nothing is said. A plan line's time is a
# difference of others, so its scripts take at least twenty turns: with fewer the machine's pace changes more than the lines
# take. --smoke takes few lines once, and prints no time.
set -euo pipefail
cd "$(dirname "$0")"
smoke=
if [ "${1:-}" = --smoke ]; then
  # What it says of times goes nowhere.
  smoke=1
  exec 3>&1 > /dev/null
  set -- 2000 1
fi
messages=${1:-300000}
turns=${2:-5}
plan_turns=${smoke:-$(( turns > 20 ? turns : 20 ))}
wagons=$(../../tools/program wagons "${WAGONS:-}")
planner=$(../../tools/program benches "${BENCH:-}")
# Debian's own Python has Debian's scipy.
../../tools/packages bench/run librust-serde-json-dev libsqlite3-dev liblemon-dev python3-scipy
(cd ../check/peer && cargo build --release --offline --quiet)
parser=../check/peer/target/release/check_peer
work=$(mktemp -d)
trap 'rm -rf "$work"' EXIT
cc -O2 -o "$work/sqlite" peer.c -lsqlite3
python3 day.py "$wagons" "$work" "$messages"
lines=$work/lines.jsonl
echo "lines: $(wc -l < "$lines"), bytes: $(wc -c < "$lines")"

office() {
  "$wagons" run --roster "$work/roster.csv" --network "$work/network.csv" --entries 1000000
}

once() { # how long a command takes over a file of lines, in tenths of a millisecond
  local start end file=$1
  shift
  # To empty a file of some megabytes takes milliseconds, so what another command wrote goes before the clock starts.
  rm -f "$work/out"
  start=$(date +%s%N)
  "$@" < "$file" > "$work/out" || [ $? -eq 1 ]
  end=$(date +%s%N)
  echo $(( (end - start) / 100000 ))
}

processors=$(nproc)
allowed=$(taskset -cp $$ | sed 's/.*: //')

on_one() { # on_one TURN: what follows runs on one processor, where that can be told; each turn on the next one
  taskset -cp "$(( $1 % processors ))" $$ > /dev/null 2>&1 || true
}

piped() { # a command whose output goes to a pipe that is read, by a program that may run on any processor
  "$@" | taskset -c "$allowed" cat
}

# They take turns, and each has its least time, so that what else the machine does falls out. Ratios come from each turn, too:
# a virtual processor's pace changes by up to twice from one second to another, and not that of all at once. So what is
# compared runs one after the other, on one processor.
least=(999999999 999999999 999999999 999999999 999999999)
for turn in $(seq "$turns"); do
  on_one "$turn"
  now=("$(once "$lines" "$work/sqlite" "$work/roster.csv")" "$(once /dev/null office)" "$(once "$lines" office)"
    "$(once "$lines" "$parser")" "$(once "$lines" piped office)")
  echo "${now[*]}" >> "$work/message_turns"
  for k in 0 1 2 3 4; do
    if (( now[k] < least[k] )); then least[k]=${now[k]}; fi
  done
done

# Both must have answered messages, orders and commits alike.
office < "$lines" > "$work/ours" || [ $? -eq 1 ]
"$work/sqlite" "$work/roster.csv" < "$lines" > "$work/theirs"
grep -E '^[0-9]+ (accepted|repeated|refused)' "$work/ours" | cmp - "$work/theirs"
accepted=$(grep -c ' accepted ' "$work/ours")
echo "replies: $accepted accepted, $(grep -c ' repeated ' "$work/ours") repeated, $(grep -c ' refused ' "$work/ours") refused, $(grep -c ' plan ' "$work/ours") plans"
awk -v q="${least[0]}" -v s="${least[1]}" -v w="${least[2]}" -v p="${least[3]}" -v r="${least[4]}" 'BEGIN {
  printf "wagons run %.1f ms, of which %.1f ms before the first line\n", w / 10, s / 10
  printf "with replies to a pipe that is read %.1f ms; serde_json alone %.1f ms\n", r / 10, p / 10
  printf "SQLite without plans %.1f ms: %.2f of the time of wagons run, %.2f without the start\n", q / 10, q / w, (w > s ? q / (w - s) : 0)
}'

echo "of serde_json's time wagons run takes $(python3 ratios.py "$work/message_turns" 2 - 3 -)"
echo "with replies to a pipe that is read $(python3 ratios.py "$work/message_turns" 4 - 3 -)"

# A plan line over 1,000 free wagons and 300 waiting orders: the time of so many such lines less that of the orders alone,
# at one version and with a message before each. The planner plans the same table 10 times and so many times more, and what
# these take is its own time. All must name one cost.
plans=${smoke:+10}
plans=${plans:-400}
python3 waiting.py "$work" "$plans"
cost=$("$planner" plan 1 < "$work/table.json" 2> /dev/null)
least=(999999999 999999999 999999999 999999999 999999999 999999999 999999999)
for turn in $(seq "$plan_turns"); do
  on_one "$turn"
  now=("$(once "$work/begins.jsonl" office)" "$(once "$work/changed_begins.jsonl" office)" "$(once "$work/orders.jsonl" office)"
    "$(once "$work/changed_plans.jsonl" office)" "$(once "$work/plans.jsonl" office)"
    "$(once "$work/table.json" "$planner" plan 10 2> /dev/null)" "$(once "$work/table.json" "$planner" plan $((plans + 10)) 2> /dev/null)")
  echo "${now[*]}" >> "$work/plan_turns"
  for k in 0 1 2 3 4 5 6; do
    if (( now[k] < least[k] )); then least[k]=${now[k]}; fi
  done
done
for script in plans changed_plans; do
  office < "$work/$script.jsonl" | grep ' plan ' | awk -v c="$cost" '$6 != c { exit 1 }'
done
for which in 0,4,"at one version" 1,3,"with a message before each"; do
  IFS=, read -r begins planned how <<< "$which"
  awk -v o="${least[2]}" -v b="${least[begins]}" -v p="${least[planned]}" -v f="${least[5]}" -v s="${least[6]}" -v n="$plans" -v how="$how" 'BEGIN {
    printf "1,000 free wagons, 300 waiting orders, %s: a plan line %.2f ms, a begin line %.2f ms, planning alone %.2f ms\n",
      how, (p - o) / 10 / n, (b - o) / 10 / n, (s - f) / 10 / n }'
  echo "of planning alone a plan line takes $(python3 ratios.py "$work/plan_turns" "$planned" 2 6 5)"
done

# A plan line behind what a commit of 30 wagons changes: the time of so many such lines, less that of the lines between
# them. The commits themselves are in a script of their own, and what that takes more is theirs. The planner plans the table
# of the last plan line.
rounds=${smoke:+5}
rounds=${rounds:-200}
at=$(python3 committed.py "$wagons" "$work" "$rounds")
"$wagons" table --at "$at" --roster "$work/roster.csv" --network "$work/network.csv" < "$work/last.jsonl" |
  sed 's/}$/,"pairs":[],"u":[],"v":[]}/' > "$work/last.json"
after=(999999999 999999999 999999999 999999999 999999999)
for turn in $(seq "$plan_turns"); do
  on_one "$turn"
  now=("$(once "$work/committed.jsonl" office)" "$(once "$work/uncommitted.jsonl" office)" "$(once "$work/planned.jsonl" office)"
    "$(once "$work/last.json" "$planner" plan 10 2> /dev/null)" "$(once "$work/last.json" "$planner" plan $((rounds + 10)) 2> /dev/null)")
  echo "${now[*]}" >> "$work/after_turns"
  for k in 0 1 2 3 4; do
    if (( now[k] < after[k] )); then after[k]=${now[k]}; fi
  done
done
awk -v u="${after[1]}" -v p="${after[2]}" -v c="${after[0]}" -v f="${after[3]}" -v s="${after[4]}" -v n="$rounds" 'BEGIN {
  printf "the same behind what a commit of 30 wagons changes: a plan line %.2f ms, planning alone %.2f ms, a commit line %.2f ms\n",
    (p - u) / 10 / n, (s - f) / 10 / n, (c - p) / 10 / n }'
echo "of planning alone a plan line takes $(python3 ratios.py "$work/after_turns" 2 1 4 3)"

# The peers of bench/plan plan the same table alone; the fastest form of each counts.
${CXX:-g++} -std=c++17 -O3 -DNDEBUG -o "$work/simplex" ../plan/simplex.cpp
python3 ../plan/table_numbers.py < "$work/table.json" > "$work/table.txt"
fastest=$(for _ in $(seq "$turns"); do
  "$work/simplex" 3 < "$work/table.txt" 2>&1 > "$work/out"
  [ "$(cat "$work/out")" = "$cost" ] || { echo "LEMON's cost differs" >&2; exit 1; }
  /usr/bin/python3 ../plan/peer.py 3 < "$work/table.json" 2>&1 > "$work/out"
  [ "$(cat "$work/out")" = "$cost" ] || { echo "scipy's cost differs" >&2; exit 1; }
done | tr ' ' '\n' | sort -n | head -n 1)
awk -v o="${least[2]}" -v p="${least[4]}" -v f="$fastest" -v n="$plans" 'BEGIN {
  printf "the fastest peer plans that table alone in %.2f ms: a plan line takes %.2f of it\n", f / 1000, (p - o) * 100 / n / f }'

# The most memory that is seen while it runs; it waits at its end until its input is closed.
most() { # most FILE: in kB
  local most=0 now
  mkfifo "$work/input"
  office < "$work/input" > /dev/null & local program=$!
  exec 3> "$work/input"
  cat "$1" >&3
  sleep 1
  now=$(awk '/VmHWM/ { print $2 }' "/proc/$(pgrep -P "$program" || echo "$program")/status")
  exec 3>&-
  wait "$program" || true
  rm "$work/input"
  echo "$now"
}
empty=$(most /dev/null)
full=$(most "$lines")
awk -v e="$empty" -v f="$full" -v n="$accepted" 'BEGIN {
  printf "resident memory of wagons run: %d kB, %d kB before the first line, %.0f bytes an entry between\n", f, e, (f - e) * 1024 / n }'
[ -z "$smoke" ] || echo "bench/run: $accepted entries with the replies of SQLite; plans at the costs of the planner, LEMON and scipy" >&3
