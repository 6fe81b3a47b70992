#!/usr/bin/env bash
# Times `wagons feed` on the script of bench/run cut into 1, 2, 4 and 8 files (cut.py), beside a program that keeps the same
# rows and history in one SQLite database in memory, with a thread and a connection for each file (peer.c). Says which
# build it times (WAGONS=FILE names another than out/wagons) and what it installs, and prints a table. So many offices at
# once with a file each, which share nothing, show how much the machine's processors do side by side. Where strace is
# there, the last column is how much of the time of a file's thread is spent waiting for others.
#
# bench/feed/run.sh [MESSAGES [TURNS] | --smoke]: 100,000 messages and five turns where nothing is said; --smoke takes few
# messages once, and prints no time.
set -euo pipefail
cd "$(dirname "$0")"
smoke=
if [ "${1:-}" = --smoke ]; then
  # What it says of times goes nowhere.
  smoke=1
  exec 3>&1 > /dev/null
  set -- 2000 1
fi
messages=${1:-100000}
turns=${2:-5}
wagons=$(../../tools/program wagons "${WAGONS:-}")
../../tools/packages bench/feed libsqlite3-dev
work=$(mktemp -d)
trap 'rm -rf "$work"' EXIT
cc -O2 -o "$work/sqlite" peer.c -lsqlite3 -lpthread
python3 ../run/day.py "$wagons" "$work" "$messages"
python3 cut.py "$work"
: > "$work/0_1.jsonl"
echo "one file: $(wc -l < "$work/1_1.jsonl") lines, $(grep -c '"plan"' "$work/1_1.jsonl") of them plans"

office() { # office FILES: feeds so many files; 0 feeds an empty one
  "$wagons" feed --roster "$work/roster.csv" --network "$work/network.csv" --entries 1000000 "$work/$1"_*.jsonl
}

apart() { # apart FILES: as many offices at once, each fed one of the files
  local file
  for file in "$work/$1"_*.jsonl; do
    "$wagons" feed --roster "$work/roster.csv" --network "$work/network.csv" --entries 1000000 "$file" > /dev/null &
  done
  wait
}

peer() {
  "$work/sqlite" "$work/roster.csv" "$work/$1"_*.jsonl
}

once() { # how long a command takes, in tenths of a millisecond
  local start end
  start=$(date +%s%N)
  "$@" > "$work/out" || [ $? -eq 1 ]
  end=$(date +%s%N)
  echo $(( (end - start) / 100000 ))
}

# They take turns, and each has its least time, so that what else the machine does falls out.
declare -A least
for _ in $(seq "$turns"); do
  for who in office apart peer; do
    for files in 0 1 2 4 8; do
      now=$(once "$who" "$files")
      if [ -z "${least[$who$files]:-}" ] || (( now < least[$who$files] )); then least[$who$files]=$now; fi
    done
  done
done

waiting() { # the share of the time of the files' threads that they wait, by strace, or nothing
  command -v strace > /dev/null || return 0
  strace -f --seccomp-bpf -ttt -T -e trace=futex,clone,clone3,exit -o "$work/trace" "$wagons" feed --roster "$work/roster.csv" \
    --network "$work/network.csv" --entries 1000000 --workers 1 "$work/$1"_*.jsonl > /dev/null || [ $? -eq 1 ]
  python3 waiting.py "$work/trace" "$1"
}

echo "wagons feed of an empty file: $(awk -v t="${least[office0]}" 'BEGIN { printf "%.1f ms", t / 10 }')"
echo "| Files | \`wagons feed\` | of one file's time | offices apart, a file each | SQLite without plans | of one file's time | waiting |"
echo "|---|---|---|---|---|---|---|"
for files in 1 2 4 8; do
  awk -v n="$files" -v t="${least[office$files]}" -v one="${least[office1]}" -v a="${least[apart$files]}" -v s="${least[peer$files]}" -v one_s="${least[peer1]}" \
    -v w="$(waiting "$files")" 'BEGIN {
    printf "| %d | %.0f ms | %.2f | %.2f | %.0f ms | %.2f | %s |\n", n, t / 10, t / one, a / one, s / 10, s / one_s, w }'
done
[ -z "$smoke" ] || echo "bench/feed: $(wc -l < "$work/1_1.jsonl") lines in 1, 2, 4 and 8 files" >&3
