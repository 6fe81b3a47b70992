#!/usr/bin/env bash
# Times offices behind Redis Streams, and plans fleets as one office and as many: bench/streams/run.sh [OPTIONS OF streams.py].
# With options it times alone. --smoke takes few lines and two offices once, and prints no time.
set -euo pipefail
here=$(cd "$(dirname "$0")" && pwd)
needed=(redis-server python3-redis python3-hiredis python3-aiohttp python3-jinja2 python3-lxml python3-scipy)
"$here/../../tools/packages" bench/streams "${needed[@]}"
if [ "${1:-}" = --smoke ]; then
  "$here/streams.py" --offices 2 --lines 2000 --turns 1 --start-lines 2000 --takeovers 1 --least-lines 2000 > /dev/null
  "$here/split.py" 1 400 > /dev/null
  echo "bench/streams: each line answered by two offices, by plain consumers, behind a router and after a takeover; a fleet cut"
  exit
fi
"$here/streams.py" "$@"
if [ $# -eq 0 ]; then "$here/split.py"; fi
