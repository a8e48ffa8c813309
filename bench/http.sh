#!/bin/sh
# Measures how fast requests are read from a link, responses written to it, and whole exchanges made, by the program bench_http:
# 100,000 requests without a body, 100,000 with a body of 1,000 bytes, one with a body of 67,108,864 bytes, 100,000 responses,
# 100,000 PUTs and as many GETs. Behind each line stands its ratio to hashing as many bytes and to sending them through a pipe.
# bench/README.md says what the lines are. Needs rt, uptime, awk and python3. The first run proves the program's crates and
# builds it.
set -eu

top=$(cd "$(dirname "$0")/.." && pwd)
room=$(mktemp -d)
trap 'rm -rf "$room"' EXIT

cd "$top/crates/bench_http"
echo "proving and building, which takes minutes the first time"
rt run >"$room/build" 2>&1 || { cat "$room/build"; exit 1; }
uptime
echo "measuring the machine, then the program"
"$top/bench/machine.py" | tee "$room/machine"
out/bench_http 100000 67108864 time >"$room/lines"
awk '
    FNR == NR { hash = $3; pipe = $9; next }
    { rate = $(NF - 1) }
    rate > 0 { printf "%s, %.2f times hashing, %.2f times a pipe\n", $0, hash / rate, pipe / rate; next }
    { print }
' "$room/machine" "$room/lines"
