#!/bin/sh
# Measures what a pool costs over a disk in memory, by the program bench_pool: opening it and 100,000 look-ups, at 100,000
# and at 1,000,000 contents, beside reading and hashing the same bytes, and the most memory that a pool of 1,000,000 contents
# takes. bench/README.md says what the lines are. Needs rt, uptime, awk and python3. The first run proves the program's crates
# and builds it.
set -eu

top=$(cd "$(dirname "$0")/.." && pwd)
build=$(mktemp)
trap 'rm -f "$build"' EXIT

# The most memory, in KiB, that a run takes.
peak() {
    python3 -c '
import os, sys
pid = os.spawnv(os.P_NOWAIT, sys.argv[1], sys.argv[1:])
_, status, usage = os.wait4(pid, 0)
print(usage.ru_maxrss)
sys.exit(1 if status else 0)' "$@" | tail -n 1
}

# A run's lines, and its ratios to the machine.
measure() {
    echo "measuring $1 contents"
    lines=$(out/bench_pool "$1" 100000 time)
    echo "$lines" | awk '
        { print }
        /^index:/ { read = $3; hash = $6; open = $9 }
        /^look up:/ { look = $3; plain = $8 }
        END {
            if (read + hash > 0 && plain > 0)
                printf "ratios: open %.1f times reading and hashing the index; look up %.1f times hashing and reading\n", open / (read + hash), look / plain
        }
    '
}

cd "$top/crates/bench_pool"
echo "proving and building, which takes minutes the first time"
rt run >"$build" 2>&1 || { cat "$build"; exit 1; }
uptime
"$top/bench/machine.py"
measure 100000
measure 1000000
echo "measuring memory"
files=$(peak out/bench_pool 1000000 1 files)
names=$(peak out/bench_pool 1000000 1 names)
echo "memory: $files KiB with the files, $((names - files)) KiB more with a pool"
