#!/bin/sh
# Measures what a commit costs over a disk in memory, by the program bench_journal: 64 files of 16,384 bytes, and 8 files
# of 262,144 bytes, beside writing and hashing the same bytes; and what it costs to judge a certificate of 100,000 items and
# 1,000,000 occurrences. bench/README.md says what the lines are. Needs rt, uptime, awk and python3. The first run proves the program's crates and builds it.
set -eu

top=$(cd "$(dirname "$0")/.." && pwd)
build=$(mktemp)
trap 'rm -f "$build"' EXIT

cd "$top/crates/bench_journal"
echo "proving and building, which takes minutes the first time"
rt run >"$build" 2>&1 || { cat "$build"; exit 1; }
uptime
echo "measuring the machine, then the program"
"$top/bench/machine.py"
for size in '64 16384' '8 262144'; do
    lines=$(out/bench_journal $size time)
    echo "$lines" | awk '
        /^write:/ && $5 > 0 { printf "%s, %.2f times the hash\n", $0, $8 / $5; next }
        { print }
    '
done
python3 -c '
import os, sys
pid = os.spawnv(os.P_NOWAIT, sys.argv[1], sys.argv[1:])
_, status, usage = os.wait4(pid, 0)
print(f"processor: {usage.ru_utime + usage.ru_stime:.2f} s for the whole run")
sys.exit(1 if status else 0)' out/bench_journal judge 100000 1000 time
