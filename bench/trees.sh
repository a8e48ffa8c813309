#!/bin/sh
# Measures the crates of trees by the program bench_trees, at 1,000 and at 10,000 folders of a hundred rows, and prints each
# time's ratio to hashing the table's file, and its growth from the one to the other; and the tree of the oldest of 10 and of 100
# backups, and the deletion of one and of ten of them, beside reading their tables. bench/README.md says what the lines are.
# Needs rt, awk, uptime and python3. The first run proves the program's crates and builds it.
set -eu

top=$(cd "$(dirname "$0")/.." && pwd)
lines=$(mktemp -d)
trap 'rm -rf "$lines"' EXIT

cd "$top/crates/bench_trees"
echo "proving and building, which takes minutes the first time"
rt run >"$lines/build" 2>&1 || { cat "$lines/build"; exit 1; }
"$top/bench/machine.py"

measure() {
    echo "measuring $1 folders"
    uptime
    out/bench_trees "$1" "$2" time >"$lines/$1"
    awk '
        { micros = $0; sub(/.*; /, "", micros); micros += 0 }
        FNR == NR { if (/^hash:/) hash = micros; next }
        hash > 0 && !/of the hash$/ { printf "%s, %.2f times the hash\n", $0, micros / hash; next }
        { print }
    ' "$lines/$1" "$lines/$1"
    echo
}

measure 1000 10000
measure 10000 100000

many() {
    echo "measuring the tree of the oldest of $1 backups, and deletions of one and of ten of them"
    uptime
    out/bench_trees fold "$1" 1000 time | awk '
        { micros = $0; sub(/.*; /, "", micros); micros += 0 }
        /^read (all|sparse):/ { reading = micros }
        /^(fold|whole)/ && reading > 0 { printf "%s, %.2f times the reading\n", $0, micros / reading; next }
        { print }
    '
    echo
}

many 10
many 100

echo "growth from 1,000 to 10,000 folders, and from 10,000 to 100,000 puts:"
awk '
    { label = $0; sub(/:.*/, "", label); micros = $0; sub(/.*; /, "", micros); micros += 0 }
    FNR == NR { small[FNR] = micros; next }
    small[FNR] > 0 { printf "%s: %.1f\n", label, micros / small[FNR] }
' "$lines/1000" "$lines/10000"
