#!/bin/sh
# Refuses the program each of its allocations in turn, over the worked runs of tests/memory.py: a run ends with 6, or as it does without the refusal, what
# it answered before is what it answers then, and its folder opens to the store before or after the request that was at work. The program
# is compiled from its sources by `rt try --fail-alloc` (no proof; slow, and with the checks of a sanitizer), so this needs rt and python3 alone.
# Run it from anywhere: without a word each allocation is tried, which takes hours; with a number N each N-th one.
# The last line is 'N passed, M failed'; the status is 0 if none failed.

top=$(cd "$(dirname "$0")/.." && pwd)
for tool in rt python3; do
    command -v $tool >/dev/null || { echo "$tool isn't there"; exit 1; }
done
exec python3 "$top/tests/memory.py" "$top" "$@"
