#!/bin/sh
# The commands dump-folder and restore-folder on real folders: a tree of 5,000 entries of every kind there and back, full and incremental
# (ENTRIES sets how many), refusals, a tree that changes while it is dumped, and restores into a folder that another process fills with
# links. Run it from anywhere after `make build`, or with another program's path; it needs python3 alone, and takes half a minute.
# Left out: extended attributes and access lists, and the mode and the time of a link, which no call of the kit sets.
# The last line is 'N passed, M failed'; the status is 0 if none failed.

top=$(cd "$(dirname "$0")/.." && pwd)
program=${1:-$top/bin/backup_server}
[ -x "$program" ] || { echo "$program isn't there: make build first"; exit 1; }
command -v python3 >/dev/null || { echo "python3 isn't there"; exit 1; }
exec python3 "$top/tests/folders.py" "$(cd "$(dirname "$program")" && pwd)/$(basename "$program")"
