#!/bin/sh
# Stops the program at random moments of a stream of commits on a real folder (kill -9, SIGTERM), lets its disk get full at the
# first opening and later, fails a sync, interrupts reads and writes (both by strace, if it is there), starts two on one folder,
# and looks whether each backup whose commit was answered is read back whole by the next run. Run it from anywhere after
# `make build`, or with another program's path and the numbers of kills, SIGTERMs and pairs; it needs python3 and a few minutes.
# Small disks are mounted for itself alone, where that is allowed.
# The last line is 'N passed, M failed'; the status is 0 if none failed.

top=$(cd "$(dirname "$0")/.." && pwd)
program=$top/bin/backup_server
if [ $# -gt 0 ]; then
    program=$1
    shift
fi
[ -x "$program" ] || { echo "$program isn't there: make build first"; exit 1; }
command -v python3 >/dev/null || { echo "python3 isn't there"; exit 1; }
alone=
for how in 'unshare --mount' 'unshare --user --map-root-user --mount'; do
    if $how true 2>/dev/null; then
        alone=$how
        break
    fi
done
exec $alone python3 "$top/tests/crash.py" "$program" "$@"
