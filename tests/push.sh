#!/bin/sh
# A server on loopback, to which a folder is pushed: tests/push.sh PROGRAM. Run it from anywhere after `make build`, or with another program's path; it needs python3 alone.
# The last line is 'N passed, M failed'; the status is 0 if none failed.

top=$(cd "$(dirname "$0")/.." && pwd)
program=${1:-$top/bin/backup_server}
[ -x "$program" ] || { echo "$program isn't there: make build first"; exit 1; }
command -v python3 >/dev/null || { echo "python3 isn't there"; exit 1; }
exec python3 "$top/tests/push.py" "$(cd "$(dirname "$program")" && pwd)/$(basename "$program")"
