#!/bin/sh
# The client clients/turretgage against the program's command `serve`, and against servers that lie: trees of every kind there and
# back, pushes that break off and go on, and refusals. Run it from anywhere after `make build`, or with another program's path; it
# needs python3 alone, and takes about a minute.
# Parked dumps and tokens are tried against the program, too, and what an older server takes against an office of a few lines (client.py).
# The last line is 'N passed, M failed'; the status is 0 if none failed.

top=$(cd "$(dirname "$0")/.." && pwd)
program=${1:-$top/bin/backup_server}
[ -x "$program" ] || { echo "$program isn't there: make build first"; exit 1; }
command -v python3 >/dev/null || { echo "python3 isn't there"; exit 1; }
exec python3 "$top/tests/client.py" "$(cd "$(dirname "$program")" && pwd)/$(basename "$program")"
