#!/bin/sh
# Two servers on loopback, the second of which pulls the first one's backups, also killed at random moments: tests/pull.sh PROGRAM [KILLS]. Run it from anywhere after `make build`,
# or with another program's path; it needs python3 alone. The last line is 'N passed, M failed'; the status is 0 if none failed.

top=$(cd "$(dirname "$0")/.." && pwd)
program=${1:-$top/bin/backup_server}
[ -x "$program" ] || { echo "$program isn't there: make build first"; exit 1; }
command -v python3 >/dev/null || { echo "python3 isn't there"; exit 1; }
exec python3 "$top/tests/pull.py" "$(cd "$(dirname "$program")" && pwd)/$(basename "$program")" "${2:-50}"
