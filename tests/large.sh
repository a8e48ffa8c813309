#!/bin/sh
# Large and chunked bodies: curl, wget and Python's http.client with files, streams and generators; slow and broken senders, streams cut at each byte,
# and shapes that two readers could understand in two ways. Run it from anywhere after `make build`, or with another program's path, and
# with a size behind it for another large file (5368709120 is 5 GiB, sparse); it needs python3 alone, and takes about twenty seconds.
# The last line is 'N passed, M failed'; the status is 0 if none failed.

top=$(cd "$(dirname "$0")/.." && pwd)
program=${1:-$top/bin/backup_server}
[ -x "$program" ] || { echo "$program isn't there: make build first"; exit 1; }
command -v python3 >/dev/null || { echo "python3 isn't there"; exit 1; }
[ "$#" -gt 1 ] && { shift; exec python3 "$top/tests/large.py" "$(cd "$(dirname "$program")" && pwd)/$(basename "$program")" "$@"; }
exec python3 "$top/tests/large.py" "$(cd "$(dirname "$program")" && pwd)/$(basename "$program")"
