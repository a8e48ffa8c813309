#!/bin/sh
# Fills a dump with as many tokens as it keeps, 1,048,576, over `serve`: a new one is refused then, and the kept ones are known. Run it from anywhere
# after `make build`, or with another program's path; it needs python3 alone, and takes some minutes, which it tells with the server's memory.
# It is no part of `make test`. The last line is 'N passed, M failed'; the status is 0 if none failed.

top=$(cd "$(dirname "$0")/.." && pwd)
program=${1:-$top/bin/backup_server}
[ -x "$program" ] || { echo "$program isn't there: make build first"; exit 1; }
command -v python3 >/dev/null || { echo "python3 isn't there"; exit 1; }
exec python3 "$top/tests/tokens.py" "$(cd "$(dirname "$program")" && pwd)/$(basename "$program")"
