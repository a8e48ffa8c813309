#!/bin/sh
# Real clients against the program's command `serve`: curl, threads of Python, and wrk where it is there; peers that are slow or
# silent beside them; its number of connections, an address in use, and too few descriptors; and stops under load (SIGTERM,
# kill -9), after each of which a run on the same port and folder has each backup whose commit was answered, byte for byte. Run it
# from anywhere after `make build`, or with another program's path and the number of kills; it needs curl and python3, and takes
# some minutes, two of which are for peers that are silent.
# The last line is 'N passed, M failed'; the status is 0 if none failed.

top=$(cd "$(dirname "$0")/.." && pwd)
program=$top/bin/backup_server
if [ $# -gt 0 ]; then
    program=$1
    shift
fi
[ -x "$program" ] || { echo "$program isn't there: make build first"; exit 1; }
command -v curl >/dev/null && command -v python3 >/dev/null || { echo "curl and python3 aren't both there"; exit 1; }
exec python3 "$top/tests/serve.py" "$program" "$@"
