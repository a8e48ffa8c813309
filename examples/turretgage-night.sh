#!/bin/sh
# The night's work, asked of a running `serve`: turretgage-night.sh [ADDR]. Backups leave each host by its rules, the whole pool is
# cleaned, and files that nothing lists are swept, as `backup_server night` does it where nobody serves. Backups go on meanwhile.
# A request that is refused ends it, with curl's message and status; the next night does what was left. It needs curl.
set -eu
base=http://${1:-127.0.0.1:8080}
hosts=$(curl -fsS "$base/hosts")
for host in $(echo "$hosts" | sed 's/^{"hosts":\[//; s/]}$//' | tr -d '"' | tr ',' ' '); do
    curl -fsS -X POST "$base/hosts/$host/expire" >/dev/null
done
curl -fsS --fail-early -X POST "$base/night/clean?bucket=[0-15]" >/dev/null
curl -fsS -X POST "$base/night/sweep" >/dev/null
