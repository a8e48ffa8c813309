#!/bin/sh
# Real clients against bin/backup_server: curl, and Python's http.client. `pipe` serves one connection over its standard streams,
# so a relay of a few lines (relay.py) listens, and starts it with a fresh store for each connection; last comes `serve`.
# Run it from anywhere after `make build`; it needs curl and python3.
# The last line is 'N passed, M failed'; the status is 0 if none failed.

top=$(cd "$(dirname "$0")/.." && pwd)
program=${1:-$top/bin/backup_server}
[ -x "$program" ] || { echo "$program isn't there: make build first"; exit 1; }
command -v curl >/dev/null && command -v python3 >/dev/null || { echo "curl and python3 aren't both there"; exit 1; }
room=$(mktemp -d)
python3 "$top/tests/relay.py" "$program" "$room" >"$room/port" &
relay=$!
trap 'kill "$relay" 2>/dev/null; rm -rf "$room"' EXIT
cd "$room" || exit 1
tries=0
while [ ! -s port ] && [ "$tries" -lt 100 ]; do
    sleep 0.1
    tries=$((tries + 1))
done
base=http://127.0.0.1:$(cat port)
passed=0
failed=0

# judge NAME WANT: compares what the client said (the file `said`) with what is wanted.
judge() {
    if [ "$(cat said)" = "$2" ]; then
        passed=$((passed + 1))
    else
        failed=$((failed + 1))
        echo "FAILED: $1:"
        cat said
    fi
}

printf 'hello' >hello.txt
awk 'BEGIN { for (i = 0; i < 200000; i++) printf "%07d\n", i }' >large.txt
code='%{http_code} %{num_connects}\n'

curl -s -w "$code" -X PUT "$base/hosts/pc1" \
    --next -s -w "$code" -X POST "$base/hosts/pc1/dumps?kind=full" \
    --next -s -w "$code" -T hello.txt "$base/dumps/1-0/entry?path=a.txt&kind=file" \
    --next -s -w "$code" -X POST "$base/dumps/1-0/commit" \
    --next -s -w "$code" "$base/hosts/pc1/backups/0/file?path=a.txt" >said
judge 'five requests of curl on one connection' '{"host":"pc1"}201 1
{"dump":"1-0"}201 0
{}200 0
{"number":0}201 0
hello200 0'

curl -s -w "$code" -X PUT "$base/hosts/pc1" -o /dev/null \
    --next -s -w "$code" -X POST "$base/hosts/pc1/dumps?kind=full" -o /dev/null \
    --next -s -w "$code" -H 'Expect: 100-continue' -T large.txt "$base/dumps/1-0/entry?path=large.txt&kind=file" -o /dev/null \
    --next -s -w "$code" -X POST "$base/dumps/1-0/commit" -o /dev/null \
    --next -s "$base/hosts/pc1/backups/0/file?path=large.txt" -o back.txt >said
judge 'a large file, after 100 Continue' '201 1
201 0
200 0
201 0'
cmp large.txt back.txt >said 2>&1
judge 'the large file comes back' ''

curl -s -w "$code" -X PUT "$base/hosts/pc1" -o /dev/null \
    --next -s -w "$code" -X POST "$base/hosts/pc1/dumps?kind=full" -o /dev/null \
    --next -s -w "$code" -T hello.txt "$base/dumps/1-0/entry?path=r%C3%A9sum%C3%A9+1.txt&kind=file" -o /dev/null \
    --next -s -w "$code" -X POST "$base/dumps/1-0/commit" -o /dev/null \
    --next -s -w "$code" "$base/hosts/pc1/backups/0/file?path=r%C3%A9sum%C3%A9%201.txt" >said
judge 'a path with percent escapes and a plus sign' '201 1
201 0
200 0
201 0
hello200 0'

curl -s -w "$code" -X PATCH "$base/hosts/pc1" --next -s -w "$code" "$base/" >said
judge 'a bad method, and the connection goes on' '{"refused":"NoMethod"}405 1
{"refused":"NoRoute"}404 0'

curl -s -I -X HEAD "$base/hosts/pc1" | tr -d '\r' >said
judge 'HEAD has a head alone' 'HTTP/1.1 405 Method Not Allowed
Content-Type: application/json
Content-Length: 22
Allow: PUT'

curl -s -I -H 'Host:' "$base/stats" | tr -d '\r' >said
judge 'HEAD without a host has a head alone' 'HTTP/1.1 400 Bad Request
Content-Type: application/json
Content-Length: 21
Connection: close'

curl -s -0 -w "$code" -X PUT "$base/hosts/pc1" >said
judge 'version 1.0' '{"host":"pc1"}201 1'

python3 - "$base" >said 2>&1 <<'END'
import http.client
import sys

connection = http.client.HTTPConnection(sys.argv[1].split("//")[1])


def ask(method, target, body=None):
    connection.request(method, target, body)
    response = connection.getresponse()
    print(response.status, response.reason, response.getheader("Content-Type"), response.read())


ask("PUT", "/hosts/pc1")
ask("POST", "/hosts/pc1/dumps?kind=full")
ask("PUT", "/dumps/1-0/entry?path=a&kind=file", b"\0\xff")
ask("POST", "/dumps/1-0/commit")
ask("GET", "/hosts/pc1/backups/0/file?path=a")
ask("GET", "/hosts/pc1/backups/1/file?path=a")
END
judge "six requests of Python's client on one connection" "201 Created application/json b'{\"host\":\"pc1\"}'
201 Created application/json b'{\"dump\":\"1-0\"}'
200 OK application/json b'{}'
201 Created application/json b'{\"number\":0}'
200 OK application/octet-stream b'\\x00\\xff'
404 Not Found application/json b'{\"refused\":\"NoBackup\"}'"

# A store that is kept, by `serve`, each request on a connection of its own, as README shows it; and the night beside it.
"$program" serve --store kept --listen 127.0.0.1:0 2>listening &
server=$!
trap 'kill "$relay" "$server" 2>/dev/null; rm -rf "$room"' EXIT
tries=0
while [ ! -s listening ] && [ "$tries" -lt 100 ]; do
    sleep 0.1
    tries=$((tries + 1))
done
address=$(sed 's/^listening on //' listening)
kept=http://$address
{
    curl -s -X PUT "$kept/hosts/pc2"
    dump=$(curl -s -X POST "$kept/hosts/pc2/dumps?kind=full" | cut -d '"' -f 4)
    curl -s -T hello.txt "$kept/dumps/$dump/entry?path=a.txt&kind=file"
    curl -s -X POST "$kept/dumps/$dump/commit"
    "$top/examples/turretgage-night.sh" "$address" 2>&1
    curl -s "$kept/hosts/pc2/backups/0/file?path=a.txt"
} >said
judge 'a dump, a night and a file given back, by serve' '{"host":"pc2"}{}{"number":0}hello'

# A folder in the place of the journal fails each commit; what becomes of the store is told at that moment.
rm kept/intent
mkdir kept/intent
{
    curl -s -X PUT "$kept/hosts/pc3"
    curl -s "$kept/stats"
    curl -s -X POST "$kept/reopen"
    rmdir kept/intent
    curl -s -X POST "$kept/reopen"
    curl -s -X PUT "$kept/hosts/pc3"
} >said
judge 'a halt and a reopening' '{"refused":"DiskFault"}{"refused":"Halted"}{"refused":"DiskFault"}{"epoch":2}{"host":"pc3"}'
sed 1d listening >said
judge 'a halt and a reopening are told' 'kept/intent: Is a directory (os error 21)
kept: halted: reopen or restart
kept: halted: reopen or restart
kept: reopened'
kill "$server"
wait "$server"

echo "$passed passed, $failed failed"
[ "$failed" = 0 ]
