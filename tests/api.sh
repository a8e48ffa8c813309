#!/bin/sh
# Runs the examples of docs/API.md: each line with `$` of its blocks, one after the other in one shell, against `serve` with a fresh store, and
# compares the status and the body that come with the lines under it. Moments (numbers of ten digits) may differ. A route of the page's table
# that no example asks for is a failure, too. Run it from anywhere: tests/api.sh PROGRAM. It needs curl; a second or two.
# The last line is 'N passed, M failed'; the status is 0 if none failed.

top=$(cd "$(dirname "$0")/.." && pwd)
page=$top/docs/API.md
program=${1:-$top/bin/backup_server}
[ -x "$program" ] || { echo "$program isn't there: make build first"; exit 1; }
command -v curl >/dev/null || { echo "curl isn't there"; exit 1; }
program=$(cd "$(dirname "$program")" && pwd)/$(basename "$program")
room=$(mktemp -d)
: >"$room/listening"
"$program" serve --store "$room/store" --listen 127.0.0.1:0 2>"$room/listening" >&2 &
server=$!
trap 'kill "$server" 2>/dev/null; rm -rf "$room"' EXIT
cd "$room" || exit 1
tries=0
while ! grep -q '^listening on ' listening && [ "$tries" -lt 300 ]; do
    sleep 0.1
    tries=$((tries + 1))
done
served=http://$(sed -n 's/^listening on //p' listening)
passed=0
failed=0

# curl WORD..: as in the page, with the status on standard error and nothing else there.
curl() {
    command curl -s -w '%{stderr}%{http_code}\n' "$@"
}

# moments: standard input with each number of ten digits as N.
moments() {
    sed 's/[0-9]\{10\}/N/g'
}

# try COMMAND WANT: runs a line of the page, and compares.
try() {
    eval "$1" >out 2>err
    printf '%s %s' "$(cat err)" "$(cat out)" | sed 's/ $//' | moments >said
    printf '%s' "$2" | moments >want
    if cmp -s want said; then
        passed=$((passed + 1))
    else
        failed=$((failed + 1))
        printf 'FAILED: %s:\n%s\n' "$1" "$(cat said)"
    fi
}

# The blocks as pairs of lines: a command, and what it says (empty if nothing).
awk '
    /^```console/ { inside = 1; next }
    /^```/ { if (inside && command != "") { print command; print want; command = "" } inside = 0; next }
    !inside { next }
    /^\$ / { if (command != "") { print command; print want } command = substr($0, 3); want = ""; next }
    { want = $0 }
    END { if (command != "") { print command; print want } }
' "$page" >pairs
while IFS= read -r command <&3 && IFS= read -r want <&3; do
    case $command in
        base=*) base=$served ;;
        *) try "$command" "$want" ;;
    esac
done 3<pairs

# Each row of the table is asked for: its method and its route, with what stands for a name in the place of names.
awk '/^\$ .*curl / {
    method = "GET"
    if (/ -T /) method = "PUT"
    if (match($0, /-X [A-Z]+/)) method = substr($0, RSTART + 3, RLENGTH - 3)
    if (!match($0, /\$base[^ "?|)]*/)) next
    route = substr($0, RSTART + 5, RLENGTH - 5)
    sub(/^\/hosts\/[a-z0-9]+/, "H", route); sub(/^H\/backups\/[0-9]+/, "B", route)
    sub(/^\/dumps\/\$dump/, "D", route); sub(/^\/restores\/\$restore/, "R", route)
    print method " " route
}' "$page" | sort -u >asked
sed -n 's/^| \([A-Z]*\) \([HBDR]*\)`\{0,1\}\([a-z\/]*\)`\{0,1\} |.*/\1 \2\3/p' "$page" | sort -u >routes
[ -s routes ] && ! grep -vxF -f asked routes
if [ $? = 0 ]; then
    passed=$((passed + 1))
else
    failed=$((failed + 1))
    echo "FAILED: the routes above have no example"
fi
# And the table has each route of the program's, as many as src/route.rt lists.
listed=$(sed -n 's/^    ("\(\/[^"]*\)", Route::.*/\1/p' "$top/crates/http_routes/src/route.rt" | wc -l)
[ "$(sed 's/^[A-Z]* //' routes | sort -u | wc -l)" = "$listed" ]
if [ $? = 0 ]; then
    passed=$((passed + 1))
else
    failed=$((failed + 1))
    echo "FAILED: the page's table hasn't the $listed routes of the program"
fi

echo "$passed passed, $failed failed"
[ "$failed" = 0 ]
