#!/bin/sh
# Tries of bin/backup_server that the gate's one stored run doesn't make: how it ends, what it says on
# standard error, and what it leaves. Run it from anywhere after `make build`, or with another program's path.
# The last line is 'N passed, M failed'; the status is 0 if none failed.

program=${1:-$(cd "$(dirname "$0")/.." && pwd)/bin/backup_server}
[ -x "$program" ] || { echo "$program isn't there: make build first"; exit 1; }
example=$(cd "$(dirname "$0")/../examples" && pwd)/backup_server.toml
model=$(cd "$(dirname "$0")" && pwd)/demo.py
room=$(mktemp -d)
trap 'rm -rf "$room"' EXIT
cd "$room" || exit 1
passed=0
failed=0

# judge NAME STATUS STDERR: compares how the last try ended with what is wanted, its output with `want`.
judge() {
    if [ "$status" = "$2" ] && [ "$(cat err)" = "$3" ] && cmp -s out want; then
        passed=$((passed + 1))
    else
        failed=$((failed + 1))
        echo "FAILED: $1: status $status, standard error '$(cat err)', output:"
        cat out
    fi
}

# attempt WORD..: runs the program on these words, with the input `in`.
attempt() {
    "$program" "$@" <in >out 2>err
    status=$?
}

# attempt_soon WORD..: does so, and stops it after ten seconds.
attempt_soon() {
    timeout 10 "$program" "$@" <in >out 2>err
    status=$?
}

# expect NAME: counts the result of the command before it.
expect() {
    if [ $? = 0 ]; then
        passed=$((passed + 1))
    else
        failed=$((failed + 1))
        echo "FAILED: $1"
    fi
}

# ask METHOD TARGET [BODY]: a request.
ask() {
    printf '%s %s HTTP/1.1\r\nHost: b\r\n' "$1" "$2"
    [ $# -lt 3 ] || printf 'Content-Length: %d\r\n' "${#3}"
    printf '\r\n%s' "${3:-}"
}

# has TEXT: whether the output has it.
has() {
    grep -qF "$1" out
}

# hex FILE: its bytes in hexadecimal.
hex() {
    od -An -v -tx1 "$1" | tr -d ' \n'
}

usage='usage: backup_server pipe --store DIR [--settings FILE]
       backup_server serve --listen ADDR [--connections N] --store DIR [--settings FILE]
       backup_server night [--scheduled] --store DIR [--settings FILE]
       backup_server migrate --store DIR [--settings FILE]
       backup_server dump-folder --host H --kind full|incr --store DIR [--settings FILE] FOLDER
       backup_server restore-folder --host H --number N --store DIR [--settings FILE] FOLDER
       backup_server demo --store DIR [--settings FILE] NUMBER
       backup_server pull --host H --from ADDR --store DIR [--settings FILE]
       backup_server push-folder --to ADDR --host H --kind full|incr FOLDER'
: >in
: >want

attempt frob
judge 'a word that is no command' 2 "error: unrecognized subcommand 'frob'

Usage: backup_server <COMMAND>
$usage"
attempt
judge 'no words' 2 "error: 'backup_server' requires a subcommand but one was not provided
  [subcommands: pipe, serve, night, migrate, dump-folder, restore-folder, demo, pull]

Usage: backup_server <COMMAND>
$usage"
attempt pipe --store made more
judge 'a word too many' 2 "error: unexpected argument 'more' found

Usage: backup_server pipe [OPTIONS] --store <store>
$usage"
attempt night --scheduled
judge 'a night without its store' 2 "error: the following required arguments were not provided:
  --store <store>

Usage: backup_server night --store <store> --scheduled
$usage"
attempt serve --store made
judge 'serving without an address' 2 "error: the following required arguments were not provided:
  --listen <listen>

Usage: backup_server serve --store <store> --listen <listen>
$usage"
attempt serve --store made --listen 127.0.0.1:0 --connections many
judge 'a number of connections that is none' 2 "error: invalid value 'many' for '--connections <connections>': invalid digit found in string
$usage"
attempt dump-folder --store made --kind full folder
judge 'a dump of a folder without a host' 2 "error: the following required arguments were not provided:
  --host <host>

Usage: backup_server dump-folder --store <store> --host <host> --kind <kind> <folder>
$usage"
attempt dump-folder --store made --host PC1 --kind full folder
judge 'a dump of a folder for a bad host' 2 "$usage"
attempt dump-folder --store made --host pc1 --kind Full folder
judge 'a dump of a folder of a bad kind' 2 "$usage"
attempt dump-folder --store made --host pc1 --kind incr
judge 'a dump without a folder' 2 "error: the following required arguments were not provided:
  <folder>

Usage: backup_server dump-folder --store <store> --host <host> --kind <kind> <folder>
$usage"
attempt dump-folder --store made --host pc1 --kind incr folder more
judge 'a dump of two folders' 2 "error: unexpected argument 'more' found

Usage: backup_server dump-folder [OPTIONS] --store <store> --host <host> --kind <kind> <folder>
$usage"
attempt restore-folder --store made --host pc1 --number 4294967296 folder
judge 'a number of a backup that is too large' 2 "error: invalid value '4294967296' for '--number <number>': 4294967296 is not in 0..=4294967295
$usage"
attempt restore-folder --store made --host pc1 --number 0
judge 'a restore without a folder' 2 "error: the following required arguments were not provided:
  <folder>

Usage: backup_server restore-folder --store <store> --host <host> --number <number> <folder>
$usage"
attempt demo --store made
judge 'a demo without a number' 2 "error: the following required arguments were not provided:
  <number>

Usage: backup_server demo --store <store> <number>
$usage"
attempt demo --store made many
judge 'a demo of a number that is none' 2 "error: invalid value 'many' for '<number>': invalid digit found in string
$usage"
attempt demo --store made 18446744073709551616
judge 'a demo of a number that is too large' 2 "error: invalid value '18446744073709551616' for '<number>': number too large to fit in target type
$usage"
attempt migrate --store made pc1
judge 'a migration of one host' 2 "error: unexpected argument 'pc1' found

Usage: backup_server migrate [OPTIONS] --store <store>
$usage"
attempt pipe --store "made$(printf '\377')"
judge 'a word that is not UTF-8' 2 "$usage"
[ -z "$(ls -d made* 2>/dev/null)" ]
expect 'words that are no command line make nothing'

attempt pipe --store empty/a/b
judge 'no input' 0 ''
[ "$(ls empty/a/b | tr '\n' ' ')" = 'gate head intent lock ' ]
expect 'a store without hosts has its head, the journal and the lock alone'
[ "$(stat -c %a empty/a/b empty/a/b/head empty/a/b/lock | tr '\n' ' ')" = '700 600 600 ' ]
expect 'the folder and its files are their owner'"'"'s alone'

printf 'PUT /hosts/pc1 HTTP/1.1\r\nHost: b\r\n\r\n' >in
printf 'HTTP/1.1 201 Created\r\nContent-Type: application/json\r\nContent-Length: 14\r\n\r\n{"host":"pc1"}' >want
attempt pipe --store empty/a/b
judge 'a second run on a store' 0 ''
printf 'GET /hosts HTTP/1.1\r\nHost: b\r\n\r\n' >in
printf 'HTTP/1.1 200 OK\r\nContent-Type: application/json\r\nContent-Length: 17\r\n\r\n{"hosts":["pc1"]}' >want
attempt pipe --store empty/a/b
judge 'a third run has what the second one added' 0 ''

printf 'PUT /hosts/pc1 HTTP/1.1\r\nHost: b\r\n\r\nGET /hosts/pc1/due HTTP/1.1\r\nHost: b\r\n\r\n' >in
{
    printf 'HTTP/1.1 201 Created\r\nContent-Type: application/json\r\nContent-Length: 14\r\n\r\n{"host":"pc1"}'
    printf 'HTTP/1.1 200 OK\r\nContent-Type: application/json\r\nContent-Length: 30\r\n\r\n{"blackout":true,"due":"full"}'
} >want
printf '[Rules]\nBlackoutGoodCnt = 0\nBlackoutPeriods = "0-1439:0123456;1439-0:0123456"\n' >settings
attempt pipe --store settled --settings settings
judge 'settings that have each host left alone' 0 ''
: >in
: >want
printf '[Rules]\nFillCycle = -1\n' >settings
attempt pipe --store unsettled --settings settings
judge 'settings with a wrong value' 7 'bad settings: FillCycle'
[ "$(ls unsettled)" = lock ]
expect 'wrong settings open no store'
printf 'Zone' >settings
attempt pipe --store unsettled --settings settings
judge 'settings that are no TOML' 7 'bad settings: not TOML'
attempt pipe --store unread --settings absent
judge 'a settings file that is not there' 8 "the settings file absent can't be read: No such file or directory (os error 2)"
attempt pipe --store unread --settings .
judge 'a settings file that is a folder' 8 "the settings file . can't be read: Is a directory (os error 21)"
[ ! -e unread ]
expect 'settings that cannot be read make nothing'

# Migrations: of an empty store, and of one that has a table of the first layout.
echo 'migrated 0' >want
attempt migrate --store olden
judge 'a migration of an empty store' 0 ''
{
    ask PUT /hosts/pc1
    ask POST '/hosts/pc1/dumps?kind=full'
    ask PUT '/dumps/2-0/entry?path=a.txt&kind=file' hello
    ask POST /dumps/2-0/commit
} >in
"$program" pipe --store olden <in >out 2>err
cp olden/table-0-0 second
{
    printf 'RTB1\000\000\000\001\001\000\005a.txt\000\000\001\244'
    printf '\000\000\000\000\000\000\000\000\000\000\000\000\000\000\000\000\000\000\000\000\000\000\000\005'
    printf '\135\101\100\052\274\113\052\166\271\161\235\221\020\027\305\222\000\000'
    printf '\364\125\344\003\242\234\021\342\046\174\262\031\070\322\001\377'
} >olden/table-0-0
ask GET '/hosts/pc1/backups/0/file?path=a.txt' >in
"$program" pipe --store olden <in >out 2>err
has hello
expect 'a table of the first layout is read'
: >in
echo 'migrated 1' >want
attempt migrate --store olden
judge 'a migration' 0 ''
cmp -s olden/table-0-0 second
expect 'the table is of the second layout afterwards'
: >want

# Nights of an empty store.
printf 'BackupPCNightlyPeriod = 4\n' >settings
today=$(($(date +%s) / 86400))
attempt night --store nights --settings settings
printf 'night %s: expired 0, marked 0, unmarked 0, removed 0\n' "$today" >want
judge 'a night of an empty store' 0 ''
[ "$(LC_ALL=C ls nights | tr '\n' ' ')" = 'gate head intent lock ' ]
expect 'a night makes the store that is not there'
minute=$(($(date +%s) / 60 % 1440))
printf 'WakeupSchedule = [%s, %s]\n' $(((minute + 720) % 1440)) "$minute" >settings
echo 'not now' >want
attempt night --scheduled --store nights --settings settings
judge 'a night that is not scheduled now' 0 ''
: >want
: >out
"$program" night --store nights <in >/dev/full 2>err
status=$?
judge 'a night whose line cannot be written' 3 'link failed'
printf '[Rules]\nFillCycle = -1\n' >settings
attempt night --store unsettled --settings settings
judge 'a night by settings with a wrong value' 7 'bad settings: FillCycle'
[ "$(ls unsettled)" = lock ]
expect 'a night by wrong settings opens no store'

# Demos: twice the same, and the same as tests/demo.py says.
demo_lines() {
    if [ "$1" = 1 ]; then
        printf 'demo 1\nhosts 4\nbackups 56 filled 32\npool files 819 bytes 116510 marked 63\ncheck ccf5a1439b17613e47c09731846c3f55\n'
    else
        python3 "$model" "$1"
    fi
}
for number in 1 1 3141592653 18446744073709551615; do
    if demo_lines "$number" >want 2>/dev/null; then
        rm -rf demos
        attempt demo --store demos "$number"
        judge "a demo of $number" 0 ''
    else
        echo "skipped: a demo of $number, since there is no python3"
    fi
done
find demos -type f ! -name head ! -name intent -exec cksum {} + | sort >before
: >want
attempt demo --store demos 1
judge 'a demo where hosts are' 1 'store not empty'
find demos -type f ! -name head ! -name intent -exec cksum {} + | sort >after
cmp -s before after
expect 'a demo where hosts are changes nothing but the epoch'
rm -rf demos
if command -v python3 >/dev/null; then
    demo_lines 1 >want
    [ "$(python3 "$model" 1)" = "$(cat want)" ]
    expect 'the lines of a demo of 1 are those of the model'
    : >want
fi

# The example has each setting with its default: a host that is added by it is the same as one without a settings file.
printf 'PUT /hosts/pc1 HTTP/1.1\r\nHost: b\r\n\r\n' >in
printf 'HTTP/1.1 201 Created\r\nContent-Type: application/json\r\nContent-Length: 14\r\n\r\n{"host":"pc1"}' >want
attempt pipe --store by_example --settings "$example"
judge 'the example of the settings' 0 ''
attempt pipe --store by_default
cmp -s by_example/host-0 by_default/host-0
expect 'the example has the defaults'
: >in
: >want

mkdir -p foreign
printf abc >foreign/head
: >foreign/lock
find foreign -type f -exec cksum {} + >before
attempt pipe --store foreign
judge 'a head that is none' 5 'foreign head
in the folder foreign'
find foreign -type f -exec cksum {} + >after
cmp -s before after
expect 'a folder with a foreign head stays as it was'

: >plain
attempt pipe --store plain/store
judge 'a path below a file' 8 "the folder plain/store can't be made or opened: Not a directory (os error 20)"
attempt pipe --store plain
judge 'a path of a file' 8 "the folder plain can't be made or opened: File exists (os error 17)"
attempt pipe --store ''
judge 'an empty path' 8 "the folder  can't be made or opened: No such file or directory (os error 2)"

{
    printf 'PUT /hosts/pc1 HTTP/1.1\r\nHost: b\r\n\r\n'
    printf 'POST /hosts/pc1/dumps?kind=full HTTP/1.1\r\nHost: b\r\n\r\n'
    printf 'PUT /dumps/1-0/entry?path=a&kind=file HTTP/1.1\r\nHost: b\r\nContent-Length: 10\r\n\r\n1234567'
} >in
{
    printf 'HTTP/1.1 201 Created\r\nContent-Type: application/json\r\nContent-Length: 14\r\n\r\n{"host":"pc1"}'
    printf 'HTTP/1.1 201 Created\r\nContent-Type: application/json\r\nContent-Length: 14\r\n\r\n{"dump":"1-0"}'
} >want
attempt pipe --store cut
judge 'a body cut after 7 of 10 bytes' 1 'input ended inside a request'

printf 'GET /nothing HTTP/1.1\r\nHost: b\r\n\r\n' >in
printf 'HTTP/1.1 404 Not Found\r\nContent-Type: application/json\r\nContent-Length: 21\r\n\r\n{"refused":"NoRoute"}' >want
attempt pipe --store routes
judge 'a target that has no route' 0 ''

printf 'GET /hosts HTTP/1.1\r\n\r\n' >in
printf 'HTTP/1.1 400 Bad Request\r\nContent-Type: application/json\r\nContent-Length: 21\r\nConnection: close\r\n\r\n{"refused":"BadHead"}' >want
attempt pipe --store heads
judge 'a head without its Host' 1 'request not understood'

printf 'PUT /hosts/pc1 HTTP/1.1\r\nHost: b\r\n\r\n' >in
: >want
: >out
"$program" pipe --store full <in >/dev/full 2>err
status=$?
judge 'standard output that takes nothing' 3 'link failed'

mkdir -p away/head
attempt pipe --store away
judge 'a head that is a folder' 4 'away/head: Is a directory (os error 21)
disk failed'

mkdir -p linked
echo kept >target
ln -s ../target linked/head
attempt pipe --store linked
judge 'a symbolic link in the place of a head' 4 'linked/head: Too many levels of symbolic links (os error 40)
disk failed'
[ "$(cat target)" = kept ] && [ -L linked/head ]
expect 'a symbolic link in the place of a head is not written through'
mkdir -p dangling
ln -s ../nowhere dangling/head
attempt pipe --store dangling
judge 'a dangling symbolic link in the place of a head' 4 'dangling/head: Too many levels of symbolic links (os error 40)
disk failed'
[ ! -e nowhere ]
expect 'a dangling symbolic link is not written through'
mkdir -p lock_linked
ln -s ../nowhere lock_linked/lock
attempt pipe --store lock_linked
judge 'a symbolic link in the place of the lock' 8 "the folder lock_linked can't be locked: Too many levels of symbolic links (os error 40)"

# What would wait if it were opened is refused before that.
mkdir -p piped gated lock_piped
mkfifo piped/head gated/intent lock_piped/lock
attempt_soon pipe --store piped
judge 'a FIFO in the place of a head' 4 'piped/head: not a regular file
disk failed'
attempt_soon pipe --store gated
judge 'a FIFO in the place of the journal' 4 'gated/intent: not a regular file
disk failed'
attempt_soon pipe --store lock_piped
judge 'a FIFO in the place of the lock' 8 "the folder lock_piped can't be locked: not a regular file"
mkdir -p devices
if mknod devices/head c 1 3 2>/dev/null; then
    attempt_soon pipe --store devices
    judge 'a device in the place of a head' 4 'devices/head: not a regular file
disk failed'
else
    echo "skipped: a device in the place of a head, since none can be made here"
fi

# Root meets no file without permission, so the program runs as another user then, if it can.
as_user=
if [ "$(id -u)" = 0 ]; then
    as_user=none
    if setpriv --reuid=65534 --regid=65534 --clear-groups true 2>/dev/null; then
        as_user='setpriv --reuid=65534 --regid=65534 --clear-groups'
    fi
fi
if [ "$as_user" = none ]; then
    echo 'skipped: a file and a folder without permission, since this is root, and setpriv makes no other user of it'
else
    chmod 755 .
    cp "$program" copy
    chmod 755 copy
    mkdir -p closed shut
    : >closed/head
    chmod 000 closed/head
    chmod 500 shut
    [ -z "$as_user" ] || chown -R 65534:65534 closed shut
    $as_user ./copy pipe --store closed <in >out 2>err
    status=$?
    judge 'a head without permission' 4 'closed/head: Permission denied (os error 13)
disk failed'
    $as_user ./copy pipe --store shut <in >out 2>err
    status=$?
    judge 'a folder that takes no file' 8 "the folder shut can't be locked: Permission denied (os error 13)"
fi

mkdir -p strange
: >strange/host-00
: >strange/table-1
attempt pipe --store strange
printf 'HTTP/1.1 201 Created\r\nContent-Type: application/json\r\nContent-Length: 14\r\n\r\n{"host":"pc1"}' >want
judge 'a folder with other files' 0 ''
[ "$(LC_ALL=C ls strange | tr '\n' ' ')" = 'counts-0 gate head host-0 host-00 intent lock table-1 ' ]
expect 'other files stay'

# What a commit leaves in the folder, its bytes, and the clock.
{
    ask PUT /hosts/pc1
    ask POST '/hosts/pc1/dumps?kind=full'
    ask PUT '/dumps/1-0/entry?path=a.txt&kind=file' hello
    ask POST /dumps/1-0/commit
    ask GET /hosts/pc1/backups
} >in
before=$(date +%s)
attempt pipe --store kept
after=$(date +%s)
has '{"number":0}'
expect 'a commit'
pool=pool-5d41402abc4b2a76b9719d911017c592-0
[ "$(LC_ALL=C ls kept | tr '\n' ' ')" = "counts-0 gate head host-0 intent lock $pool pool-index-93 table-0-0 " ]
expect 'the names in the folder after a commit'
[ "$(stat -c %a kept/* | sort -u)" = 600 ]
expect 'the files of a commit are their owner'"'"'s alone'
[ "$(cat kept/$pool)" = hello ]
expect 'a content is a file'
path=0005$(printf a.txt | od -An -tx1 | tr -d ' ')
attributes=000001a4000000000000000000000000000000000000000000000000
head -c 70 kept/table-0-0 | md5sum >sum
seal=$(cut -c 1-32 sum)
[ "$(hex kept/table-0-0)" = "525442320000000101${path}${attributes}00000000000000055d41402abc4b2a76b9719d911017c5920000$seal" ]
expect 'the bytes of a table'
[ "$(hex kept/pool-index-93)" = 525042315d00000000000000015d41402abc4b2a76b9719d911017c59200000000000000000005002d4df6b9fabe42750d87b12f2bc3a725 ]
expect 'the bytes of a bucket of the index'
start=$(sed -n 's/.*"start":\([0-9]*\)}.*/\1/p' out)
end=$(sed -n 's/.*{"end":\([0-9]*\),.*/\1/p' out)
[ "$before" -le "${start:-0}" ] && [ "${start:-0}" -le "${end:-0}" ] && [ "${end:-0}" -le "$after" ]
expect 'a backup starts and ends by the clock of the system'

# A content whose file is a FIFO is refused, and told at once, a cause once a minute, while the run goes on.
mv kept/$pool content
mkfifo kept/$pool door
timeout 20 "$program" pipe --store kept <door >out 2>err &
running=$!
exec 3>door
ask GET '/hosts/pc1/backups/0/file?path=a.txt' >&3
ask GET '/hosts/pc1/backups/0/file?path=a.txt' >&3
tries=0
until [ "$(grep -c '^HTTP/1.1 500 ' out)" = 2 ] || [ "$tries" = 100 ]; do
    tries=$((tries + 1))
    sleep 0.1
done
[ "$(cat err)" = "kept/$pool: not a regular file" ] && kill -0 "$running"
expect 'a failing disk is told while the run goes on, a cause once a minute'
rm kept/$pool
mv content kept/$pool
ask GET '/hosts/pc1/backups/0/file?path=a.txt' >&3
exec 3>&-
wait "$running"
status=$?
has hello && [ "$status" = 0 ] && [ "$(cat err)" = "kept/$pool: not a regular file" ]
expect 'a content whose file is regular again is read again'
rm door

# Deletion, two cleanings of the content's bucket, a sweep.
{
    ask DELETE /hosts/pc1/backups/0
    ask POST '/night/clean?bucket=5'
    ask POST '/night/clean?bucket=5'
    ask POST /night/sweep
} >in
attempt pipe --store kept
has '"removed":1'
expect 'a content that no backup holds is cleaned away'
[ "$(LC_ALL=C ls kept | tr '\n' ' ')" = 'counts-0 gate head host-0 intent lock ' ]
expect 'the names in the folder after a sweep'

# Thirty days of one host, a dump at noon and a night at 23:00. Numbers that 7 divides stay filled, two of them are kept at a
# week's distance, and the three newest of the others; the newest is no candidate. What an expiry leaves without a backup is
# marked in the same night and removed in the next.
if command -v faketime >/dev/null; then
    printf '[Rules]\nFillCycle = 7\nFullKeepCnt = 2\nIncrKeepCnt = 3\n' >settings
    ask PUT /hosts/pc1 >in
    "$program" pipe --store office --settings settings <in >out 2>err
    first=$(date -u -d 2026-01-05 +%s)
    day=0
    ended=''
    while [ "$day" -lt 30 ]; do
        kind=incr
        [ $((day % 7)) != 0 ] || kind=full
        epoch=$((day * 2 + 2))
        {
            ask POST "/hosts/pc1/dumps?kind=$kind"
            ask PUT "/dumps/$epoch-0/entry?path=f&kind=file" "day $day"
            ask POST "/dumps/$epoch-0/commit"
        } >in
        date=$(date -u -d "@$((first + day * 86400))" +%F)
        TZ=UTC faketime "$date 12:00:00" "$program" pipe --store office --settings settings <in >out 2>err
        ended="$ended$?"
        TZ=UTC faketime "$date 23:00:00" "$program" night --store office --settings settings <in >>lines 2>err
        ended="$ended$?"
        day=$((day + 1))
    done
    [ -z "$(echo "$ended" | tr -d 0)" ] && [ "$(wc -l <lines)" = 30 ]
    expect "thirty days of dumps and nights end well: $ended"
    [ "$(tail -n 1 lines)" = "night $((first / 86400 + 29)): expired 1, marked 1, unmarked 0, removed 1" ]
    expect "the last night's line: $(tail -n 1 lines)"
    {
        for number in 21 25 26 27 28 29; do
            ask GET "/hosts/pc1/backups/$number/file?path=f"
        done
        ask GET /hosts/pc1/backups
    } >in
    attempt pipe --store office --settings settings
    [ "$(grep -o '"number":[0-9]*' out | cut -d : -f 2 | tr '\n' ' ')" = '21 25 26 27 28 29 ' ]
    expect 'what stays after thirty nights is what the rules name'
    [ "$(grep -o 'day [0-9]*' out | tr '\n' ' ')" = 'day 21 day 25 day 26 day 27 day 28 day 29 ' ]
    expect 'each backup that stays has its content'
    [ "$(ls office | grep -c '^pool-[0-9a-f]\{32\}-')" = 7 ]
    expect 'the pool has their contents, and the one that the last night marked'
else
    echo "skipped: thirty nights, since faketime isn't there"
fi

# No room: a limit on the size of a file stands for a full disk.
ask PUT /hosts/pc1 >in
: >want
said=$(trap '' XFSZ; ulimit -f 0; "$program" pipe --store full_disk <in 2>&1; echo "status $?")
[ "$said" = 'full_disk/intent: File too large (os error 27)
disk failed
status 4' ]
expect "no room at the first opening: $said"
attempt pipe --store full_disk
has '{"host":"pc1"}' && [ "$status" = 0 ]
expect 'it opens when there is room'

# Little memory: a file of the store that it can't hold, and a body that it can't hold and needn't.
mkdir -p vast
truncate -s 1000000000 vast/head
(ulimit -v 60000; attempt pipe --store vast; echo "$status" >limited)
status=$(cat limited)
judge 'a head that no memory can hold' 6 'no memory'
{
    ask PUT /hosts/pc1
    ask POST '/hosts/pc1/dumps?kind=full'
    printf 'PUT /dumps/1-0/entry?path=a&kind=file HTTP/1.1\r\nHost: b\r\nContent-Length: 67108864\r\n\r\n'
    head -c 67108864 /dev/zero
} >in
(ulimit -v 60000; attempt pipe --store small; echo "$status" >limited)
status=$(cat limited)
{
    printf 'HTTP/1.1 201 Created\r\nContent-Type: application/json\r\nContent-Length: 14\r\n\r\n{"host":"pc1"}'
    printf 'HTTP/1.1 201 Created\r\nContent-Type: application/json\r\nContent-Length: 14\r\n\r\n{"dump":"1-0"}'
    printf 'HTTP/1.1 200 OK\r\nContent-Type: application/json\r\nContent-Length: 2\r\n\r\n{}'
} >want
judge 'a body larger than the memory' 0 ''
: >in
: >want

# A reader that has gone: the door opens when nobody reads any longer.
mkfifo window wicket
exec 4<>window
"$program" pipe --store left <wicket >window 2>err 4<&- &
left=$!
exec 3>wicket
exec 4<&-
ask PUT /hosts/pc1 >&3
exec 3>&-
wait "$left"
status=$?
: >out
judge 'a reader that has gone' 3 'link failed'

# Two processes on one folder: the first has the lock until its input ends.
mkfifo door
"$program" pipe --store taken <door >first 2>first_err &
first=$!
exec 3>door
tries=0
until [ -e taken/head ] || [ "$tries" = 100 ]; do
    tries=$((tries + 1))
    sleep 0.1
done
: >want
attempt pipe --store taken
judge 'a second process on one folder' 8 'the folder taken is in use'
attempt night --store taken
judge 'a night while another process has the folder' 8 'the folder taken is in use'
attempt serve --store taken --listen 127.0.0.1:0
judge 'serving while another process has the folder' 8 'the folder taken is in use'
attempt serve --store served --listen 127.0.0.1:99999
judge 'an address that is none' 8 "the address 127.0.0.1:99999 can't be listened on: invalid port value"
attempt serve --store served --listen 127.0.0.1:0 --connections 0
[ "$status" = 0 ] && grep -qx 'listening on 127\.0\.0\.1:[1-9][0-9]*' err
expect 'serving no connections says where it listens, and ends'
exec 3>&-
wait "$first"
[ $? = 0 ] && [ ! -s first ] && [ ! -s first_err ]
expect 'the first process goes on and ends'
attempt pipe --store taken
[ "$status" = 0 ]
expect 'after it the folder is free'

echo "$passed passed, $failed failed"
[ "$failed" = 0 ]
