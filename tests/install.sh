#!/bin/sh
# `make install` and `make deb` in a temporary folder, with the program at a given path: nothing is built, installed or started on this
# machine. Run it from anywhere: tests/install.sh PROGRAM. It needs make, and what isn't there is left out and said: python3 (the client),
# groff (the man page), dpkg-deb (the package), systemd-analyze (the units). It takes a few seconds.
# The last line is 'N passed, M failed'; the status is 0 if none failed.

top=$(cd "$(dirname "$0")/.." && pwd)
program=${1:-$top/bin/backup_server}
[ -x "$program" ] || { echo "$program isn't there: make build first"; exit 1; }
program=$(cd "$(dirname "$program")" && pwd)/$(basename "$program")
room=$(mktemp -d)
trap 'rm -rf "$room"' EXIT
cd "$room" || exit 1
passed=0
failed=0

# expect NAME: counts the result of the command before it.
expect() {
    if [ $? = 0 ]; then
        passed=$((passed + 1))
    else
        failed=$((failed + 1))
        echo "FAILED: $1"
    fi
}

# alike NAME: compares the files said and want.
alike() {
    diff want said
    expect "$1"
}

# install_in ROOT WORD..: make install below this folder.
install_in() {
    root=$1
    shift
    make -s -C "$top" install PROGRAM="$program" DESTDIR="$root" "$@"
}

install_in "$room/root" >said 2>&1
expect 'make install ends with 0'
: >want
alike 'make install says nothing'
(cd root && find . -type f -printf '%m %P\n' | sort -k 2) >said
cat >want <<'END'
644 etc/turretgage/backup_server.toml
755 usr/local/bin/backup_server
755 usr/local/bin/turretgage
755 usr/local/bin/turretgage-night.sh
644 usr/local/lib/systemd/system/turretgage-night.service
644 usr/local/lib/systemd/system/turretgage-night.timer
644 usr/local/lib/systemd/system/turretgage-pull@.service
644 usr/local/lib/systemd/system/turretgage-pull@.timer
644 usr/local/lib/systemd/system/turretgage-push@.service
644 usr/local/lib/systemd/system/turretgage-push@.timer
644 usr/local/lib/systemd/system/turretgage.service
755 usr/local/lib/turretgage/turretgage
644 usr/local/share/doc/turretgage/ADMIN.md
644 usr/local/share/doc/turretgage/API.md
644 usr/local/share/doc/turretgage/CHANGELOG.md
644 usr/local/share/doc/turretgage/CLIENT.md
644 usr/local/share/doc/turretgage/FORMATS.md
644 usr/local/share/doc/turretgage/LICENSE
644 usr/local/share/doc/turretgage/README.md
644 usr/local/share/doc/turretgage/VERSION
644 usr/local/share/doc/turretgage/examples/backup_server.toml
644 usr/local/share/doc/turretgage/examples/nginx-turretgage.conf
644 usr/local/share/man/man8/turretgage.8
END
alike 'these files are there, with these modes'
cmp -s root/usr/local/bin/backup_server "$program"
expect 'the program is the one that was given'

# What was changed by hand stays.
echo '# mine' >>root/etc/turretgage/backup_server.toml
install_in "$room/root"
tail -n 1 root/etc/turretgage/backup_server.toml >said
echo '# mine' >want
alike 'settings that are there stay'

# Units name programs and settings that are there, wherever they were put.
install_in "$room/other" PREFIX=/opt/backup SYSCONFDIR=/opt/etc
! grep -rn '/usr/local/bin\|[ =]/etc/turretgage' other/opt/backup/lib/systemd/system | grep -v ':#' >said
expect 'units name the prefix'
for tree in root/usr/local other/opt/backup; do
    sed -n 's/^ExecStart=\([^ ]*\).*/\1/p; s/.* --settings \([^ ]*\).*/\1/p' "$tree"/lib/systemd/system/*.service | grep -v '^#' | sort -u
done >named
while read -r path; do
    [ -e "root$path" ] || [ -e "other$path" ]
    expect "$path is named by a unit, and is there"
done <named
if command -v systemd-analyze >/dev/null; then
    # (it looks for what ExecStart names below a root of its own only in newer versions)
    systemd-analyze verify root/usr/local/lib/systemd/system/turretgage-night.timer 2>&1 | grep -i 'unknown\|failed to parse' >said
    : >want
    alike 'systemd reads the units'
else
    echo 'left out: systemd-analyze'
fi

# One name for both programs.
words="pipe --store $room/store"
# shellcheck disable=SC2086
"$program" $words </dev/null >want 2>&1
status=$?
rm -rf store
# shellcheck disable=SC2086
root/usr/local/bin/turretgage $words </dev/null >said 2>&1
[ $? = "$status" ]
expect 'turretgage with --store ends as the program'
alike 'and says what the program says'
rm -rf store
ln -s root/usr/local/bin/turretgage linked
./linked pipe "--store=$room/store" </dev/null >said 2>&1
[ $? = "$status" ]
expect 'by a link, and with --store=DIR'
"$program" push-folder </dev/null >want 2>&1
status=$?
root/usr/local/bin/turretgage push-folder </dev/null >said 2>&1
[ $? = "$status" ]
expect 'turretgage push-folder ends as the program'
alike 'and says what that says of its words'
if command -v python3 >/dev/null; then
    root/usr/local/bin/turretgage --version >said 2>&1
    "$top/clients/turretgage" --version >want 2>&1
    alike 'turretgage without --store is the client'
    ! grep -q '"--store"' "$top/clients/turretgage"
    expect 'the client has no option --store'
else
    echo 'left out: python3'
fi

# The man page.
page=$top/man/turretgage.8
if command -v groff >/dev/null; then
    groff -ww -man -Tutf8 "$page" >shown 2>said
    : >want
    alike 'groff reads the man page without a warning'
    [ "$(wc -l <shown)" -gt 100 ]
    expect 'the man page has text'
else
    echo 'left out: groff'
fi
for status in 0 1 2 3 4 5 6 7 8; do
    grep -q "^\.B $status\$" "$page"
    expect "the man page has status $status"
done
# Each option of the usage stands in the page.
grep -o '\--[a-z]*' "$top/crates/command_line/src/usage.rt" | sort -u | while read -r option; do
    sed 's/\\-/-/g' "$page" | grep -q -- "$option" || echo "$option"
done >said
: >want
alike 'the man page has each option'

# The package.
if command -v dpkg-deb >/dev/null; then
    cp -r "$top/VERSION" .
    made=$("$top/packaging/deb.sh" "$program" "$room/packages")
    expect 'make deb ends with 0'
    [ "$made" = "$room/packages/turretgage_$(cat VERSION)_$(dpkg --print-architecture).deb" ]
    expect 'the package is named for version and machine'
    dpkg-deb -f "$made" Package Version Depends >said
    printf 'Package: turretgage\nVersion: %s\nDepends: libc6, passwd\n' "$(cat VERSION)" >want
    alike 'its fields'
    dpkg-deb -x "$made" unpacked
    cmp -s unpacked/usr/bin/backup_server "$program"
    expect 'it has the program'
    for path in bin/turretgage bin/turretgage-night.sh lib/turretgage/turretgage lib/systemd/system/turretgage.service \
        lib/systemd/system/turretgage-night.timer share/man/man8/turretgage.8.gz share/doc/turretgage/copyright; do
        [ -f "unpacked/usr/$path" ]
        expect "it has usr/$path"
    done
    grep -q '^ExecStart=/usr/bin/backup_server serve' unpacked/usr/lib/systemd/system/turretgage.service
    expect 'its unit runs its program'
    ! dpkg-deb -c "$made" | grep -v ' root/root ' >said
    expect 'all in it belongs to root'
    dpkg-deb -e "$made" control
    cat control/conffiles >said
    echo /etc/turretgage/backup_server.toml >want
    alike 'its settings are a file of the administrator'
    for script in postinst prerm postrm; do
        [ -x "control/$script" ] && sh -n "control/$script"
        expect "$script is a script"
    done
    grep -q 'useradd --system' control/postinst
    expect 'it makes a user of its own'
    ! grep -q 'rm ' control/postinst control/prerm control/postrm
    expect 'it never removes a file'
else
    echo 'left out: dpkg-deb'
fi

echo "$passed passed, $failed failed"
[ "$failed" = 0 ]
