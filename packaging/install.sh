#!/bin/sh
# packaging/install.sh PROGRAM DESTDIR PREFIX SYSCONFDIR: copies the program, the client, the units, the man page and the settings below
# DESTDIR; units name the programs by PREFIX. Settings that are there already stay. `make install` and `make deb` call it.
set -eu
top=$(cd "$(dirname "$0")/.." && pwd)
program=$1
root=$2$3
prefix=$3
settings=$2$4/turretgage

put() { install -D -m "$1" "$2" "$3"; }

put 755 "$program" "$root/bin/backup_server"
put 755 "$top/packaging/turretgage" "$root/bin/turretgage"
put 755 "$top/clients/turretgage" "$root/lib/turretgage/turretgage"
put 755 "$top/examples/turretgage-night.sh" "$root/bin/turretgage-night.sh"
for unit in "$top"/examples/*.service "$top"/examples/*.timer; do
    at=$root/lib/systemd/system/$(basename "$unit")
    put 644 "$unit" "$at"
    sed -i "s|/usr/local/bin/|$prefix/bin/|g; s|/etc/turretgage|$4/turretgage|g" "$at"
done
put 644 "$top/man/turretgage.8" "$root/share/man/man8/turretgage.8"
for page in README.md CHANGELOG.md LICENSE VERSION docs/ADMIN.md docs/API.md docs/CLIENT.md docs/FORMATS.md; do
    put 644 "$top/$page" "$root/share/doc/turretgage/$(basename "$page")"
done
for example in backup_server.toml nginx-turretgage.conf; do
    put 644 "$top/examples/$example" "$root/share/doc/turretgage/examples/$example"
done
[ -e "$settings/backup_server.toml" ] || put 644 "$top/examples/backup_server.toml" "$settings/backup_server.toml"
