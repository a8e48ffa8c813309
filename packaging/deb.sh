#!/bin/sh
# packaging/deb.sh PROGRAM OUT: makes the package turretgage_VERSION_ARCH.deb in the folder OUT, by dpkg-deb, and prints its path.
# Its user is made when it is installed; nothing is started then, and a store is never removed. `make deb` calls it.
set -eu
top=$(cd "$(dirname "$0")/.." && pwd)
version=$(cat "$top/VERSION")
arch=$(dpkg --print-architecture)
made=$(mktemp -d)
trap 'rm -rf "$made"' EXIT
chmod 755 "$made"
"$top/packaging/install.sh" "$1" "$made" /usr /etc
mv "$made/usr/share/doc/turretgage/LICENSE" "$made/usr/share/doc/turretgage/copyright"
gzip -9n "$made/usr/share/man/man8/turretgage.8"
mkdir "$made/DEBIAN"
cat >"$made/DEBIAN/control" <<END
Package: turretgage
Version: $version
Architecture: $arch
Maintainer: Turretgage maintainers <maintainers@users.noreply.turretgage.example>
Installed-Size: $(du -sk --exclude=DEBIAN "$made" | cut -f 1)
Depends: libc6, passwd
Recommends: curl, python3
Section: admin
Priority: optional
Description: backup server for an office's machines, proved
 It keeps numbered backups of machines, each content once, and gives any file of
 a backup back, over HTTP/1.1. What it promises is proved. The client for the
 machines is in it too.
END
echo /etc/turretgage/backup_server.toml >"$made/DEBIAN/conffiles"
install -m 755 "$top/packaging/postinst" "$top/packaging/prerm" "$top/packaging/postrm" "$made/DEBIAN/"
mkdir -p "$2"
dpkg-deb --root-owner-group --build "$made" "$2/turretgage_${version}_$arch.deb" >/dev/null
echo "$2/turretgage_${version}_$arch.deb"
