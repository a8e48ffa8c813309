#!/bin/sh
# Builds bin/backup_server: `rt run` proves each crate that it stands on, compiles it, and runs it once on an empty input,
# which is how the kit builds a program. It prints a line for each crate as it is proved; the kit's own lines are kept in
# build/log. `make build` calls it.
set -eu

top=$(cd "$(dirname "$0")/.." && pwd)
cd "$top"
rm -rf build/empty
mkdir -p bin build
# The program's crates: the rows of crates.txt that its own row names, and itself.
crates=$(awk '
    /^#/ { next }
    { name = $1; sub(/:$/, "", name); is_row[name] = 1 }
    name == "backup_server" { for (i = 2; i <= NF; i++) below[i] = $i }
    END { count = 1; for (i in below) count += below[i] in is_row; print count }
' crates.txt)
echo "proving those of the program's $crates crates that are new or have changed, then compiling: a first build takes about an hour of four processors"
{
    (cd crates/backup_server && ${RT:-rt} run -- pipe --store "$top/build/empty") </dev/null 2>&1 || echo "ended with $?"
} | tee build/log | awk '
    /^logic=proved/ { print "  " crate " is proved"; fflush() }
    /^rt: chose --jobs/ { crate = $NF }
    /^crate / { crate = $2; sub(/:$/, "", crate) }
'
if grep -q '^ended with' build/log; then
    tail -n 20 build/log
    echo "not built: build/log has all that the kit said" >&2
    exit 1
fi
cp crates/backup_server/out/backup_server bin/backup_server
echo "built bin/backup_server"
