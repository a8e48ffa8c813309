#!/usr/bin/env python3
"""Checks a crate over libraries that aren't proved yet: tools/check_over.py CRATE [--only CRATE::module::function] [rattle's flags], at the top of a checkout.

A library below the crate that stands built in its out/ (tools/take_kept.py gives them) is taken so, and each other one as source, by its contracts: its own
functions are not proved in this run. So several crates of a tower are proved side by side once their texts are there. What this says is no verdict: `rt ci`
proves each crate over its proved libraries. Kept work goes to a folder for the crate in /tmp."""
import os
import subprocess
import sys

KIT = "/opt/rattle"


def rows_of(path):
    rows = {}
    with open(path, encoding="utf-8") as text:
        for line in text:
            name, colon, below = line.split("#")[0].partition(":")
            if colon and name.split():
                rows[name.split()[0]] = below.split()
    return rows


def below(rows, name):
    """The project's crates below one, and itself, lowest first."""
    found = []
    for it in rows.get(name, []):
        if it in rows:
            found += [each for each in below(rows, it) if each not in found]
    return [*found, name]


def main(name, flags):
    top, rows = os.getcwd(), rows_of("crates.txt")
    lib = lambda it: f"{top}/crates/{it}/out/rlib/{it}.rlib" if it in rows else f"{KIT}/rlibs/{it}.rlib"
    under = below(rows, name)[:-1]
    sources = [it for it in under if not os.path.isfile(f"{lib(it)}/format")]
    direct = {it for each in [name, *sources] for it in rows[each]} - set(sources)
    words = [word for it in sorted(direct) for word in ("--extern", f"{it}={lib(it)}")]
    words += [word for it in sources for word in ("--lib", f"{it}={top}/crates/{it}/src/lib.rt")]
    words += [word for it in under if it not in sources for word in ("-L", f"dependency={os.path.dirname(lib(it))}")]
    kept = f"/tmp/check_over.{os.getuid()}/{name}"
    os.makedirs(kept, exist_ok=True)
    print("as source:", *sources, flush=True)
    root = "src/main.rt" if os.path.isfile(f"crates/{name}/src/main.rt") else "src/lib.rt"
    return subprocess.run([f"{KIT}/bin/rattle", "check", "--crate-name", name, root, "--extern", f"std={KIT}/rlibs/std.rlib", "-L", f"dependency={KIT}/rlibs",
                           *words, "--antt-project", f"{KIT}/rattle/logic/antt-project.json", "--logic-built", f"{KIT}/logic_built",
                           "--incremental", kept, *flags], cwd=f"{top}/crates/{name}", check=False).returncode


if __name__ == "__main__":
    sys.exit(main(sys.argv[1], sys.argv[2:]) if len(sys.argv) > 1 else __doc__)
