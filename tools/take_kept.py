#!/usr/bin/env python3
"""Gives a checkout all libraries that an `rt ci` on this machine has kept of the same texts, in half a minute: tools/take_kept.py, at its top. Then
`rt check` of a crate begins with them in place of proving them. A library in out/ that isn't kept is removed, so nothing may run in the checkout
meanwhile, and libraries of two makers don't mix. Printed: how many were taken, and the names of the others.
It is for trying things beside a gate: `rt ci` itself keeps and takes by its own means."""
import os
import shutil
import sys

from quick_rt import kit


def main():
    rt, root = kit(), os.getcwd()
    rt.Crate.allowed = rt.handles_of(root)
    crates = rt.crates_of(root)
    kept, taken, missing = rt.Kept(crates), 0, []
    for crate in crates:
        ours = f"{crate.folder}/out/rlib"
        shutil.rmtree(ours, ignore_errors=True)
        has_below = all(it.name in kept.rlibs for it in crate.below())
        if crate.is_program or not has_below or not kept.give(crate, False, kept.key(crate)):
            missing.append(crate.name)
            continue
        kept.is_built(crate)
        with open(f"{ours}/stamp", "w", encoding="utf-8") as it:
            it.write(crate.stamp())
        taken += 1
    print(f"taken {taken}, missing:", *missing)


if __name__ == "__main__":
    sys.exit(main())
