#!/usr/bin/env python3
"""Gives the libraries below some crates what another checkout on this machine has proved of them: tools/take_proved.py FROM CRATE.., at the top of
a checkout. A library is taken if its files and those of all libraries below it are the same there, by hard links, in some seconds; then `rt check` of a
crate begins with it in place of proving it. Printed: how many were taken, and the names of those that FROM hasn't proved, or has otherwise.
It is for trying things beside a gate: `rt ci` keeps and takes by its own means, and looks at none of this."""
import os
import shutil
import sys

from quick_rt import kit

rt = kit()
Crate, made = rt.rtlib.Crate, rt.rtlib.Crate.__init__


def make(self, *given, **named):
    made(self, *given, **named)
    rt.read_files(self)


Crate.__init__ = make


def texts(folder):
    found = {}
    for part in (*rt.rtlib.PARTS, "c"):
        for at, _, names in os.walk(f"{folder}/{part}"):
            for name in names:
                with open(f"{at}/{name}", "rb") as it:
                    found[os.path.relpath(f"{at}/{name}", folder)] = it.read()
    return found


def main(other, names):
    top, same, seen, taken, missing = os.getcwd(), {}, set(), 0, []

    def is_same(crate):
        if crate.name not in same:
            theirs = f"{other}/crates/{crate.name}"
            same[crate.name] = all([is_same(it) for it in crate.deps]) and os.path.isdir(theirs) and texts(crate.folder) == texts(theirs)
        return same[crate.name]

    for name in names:
        os.chdir(f"{top}/crates/{name}")
        for crate in Crate(os.getcwd(), top, {}).below():
            if crate.name in seen:
                continue
            seen.add(crate.name)
            theirs, ours = f"{other}/crates/{crate.name}/out/rlib", f"{crate.folder}/out/rlib"
            if not is_same(crate) or not os.path.isfile(f"{theirs}/{crate.name}.rlib/format"):
                missing.append(crate.name)
                continue
            shutil.rmtree(ours, ignore_errors=True)
            shutil.copytree(theirs, ours, copy_function=os.link, ignore=lambda at, found: [it for it in found if it == "stamp"])
            with open(f"{ours}/stamp", "w", encoding="utf-8") as it:
                it.write(crate.stamp())
            taken += 1
    print(f"taken {taken}, missing:", *missing)


main(os.path.abspath(sys.argv[1]), sys.argv[2:])
