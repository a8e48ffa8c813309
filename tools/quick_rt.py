#!/usr/bin/env python3
"""`rt`, with the sum of each library and the list of those below it made once: tools/quick_rt.py check --jobs 1, in a crate's folder, as `rt check --jobs 1`.

The kit's rt makes both along every path of crates.txt that leads to a library, which takes minutes before each check of an upper crate.
Nothing else differs: what it proves and keeps is what rt proves and keeps. It holds to rattle-kit-13b and 13f; the gate is run by rt itself."""
import importlib.machinery
import importlib.util
import os
import sys

sys.dont_write_bytecode = True


def kit():
    """Returns rt and its library as modules, each library's sum kept."""
    program = next(it for it in (f"{at}/rt" for at in os.environ["PATH"].split(":")) if os.path.isfile(it))
    loader = importlib.machinery.SourceFileLoader("rt", os.path.realpath(program))
    rt = importlib.util.module_from_spec(importlib.util.spec_from_loader("rt", loader))
    sys.modules["rt"] = rt
    loader.exec_module(rt)
    Crate = rt.rtlib.Crate
    stamp, below, sums = Crate.stamp, Crate.below, {}

    def stamp_once(self):
        if self.folder not in sums:
            sums[self.folder] = stamp(self)
        return sums[self.folder]

    def below_once(self):
        if "found_below" not in self.__dict__:
            self.found_below = below(self)
        return list(self.found_below)

    Crate.stamp, Crate.below = stamp_once, below_once
    return rt


if __name__ == "__main__":
    sys.exit(kit().main(sys.argv[1:]))
