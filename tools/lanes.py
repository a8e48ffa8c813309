#!/usr/bin/env python3
"""Proves crates of a checkout as `rt ci` does, and keeps what it proved by the sums of its texts, for all checkouts on this machine:
tools/lanes.py CHECKOUT [--tests] [--edits] [--run] [--give] [CRATE..]

With names, those crates and the libraries below them, else all. --tests proves tests, too; --edits tries the must-fail edits (of the named crates, if some
are); --run runs tests and programs; --give proves nothing and links into the checkout each library that is kept, with which `rt check` then begins.
It is for kits whose `rt ci` keeps nothing (rattle-kit-13b), in the place of tools/take_kept.py: several runs, over several checkouts, wait for each other's
crates and never prove one twice. What a crate's check said stands in LANES/logs; LANES is the environment's TURRETGAGE_LANES, else /tmp/lanes.
It is no verdict: `rt ci` is."""
import copy
import fcntl
import hashlib
import os
import shutil
import signal
import sys
import tempfile
import threading
import time

from quick_rt import kit

rt = kit()
rtlib, Crate = rt.rtlib, rt.Crate
LANES = os.environ.get("TURRETGAGE_LANES", "/tmp/lanes")
printing, began = threading.Lock(), time.time()


def say(*words):
    with printing:
        print(f"[{time.time() - began:6.0f}]", *words, flush=True)


def copied(folder, to):
    shutil.rmtree(to, ignore_errors=True)
    shutil.copytree(folder, to, copy_function=os.link)


def write(path, text):
    with open(path, "w", encoding="utf-8") as it:
        it.write(text)


class Kept:
    """What is kept under one sum; only one run at a time makes it."""

    def __init__(self, key):
        self.folder, self.key = f"{LANES}/kept/{key}", key

    def __enter__(self):
        self.lock = open(f"{self.folder}.lock", "w")
        fcntl.flock(self.lock, fcntl.LOCK_EX)
        return self

    def __exit__(self, *_):
        self.lock.close()

    def is_whole(self):
        return os.path.isfile(f"{self.folder}/ok")

    def begin(self):
        shutil.rmtree(self.folder, ignore_errors=True)
        os.makedirs(self.folder)

    def end(self):
        write(f"{self.folder}/ok", "")


def programs_of(crate):
    return [crate.name + ending for ending in rt.BACKENDS.values()]


def give(crate):
    """Puts what is kept of a crate into its out/, and returns whether something is."""
    kept = Kept(crate.stamp())
    if not kept.is_whole():
        return False
    out = f"{crate.folder}/out"
    os.makedirs(out, exist_ok=True)
    if crate.is_program:
        for name in programs_of(crate):
            if os.path.isfile(f"{kept.folder}/{name}"):
                shutil.copy(f"{kept.folder}/{name}", f"{out}/{name}")
    elif not os.path.isdir(crate.rlib) or rtlib.text_of(f"{out}/rlib/stamp") != kept.key:
        copied(f"{kept.folder}/rlib", f"{out}/rlib")
        write(f"{out}/rlib/stamp", kept.key)
    return True


def keep(crate, kept):
    kept.begin()
    out = f"{crate.folder}/out"
    if crate.is_program:
        for name in programs_of(crate):
            if os.path.isfile(f"{out}/{name}"):
                shutil.copy(f"{out}/{name}", f"{kept.folder}/{name}")
    else:
        shutil.copytree(f"{out}/rlib", f"{kept.folder}/rlib", copy_function=os.link)
        write(f"{out}/rlib/stamp", kept.key)
    kept.end()


def checked(crate, tests, jobs):
    """Has the kit prove a crate, or its tests, from nothing, and says how that went."""
    start, crate = time.time(), copy.copy(crate)
    log = f"{LANES}/logs/{crate.name}{'.tests' if tests else ''}.{crate.stamp()[:8]}.log"
    with open(log, "w", errors="replace") as crate.out:
        status = 1
        try:
            os.makedirs(f"{crate.folder}/out", exist_ok=True)
            if not tests and rtlib.fmt(crate.folder, "--check", crate.out):
                say(f"{crate.name}: rt fmt changes it")
            status = crate.ci(["--jobs", str(jobs)], tests)
            if status == -signal.SIGKILL:
                status = crate.ci(["--jobs", "1"], tests)
        except SystemExit:
            pass
    say(f"{crate.name}{': its tests' if tests else ''}", f"NOT PROVED, see {log}" if status else "proved", f"{time.time() - start:.0f} s")
    return not status


def proof(crate, given, jobs):
    lacking = [it.name for it in crate.below() if not given[it.name, "proof"]]
    if lacking:
        say(f"{crate.name}: not tried, since {lacking[0]} is not proved")
        return False
    with Kept(crate.stamp()) as kept:
        if give(crate):
            return True
        if not checked(crate, False, jobs):
            return False
        keep(crate, kept)
    return True


def proof_of_tests(crate, given, jobs):
    if not given[crate.name, "proof"] or not crate.has_tests():
        return given[crate.name, "proof"]
    made = f"{crate.folder}/out/{crate.name}_tests"
    with Kept(f"{crate.stamp()}-tests") as kept:
        if kept.is_whole():
            shutil.copy(f"{kept.folder}/tests", made)
        elif checked(crate, True, jobs):
            kept.begin()
            shutil.copy(made, f"{kept.folder}/tests")
            kept.end()
        else:
            return False
    return True


def edits(crate, given, _jobs):
    """Tries the edits that weren't refused yet over this text, and returns those that are not refused."""
    sums, bad = {}, []
    for edit in rt.edits_of(crate)[0] if given[crate.name, "proof"] else []:
        with open(edit, "rb") as it:
            sums[edit] = f"{LANES}/kept/{hashlib.sha256(crate.stamp().encode() + it.read()).hexdigest()}.edit"
    new = [edit for edit in sums if not os.path.isfile(sums[edit])]
    for edit, (is_refused, text) in zip(new, rt.must_fail_all(crate, new, ["--jobs", "1"])):
        say(text[:220])
        if is_refused:
            write(sums[edit], text)
        else:
            bad.append(f"{crate.name}/{os.path.basename(edit)}")
    return bad


def ran(crates, tests):
    """Runs programs, and tests if they are to be; returns the names of those that failed."""
    failed = []
    for crate in crates:
        for of_tests in (False, True) if tests else (False,):
            made = f"{crate.folder}/out/{crate.name}{'_tests' if of_tests else ''}"
            ends = [it for it in rt.BACKENDS.values() if (of_tests or crate.is_program) and os.path.isfile(made + it)]
            failed += [crate.name] * (not all([rt.run(crate, of_tests, it) for it in ends]))
    return failed


def main(checkout, words):
    flags, names = {it for it in words if it.startswith("--")}, [it for it in words if not it.startswith("--")]
    os.chdir(checkout)
    os.makedirs(f"{LANES}/kept", exist_ok=True)
    os.makedirs(f"{LANES}/logs", exist_ok=True)
    os.environ.pop("RT_SECONDS", None)
    rtlib.stop, rtlib.Crate = rt.stop, Crate
    Crate.cuts_libraries = True
    rtlib.guarded()
    Crate.allowed = rt.handles_of(os.getcwd())
    crates = sorted(rtlib.crates_below(os.getcwd()), key=lambda it: len(it.below()))
    if names:
        wanted = {it.name for crate in crates if crate.name in names for it in [crate, *crate.below()]}
        crates = [it for it in crates if it.name in wanted]
    if "--give" in flags:
        missing = [it.name for it in crates if not it.is_program and not give(it)]
        print("not kept:", *missing)
        return 0
    tasks = {}
    for crate in crates:
        below, lines, needs = [(it.name, "proof") for it in crate.below()], crate.count(rb"\n"), rt.need(crate)
        own = [(crate.name, "proof")]
        tasks[crate.name, "proof"] = (below, lines, needs, lambda given, jobs, it=crate: proof(it, given, jobs))
        if "--tests" in flags:
            tasks[crate.name, "tests"] = (below + own, lines * crate.has_tests(), needs, lambda given, jobs, it=crate: proof_of_tests(it, given, jobs))
        if "--edits" in flags and (not names or crate.name in names):
            tasks[crate.name, "edits"] = (own, lines * bool(rt.edits_of(crate)[0]), needs, lambda given, jobs, it=crate: edits(it, given, jobs))
    given = rt.in_lanes(tasks)
    failed = [f"{name}: {what}" for (name, what), it in given.items() if what != "edits" and not it]
    failed += [it for (_, what), bad in given.items() if what == "edits" for it in bad]
    failed += ran([it for it in crates if given[it.name, "proof"]], "--tests" in flags) if "--run" in flags else []
    say(f"{len(tasks)} tasks; failed:", *failed)
    return bool(failed)


if __name__ == "__main__":
    sys.exit(main(sys.argv[1], sys.argv[2:]) if len(sys.argv) > 1 else __doc__)
