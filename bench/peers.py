#!/usr/bin/env python3
"""Dumps and restores one and the same made corpus with this program and with others, in one run, by turns, on one disk, and prints time, processor
time, most memory and the store's size side by side, as the tables of bench/README.md: bench/peers.py [--scale F] [--rounds N] [--corpus NAME]
[--folder FOLDER] [--program PROGRAM].

Corpora: `small` is 20,000 files of 93 MB in 200 folders, `large` 8 files of 60,000,000 bytes; all bytes are random, so that nothing can be packed. Steps, one after
the other for each contender:

  full      into a fresh store
  again     the tree unchanged; what a contender takes for unchanged by size and time it needn't read
  read      the tree unchanged, and each byte read and compared or hashed
  changed   2 % changed, by size and time: of `small` one file in fifty has new bytes; of `large` 2 % of all bytes, in one file
  restore   the newest backup into an empty folder, which is then compared with the corpus

Contenders: this program, by its commands `dump-folder` and `restore-folder`; its peers restic and borg, if they are installed; and yardsticks, which keep no
earlier state: `md5sum` of all files, `tar` into one file with a sync, `cp -a` with one sync of the file system, and with a sync for each file. A step that a
contender doesn't have is left out. It needs Python 3.8 and Linux. No limit hangs on its numbers; the goals that it prints are ratios within one run."""
import argparse
import os
import platform
import random
import resource
import shutil
import statistics
import subprocess
import sys
import tempfile
import threading
import time

TOP = os.path.dirname(os.path.dirname(os.path.realpath(__file__)))
STEPS = ("full", "again", "read", "changed", "restore")
PIECE = 1 << 20


class Taken:
    """What a step took: seconds, seconds of processor, MB of memory at most, MB of the store."""

    def __init__(self, wall, busy, memory, store):
        self.wall, self.busy, self.memory, self.store = wall, busy, memory, store


# The corpora.


def write(path, numbers, size):
    with open(path, "wb") as it:
        while size > 0:
            it.write(numbers.randbytes(min(size, PIECE)) if hasattr(numbers, "randbytes") else os.urandom(min(size, PIECE)))
            size -= PIECE


def make_small(folder, scale):
    """Files of 1 to 9,300 bytes, a hundred to a folder."""
    numbers = random.Random(1)
    for number in range(max(int(20_000 * scale), 100)):
        inner = os.path.join(folder, f"d{number // 100:03}")
        os.makedirs(inner, exist_ok=True)
        write(os.path.join(inner, f"file {number}.bin"), numbers, numbers.randrange(1, 9_301))


def change_small(folder):
    numbers = random.Random(2)
    for number, path in enumerate(files_of(folder)):
        if number % 50 == 7:
            write(path, numbers, os.path.getsize(path))


def make_large(folder, scale):
    os.makedirs(folder)
    numbers = random.Random(3)
    for number in range(8):
        write(os.path.join(folder, f"file {number}.bin"), numbers, int(60_000_000 * scale))


def change_large(folder):
    path = files_of(folder)[3]
    size = 8 * os.path.getsize(path) // 50
    with open(path, "r+b") as it:
        it.seek(os.path.getsize(path) // 3)
        it.write(os.urandom(size))


CORPORA = {"small": (make_small, change_small), "large": (make_large, change_large)}


def files_of(folder):
    return sorted(os.path.join(at, name) for at, _, names in os.walk(folder) for name in names)


def sizes_of(folder):
    return [os.lstat(path).st_size for path in files_of(folder)]


def are_alike(folder, other):
    """Whether two trees have the same files with the same bytes and times."""
    names, others = files_of(folder), files_of(other)
    if [it[len(folder) :] for it in names] != [it[len(other) :] for it in others]:
        return False
    for name, its in zip(names, others):
        if os.stat(name).st_mtime_ns // 1000 != os.stat(its).st_mtime_ns // 1000:
            return False
        with open(name, "rb") as one, open(its, "rb") as two:
            while True:
                a, b = one.read(PIECE), two.read(PIECE)
                if a != b:
                    return False
                if not a:
                    break
    return True


# Running and timing.


class Watch(threading.Thread):
    """Looks a hundred times a second how many KiB of memory a process has had at most, since it became its command."""

    def __init__(self, pid):
        super().__init__(daemon=True)
        self.pid, self.most, self.ended = pid, 0, threading.Event()
        self.start()

    def run(self):
        while not self.ended.wait(0.01):
            try:
                with open(f"/proc/{self.pid}/status", encoding="ascii") as it:
                    self.most = next((int(line.split()[1]) for line in it if line.startswith("VmHWM")), self.most)
            except OSError:
                pass


def ran(words, store, cwd=None, **environment):
    """A command to its end. The system's figure of its memory has a floor, what this script had when it began it: below that stands what was seen."""
    floor, start = resource.getrusage(resource.RUSAGE_SELF).ru_maxrss, time.monotonic()
    with tempfile.TemporaryFile() as said:
        run = subprocess.Popen(words, cwd=cwd, env={**os.environ, **environment}, stdin=subprocess.DEVNULL, stdout=subprocess.DEVNULL, stderr=said)
        watch = Watch(run.pid)
        _, status, usage = os.wait4(run.pid, 0)
        wall = time.monotonic() - start
        watch.ended.set()
        run.returncode = os.WEXITSTATUS(status) or os.WTERMSIG(status)
        if status:
            said.seek(0)
            sys.exit(f"{words[0]} ended with {run.returncode}: {said.read().decode(errors='replace')[-2000:]}")
    most = usage.ru_maxrss if usage.ru_maxrss > floor else watch.most
    return Taken(wall, usage.ru_utime + usage.ru_stime, most * 1024 / 1e6, sum(sizes_of(store)) / 1e6)


def script(text, *folders):
    """A yardstick: several processes, of which nobody asks how much memory and room they took."""
    taken = ran(["sh", "-euc", text, "sh", *folders], folders[0])
    taken.memory = taken.store = 0
    return taken


# The contenders: each does a step over a store and a corpus, and restores into `back`.


class Turretgage:
    """An incremental dump reads each byte, and compares it with what is kept: it believes no size and no time."""

    name = "turretgage"

    def __init__(self, program):
        self.program = program

    def step(self, step, room, corpus):
        store, host = os.path.join(room, "store"), ["--host", "pc1"]
        if step == "full":
            added = b"PUT /hosts/pc1 HTTP/1.1\r\nHost: b\r\n\r\n"
            subprocess.run([self.program, "pipe", "--store", store], input=added, stdout=subprocess.DEVNULL, check=True)
        if step == "restore":
            last = str(STEPS.index("restore") - 1)
            return ran([self.program, "restore-folder", "--store", store, *host, "--number", last, os.path.join(room, "back")], store)
        return ran([self.program, "dump-folder", "--store", store, *host, "--kind", "full" if step == "full" else "incr", corpus], store)


class Restic:
    name = "restic"

    def step(self, step, room, corpus):
        store, whole = os.path.join(room, "store"), os.path.join(room, "whole")
        settings = {"RESTIC_PASSWORD": "bench", "RESTIC_CACHE_DIR": os.path.join(room, "cache"), "RESTIC_REPOSITORY": store}
        if step == "full":
            ran(["restic", "init", "--quiet"], room, **settings)
        if step == "restore":
            taken = ran(["restic", "restore", "--quiet", "latest", "--target", whole], store, **settings)
            os.rename(whole + corpus, os.path.join(room, "back"))
            return taken
        return ran(["restic", "backup", "--quiet", *["--force"] * (step == "read"), corpus], store, **settings)


class Borg:
    name = "borg"

    def step(self, step, room, corpus):
        store, back = os.path.join(room, "store"), os.path.join(room, "back")
        settings = {"BORG_BASE_DIR": os.path.join(room, "base"), "BORG_UNKNOWN_UNENCRYPTED_REPO_ACCESS_IS_OK": "yes"}
        if step == "full":
            ran(["borg", "init", "--encryption=none", store], room, **settings)
        if step == "restore":
            os.mkdir(back)
            return ran(["borg", "extract", f"{store}::changed"], store, back, **settings)
        words = ["borg", "create", "--compression=none", *["--files-cache=disabled"] * (step == "read"), f"{store}::{step}", "."]
        return ran(words, store, corpus, **settings)


class Yardstick:
    """Commands by step, with the corpus as $1, the store as $2 and `back` as $3."""

    def __init__(self, name, **commands):
        self.name, self.commands = name, commands

    def step(self, step, room, corpus):
        text = self.commands.get(step)
        return text and script(text, corpus, os.path.join(room, "store"), os.path.join(room, "back"))


def copy(name, sync):
    into = f'mkdir -p "$2" && cp -au "$1/." "$2" && {sync}'
    return Yardstick(name, full=into, again=into, changed=into, restore='cp -a "$2/." "$3"')


def yardsticks():
    hash_all = 'find "$1" -type f -print0 | xargs -0 md5sum'
    pack = 'mkdir -p "$2" && tar --format=posix -cf "$2/new" -C "$1" . && sync "$2/new" && mv "$2/new" "$2/all" && sync "$2"'
    yield Yardstick("md5sum", full=hash_all, read=hash_all)
    yield Yardstick("tar", full=pack, changed=pack, restore='mkdir "$3" && tar -xf "$2/all" -C "$3"')
    yield copy("cp -a, one sync", 'sync -f "$2"')
    yield copy("cp -a, a sync each", 'find "$2" -type f -print0 | xargs -0 sync && find "$2" -type d -print0 | xargs -0 sync')


def contenders(program):
    if os.access(program, os.X_OK):
        yield Turretgage(program)
    else:
        print(f"left out: {program} isn't there (make build)")
    for kind, asked in ((Restic, "version"), (Borg, "--version")):
        if shutil.which(kind.name):
            print("with", subprocess.run([kind.name, asked], capture_output=True, text=True, check=False).stdout.strip())
            yield kind()
        else:
            print(f"left out: {kind.name} isn't installed")
    yield from yardsticks()


# The run, and what it prints.


def one_round(room, corpus_name, scale, everyone, turn, taken):
    """Each step by each contender, by turns; the contender that begins is another one each time. Gives the sizes of the corpus's files."""
    make, change = CORPORA[corpus_name]
    corpus = os.path.join(room, "corpus")
    make(corpus, scale)
    sizes = sizes_of(corpus)
    for it in everyone:
        os.mkdir(os.path.join(room, it.name))
    for step in STEPS:
        if step == "changed":
            time.sleep(0.01)
            change(corpus)
        for it in everyone[turn % len(everyone) :] + everyone[: turn % len(everyone)]:
            print(f"  .. {corpus_name}: {step} by {it.name}", file=sys.stderr, flush=True)
            # What earlier steps wrote is on the disk before the next one begins.
            subprocess.run(["sync", "-f", room], check=True)
            found = it.step(step, os.path.join(room, it.name), corpus)
            if found:
                taken.setdefault((step, it.name), []).append(found)
            if found and step == "restore" and not are_alike(corpus, os.path.join(room, it.name, "back")):
                sys.exit(f"{it.name} gave back another tree than it was given")
        turn += 1
    return sizes


def measure(asked, corpus_name, everyone):
    """The middle of all rounds, by step and contender, and the sizes of the corpus's files."""
    taken = {}
    for number in range(asked.rounds):
        with tempfile.TemporaryDirectory(prefix="peers-", dir=asked.folder) as room:
            sizes = one_round(room, corpus_name, asked.scale, everyone, number * len(STEPS), taken)
    middles = {key: Taken(*(statistics.median(getattr(it, what) for it in found) for what in ("wall", "busy", "memory", "store"))) for key, found in taken.items()}
    return middles, sizes


def cell(taken, step, name):
    """Seconds, seconds of processor, and MB of memory where they were asked for."""
    found = taken.get((step, name))
    if not found:
        return ""
    return f"{found.wall:.2f}, {found.busy:.2f}" + (f", {found.memory:.0f}" if found.memory else "")


def show(corpus_name, taken, names):
    print("| Corpus | Step | " + " | ".join(names) + " |")
    print("|---|---|" + "---|" * len(names))
    for step in STEPS:
        print(f"| {corpus_name} | {step} | " + " | ".join(cell(taken, step, name) for name in names) + " |")
    for step in ("full", "changed"):
        stores = (f"{taken[step, name].store:.1f}" if (step, name) in taken and taken[step, name].store else "" for name in names)
        print(f"| {corpus_name} | MB of the store after {step} | " + " | ".join(stores) + " |")


def goal(what, found, most):
    print(f"  {what}: {found:.2f}, at most {most:.2f}: {'met' if found <= most else 'not met'}")


def show_goals(corpus_name, taken, sizes):
    """The goals as ratios of this run, where both sides are there."""
    ours = {step: taken[step, Turretgage.name] for step in STEPS}
    peers = [(taken["full", name].wall, name) for name in (Restic.name, Borg.name) if ("full", name) in taken]
    print("goals:")
    if peers:
        goal(f"full dump beside the best durable peer ({min(peers)[1]})", ours["full"].wall / min(peers)[0], 0.8 if corpus_name == "small" else 1.0)
    goal("incremental of the unchanged tree beside md5sum of its bytes", ours["read"].wall / taken["read", "md5sum"].wall, 1.0)
    if ("restore", Restic.name) in taken:
        goal("restore beside restic's", ours["restore"].wall / taken["restore", Restic.name].wall, 0.6)
    goal("most memory in MB, beside 40 MiB and the largest file", max(it.memory for it in ours.values()), 40 * 1.048576 + max(sizes) / 1e6)
    goal("store beside the distinct bytes, after the full dump", ours["full"].store * 1e6 / sum(sizes), 1.05)


def main():
    words = argparse.ArgumentParser(description=__doc__, formatter_class=argparse.RawDescriptionHelpFormatter)
    words.add_argument("--program", default=os.path.join(TOP, "bin", "backup_server"))
    words.add_argument("--scale", type=float, default=1.0, help="of both corpora: 0.01 is a try in seconds")
    words.add_argument("--rounds", type=int, default=3)
    words.add_argument("--folder", help="where corpora and stores lie: the disk that is measured")
    words.add_argument("--corpus", choices=sorted(CORPORA), action="append", help="one of them alone")
    asked = words.parse_args()
    print(f"{platform.machine()}, {os.cpu_count()} processors, load {os.getloadavg()[0]:.1f}, Python {platform.python_version()}", flush=True)
    subprocess.run([sys.executable, os.path.join(TOP, "bench", "machine.py")], check=True)
    everyone = list(contenders(asked.program))
    for name in asked.corpus or ["small", "large"]:
        taken, sizes = measure(asked, name, everyone)
        print(f"\n{name}: {len(sizes)} files, {sum(sizes) / 1e6:.1f} MB, {asked.rounds} rounds, the middle of each; seconds, seconds of processor, MB of memory")
        show(name, taken, [it.name for it in everyone])
        if everyone[0].name == Turretgage.name:
            show_goals(name, taken, sizes)
        sys.stdout.flush()


if __name__ == "__main__":
    main()
