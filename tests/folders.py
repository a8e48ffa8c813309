#!/usr/bin/env python3
"""What tests/folders.sh runs: `dump-folder` and `restore-folder` of a program on real folders. As root it tries owners, too."""
import hashlib
import os
import random
import shutil
import socket
import stat
import subprocess
import sys
import tempfile
import threading

PROGRAM = os.path.abspath(sys.argv[1])
FAULTS = []
TRIED = [0]
# A set user bit is only kept by the system for a file of one's own.
MODES = (0o644, 0o600, 0o755, 0o4755, 0o2711, 0o444, 0o400, 0o777, 0o1644)
FOLDER_MODES = (0o755, 0o700, 0o1777, 0o2750, 0o555, 0o500)


def expect(what, is_so, seen=""):
    TRIED[0] += 1
    if not is_so:
        FAULTS.append(what)
        print(f"FAILED: {what}: {str(seen)[:400]}")


def run(*words, given=b""):
    return subprocess.run([PROGRAM, *words], input=given, capture_output=True, timeout=300)


def expect_run(what, done, status, out, err=None):
    expect(what, done.returncode == status and done.stdout == out and (err is None or done.stderr == err), (done.returncode, done.stdout, done.stderr))


def add_host(store, host):
    request = f"PUT /hosts/{host} HTTP/1.1\r\nHost: b\r\nConnection: close\r\n\r\n".encode()
    done = run("pipe", "--store", store, given=request)
    expect(f"{host} is added", done.stdout.startswith(b"HTTP/1.1 201"), done)


def dump(store, folder, kind="full", host="pc1"):
    return run("dump-folder", "--store", store, "--host", host, "--kind", kind, folder)


def restore(store, folder, number, host="pc1"):
    return run("restore-folder", "--store", store, "--host", host, "--number", str(number), folder)


def seen(folder):
    """What a folder has that a backup keeps: each path with its kind, attributes and content. The mode and the time of a link aren't kept."""
    found, groups, root = {}, {}, os.fsencode(folder)
    for at, folders, files in os.walk(root):
        for name in folders + files:
            path = os.path.join(at, name)
            st, short = os.lstat(path), os.path.relpath(path, root)
            if stat.S_ISLNK(st.st_mode):
                found[short] = ("link", st.st_uid, st.st_gid, os.readlink(path))
            elif stat.S_ISDIR(st.st_mode):
                found[short] = ("folder", stat.S_IMODE(st.st_mode), st.st_uid, st.st_gid, st.st_mtime_ns)
            elif stat.S_ISREG(st.st_mode):
                with open(path, "rb") as it:
                    digest = hashlib.sha256(it.read()).hexdigest()
                names = groups.setdefault((st.st_dev, st.st_ino), [])
                names.append(short)
                found[short] = ["file", stat.S_IMODE(st.st_mode), st.st_uid, st.st_gid, st.st_mtime_ns, st.st_size, digest, names]
    for it in found.values():
        if it[0] == "file":
            it[7] = tuple(sorted(it[7]))
    return {path: tuple(it) for path, it in found.items()}


def difference(wanted, found):
    return [(path, wanted.get(path), found.get(path)) for path in sorted({*wanted, *found}) if wanted.get(path) != found.get(path)][:3]


def put(path, content, mode=0o644, time=None):
    with open(path, "wb") as it:
        it.write(content)
    os.chmod(path, mode)
    if time:
        os.utime(path, ns=(time, time))


def make_tree(root, draw, entries):
    """A tree of about so many entries of every kind."""
    os.makedirs(root)
    folders, files = [os.fsencode(root)], []
    odd = ["a b", "it's", 'say "so"', "two\nlines", "ümläut", "日本", "-dash", "tab\there", "*?[x]", ".hidden", "é" * 60]
    for number in range(entries):
        at = draw.choice(folders)
        path = os.path.join(at, os.fsencode(f"{draw.choice(odd)}{number}"))
        kind = draw.random()
        if kind < 0.12:
            os.mkdir(path)
            folders.append(path)
        elif kind < 0.20:
            os.symlink(draw.choice(["gone", "../up", "/etc/passwd", "ö" * 100, "."]), path)
        elif kind < 0.24 and files:
            os.link(draw.choice(files), path)
        else:
            size = draw.choice([0, 1, 100, 3000, 70_000])
            put(path, draw.randbytes(size) if draw.random() < 0.7 else b"same" * (size // 4), draw.choice(MODES), draw.randrange(10**18, 17 * 10**17))
            files.append(path)
    with open(os.path.join(folders[0], b"sparse"), "wb") as it:
        it.truncate(5_000_000)
    deep = folders[0]
    while len(deep) + 201 < 3900:
        deep = os.path.join(deep, b"d" * 200)
        os.mkdir(deep)
        folders.append(deep)
    put(os.path.join(deep, b"bottom"), b"far down")
    os.mkfifo(os.path.join(folders[0], b"pipe"))
    with socket.socket(socket.AF_UNIX) as it:
        here = os.getcwd()
        os.chdir(root)
        it.bind("socket")
        os.chdir(here)
    if os.geteuid() == 0:
        for path in draw.sample(files, 20):
            mode = os.lstat(path).st_mode
            os.chown(path, draw.randrange(1, 60_000), draw.randrange(1, 60_000))
            os.chmod(path, stat.S_IMODE(mode))
    for path in reversed(folders[1:]):
        os.chmod(path, draw.choice(FOLDER_MODES))
        os.utime(path, ns=(10**18, draw.randrange(10**18, 17 * 10**17)))


def writable(folder):
    """Lets each folder below be removed from."""
    os.chmod(folder, 0o700)
    for it in list(os.scandir(folder)):
        if it.is_dir(follow_symlinks=False):
            writable(it.path)


def small(room):
    """A folder with a directory and a file in it, both ways, and what is refused."""
    store, folder, back = f"{room}/store", f"{room}/small", f"{room}/back"
    os.makedirs(f"{folder}/d")
    put(f"{folder}/d/f", b"x")
    expect_run("a host that isn't there is refused", dump(store, folder), 1, b"", b"refused NoHost\n")
    add_host(store, "pc1")
    expect_run("a folder is dumped", dump(store, folder), 0, b"committed pc1 0\n", b"")
    expect_run("and restored, into a folder that is made", restore(store, back, 0), 0, b"restored pc1 0 2\n", b"")
    expect("what is restored is what was dumped", seen(folder) == seen(back), difference(seen(folder), seen(back)))
    before = seen(back)
    expect_run("a folder that isn't empty is refused", restore(store, back, 0), 1, b"", b"folder not empty\n")
    expect("and is left alone", seen(back) == before)
    expect_run("a backup that isn't there is refused", restore(store, f"{room}/none", 7), 1, b"", b"refused NoBackup\n")
    done = dump(store, f"{room}/absent")
    expect("a folder that isn't there ends with 8", done.returncode == 8 and b"can't be opened" in done.stderr, done)
    put(os.path.join(os.fsencode(folder), b"bad\xff"), b"")
    expect_run("a name that is no text is refused", dump(store, folder), 1, b"", b"refused BadPath\n")
    os.remove(os.path.join(os.fsencode(folder), b"bad\xff"))
    with open(f"{folder}/large", "wb") as it:
        it.truncate(1_099_511_627_776)
    expect_run("a file that is too large is refused", dump(store, folder), 1, b"", b"refused FileTooLarge\n")
    os.remove(f"{folder}/large")
    if os.geteuid() != 0:
        put(f"{folder}/locked", b"secret", 0)
        done = dump(store, folder)
        expect("a file that can't be read is told", done.returncode == 3 and b"locked" in done.stderr and done.stderr.endswith(b"folder failed\n"), done)
        os.remove(f"{folder}/locked")
    expect_run("what was refused committed nothing", dump(store, folder, "incr"), 0, b"committed pc1 1\n", b"")


def large(room, entries):
    """A tree of every kind, full and incremental, and each backup restored."""
    draw, store, folder = random.Random(7), f"{room}/store2", f"{room}/tree"
    make_tree(folder, draw, entries)
    add_host(store, "pc1")
    first = seen(folder)
    expect_run("a tree of every kind is dumped", dump(store, folder), 0, b"committed pc1 0\n", b"")
    for at, folders, files in list(os.walk(os.fsencode(folder)))[:60]:
        if not os.path.isdir(at):
            continue
        os.chmod(at, 0o700)
        for name in sorted(files)[:2]:
            os.remove(os.path.join(at, name))
        for name in sorted(folders)[:1]:
            it = os.path.join(at, name)
            if os.path.isdir(it) and not os.path.islink(it):
                writable(it)
                shutil.rmtree(it)
                put(it, b"was a folder")
    os.makedirs(f"{folder}/new/er")
    put(f"{folder}/new/er/one", b"new", 0o640, 15 * 10**17 + 123_456_789)
    second = seen(folder)
    expect_run("an incremental is dumped", dump(store, folder, "incr"), 0, b"committed pc1 1\n", b"")
    expect_run("and one of a tree that stayed", dump(store, folder, "incr"), 0, b"committed pc1 2\n", b"")
    for number, wanted in ((0, first), (1, second), (2, second)):
        back = f"{room}/back{number}"
        os.mkdir(back)
        done = restore(store, back, number)
        expect(f"backup {number} is restored", done.returncode == 0 and done.stdout == f"restored pc1 {number} {len(wanted)}\n".encode(), done)
        found = seen(back)
        expect(f"backup {number} is the tree", found == wanted, difference(wanted, found))


# Runs its words, and says how they ended and the most kilobytes that they held.
PEAK = """import resource, subprocess, sys
status = subprocess.call(sys.argv[1:], stdout=subprocess.DEVNULL)
print(status, resource.getrusage(resource.RUSAGE_CHILDREN).ru_maxrss)
"""


def peak_of(*words):
    """A run of the program: its status and the most kilobytes that it held. A small process begins it, since the system's figure is no less than what
    the process held that began it."""
    said = subprocess.run([sys.executable, "-c", PEAK, PROGRAM, *words], stdout=subprocess.PIPE, check=True).stdout
    status, peak = said.split()
    return int(status), int(peak)


def huge(room):
    """A file of more than 67,108,864 bytes goes piece by piece, and comes back with its hard link; without one it comes back piece by piece."""
    store, folder, back, alone = f"{room}/store5", f"{room}/huge", f"{room}/huge-back", f"{room}/huge-alone"
    os.makedirs(folder)
    piece = random.Random(5).randbytes(1_000_003)
    with open(f"{folder}/large", "wb") as it:
        for number in range(70):
            it.write(piece + bytes([number]))
    os.link(f"{folder}/large", f"{folder}/twin")
    put(f"{folder}/small", b"small")
    add_host(store, "pc1")
    status, peak = peak_of("dump-folder", "--store", store, "--host", "pc1", "--kind", "full", folder)
    expect("a tree with a large file is dumped", status == 0, status)
    expect("the large file is never held whole", peak < 40_000, f"{peak} KB")
    expect_run("and again what comes after it", dump(store, folder, "incr"), 0, b"committed pc1 1\n", b"")
    expect_run("and restored", restore(store, back, 0), 0, b"restored pc1 0 3\n", b"")
    expect("what is restored is the tree with the large file", seen(folder) == seen(back), difference(seen(folder), seen(back)))
    os.remove(f"{folder}/twin")
    os.chmod(f"{folder}/large", 0o6400)
    expect_run("its hard link goes", dump(store, folder, "incr"), 0, b"committed pc1 2\n", b"")
    status, peak = peak_of("restore-folder", "--store", store, "--host", "pc1", "--number", "2", alone)
    expect("the large file alone is restored", status == 0, status)
    expect("and never held whole", peak < 40_000, f"{peak} KB")
    expect("what is restored is the tree with the large file alone", seen(folder) == seen(alone), difference(seen(folder), seen(alone)))


def live(room):
    """A tree that changes while it is dumped is no fault."""
    store, folder, stop = f"{room}/store3", f"{room}/live", threading.Event()
    os.mkdir(folder)
    add_host(store, "pc1")

    def change():
        draw = random.Random(3)
        while not stop.is_set():
            at = f"{folder}/{draw.randrange(40)}"
            try:
                kind = draw.random()
                if kind < 0.4:
                    put(at, b"x" * draw.randrange(9000))
                elif kind < 0.6:
                    os.mkdir(at)
                elif os.path.isdir(at):
                    shutil.rmtree(at)
                else:
                    os.remove(at)
            except OSError:
                pass

    worker = threading.Thread(target=change)
    worker.start()
    ended = [dump(store, folder, "full" if it % 2 else "incr" if it else "full") for it in range(12)]
    stop.set()
    worker.join()
    expect("dumps of a folder that changes end with 0, or 3 if something took a name's place", all(it.returncode in (0, 3) for it in ended), [it for it in ended if it.returncode not in (0, 3)][:1])
    expect("most of them are committed", sum(it.returncode == 0 for it in ended) > 6, [it.stderr for it in ended if it.returncode])
    expect_run("and behind them one is", dump(store, folder), 0, f"committed pc1 {sum(it.returncode == 0 for it in ended)}\n".encode(), b"")


def hostile(room):
    """A restore leaves alone what lies outside of its folder, whatever links others make in it meanwhile."""
    store, folder, outside = f"{room}/store4", f"{room}/many", f"{room}/outside"
    os.makedirs(outside)
    put(f"{outside}/kept", b"kept")
    for number in range(300):
        os.makedirs(f"{folder}/d{number}")
        put(f"{folder}/d{number}/kept", b"theirs")
    add_host(store, "pc1")
    expect_run("a folder of folders is dumped", dump(store, folder), 0, b"committed pc1 0\n", b"")
    before = seen(outside)
    for turn in range(4):
        back, stop = f"{room}/hostile{turn}", threading.Event()
        os.mkdir(back)

        def attack():
            while not stop.is_set():
                for number in range(300):
                    at = f"{back}/d{number}"
                    try:
                        if turn % 2 and os.path.isdir(at) and not os.path.islink(at):
                            os.rename(at, f"{room}/away{turn}-{number}-{random.random()}")
                        os.symlink(outside, at)
                    except OSError:
                        pass

        worker = threading.Thread(target=attack)
        worker.start()
        restore(store, back, 0)
        stop.set()
        worker.join()
        expect("nothing outside is touched", seen(outside) == before, difference(before, seen(outside)))


def main():
    room = tempfile.mkdtemp(prefix="turretgage-folders-")
    try:
        small(room)
        large(room, int(os.environ.get("ENTRIES", "5000")))
        huge(room)
        live(room)
        hostile(room)
    finally:
        writable(room)
        shutil.rmtree(room, ignore_errors=True)
    print(f"{TRIED[0] - len(FAULTS)} passed, {len(FAULTS)} failed")
    sys.exit(1 if FAULTS else 0)


main()
