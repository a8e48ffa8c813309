#!/usr/bin/env python3
"""Measures what the night and a restore cost of bin/backup_server, over its command `pipe`. bench/README.md says what."""
import argparse
import hashlib
import os
import platform
import subprocess
import tempfile

from pipe import TOP, Server, Taken, beside, content, index_of, lay, opened, put_all, request, say, timed, written

BUCKETS = range(16)


def tables_of(store):
    """The files of the tables of a store, by their names."""
    found = {}
    for entry in os.scandir(store):
        if entry.name.startswith("table-"):
            with open(entry.path, "rb") as it:
                found[entry.name] = it.read()
    return found


def number_of(name):
    """The number of the backup whose table has this name."""
    return int(name.rpartition("-")[2])


def touched(before, after, oldest):
    """What a deletion reads and writes: the tables from the older neighbour of the oldest backup that goes up to the newest, which
    alone is filled here, and those that it leaves in the place of others."""
    read = [data for name, data in before.items() if number_of(name) >= oldest]
    wrote = [data for name, data in after.items() if before.get(name) != data]
    return read, wrote


def read_and_written(room, read, wrote):
    """The time that reading and hashing tables takes, and writing others, with a sync each."""
    os.makedirs(f"{room}/read", exist_ok=True)
    for at, data in enumerate(read):
        with open(f"{room}/read/{at}", "wb") as it:
            it.write(data)
    reading = timed(lambda: [hashlib.md5(open(f"{room}/read/{at}", "rb").read()).digest() for at in range(len(read))])[0]
    writing = timed(written, f"{room}/written-{len(os.listdir(room))}", wrote, True)[0]
    size = sum(map(len, read)), sum(map(len, wrote))
    return reading + writing, f"reading {len(read)} tables of {size[0]} bytes and writing {len(wrote)} of {size[1]}"


def dump(server, host, kind, names, turn):
    """A dump of files of 100 bytes, all other ones in each turn, and its commit."""
    name = server.open_dump(host, kind)
    server.ask_all([request(f"PUT /dumps/{name}/entry?path=d{n % 100}/f{n}&kind=file", content(100, turn * 10_000_000 + n)) for n in names])
    return server.ask(request(f"POST /dumps/{name}/commit"))


def folders(server, host):
    """A full dump with a hundred folders."""
    name = server.open_dump(host, "full")
    server.ask_all([request(f"PUT /dumps/{name}/entry?path=d{n}&kind=dir") for n in range(100)])
    return name


def measure_deletion(program, room, backups, entries):
    """Backups of so many entries each, one file in a hundred of which changes from one to the next; deletions of one, and an
    expiry of ten."""
    store = f"{room}/deletion"
    say(f"{backups} backups of {entries} entries")
    server = Server(program, store)
    server.ask(request("PUT /hosts/pc1"))
    name = folders(server, "pc1")
    server.ask_all([request(f"PUT /dumps/{name}/entry?path=d{n % 100}/f{n}&kind=file", content(100, n)) for n in range(entries)])
    server.ask(request(f"POST /dumps/{name}/commit"))
    for turn in range(1, backups):
        dump(server, "pc1", "incr", range(turn % 100, entries, 100), turn)
    print(f"{backups} backups of {entries} entries")
    middle = backups // 2

    def measure(what, oldest, text):
        """Times a request that deletes backups, beside a listing of the older neighbour of the oldest of them, which reads the same
        tables."""
        say(what)
        before = tables_of(store)
        listed, _ = server.timed(server.ask, request(f"GET /hosts/pc1/backups/{oldest}/list"))
        taken, answer = server.timed(server.ask, text)
        read, wrote = touched(before, tables_of(store), oldest)
        time, label = read_and_written(room, read, wrote)
        beside(f"{what} {answer.decode()}".strip(), taken, (label, time), (label, time))
        print(f"    a listing that reads these tables: of processor {listed.busy:.3f} s; the deletion {taken.busy / max(listed.busy, 1e-6):.2g} times as much")

    measure("deletion of one in the middle", middle - 1, request(f"DELETE /hosts/pc1/backups/{middle}"))
    measure("deletion of the newest", backups - 2, request(f"DELETE /hosts/pc1/backups/{backups - 1}"))
    left = backups - 2
    server.ask(request(f"PUT /hosts/pc1/rules?IncrKeepCnt={left - 12}&FullKeepCnt=1&IncrKeepCntMin=1&FullKeepCntMin=1"))
    measure("expiry of ten", 0, request("POST /hosts/pc1/expire"))
    server.end()


def measure_cleaning(program, room, count):
    """Contents that no backup has: they are marked, and then removed."""
    store = f"{room}/cleaning"
    say(f"laying {count} contents")
    server = Server(program, store)
    server.ask(request("PUT /hosts/pc1"))
    server.end()
    lay(store, count)
    _, server = opened(program, store, "pc1")
    index, size = index_of(store)
    machine = f"writing the index of {size} bytes with a sync for each file", timed(written, f"{room}/index", index, True)[0]
    print(f"{count} contents that no backup has")
    for what in ("marking them", "removing them from the index"):
        say(what)
        asked = [request(f"POST /night/clean?bucket={bucket}") for bucket in BUCKETS]
        taken, _ = server.timed(lambda: [server.ask(it) for it in asked])
        beside(f"{what}, in sixteen cleanings", taken, machine, machine)
    say("the sweep")
    taken, _ = server.timed(server.ask, request("POST /night/sweep"))
    beside("sweep, which takes the files away", taken, machine, machine)
    server.end()


def measure_restore(program, room, size, files):
    """A restore of large files, whose frames are read one after the other."""
    store, bodies = f"{room}/restore", [os.urandom(size // files) for _ in range(files)]
    say(f"a dump of {files} files of {size // files} bytes")
    server = Server(program, store)
    server.ask(request("PUT /hosts/pc1"))
    name = server.open_dump("pc1", "full")
    put_all(server, name, bodies)
    server.ask(request(f"POST /dumps/{name}/commit"))
    server.end()
    del bodies
    pools = [entry.path for entry in os.scandir(store) if entry.name.startswith("pool-") and "index" not in entry.name]

    def read_files():
        for path in pools:
            with open(path, "rb") as it:
                while piece := it.read(65_536):
                    hashing.update(piece)

    hashing = hashlib.md5()
    reading = timed(read_files)[0]
    server = Server(program, store)
    opened_as = server.ask(request("POST /hosts/pc1/backups/0/restores")).decode().split('"')[3]

    def stream():
        total = 0
        while True:
            frame = server.ask(request(f"GET /restores/{opened_as}/next"))
            total += len(frame)
            if frame.startswith(b"Z"):
                return total

    say("the frames of a restore")
    taken, total = server.timed(stream)
    rate = total / 1_000_000 / taken.wall
    print(f"a restore of {total} bytes in {files} files")
    what = "reading and hashing its files"
    beside(f"all frames ({rate:.0f} MB/s)", taken, (what, reading), (what, reading))
    print(f"  most memory: {server.most_memory()} MB")
    server.end()


def main():
    words = argparse.ArgumentParser(description=__doc__, epilog="A size of 0 leaves a measurement out.")
    words.add_argument("--backups", type=int, default=100, help="how many backups there are to delete some of; 16 at least")
    words.add_argument("--entries", type=int, default=100_000, help="the files of each")
    words.add_argument("--contents", type=int, default=1_000_000, help="how many contents are cleaned away")
    words.add_argument("--restore", type=int, default=500_000_000, help="the bytes that are restored, in ten files")
    words.add_argument("--folder", help="where the stores are made and removed again")
    words.add_argument("--program", default=f"{TOP}/bin/backup_server", help="the program to measure")
    said = words.parse_args()
    if not os.path.exists(said.program):
        raise SystemExit(f"{said.program} isn't there: make build first")
    program = os.path.abspath(said.program)
    print(f"{platform.machine()}, {os.cpu_count()} processors, load {os.getloadavg()[0]:.1f}, {platform.system()} {platform.release()}")
    with tempfile.TemporaryDirectory(dir=said.folder) as room:
        if said.restore:
            measure_restore(program, room, said.restore, 10)
        if said.contents:
            measure_cleaning(program, room, said.contents)
        if said.backups and said.entries:
            measure_deletion(program, room, said.backups, said.entries)
        say("removing the stores")


main()
