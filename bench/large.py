#!/usr/bin/env python3
"""Measures bin/backup_server with large files over its command `pipe`. bench/README.md says what."""
import argparse
import hashlib
import os
import subprocess
import sys
import tempfile
import threading
import time

from pipe import PIECE, TOP, Server, beside, request, say

HEAD = " HTTP/1.1\r\nHost: b\r\n"


def pieces_of(path):
    with open(path, "rb", buffering=0) as file:
        while piece := file.read(PIECE):
            yield piece


def lay(path, size):
    """A file of random bytes."""
    with open(path, "wb", buffering=0) as file:
        for at in range(0, size, PIECE):
            file.write(os.urandom(min(PIECE, size - at)))


def hashed(path):
    """The processor time of reading and hashing a file."""
    start, made = time.process_time(), hashlib.md5()
    for piece in pieces_of(path):
        made.update(piece)
    return time.process_time() - start, made.hexdigest()


def copied(path, to):
    """The time of writing a file's bytes to another with its sync."""
    start = time.monotonic()
    with open(to, "wb", buffering=0) as file:
        for piece in pieces_of(path):
            file.write(piece)
        os.fsync(file.fileno())
    return time.monotonic() - start


def compared(path, other):
    """The time of reading two files and comparing them."""
    start = time.monotonic()
    for one, two in zip(pieces_of(path), pieces_of(other)):
        assert one == two
    return time.monotonic() - start


def put(server, dump, name, path, in_chunks):
    """Sends a file, and waits for the answer."""
    target = f"PUT /dumps/{dump}/entry?path={name}&kind=file{HEAD}"
    if in_chunks:
        server.send(f"{target}Transfer-Encoding: chunked\r\n\r\n".encode())
        for piece in pieces_of(path):
            server.send(b"%x\r\n" % len(piece) + piece + b"\r\n")
        server.send(b"0\r\n\r\n")
    else:
        server.send(f"{target}Content-Length: {os.path.getsize(path)}\r\n\r\n".encode())
        for piece in pieces_of(path):
            server.send(piece)
    return server.response()


def put_but_one(server, store, dump, name, path):
    """Sends a file but for its last byte, and waits until its stage has all whole pieces of that; the last byte."""
    size = os.path.getsize(path)
    server.send(f"PUT /dumps/{dump}/entry?path={name}&kind=file{HEAD}Content-Length: {size}\r\n\r\n".encode())
    left = size - 1
    for piece in pieces_of(path):
        server.send(piece[:left])
        left -= len(piece)
    stage = max((int(it[6:]), it) for it in os.listdir(store) if it.startswith("stage-"))[1]
    while os.path.getsize(f"{store}/{stage}") < (size - 1) // 65_536 * 65_536:
        time.sleep(0.01)
    time.sleep(0.1)
    with open(path, "rb") as file:
        file.seek(size - 1)
        return file.read()


def get(server, name):
    """Asks for a file, and hashes what comes in another thread: its digest."""
    server.send(request(f"GET /hosts/pc1/backups/0/file?path={name}"))
    while (end := server.rest.find(b"\r\n\r\n")) < 0:
        server.rest += server.more()
    assert server.rest.startswith(b"HTTP/1.1 200"), server.rest[:end]
    left = int(server.rest[:end].partition(b"Content-Length: ")[2].partition(b"\r")[0])
    made, piece = hashlib.md5(), server.rest[end + 4 :]
    while True:
        made.update(piece)
        left -= len(piece)
        if not left:
            break
        piece = server.more()
    server.rest = b""
    return made.hexdigest()


def measure(program, room, size):
    path = f"{room}/file"
    say(f"a file of {size} random bytes")
    lay(path, size)
    hashing, digest = hashed(path)
    writing, comparing = copied(path, f"{room}/copy"), compared(path, f"{room}/copy")
    os.remove(f"{room}/copy")
    store = f"{room}/store"
    server = Server(program, store)
    server.ask(request("PUT /hosts/pc1"))
    dump = server.open_dump("pc1", "full")
    lines = []
    for name, in_chunks, what in (("new", False, "PUT of a new content"), ("again", False, "PUT of it again, which the pool has"), ("chunks", True, "the same in chunks")):
        say(what)
        taken, _ = server.timed(put, server, dump, name, path, in_chunks)
        lines.append((what, taken))
    for name, what in (("last", "its last byte and the put of its stage, which the pool has"), ("other", "the same of a new content")):
        say(what)
        if name == "other":
            with open(path, "r+b") as file:
                file.write(b"other")
        last = put_but_one(server, store, dump, name, path)
        lines.append((what, server.timed(server.ask, last)[0]))
    lines.append(("commit", server.timed(server.ask, request(f"POST /dumps/{dump}/commit"))[0]))
    say("GET")
    taken, found = server.timed(get, server, "new")
    assert found == digest, "other bytes came back"
    lines.append(("GET", taken))
    memory = server.most_memory()
    server.end()
    print(f"one file of {size} bytes; most memory {memory} MB")
    for what, taken in lines:
        beside(what, taken, ("hashing it", hashing), ("hashing and writing it with its sync", hashing + writing), ("reading it twice", comparing))


def at_once(program, room, size):
    """Four files of this size, each into a dump of its own, at once over `serve`."""
    import serve  # it has the runs over sockets

    say(f"four files of {size} bytes at once")
    server = serve.Server(program, f"{room}/served")
    for number in range(4):
        with open(f"{room}/sparse{number}", "wb") as file:
            file.truncate(size + number)

    def work(number):
        link = server.link()
        link.ask(request(f"PUT /hosts/pc{number}"))
        dump = link.open_dump(f"pc{number}", "full")
        put(link, dump, "f", f"{room}/sparse{number}", False)
        link.ask(request(f"POST /dumps/{dump}/commit"))
        link.end()

    start = time.monotonic()
    threads = [threading.Thread(target=work, args=(it,)) for it in range(4)]
    for it in threads:
        it.start()
    for it in threads:
        it.join()
    taken = time.monotonic() - start
    with open(f"/proc/{server.run.pid}/status", encoding="utf-8") as text:
        memory = [int(line.split()[1]) // 1000 for line in text if line.startswith("VmHWM")][0]
    print(f"four files of {size} bytes at once over serve: {taken:.1f} s, most memory {memory} MB")
    server.end()


def main():
    words = argparse.ArgumentParser(description=__doc__, epilog="A size of 0 leaves a measurement out.")
    words.add_argument("--size", type=int, default=268_435_456, help="the bytes of the file over `pipe`")
    words.add_argument("--at-once", type=int, default=1_073_741_824, help="the bytes of each of four files over `serve`")
    words.add_argument("--folder", help="where the stores are made and removed again")
    words.add_argument("--program", default=f"{TOP}/bin/backup_server", help="the program to measure")
    said = words.parse_args()
    if not os.path.exists(said.program):
        raise SystemExit(f"{said.program} isn't there: make build first")
    subprocess.run([sys.executable, f"{TOP}/bench/machine.py"], check=True)
    with tempfile.TemporaryDirectory(dir=said.folder) as room:
        if said.size:
            measure(os.path.abspath(said.program), room, said.size)
        if said.at_once:
            at_once(os.path.abspath(said.program), room, said.at_once)
        say("removing the stores")


if __name__ == "__main__":
    main()
