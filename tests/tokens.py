#!/usr/bin/env python3
"""As many tokens in one dump as it keeps, over `serve`: tests/tokens.py PROGRAM. Each is that of a put of an empty file at one path. It says how long
the puts took, and the server's memory; the last line is 'N passed, M failed'."""
import contextlib
import json
import os
import re
import shutil
import socket
import subprocess
import sys
import tempfile
import time

TOKENS = 1_048_576
# So many connections, one after the other, of so many requests each, of which so many are sent before their answers are read.
CONNECTIONS = 8
BATCH = 256
OPENED = 1 << 64


class Wrong(Exception):
    """What came isn't what is wanted."""


class Server:
    """A run of `serve` on a store, at a port that the system chooses."""

    def __init__(self, program, store):
        words = [program, "serve", "--store", store, "--listen", "127.0.0.1:0"]
        self.run = subprocess.Popen(words, stdin=subprocess.DEVNULL, stderr=subprocess.PIPE, text=True)
        self.port = int(re.search(r":(\d+)$", self.run.stderr.readline().strip()).group(1))

    def memory(self):
        """The most memory that it took so far, in kB."""
        with open(f"/proc/{self.run.pid}/status", encoding="utf-8") as text:
            return int(re.search(r"VmHWM:\s+(\d+)", text.read()).group(1))

    def link(self):
        link = socket.create_connection(("127.0.0.1", self.port), timeout=600)
        link.setsockopt(socket.IPPROTO_TCP, socket.TCP_NODELAY, 1)
        return contextlib.closing(link)

    def ask(self, text):
        """The status of the answer to one request, and its body."""
        with self.link() as link:
            link.sendall(text)
            link.shutdown(socket.SHUT_WR)
            back = b""
            while more := link.recv(65_536):
                back += more
        head, _, body = back.partition(b"\r\n\r\n")
        return int(head.split(b" ", 2)[1]), json.loads(body)


def request(line):
    return f"{line} HTTP/1.1\r\nHost: b\r\nContent-Length: 0\r\n\r\n".encode()


def put(dump, token):
    return request(f"PUT /dumps/{dump}/entry?path=a&kind=file&token={token:032x}")


def remove(dump, token, path="a"):
    return request(f"DELETE /dumps/{dump}/entry?path={path}&token={token:032x}")


def opening(token):
    return request(f"POST /hosts/pc1/dumps?kind=full&token={token:032x}")


def answer(status, body):
    return f"HTTP/1.1 {status}\r\nContent-Type: application/json\r\nContent-Length: {len(body)}\r\n\r\n{body}".encode()


def expect(what, found, wanted):
    if found != wanted:
        raise Wrong(f"{what}: {str(found)[:300]} in place of {str(wanted)[:300]}")


def read(link, count):
    back = bytearray()
    while len(back) < count and (more := link.recv(count - len(back))):
        back += more
    return bytes(back)


def put_all(server, dump, tokens):
    """A put with each of these tokens over one connection is done."""
    done = answer("200 OK", "{}")
    with server.link() as link:
        for first in range(0, len(tokens), BATCH):
            batch = tokens[first : first + BATCH]
            link.sendall(b"".join(put(dump, token) for token in batch))
            expect(f"the puts from {batch[0]} on", read(link, len(done) * len(batch)), done * len(batch))


def fill(server):
    """A dump keeps 1,048,576 tokens."""
    expect("a host", server.ask(request("PUT /hosts/pc1"))[0], 201)
    expect("a dump", server.ask(opening(OPENED)), (201, {"dump": "1-0"}))
    begun = time.monotonic()
    for part in range(CONNECTIONS):
        put_all(server, "1-0", range(TOKENS * part // CONNECTIONS, TOKENS * (part + 1) // CONNECTIONS))
    print(f"{TOKENS} puts took {time.monotonic() - begun:.1f} s; the server took {server.memory()} kB")


def full(server):
    """A new one is refused, of a put and of a removal, and changes nothing; a request without one is carried out."""
    refused = (422, {"refused": "TokensFull"})
    expect("a put with a new token", server.ask(put("1-0", TOKENS)), refused)
    expect("a removal with a new token", server.ask(remove("1-0", TOKENS)), refused)
    expect("a removal of nothing with a new token", server.ask(remove("1-0", TOKENS, "b")), refused)
    expect("a put without one", server.ask(request("PUT /dumps/1-0/entry?path=c&kind=file")), (200, {}))


def kept(server):
    """Those that are kept are known: the first, the last and some between, of a put and of a removal, which removes nothing."""
    for token in (0, 1, TOKENS // 3, TOKENS // 2, TOKENS - 1):
        expect(f"a put with the token {token}", server.ask(put("1-0", token)), (200, {}))
        expect(f"a removal with the token {token}", server.ask(remove("1-0", token)), (200, {}))
    put_all(server, "1-0", range(0, TOKENS, TOKENS // 1024))


def ended(server):
    """The dump is known by its own token before its commit and behind it, and the next one has none."""
    expect("the dump again", server.ask(opening(OPENED)), (201, {"dump": "1-0"}))
    expect("the commit", server.ask(request("POST /dumps/1-0/commit")), (201, {"number": 0}))
    expect("the commit again", server.ask(request("POST /dumps/1-0/commit")), (201, {"number": 0}))
    expect("the opening again", server.ask(opening(OPENED)), (200, {"number": 0}))
    names = [it["name"] for it in server.ask(request("GET /hosts/pc1/backups/0/list"))[1]["entries"]]
    expect("what the backup has", names, ["a", "c"])
    expect("the next dump", server.ask(opening(OPENED + 1)), (201, {"dump": "1-1"}))
    expect("a put with a token of the first", server.ask(put("1-1", 0)), (200, {}))
    expect("a removal with a new token", server.ask(remove("1-1", TOKENS)), (200, {}))


def main(program):
    passed = failed = 0
    room = tempfile.mkdtemp()
    try:
        server = Server(program, os.path.join(room, "store"))
        for case in (fill, full, kept, ended):
            try:
                case(server)
                passed += 1
            except (Wrong, OSError, ValueError, LookupError) as error:
                failed += 1
                print(f"FAILED: {case.__doc__} {error}")
        server.run.terminate()
        server.run.wait()
    finally:
        shutil.rmtree(room)
    print(f"{passed} passed, {failed} failed")
    return failed != 0


if __name__ == "__main__":
    sys.exit(main(sys.argv[1]))
