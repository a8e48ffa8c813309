#!/usr/bin/env python3
"""Large and chunked bodies through real clients and raw sockets, against `serve` and `pipe`: tests/large.py PROGRAM [BYTES], BYTES being the size of
the large file (300,000,000 if none is named; it is sparse). The last line is 'N passed, M failed'."""
import contextlib
import hashlib
import http.client
import json
import os
import re
import shutil
import socket
import subprocess
import sys
import tempfile
import threading
import time

PIECE = 65_536
# The most memory that the server may take, in kB, however large what goes through it is.
ROOM = 24_000
HEAD = "HTTP/1.1\r\nHost: b\r\n"
BAD_CHUNK = (400, "BadChunk")


class Wrong(Exception):
    """What came isn't what is wanted."""


class Server:
    """A run of `serve` on a store, at a port that the system chooses."""

    def __init__(self, program, store):
        words = [program, "serve", "--store", store, "--listen", "127.0.0.1:0"]
        self.run = subprocess.Popen(words, stdin=subprocess.DEVNULL, stderr=subprocess.PIPE, text=True)
        self.port = int(re.search(r":(\d+)$", self.run.stderr.readline().strip()).group(1))

    def memory(self):
        """The most memory that it took so far, in kB."""
        with open(f"/proc/{self.run.pid}/status", encoding="utf-8") as text:
            return int(re.search(r"VmHWM:\s+(\d+)", text.read()).group(1))

    def ask(self, method, target, body=None, **given):
        connection = http.client.HTTPConnection("127.0.0.1", self.port, timeout=600)
        with contextlib.closing(connection):
            connection.request(method, target, body, **given)
            response = connection.getresponse()
            return response.status, response.read()

    def want(self, status, method, target, body=None, **given):
        found, text = self.ask(method, target, body, **given)
        if found != status:
            raise Wrong(f"{method} {target} was answered by {found} {text[:200]}")
        return text

    def dump(self, host):
        if self.ask("GET", f"/hosts/{host}/backups")[0] == 404:
            self.want(201, "PUT", f"/hosts/{host}")
        return json.loads(self.want(201, "POST", f"/hosts/{host}/dumps?kind=full"))["dump"]

    def commit(self, dump):
        return json.loads(self.want(201, "POST", f"/dumps/{dump}/commit"))["number"]

    def raw(self, text, pause=0.0, size=PIECE):
        """What comes back for these bytes, sent so many at a time, until the server closes or the input's end is answered."""
        with socket.create_connection(("127.0.0.1", self.port), timeout=60) as link:
            link.setsockopt(socket.IPPROTO_TCP, socket.TCP_NODELAY, 1)
            with contextlib.suppress(ConnectionError):
                for at in range(0, len(text), size):
                    link.sendall(text[at : at + size])
                    time.sleep(pause)
                link.shutdown(socket.SHUT_WR)
            back = b""
            with contextlib.suppress(ConnectionError):
                while more := link.recv(PIECE):
                    back += more
            return back


def expect(what, found, wanted):
    if found != wanted:
        raise Wrong(f"{what}: {str(found)[:300]} in place of {str(wanted)[:300]}")


def entry(dump, path):
    return f"/dumps/{dump}/entry?path={path}&kind=file"


def chunked(pieces, last=b"0\r\n\r\n"):
    return b"".join(b"%x\r\n%s\r\n" % (len(it), it) for it in pieces) + last


def put_chunked(dump, path, body, fields="Transfer-Encoding: chunked\r\n"):
    return f"PUT {entry(dump, path)} {HEAD}{fields}\r\n".encode() + body


def first_answer(back):
    """The status of the first response, and its refusal if it has one."""
    status = int(back.split(b" ", 2)[1]) if back else 0
    refused = re.search(rb'\{"refused":"(\w+)', back)
    return status, refused.group(1).decode() if refused else ""


def digest_of(stream):
    made = hashlib.md5()
    while piece := stream.read(1 << 20):
        made.update(piece)
    return made.hexdigest()


def sparse(path, size):
    """A file of this length with some bytes here and there."""
    with open(path, "wb") as file:
        file.truncate(size)
        for at in range(0, size, size // 7 + 1):
            file.seek(at)
            file.write(b"at %d" % at)


def curl(*words, **given):
    return subprocess.run(["curl", "-s", "-w", "%{http_code}", *words], stdout=subprocess.PIPE, check=True, **given).stdout.decode()


def large_file(server, room, size):
    """curl sends a large file by its length and again in chunks, and both come back."""
    path, back = os.path.join(room, "large"), os.path.join(room, "back")
    sparse(path, size)
    dump, base = server.dump("large"), f"http://127.0.0.1:{server.port}"
    before = json.loads(server.want(200, "GET", "/stats"))["files"]
    expect("curl -T FILE", curl("-T", path, base + entry(dump, "length")), "{}200")
    with open(path, "rb") as file:
        expect("curl -T -", curl("-T", "-", base + entry(dump, "chunks"), stdin=file), "{}200")
    server.commit(dump)
    with open(path, "rb") as file:
        wanted = digest_of(file)
    for name in ("length", "chunks"):
        expect("curl -o", curl("-o", back, f"{base}/hosts/large/backups/0/file?path={name}"), "200")
        with open(back, "rb") as file:
            expect(f"what came back of {name}", digest_of(file), wanted)
    expect("one content for both", json.loads(server.want(200, "GET", "/stats"))["files"], before + 1)


def clients(server, room):
    """Python's client sends a file and a generator, wget a file, and all come back."""
    body = os.urandom(3 * PIECE + 17)
    path = os.path.join(room, "body")
    with open(path, "wb") as file:
        file.write(body)
    dump = server.dump("clients")
    with open(path, "rb") as file:
        server.want(200, "PUT", entry(dump, "file"), file, headers={"Content-Length": str(len(body))})
    server.want(200, "PUT", entry(dump, "generator"), (body[at : at + 999] for at in range(0, len(body), 999)), encode_chunked=True,
                headers={"Transfer-Encoding": "chunked"})
    names = ["file", "generator"]
    if shutil.which("wget"):
        to = f"http://127.0.0.1:{server.port}{entry(dump, 'wget')}"
        subprocess.run(["wget", "-q", "-O", "-", "--method=PUT", f"--body-file={path}", to], stdout=subprocess.DEVNULL, check=True)
        names.append("wget")
    server.commit(dump)
    for name in names:
        expect(f"what came back of {name}", server.want(200, "GET", f"/hosts/clients/backups/0/file?path={name}"), body)


def edges(server, _room):
    """Files about one piece long, by length and in chunks, come back; none is a content twice."""
    sizes = (0, 1, PIECE - 1, PIECE, PIECE + 1, 2 * PIECE)
    dump = server.dump("edges")
    for size in sizes:
        body = b"e" * size
        server.want(200, "PUT", entry(dump, f"length{size}"), body)
        back = server.raw(put_chunked(dump, f"chunks{size}", chunked([body] if body else [])))
        expect(f"chunks of {size} bytes", first_answer(back), (200, ""))
    server.commit(dump)
    for size in sizes:
        for name in ("length", "chunks"):
            expect(f"{name}{size}", server.want(200, "GET", f"/hosts/edges/backups/0/file?path={name}{size}"), b"e" * size)


def slow(server, _room):
    """A body that comes by some bytes at a time, with the ends of its segments anywhere in its chunks, is taken."""
    dump = server.dump("slow")
    text = put_chunked(dump, "a", chunked([b"hell", b"o"], b"0\r\nTrailer: x\r\n\r\n"))
    for size in (1, 3, 7):
        expect(f"{size} bytes at a time", first_answer(server.raw(text, 0.002, size)), (200, ""))
    server.commit(dump)
    expect("what was stored", server.want(200, "GET", "/hosts/slow/backups/0/file?path=a"), b"hello")


def broken(server, _room):
    """A sender that breaks off leaves nothing: no entry, and behind a sweep no file of a stage."""
    dump = server.dump("broken")
    body = b"x" * (PIECE + 4464)
    by_length = f"PUT {entry(dump, 'a')} {HEAD}Content-Length: 100000\r\n\r\n".encode() + body
    expect("a body that is cut", server.raw(by_length), b"")
    expect("chunks that are cut", server.raw(put_chunked(dump, "b", chunked([body], b""))), b"")
    server.want(200, "POST", "/night/sweep")
    expect("no stage's file is left", [it for it in os.listdir(server.store) if it.startswith("stage-")], [])
    server.commit(dump)
    expect("nothing was put", json.loads(server.want(200, "GET", "/hosts/broken/backups/0/list"))["entries"], [])


def shapes(server, _room):
    """What two readers could understand in two ways is refused, and the connection is closed: nothing behind it is read."""
    dump = server.dump("shapes")
    behind = b"GET /stats " + HEAD.encode() + b"\r\n"
    field = "Transfer-Encoding: chunked\r\n"
    heads = [
        ("a length beside chunked", field + "Content-Length: 5\r\n", (400, "BadHead")),
        ("chunked behind a length", "Content-Length: 5\r\n" + field, (400, "BadHead")),
        ("chunked twice", field + field, (411, "NoLength")),
        ("chunked, gzip", "Transfer-Encoding: chunked, gzip\r\n", (411, "NoLength")),
        ("gzip, chunked", "Transfer-Encoding: gzip, chunked\r\n", (411, "NoLength")),
        ("identity", "Transfer-Encoding: identity\r\n", (411, "NoLength")),
    ]
    for what, fields, wanted in heads:
        back = server.raw(put_chunked(dump, "a", chunked([b"hello"]), fields) + behind)
        expect(what, (first_answer(back), back.count(b"HTTP/1.1 ")), (wanted, 1))
    old = put_chunked(dump, "a", chunked([b"hello"])).replace(b"HTTP/1.1", b"HTTP/1.0")
    expect("chunked in 1.0", first_answer(server.raw(old + behind)), (400, "BadHead"))
    expect("chunked in other letters", first_answer(server.raw(put_chunked(dump, "b", chunked([b"hello"]), field.upper()))), (200, ""))
    bodies = [
        ("no size", b"zz\r\n", BAD_CHUNK),
        ("an empty size", b"\r\nhello\r\n0\r\n\r\n", BAD_CHUNK),
        ("a sign", b"+5\r\nhello\r\n0\r\n\r\n", BAD_CHUNK),
        ("no end of a chunk", b"5\r\nhelloX0\r\n\r\n", BAD_CHUNK),
        ("a line of 1,025 bytes", b"5;" + b"x" * 1021 + b"\r\nhello\r\n0\r\n\r\n", BAD_CHUNK),
        ("65 fields of a trailer", b"0\r\n" + b"".join(b"F%d: x\r\n" % it for it in range(65)) + b"\r\n", BAD_CHUNK),
        ("a chunk that is too large", b"10000000000\r\n", (413, "FileTooLarge")),
        ("a chunk larger than a number", b"fffffffffffffffff\r\n", BAD_CHUNK),
    ]
    for what, body, wanted in bodies:
        back = server.raw(put_chunked(dump, "c", body) + behind)
        expect(what, (first_answer(back), back.count(b"HTTP/1.1 ")), (wanted, 1))
    taken = [
        ("a line of 1,024 bytes", b"5;" + b"x" * 1020 + b"\r\nhello\r\n0\r\n\r\n"),
        ("64 fields of a trailer", b"5\r\nhello\r\n0\r\n" + b"".join(b"F%d: x\r\n" % it for it in range(64)) + b"\r\n"),
        ("an extension", b"5;name=value\r\nhello\r\n0;last\r\n\r\n"),
    ]
    for what, body in taken:
        back = server.raw(put_chunked(dump, "d", body) + behind)
        expect(what, (first_answer(back), back.count(b"HTTP/1.1 200")), ((200, ""), 2))


def judged_first(server, _room):
    """Route and query are judged before the body is read: their refusals come behind a body of any length, and the connection goes on."""
    dump = server.dump("judged")
    behind = b"GET /stats " + HEAD.encode() + b"\r\n"
    body = chunked([b"x" * PIECE, b"y" * PIECE])
    for target, wanted in ((f"/dumps/{dump}/entry?path=a", (400, "BadQuery")), ("/nowhere", (404, "NoRoute")), (f"/dumps/9-9/entry?path=a&kind=file", (404, "NoSession"))):
        back = server.raw(f"PUT {target} {HEAD}Transfer-Encoding: chunked\r\n\r\n".encode() + body + behind)
        expect(target, (first_answer(back), back.count(b"HTTP/1.1 200")), (wanted, 1))
    link = f"PUT /dumps/{dump}/entry?path=l&kind=link {HEAD}Content-Length: 100000\r\n\r\n".encode() + b"t" * 100_000
    expect("a target of 100,000 bytes", first_answer(server.raw(link)), (400, "BadTarget"))


def side_by_side(server, room, size):
    """Four large files at once, and the server's memory stays small."""
    wrong = []

    def put(name):
        try:
            dump = server.dump(f"side{name}")
            path = os.path.join(room, f"side{name}")
            sparse(path, size // 4 + name)
            with open(path, "rb") as file:
                server.want(200, "PUT", entry(dump, "a"), file, headers={"Content-Length": str(size // 4 + name)})
            server.commit(dump)
        except (OSError, http.client.HTTPException, Wrong) as error:
            wrong.append(error)

    threads = [threading.Thread(target=put, args=(it,)) for it in range(4)]
    for it in threads:
        it.start()
    for it in threads:
        it.join()
    if wrong:
        raise Wrong(str(wrong[0]))
    if server.memory() > ROOM:
        raise Wrong(f"the server took {server.memory()} kB")


def cut_streams(program, room):
    """A stream of `pipe` that is cut at any byte of a chunked body ends with status 1, and nothing is put."""
    front = f"PUT /hosts/pc1 {HEAD}\r\nPOST /hosts/pc1/dumps?kind=full {HEAD}\r\n".encode()
    whole = put_chunked("1-0", "a", chunked([b"hell", b"o"], b"0\r\nT: x\r\n\r\n"))
    start = whole.index(b"\r\n\r\n") + 4
    for end in range(start, len(whole) + 1):
        store = os.path.join(room, f"cut{end}")
        ran = subprocess.run([program, "pipe", "--store", store], input=front + whole[:end], stdout=subprocess.PIPE, stderr=subprocess.PIPE, check=False)
        is_whole = end == len(whole)
        expect(f"the status at byte {end}", ran.returncode, 0 if is_whole else 1)
        expect(f"the responses at byte {end}", ran.stdout.count(b"HTTP/1.1 20"), 3 if is_whole else 2)
        expect(f"what is said at byte {end}", ran.stderr, b"" if is_whole else b"input ended inside a request\n")
        shutil.rmtree(store)


def main(program, size=300_000_000):
    passed = failed = 0
    room = tempfile.mkdtemp()
    try:
        server = Server(program, os.path.join(room, "store"))
        server.store = os.path.join(room, "store")
        tries = [clients, edges, slow, broken, shapes, judged_first]
        cases = [(it, lambda it=it: it(server, room)) for it in tries]
        if shutil.which("curl"):
            cases.append((large_file, lambda: large_file(server, room, size)))
        cases.append((side_by_side, lambda: side_by_side(server, room, size)))
        cases.append((cut_streams, lambda: cut_streams(program, room)))
        for case, run in cases:
            try:
                run()
                passed += 1
            except (Wrong, OSError, http.client.HTTPException, subprocess.CalledProcessError) as error:
                failed += 1
                print(f"FAILED: {case.__doc__} {error}")
        server.run.terminate()
        server.run.wait()
    finally:
        shutil.rmtree(room)
    print(f"{passed} passed, {failed} failed")
    return failed != 0


if __name__ == "__main__":
    sys.exit(main(sys.argv[1], *map(int, sys.argv[2:])))
