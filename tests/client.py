#!/usr/bin/env python3
"""The client against the program and against servers that lie: tests/client.py PROGRAM. The last line is 'N passed, M failed'."""
import ast
import contextlib
import hashlib
import importlib.machinery
import importlib.util
import json
import os
import re
import shutil
import signal
import socket
import stat
import subprocess
import sys
import tempfile
import threading
import time
import traceback
import urllib.parse

TOP = os.path.dirname(os.path.dirname(os.path.realpath(__file__)))
CLIENT = os.path.join(TOP, "clients", "turretgage")
IS_ROOT = os.geteuid() == 0
# More than one answer of the store may hold.
LARGE = 67_108_865


class Wrong(Exception):
    """What a test found wrong."""


def want(found, wanted, what=""):
    if found != wanted:
        raise Wrong(f"{what}: {found!r} in the place of {wanted!r}")


def want_in(part, text):
    if part not in text:
        raise Wrong(f"{part!r} isn't in {text[-600:]!r}")


# ---- What is run


class Server:
    """A run of `serve` on a store, at a port, or at one that the system chooses."""

    def __init__(self, program, store, port=0):
        self.program, self.store = program, store
        self.start(port)

    def start(self, port=0):
        words = [self.program, "serve", "--store", self.store, "--listen", f"127.0.0.1:{port}"]
        environment = {**os.environ, "ASAN_OPTIONS": "detect_leaks=0"}
        self.run = subprocess.Popen(words, stdin=subprocess.DEVNULL, stderr=subprocess.PIPE, text=True, env=environment)
        told = re.fullmatch(r"listening on 127\.0\.0\.1:(\d+)\n", self.run.stderr.readline())
        if not told:
            raise Wrong("the server doesn't listen")
        self.port = int(told.group(1))

    def kill(self):
        self.run.kill()
        self.run.wait()
        self.run.stderr.close()


class Nursery:
    """A process that has the client loaded, and forks each run of it: a start of Python takes longer than most runs."""

    def __init__(self):
        words = [sys.executable, os.path.realpath(__file__), "nursery"]
        self.run = subprocess.Popen(words, stdin=subprocess.PIPE, stdout=subprocess.PIPE, text=True)

    def ask(self, **what):
        self.run.stdin.write(json.dumps(what) + "\n")
        self.run.stdin.flush()
        return json.loads(self.run.stdout.readline())

    @staticmethod
    def serve():
        """Forks for each line that has words, and says how a run ended for each that has its number."""
        loader = importlib.machinery.SourceFileLoader("client", CLIENT)
        client = importlib.util.module_from_spec(importlib.util.spec_from_loader("client", loader))
        sys.modules["client"] = client
        loader.exec_module(client)
        for line in sys.stdin:
            what = json.loads(line)
            if "wait" in what:
                pid, status = os.waitpid(what["wait"], os.WNOHANG)
                print(json.dumps((os.WEXITSTATUS(status) if os.WIFEXITED(status) else -os.WTERMSIG(status)) if pid else None), flush=True)
                continue
            pid = os.fork()
            if pid == 0:
                Nursery.work(client, what)
            print(pid, flush=True)

    @staticmethod
    def work(client, what):
        """A run of the client, which ends the process."""
        status = 1
        try:
            os.dup2(os.open(os.devnull, os.O_RDONLY), 0)
            for fd in (1, 2):
                os.dup2(os.open(what["outputs"][fd - 1], os.O_WRONLY | os.O_CREAT | os.O_TRUNC), fd)
            sys.stdout, sys.stderr = (open(fd, "w", encoding="utf-8", closefd=False) for fd in (1, 2))
            os.environ.clear()
            os.environ.update(what["environment"])
            exec(what["code"], {"client": client, "os": os})
            status = client.main(what["words"])
        except SystemExit as end:
            status = end.code
        except BaseException:
            traceback.print_exc()
        finally:
            sys.stdout.flush()
            sys.stderr.flush()
            os._exit(status)


class Begun:
    """A run of the client."""

    count = 0

    def __init__(self, room, port, *words, code=""):
        environment = {key: value for key, value in os.environ.items() if not key.startswith("TURRETGAGE")}
        environment.update(TURRETGAGE_URL=f"http://127.0.0.1:{port}", TURRETGAGE_STATE=os.path.join(room, "state"))
        Begun.count += 1
        self.outputs = [os.path.join(room, f".said-{Begun.count}-{fd}") for fd in (1, 2)]
        self.pid = NURSERY.ask(words=words, environment=environment, code=code, outputs=self.outputs)

    def send_signal(self, number):
        os.kill(self.pid, number)

    def end(self, patience=120):
        """Its status, and what it said."""
        end = time.monotonic() + patience
        while True:
            status = NURSERY.ask(wait=self.pid)
            if status is not None:
                break
            if time.monotonic() > end:
                os.kill(self.pid, signal.SIGKILL)
                raise Wrong("the client doesn't end")
            time.sleep(0.01)
        texts = []
        for name in self.outputs:
            with open(name, encoding="utf-8", newline="") as it:
                texts.append(it.read())
        return status, texts[0], texts[1]


class Run:
    """A run of the client that has ended."""

    def __init__(self, room, port, *words, **more):
        self.status, self.out, self.err = Begun(room, port, *words, **more).end()

    def wants(self, status):
        if self.status != status or "Traceback" in self.err:
            raise Wrong(f"status {self.status} in the place of {status}: {self.out[-300:]!r} {self.err[-600:]!r}")
        return self

    def json(self, status=0):
        self.wants(status)
        return json.loads(self.out)


class Relay:
    """Passes connections on to a port, and can count, slow down and break them. `spoil` is asked of each piece that the client
    sends, with all that came before it on the connection, and says what to do: None to pass it on, `drop` to end the connection,
    `pass` to pass it on and end the connection once something was answered, without passing that back."""

    def __init__(self, port, spoil=None, rate=None):
        self.port_behind, self.spoil, self.rate, self.is_down = port, spoil, rate, False
        self.seen, self.connections, self.silent = [], 0, set()
        self.door = socket.create_server(("127.0.0.1", 0))
        self.door.setsockopt(socket.SOL_SOCKET, socket.SO_RCVBUF, 65_536)
        self.port = self.door.getsockname()[1]
        threading.Thread(target=self._take, daemon=True).start()

    def _take(self):
        while True:
            try:
                peer, _ = self.door.accept()
            except OSError:
                return
            if self.is_down:
                peer.close()
                continue
            self.connections += 1
            threading.Thread(target=self._serve, args=[peer], daemon=True).start()

    def _serve(self, peer):
        with contextlib.suppress(OSError), peer, socket.create_connection(("127.0.0.1", self.port_behind)) as behind:
            threading.Thread(target=self._back, args=[behind, peer], daemon=True).start()
            before = bytearray()
            while True:
                piece = peer.recv(65_536)
                if not piece or self.is_down:
                    break
                what = self.spoil(before, piece) if self.spoil else None
                self.seen.append(piece)
                before += piece
                if what == "drop":
                    break
                if what == "pass":
                    self.silent.add(behind)
                behind.sendall(piece)
                if self.rate:
                    time.sleep(len(piece) / self.rate)
            for each in (peer, behind):
                with contextlib.suppress(OSError):
                    each.shutdown(socket.SHUT_RDWR)

    def _back(self, behind, peer):
        with contextlib.suppress(OSError):
            while True:
                piece = behind.recv(65_536)
                if not piece:
                    break
                if behind in self.silent:
                    peer.shutdown(socket.SHUT_RDWR)
                    break
                peer.sendall(piece)
        with contextlib.suppress(OSError):
            peer.shutdown(socket.SHUT_RDWR)

    def reset(self, spoil=None, rate=None):
        self.spoil, self.rate, self.is_down, self.seen, self.connections = spoil, rate, False, [], 0

    def bytes(self):
        return sum(map(len, self.seen))

    def lines(self):
        """The request lines that changed something or opened a dump."""
        return re.findall(rb"^(?:PUT|POST|DELETE) \S+", b"".join(self.seen), re.MULTILINE)


# ---- Trees


def write(path, data, mode=None, times=None):
    with open(path, "wb") as it:
        it.write(data)
    if mode is not None:
        os.chmod(path, mode)
    if times is not None:
        os.utime(path, ns=(times, times))


def make_tree(top):
    """A tree with every kind, and with names and attributes that are hard to carry."""
    os.makedirs(f"{top}/inner/deeper")
    names = ["with space", "quo\"te's", "100%", "a+b&c=d?e#f", "r\u00e9sum\u00e9", "\u65e5\u672c", "new\nline", "tab\t", "-dash", "~", "%2e%2e",
             "back\\slash", "a" * 255, "..dots", "...", "\x7f\x1b[31m"]
    for place, name in enumerate(names):
        write(f"{top}/inner/{name}", name.encode() * place, times=1_700_000_000_123_456_789 + place)
    write(f"{top}/empty", b"", 0o600)
    write(f"{top}/old", b"old", times=-1_500_000_001)
    write(f"{top}/small", b"x" * 65_536)
    write(f"{top}/large", os.urandom(1_000_000), 0o640)
    write(f"{top}/set-id", b"#!", 0o6755 if IS_ROOT else 0o755)
    write(f"{top}/read-only", b"r", 0o444)
    os.link(f"{top}/large", f"{top}/inner/hard")
    os.link(f"{top}/large", f"{top}/inner/deeper/hard too")
    os.link(f"{top}/empty", f"{top}/inner/empty too")
    for name, target in (("link", "../small"), ("dangling", "/nowhere/at all"), ("r\u00e9", "x" * 4_000), ("out", "/etc")):
        os.symlink(target, f"{top}/inner/{name}")
    os.mkdir(f"{top}/nothing", 0o700)
    os.mkdir(f"{top}/closed")
    write(f"{top}/closed/in it", b"1")
    os.chmod(f"{top}/closed", 0o555)
    os.mkdir(f"{top}/sticky")
    os.chmod(f"{top}/sticky", 0o1777)
    if IS_ROOT:
        os.chown(f"{top}/small", 12_345, 54_321)
        os.chown(f"{top}/inner/link", 1, 2, follow_symlinks=False)
        os.chmod(f"{top}/small", 0o640)
    make_deep(top)
    for name in ("inner/deeper", "nothing", "inner"):
        os.utime(f"{top}/{name}", ns=(0, 1_600_000_000_000_000_001))


def make_deep(top):
    """A file whose path in a backup has 4,096 bytes: more than a system call takes in one piece."""
    left = 4_096 - len(os.path.realpath(top).encode()) + 1
    here = os.open(top, os.O_RDONLY)
    while left > 256:
        name = "d" * (254 if left - 255 > 1 else 100)
        os.mkdir(name, dir_fd=here)
        inner = os.open(name, os.O_RDONLY, dir_fd=here)
        os.close(here)
        here, left = inner, left - len(name) - 1
    name = "f" * (left - 1)
    os.close(os.open(name, os.O_WRONLY | os.O_CREAT, 0o644, dir_fd=here))
    os.close(here)


def described(top, is_exact=True):
    """What stands in a folder: of each path its kind, attributes and bytes; hard links by the first of their names."""
    found, firsts = {}, {}

    def visit(fd, path):
        for name in sorted(os.listdir(fd)):
            each = os.stat(name, dir_fd=fd, follow_symlinks=False)
            here = f"{path}/{name}" if path else name
            what = [stat.S_IFMT(each.st_mode), stat.S_IMODE(each.st_mode), each.st_uid, each.st_gid, each.st_mtime_ns]
            if stat.S_ISREG(each.st_mode):
                inner = os.open(name, os.O_RDONLY, dir_fd=fd)
                with open(inner, "rb") as it:
                    what.append(hashlib.sha256(it.read()).hexdigest())
                if is_exact:
                    what.append(firsts.setdefault((each.st_dev, each.st_ino), here))
            elif stat.S_ISLNK(each.st_mode):
                what.append(os.readlink(name, dir_fd=fd))
            found[here] = tuple(what)
            if stat.S_ISDIR(each.st_mode):
                inner = os.open(name, os.O_RDONLY | os.O_NOFOLLOW, dir_fd=fd)
                visit(inner, here)
                os.close(inner)

    fd = os.open(top, os.O_RDONLY)
    visit(fd, "")
    os.close(fd)
    return found


def want_same(first, second, is_exact=True):
    old, new = described(first, is_exact), described(second, is_exact)
    for path in sorted({**old, **new}):
        if old.get(path) != new.get(path):
            raise Wrong(f"{path[:200]!r}: {new.get(path)} in the place of {old.get(path)}")


def make_small(top, count, size=1_000):
    """Many small files, each with bytes of its own."""
    for place in range(count):
        folder = f"{top}/d{place % 20}"
        os.makedirs(folder, exist_ok=True)
        write(f"{folder}/f{place}", (b"%d " % place) * (size // 8))


class Room:
    """A folder for a test, with the server that all share."""

    def __init__(self, top, server, name):
        self.top, self.server, self.host = os.path.join(top, name), server, name
        os.mkdir(self.top)
        os.chmod(self.top, 0o777)
        self.tree, self.into = os.path.join(self.top, "tree"), os.path.join(self.top, "into")
        self.stored = os.path.realpath(self.tree).strip("/")
        self.relay = Relay(server.port)

    def client(self, *words, port=None, **more):
        return Run(self.top, port or self.relay.port, *words, **more)

    def push(self, *words, port=None, status=0, **more):
        return self.client("push", self.host, self.tree, "--json", *words, port=port, **more).json(status)

    def restored(self, *number, status=0, into=None, **more):
        into = into or self.into
        remove(into)
        self.client("restore", self.host, *number, self.stored, into, **more).wants(status)
        return into

    def backups(self):
        return self.client("backups", self.host, "--json").json()

    def backups_now(self):
        """The same, not through the relay."""
        return json.loads(ask(self.server.port, "GET", f"/hosts/{self.host}/backups"))


def remove(path):
    """Removes a tree of paths that may be too long for a system call."""
    subprocess.run(["rm", "-rf", path], check=True)


# ---- Tests against the program


def every_kind(room):
    """A tree of every kind comes back as it was; a second push sends nothing but its open and its commit."""
    make_tree(room.tree)
    found = room.push("--quiet")
    want((found["kind"], found["number"], found["failed"], found["skipped"]), ("full", 0, 0, 0), "the first push")
    want_same(room.tree, room.restored())
    room.relay.reset()
    found = room.push()
    want((found["kind"], found["new"], found["changed"], found["removed"]), ("incr", 0, 0, 0), "the second push")
    lines = room.relay.lines()
    if any(b"/entry" in line for line in lines) or not lines[-1].endswith(b"/commit"):
        raise Wrong(f"a push of nothing new sent {lines}")
    want(room.relay.connections, 1, "connections")
    want_same(room.tree, room.restored("1"))


def other_kinds(room):
    """What becomes another kind, a new link of a file, a hole, other attributes: an incremental is what a full would be."""
    os.makedirs(f"{room.tree}/d/e")
    for name in ("d/e/f", "file", "gone", "was link's", "a", "b"):
        write(f"{room.tree}/{name}", name.encode())
    os.symlink("a", f"{room.tree}/link")
    os.makedirs(f"{room.tree}/gone too/x/y")
    room.push()
    shutil.rmtree(f"{room.tree}/d")
    write(f"{room.tree}/d", b"a file now")
    for name in ("file", "gone", "link", "was link's"):
        os.unlink(f"{room.tree}/{name}")
    os.makedirs(f"{room.tree}/file/of/folders")
    write(f"{room.tree}/file/of/it", b"1")
    write(f"{room.tree}/link", b"a file now")
    os.symlink("b", f"{room.tree}/was link's")
    shutil.rmtree(f"{room.tree}/gone too")
    os.link(f"{room.tree}/a", f"{room.tree}/c")
    os.chmod(f"{room.tree}/b", 0o600)
    seen = room.client("push", room.host, room.tree, "--dry-run").wants(0)
    for line in (f"- /{room.stored}/gone", f"- /{room.stored}/gone too", f"M /{room.stored}/d", f"+ /{room.stored}/c"):
        want_in(line + "\n", seen.out)
    want(len(room.backups()["backups"]), 1, "backups after a dry run")
    found = room.push()
    want((found["kind"], found["removed"], found["failed"]), ("incr", 2, 0), "the push")
    want_same(room.tree, room.restored())
    found = room.push()
    want((found["new"], found["changed"], found["removed"]), (0, 0, 0), "a push of nothing new")
    diff = room.client("diff", room.host, "0", "1").wants(0).out
    for line in (f"T /{room.stored}/d", f"- /{room.stored}/gone", f"+ /{room.stored}/file/of/it", f"M /{room.stored}/b"):
        want_in(line + "\n", diff)


def two_in_a_hundred(room):
    """Of 500 files, sent over three connections, 2 % change, go and come: both backups come back."""
    make_small(room.tree, 500)
    found = room.push("--connections", "3")
    want(found["new"] - found["failed"], 500 + 21 + room.stored.count("/"), "new")
    remove(f"{room.top}/before")
    subprocess.run(["cp", "-a", room.tree, f"{room.top}/before"], check=True)
    for place in range(10):
        write(f"{room.tree}/d{place}/f{place}", b"changed")
        write(f"{room.tree}/d{place}/new{place}", b"new")
        os.unlink(f"{room.tree}/d{place}/f{place + 20}")
    found = room.push("--connections", "3")
    want((found["new"], found["removed"]), (10, 10), "new and removed")
    want_same(room.tree, room.restored("1"))
    want_same(f"{room.top}/before", room.restored("0"))


def plain_paths(room):
    """Where folders can't be opened relative to their parents, as on Windows, whole paths do the same."""
    os.makedirs(f"{room.tree}/a/b")
    write(f"{room.tree}/a/f", b"1" * 300_000, 0o604)
    write(f"{room.tree}/a/b/g", b"2", times=1_234_567_890_123_456_789)
    os.link(f"{room.tree}/a/f", f"{room.tree}/h")
    os.symlink("a", f"{room.tree}/l")
    plain = "client.HAS_FOLDER_FDS = False"
    want(room.push(code=plain)["failed"], 0, "left out")
    want_same(room.tree, room.restored(code=plain))
    want(room.push(code=plain)["changed"], 0, "changed")


def stopped(room):
    """SIGINT in mid push ends it with status 130 and its dump is parked; the next push goes on with what it sent, and is whole."""
    make_small(room.tree, 300, 8_000)
    room.relay.reset(rate=1_000_000)
    run = Begun(room.top, room.relay.port, "push", room.host, room.tree)
    wait_for(lambda: room.relay.bytes() > 400_000, "bytes")
    run.send_signal(signal.SIGINT)
    status, _, said = run.end()
    want(status, 130, "status")
    want_in("the dump is parked", said)
    want((room.backups()["dump"], room.backups()["backups"]), (None, []), "what is left")
    found = room.push()
    if found["unchanged"] < 20:
        raise Wrong(f"what was sent is sent again: {found}")
    want_same(room.tree, room.restored())


def wait_for(done, what, patience=60):
    end = time.monotonic() + patience
    while not done():
        if time.monotonic() > end:
            raise Wrong(f"waited for {what}")
        time.sleep(0.02)


def killed_server(top, program):
    """The server is killed in mid push, and started again: the push begins anew by itself."""
    server = Server(program, os.path.join(top, "killed-store"))
    room = Room(top, server, "killed")
    make_small(room.tree, 300, 8_000)
    room.relay.reset(rate=2_000_000)
    run = Begun(room.top, room.relay.port, "push", room.host, room.tree, "--json", "--retry", "60")
    wait_for(lambda: room.relay.bytes() > 400_000, "bytes")
    server.kill()
    time.sleep(0.3)
    server.start(server.port)
    status, out, said = run.end()
    want((status, json.loads(out or "{}").get("number")), (0, 0), said)
    want_in("begins anew", said)
    want_same(room.tree, room.restored())
    server.kill()


def broken_connections(room):
    """Connections that break after each 200 kB: what has no answer is sent again, and the backup is whole."""
    make_small(room.tree, 200, 4_000)
    write(f"{room.tree}/large", os.urandom(150_000))
    room.relay.reset(spoil=lambda before, piece: "drop" if len(before) > 200_000 else None)
    found = room.push()
    want(found["failed"], 0, "left out")
    if room.relay.connections < 3:
        raise Wrong("the connections didn't break")
    want_same(room.tree, room.restored())


def lost_answers(room):
    """The answers to the open and to the commit are lost, once each: there is one backup, and no open dump."""
    os.mkdir(room.tree)
    write(f"{room.tree}/f", b"1")
    lost = []

    def spoil(_before, piece):
        for word in (b"/dumps?kind=full", b"/commit HTTP"):
            if word in piece and word not in lost:
                lost.append(word)
                return "pass"
        return None

    room.relay.reset(spoil=spoil)
    found = room.push()
    want((found["number"], len(lost)), (0, 2), "number and answers lost")
    want((len(room.backups()["backups"]), room.backups()["dump"]), (1, None), "backups")
    want_same(room.tree, room.restored())


def away_and_back(room):
    """The server is away for longer than is waited: status 4. The dump stays, and the next push goes on with it, though files
    came, went and changed meanwhile."""
    make_small(room.tree, 300, 8_000)
    room.relay.reset(rate=2_000_000)
    run = Begun(room.top, room.relay.port, "push", room.host, room.tree, "--retry", "0.5")
    wait_for(lambda: room.relay.bytes() > 1_000_000, "bytes")
    room.relay.is_down = True
    status, _, said = run.end()
    want(status, 4, said)
    room.relay.reset()
    dump = room.backups()["dump"]
    os.unlink(f"{room.tree}/d0/f0")
    shutil.rmtree(f"{room.tree}/d1")
    write(f"{room.tree}/d2/f2", b"changed")
    os.chmod(f"{room.tree}/d3", 0o700)
    write(f"{room.tree}/d1", b"a file now")
    room.relay.reset()
    found = room.push()
    if dump.encode() not in b"".join(room.relay.seen) or found["unchanged"] < 50:
        raise Wrong(f"the dump {dump} didn't go on: {found}")
    want_same(room.tree, room.restored())
    want(room.push()["changed"], 0, "changed")


def open_dumps(room):
    """A dump of somebody else is refused, and taken over if that is asked; one that this machine left by a kill isn't in the
    way; two pushes of one host at a time are kept apart."""
    make_small(room.tree, 100, 8_000)
    room.push("--exclude", "*")
    ask(room.server.port, "POST", f"/hosts/{room.host}/dumps?kind=full")
    run = room.client("push", room.host, room.tree).wants(1)
    want_in("SessionOpen", run.err)
    room.push("--take-over")
    room.relay.reset(rate=60_000)
    run = Begun(room.top, room.relay.port, "push", room.host, room.tree, "--full")
    wait_for(lambda: room.relay.bytes() > 40_000, "bytes")
    want_in("another push", room.client("push", room.host, room.tree).wants(2).err)
    run.send_signal(signal.SIGKILL)
    run.end()
    room.relay.reset()
    room.push()
    want_same(room.tree, room.restored())


def ask(port, method, target):
    """The body of an answer, asked for without the client."""
    with socket.create_connection(("127.0.0.1", port)) as peer:
        peer.sendall(f"{method} {target} HTTP/1.1\r\nHost: b\r\nConnection: close\r\n\r\n".encode())
        text = b""
        while True:
            piece = peer.recv(65_536)
            if not piece:
                return text.partition(b"\r\n\r\n")[2]
            text += piece


def left_out(room):
    """What can't be taken is told and counted, and the rest is there."""
    os.makedirs(f"{room.tree}/inner")
    write(f"{room.tree}/f", b"1")
    os.mkfifo(f"{room.tree}/pipe")
    with socket.socket(socket.AF_UNIX) as it:
        it.bind(f"{room.tree}/socket")
    found = room.push()
    want((found["failed"], found["skipped"]), (0, 2), "a pipe and a socket are passed over")
    for name in (b"not \xff UTF-8", "the character \ufffd".encode()):
        write(os.path.join(room.tree.encode(), name), b"x")
    os.symlink(b"\xff", f"{room.tree}/link to no UTF-8")
    os.makedirs(os.path.join(room.tree.encode(), b"\xfe/inner"))
    with open(f"{room.tree}/large", "wb") as it:
        it.truncate(LARGE)
    run = room.client("push", room.host, room.tree).wants(3)
    for part in ("isn't UTF-8", "U+FFFD", "target isn't UTF-8"):
        want_in(part, run.err)
    want_in("left out 4, passed over 2", run.out)
    names = [entry["path"] for entry in room.client("ls", room.host, room.stored, "--json").json()["entries"]]
    wanted = ["f", "inner", "large"]
    want(sorted(names), [f"{room.stored}/{name}" for name in wanted], "what is there")


def unreadable(room):
    """A user who may not read all: status 3, and the backup is without these, though the one before had them."""
    os.makedirs(f"{room.tree}/closed")
    for name in ("f", "secret", "closed/in it"):
        write(f"{room.tree}/{name}", b"1")
    os.mkdir(f"{room.tree}/entered only")
    os.chmod(f"{room.tree}/entered only", 0o711)
    room.push("--state", f"{room.top}/mine")
    os.chmod(f"{room.tree}/secret", 0)
    os.chmod(f"{room.tree}/closed", 0)
    nobody = "import encodings.idna; os.setgroups([]); os.setgid(65534); os.setuid(65534)" if IS_ROOT else ""
    run = room.client("push", room.host, room.tree, "--state", "/proc/nowhere", code=nobody).wants(3)
    want_in("secret: it can't be read: Permission denied", run.err)
    want_in("closed: the folder can't be read: Permission denied", run.err)
    names = [entry["path"] for entry in room.client("ls", room.host, "1", room.stored, "--recursive", "--json").json()["entries"]]
    want(sorted(names), [f"{room.stored}/{name}" for name in ("closed", "entered only", "f")], "what is there")


def moving_files(room):
    """A file that becomes shorter while it is sent is sent once more; one that grows is sent by the length that it had."""
    os.mkdir(room.tree)
    for name, size in (("shrinks", 6_000_000), ("z", 1_000)):
        write(f"{room.tree}/{name}", b"x" * size)
    room.relay.reset(rate=6_000_000)
    run = Begun(room.top, room.relay.port, "push", room.host, room.tree, "--json")
    wait_for(lambda: room.relay.bytes() > 1_000_000, "bytes")
    os.truncate(f"{room.tree}/shrinks", 4_500_000)
    status, out, said = run.end()
    want((status, json.loads(out)["failed"]), (0, 0), said)
    want_same(room.tree, room.restored())
    write(f"{room.tree}/grows", b"y" * 6_000_000)
    room.relay.reset(rate=6_000_000)
    run = Begun(room.top, room.relay.port, "push", room.host, room.tree, "--json")
    wait_for(lambda: room.relay.bytes() > 1_000_000, "bytes")
    with open(f"{room.tree}/grows", "ab") as it:
        it.write(b"more")
    status, out, said = run.end()
    want((status, json.loads(out)["changed_while_read"]), (0, 1), said)
    listed = room.client("ls", room.host, f"{room.stored}/grows", "--json").json()["entries"]
    want(listed[0]["size"], 6_000_000, "the size that it had")
    want(room.push()["changed"], 1, "what changed is sent by the next push")


def choices(room):
    """Excludes, several folders, a file, folders that aren't there, --checksum and --full."""
    for name in ("a/keep", "a/cache/x", "a/x.tmp", "b/c/deep/x", "b/c/keep", "b/x", "only"):
        os.makedirs(os.path.dirname(f"{room.tree}/{name}"), exist_ok=True)
        write(f"{room.tree}/{name}", name.encode())
    write(f"{room.top}/patterns", b"# a comment\nc/**/x\n")
    words = ["--exclude", "cache/", "--exclude", "*.tmp", "--exclude", f"{room.tree}/b/x", "--exclude-from", f"{room.top}/patterns"]
    found = room.client("push", room.host, f"{room.tree}/a", f"{room.tree}/b", f"{room.tree}/only", f"{room.tree}/a/keep", "--json", *words)
    want(found.json()["failed"], 0, "left out")
    listed = room.client("ls", room.host, room.stored, "--recursive", "--json").json()["entries"]
    want(sorted(each["path"][len(room.stored) + 1:] for each in listed), ["a", "a/keep", "b", "b/c", "b/c/deep", "b/c/keep", "only"],
         "what is there")
    found = room.push("--exclude", "b")
    want((found["new"], found["removed"]), (3, 1), "new and removed")
    times = os.stat(f"{room.tree}/only").st_mtime_ns
    write(f"{room.tree}/only", b"ylno", times=times)
    want(room.push("--exclude", "b")["changed"], 0, "by its times it is the same")
    room.push("--checksum", "--exclude", "b")
    want(room.client("get", room.host, f"{room.tree}/only").wants(0).out, "ylno", "by its bytes it isn't")
    want(room.push("--full")["kind"], "full", "kind")
    want_in("isn't there", room.client("push", room.host, f"{room.tree}/nowhere").wants(2).err)


def other_commands(room):
    """Each other command does and prints what it should."""
    os.mkdir(room.tree)
    write(f"{room.tree}/f.txt", b"one", times=1_000_000_000 * 10**9)
    room.push()
    write(f"{room.tree}/f.txt", b"second", times=1_000_000_001 * 10**9)
    room.push()
    host, path = room.host, f"/{room.stored}/f.txt"
    want_in(host, room.client("hosts").wants(0).out.split("\n"))
    want(len(room.client("backups", host).wants(0).out.splitlines()), 2, "lines of backups")
    want_in(path, room.client("find", host, "*.txt").wants(0).out)
    want(len(room.client("find", host, "f.*", "--all", "--json").json()["found"]), 2, "found")
    room.client("find", host, "*.none").wants(1)
    sizes = [each["entry"]["size"] for each in room.client("history", host, path, "--json").json()["history"]]
    want(sizes, [3, 6], "sizes")
    want(room.client("diff", host, "0", "1").wants(0).out.splitlines()[-1], f"M {path}", "diff")
    want((room.client("get", host, path).wants(0).out, room.client("get", host, "0", path).wants(0).out), ("second", "one"), "get")
    room.client("get", host, "0", path, "--into", room.into).wants(0)
    want(os.stat(f"{room.into}/f.txt").st_mtime, 1_000_000_000.0, "time")
    room.client("get", host, "1", path, "--into", room.into).wants(3)
    want_in("NoPath", room.client("get", host, "nowhere").wants(1).err)
    want_in("NotAFile", room.client("get", host, room.stored).wants(1).err)
    room.client("keep", host, "0").wants(0)
    want_in("(Kept)", room.client("delete", host, "0").wants(1).err)
    room.client("keep", host, "0", "off").wants(0)
    room.client("rules", host, "FullKeepCnt=1,2", "BlackoutPeriods=420-1170:12345;1-2:0", "IncrKeepCnt=3").wants(0)
    room.client("rules", host, "FullKeepCnt=x").wants(1)
    want(room.client("expire", host).wants(0).out, "deleted 0\n", "expire")
    want(room.client("due", host).wants(0).out, "none\n", "due")
    want(room.push("--if-due"), {"due": False}, "nothing is due")
    want(room.client("contact", host, "good").wants(0).out, "good 1, bad 0\n", "contact")
    room.client("delete", host, "0").wants(0)
    want_in("backups ", room.client("stats").wants(0).out)
    found = re.fullmatch(r"night (\d+): expired \d+, marked \d+, unmarked \d+, removed \d+\n", room.client("night").wants(0).out)
    want(int(found.group(1)), int(time.time()) // 86_400, "the day of the night")
    for words in (["ls", "not-there"], ["due", "not-there"], ["restore", "not-there", room.into + "2"]):
        want_in("NoHost", room.client(*words).wants(1).err)
    for words in (["ls", "Not A Host"], ["ls"], ["push", host], ["restore", host, room.top], ["get", host, ".."], ["rules", host, "x"],
                  ["hosts", "--url", "ftp://x"], ["hosts", "--header", "x\r\ny: z"]):
        room.client(*words).wants(2)
    room.client("hosts", "--retry", "0", "--url", "http://127.0.0.1:1").wants(4)


def many_listings(room):
    """Large listings come while large bodies go, on one connection."""
    for folder in range(20):
        os.makedirs(f"{room.tree}/d{folder}")
        for place in range(100):
            os.symlink("x" * 2_000, f"{room.tree}/d{folder}/l{place}")
    room.push()
    for folder in range(20):
        write(f"{room.tree}/d{folder}/new", b"y" * 200_000)
    want(room.push()["new"], 20, "new")
    want_same(room.tree, room.restored())


# ---- Servers that lie


class Liar:
    """A server that answers by a function of method and target: with a status and a body, or with whole bytes."""

    def __init__(self, answer):
        self.answer, self.seen, self.heads = answer, [], []
        self.door = socket.create_server(("127.0.0.1", 0))
        self.port = self.door.getsockname()[1]
        threading.Thread(target=self._take, daemon=True).start()

    def _take(self):
        while True:
            try:
                peer, _ = self.door.accept()
            except OSError:
                return
            threading.Thread(target=self._serve, args=[peer], daemon=True).start()

    def _serve(self, peer):
        with contextlib.suppress(OSError, ValueError), peer, peer.makefile("rb") as stream:
            while True:
                head = b""
                while not head.endswith(b"\r\n\r\n"):
                    line = stream.readline()
                    if not line:
                        return
                    head += line
                method, target, _ = head.split(b"\r\n")[0].decode().split(" ")
                length = re.search(rb"(?i)content-length: (\d+)", head)
                body = stream.read(int(length.group(1))) if length else b""
                self.seen.append(f"{method} {target}")
                self.heads.append(head)
                said = self.answer(method, target, body)
                if isinstance(said, bytes):
                    peer.sendall(said)
                    return
                status, text = said
                text = text if isinstance(text, bytes) else json.dumps(text).encode()
                peer.sendall(b"HTTP/1.1 %d X\r\nContent-Length: %d\r\n\r\n" % (status, len(text)) + text)


LINE = {"end": 2, "filled": True, "keep": False, "kind": "full", "number": 0, "start": 1}


def entry(name, kind="file", **more):
    base = {"gid": 0, "kind": kind, "mode": "0644", "mtime": 0, "name": name, "nanos": 0, "uid": 0}
    base.update({"file": {"group": 0, "size": 4}, "dir": {}, "link": {"target": "x"}}[kind])
    return {**base, **more}


def lying(listings, file=(200, b"evil"), root=None):
    """A server with one backup, whose listings are these by path, and whose files all are the same."""

    def answer(_method, target, _body):
        path, _, query = target.partition("?")
        where = urllib.parse.parse_qs(query).get("path", [""])[0]
        if path.endswith("/backups"):
            return 200, {"backups": [LINE], "dump": None, "next": 1}
        if path.endswith("/list"):
            found = listings(where) if callable(listings) else listings.get(where, [])
            return (200, {"entries": found}) if isinstance(found, list) else found
        if path.endswith("/entry"):
            return 200, root or entry("x", "dir")
        if path.endswith("/file"):
            return file
        return 404, {"refused": "NoRoute"}

    return Liar(answer)


def restore_from(room, liar, status, name, *more):
    """Restores from a server that lies: the status is as wanted, and nothing was made or changed beside the folder."""
    inner = os.path.join(room.top, name)
    os.makedirs(f"{inner}/outside")
    write(f"{inner}/outside/file", b"mine")
    before = described(f"{inner}/outside")
    run = room.client("restore", "pc", *more, f"{inner}/into", "--retry", "0", "--timeout", "5", port=liar.port)
    run.wants(status)
    want(sorted({*os.listdir(inner), "into"}), ["into", "outside"], "what lies beside the folder")
    want(described(f"{inner}/outside"), before, "what lies outside")
    return f"{inner}/into", run


def hostile_names(room):
    """Names that lead elsewhere end a restore with status 4, and nothing is made outside."""
    names = ["../outside/file", "..", ".", "", "/tmp/turretgage-evil", "a/b", "a\0b", "\ud800", "x" * 256]
    for place, name in enumerate(names):
        kind = ("file", "dir", "link")[place % 3]
        into, _ = restore_from(room, lying({"": [entry(name, kind)]}), 4, f"names{place}")
        want(os.listdir(into), [], "made")
    want(os.path.lexists("/tmp/turretgage-evil"), False, "an absolute path")


def hostile_links(room):
    """A link out of the tree is made as it is, and nothing is written through it, whatever else is listed there."""
    out = f"{room.top}/links/outside"
    double = {"": [entry("a", "link", target=out), entry("a", "dir")], "a": [entry("file")]}
    restore_from(room, lying(double), 4, "links-double")
    through = {"": [entry("a", "link", target="../outside")], "a": [entry("file")]}
    into, _ = restore_from(room, lying(through), 0, "links")
    want(os.readlink(f"{into}/a"), "../outside", "the link")
    file_and_folder = {"": [entry("a"), entry("b", "dir"), entry("c", "link", target="b")], "b": [entry("file")]}
    into, _ = restore_from(room, lying(file_and_folder), 0, "links-kinds")
    want(sorted(os.listdir(into)), ["a", "b", "c"], "made")
    hard = {"": [entry("a", "link", target="../outside/file"), entry("b", group=7), entry("c", group=7)]}
    into, _ = restore_from(room, lying(hard), 0, "links-hard")
    want(os.stat(f"{into}/b").st_ino, os.stat(f"{into}/c").st_ino, "one file")


def hostile_lengths(room):
    """A length that lies: the file is left out or taken away again, is told, and nothing hangs."""
    listing = {"": [entry("f"), entry("g", size=0)]}
    head = b"HTTP/1.1 200 OK\r\nContent-Length: "
    cases = {"longer": ((200, b"more than four"), 3), "shorter": ((200, b"abc"), 3), "absent": (head + b"4\r\n\r\nab", 4),
             "huge": (head + b"9" * 40 + b"\r\n\r\nevil", 4), "negative": (head + b"-4\r\n\r\nevil", 4),
             "two": (head + b"4\r\nContent-Length: 5\r\n\r\nevil", 4), "none": (b"HTTP/1.1 200 OK\r\n\r\nevil", 4),
             "chunks": (b"HTTP/1.1 200 OK\r\nTransfer-Encoding: chunked\r\n\r\nzz\r\nevil\r\n0\r\n\r\n", 4),
             "chunks too long": (b"HTTP/1.1 200 OK\r\nTransfer-Encoding: chunked\r\n\r\n6\r\nevil!!\r\n0\r\n\r\n", 3)}
    for name, (said, status) in cases.items():
        into, _ = restore_from(room, lying(listing, said), status, name)
        if os.path.exists(f"{into}/f") and status == 3:
            raise Wrong(f"{name}: a file that isn't whole was left")
    said = b"HTTP/1.1 200 OK\r\nTransfer-Encoding: chunked\r\nConnection: close\r\n\r\n3;x=y\r\nevi\r\n1\r\nl\r\n0\r\nA: b\r\n\r\n"
    into, _ = restore_from(room, lying(listing, said), 0, "chunks that are right")
    with open(f"{into}/f", "rb") as it:
        want(it.read(), b"evil", "a chunked body")


def hostile_answers(room):
    """Answers that aren't of the protocol end a command with status 4, without a trace of Python."""
    bad = {"kind": entry("f", mode="0644") | {"kind": "device"} if sys.version_info >= (3, 9) else {}, "number": 7, "none": None,
           "mode": entry("f", mode="99999"), "owner": entry("f", uid=-1), "true": entry("f", uid=True), "size": entry("f", size=2**70),
           "float": entry("f", size=1.5), "nanos": entry("f", nanos=10**9), "target": entry("f", "link", target=""),
           "nul": entry("f", "link", target="a\0b")}
    for name, each in bad.items():
        restore_from(room, lying({"": [each]}), 4, f"bad-{name}")
    texts = {"nested": b"[" * 200_000, "not JSON": b"<html>", "not UTF-8": b"\xff\xfe\xff", "cut": b'{"entries":[', "other": b"[]",
             "digits": b'{"entries":[{"size":' + b"9" * 10_000 + b"}]}"}
    for name, text in texts.items():
        restore_from(room, lying({"": (200, text)}), 4, f"text-{name}")
    whole = {"not HTTP": b"SSH-2.0-x\r\n\r\n", "endless": b"HTTP/1.1 200 OK\r\n" + b"A: b\r\n" * 20_000, "silent": b"",
             "bad field": b"HTTP/1.1 200 OK\r\nno colon\r\n\r\n"}
    for name, text in whole.items():
        restore_from(room, Liar(lambda *_: text), 4, f"whole-{name}")
    endless = lying(lambda where: [entry("d", "dir")])
    restore_from(room, endless, 4, "endless")
    odd = lying({"": [entry("f", mtime=2**62), entry("g", uid=2**32 - 1) if IS_ROOT else entry("g", mtime=-(2**62))]})
    restore_from(room, odd, 3, "odd attributes")
    shown = lying({"": [entry("\x1b]0;evil\x07")]})
    for words in (["ls", "pc"], ["find", "pc", "*"]):
        run = room.client(*words, port=shown.port)
        if "\x1b" in run.out + run.err:
            raise Wrong("a name reached the terminal as it was")
    for name, body in {"hosts": b'{"hosts":["../x"]}', "dump": b'{"backups":[],"dump":"../../x","next":0}'}.items():
        liar = Liar(lambda *_: (200, body))
        room.client(*(["hosts"] if name == "hosts" else ["backups", "pc"]), port=liar.port).wants(4)


def hostile_pushes(room):
    """A push to a server that lies ends, and reads nothing but what it was told to send."""
    os.mkdir(room.tree)
    write(f"{room.tree}/f", b"1")

    def answer(method, target, _body):
        if target.endswith("/backups"):
            return 200, {"backups": [LINE], "dump": "1-1" if any(each.startswith("POST") for each in liar.seen) else None, "next": 1}
        if "/list" in target:
            return 200, {"entries": [entry("..", "dir"), entry("etc", "dir")]}
        if target.endswith("/due"):
            return 200, {"due": [], "blackout": 7}
        if method == "POST" and "/dumps" in target:
            return 201, {"dump": "1-1"}
        if target == "/stats":
            return 200, dict.fromkeys(("backups", "bytes", "dumps", "files", "hosts", "marked", "restores"), 0)
        return 200, {}

    liar = Liar(answer)
    room.client("push", "pc", room.tree, port=liar.port).wants(4)
    want(liar.seen[-1], "DELETE /dumps/1-1", "the dump is aborted")
    for name in ({"dump": "../x"}, {"dump": 5}, [], {}):
        liar = Liar(lambda method, target, body: (201, name) if method == "POST" else answer(method, target, body))
        room.client("push", "pc", room.tree, port=liar.port).wants(4)


def proxies(room):
    """Name and password are sent, a proxy that wants them is told in plain words, and one whose server is away is tried again."""
    liar = Liar(lambda *_: (401, b"<html>no</html>"))
    want_in("a name and a password", room.client("hosts", "--user", "ada:se:cret", "--header", "X-Office: 1", port=liar.port).wants(1).err)
    want_in(b"Authorization: Basic YWRhOnNlOmNyZXQ=\r\nX-Office: 1\r\n", liar.heads[0])
    answers = [(502, b"bad gateway"), (503, b""), (200, {"hosts": ["pc"]})]
    liar = Liar(lambda *_: answers.pop(0))
    want(room.client("hosts", "--retry", "30", port=liar.port).wants(0).out, "pc\n", "hosts")
    liar = Liar(lambda *_: (503, {"refused": "Halted"}))
    want_in("Halted", room.client("hosts", port=liar.port).wants(4).err)


# ---- Parked dumps and tokens


def drawn(room):
    """The tokens of the requests that were sent, each with its request; one that was sent again has it again."""
    found = {}
    for line in room.relay.lines():
        for token in re.findall(rb"[?&]token=([^& ]*)", line):
            if found.setdefault(token, line) != line or not re.fullmatch(b"[0-9a-f]{32}", token):
                raise Wrong(f"the token {token} of {line}, and of {found[token]}")
    return found


def parked(room):
    """A push that is stopped is parked, and the next one goes on with what it sent, though things changed; and so twice."""
    make_small(room.tree, 300, 8_000)
    for turn in range(2):
        room.relay.reset(rate=2_000_000)
        run = Begun(room.top, room.relay.port, "push", room.host, room.tree, *(["--checksum"] if turn else []))
        wait_for(lambda: room.relay.bytes() > 1_000_000, "bytes")
        run.send_signal(signal.SIGTERM)
        status, _, said = run.end()
        want((status, room.backups()["dump"]), (130, None), said)
        want_in("is parked", said)
        kept = json.loads(ask(room.server.port, "GET", f"/hosts/{room.host}/partial"))["entries"]
        if kept < 50:
            raise Wrong(f"{kept} entries were parked")
        write(f"{room.tree}/d0/f{20 * turn}", b"changed")
        os.unlink(f"{room.tree}/d{turn + 1}/f{turn + 1}")
        shutil.rmtree(f"{room.tree}/d{turn + 3}")
        room.relay.reset()
        found = room.push()
        lines = room.relay.lines()
        if f"POST /hosts/{room.host}/resume".encode() not in lines or found["unchanged"] < 40:
            raise Wrong(f"it didn't go on: {found}")
        want_same(room.tree, room.restored())
        want(len(drawn(room)), sum(b"/entry?" in line for line in lines), "tokens")


def tokens(room):
    """The opening of a dump, each put and each removal have a token of their own, which a request that is sent again has again."""
    for name in ("a", "b", "gone"):
        write_in(room.tree, name)
    lost = set()

    def spoil(_before, piece):
        for line in re.findall(rb"^(?:POST|PUT|DELETE) \S+", piece, re.MULTILINE):
            if line not in lost and (b"kind=file" in line or b"DELETE" in line or b"/dumps?" in line):
                lost.add(line)
                return "pass"
        return None

    for number in range(2):
        room.relay.reset(spoil=spoil)
        want((room.push()["number"], room.relay.connections > 2), (number, True), "the push")
        lines = [line for line in room.relay.lines() if b"/entry?" in line or b"/dumps?" in line]
        if len(lines) == len(set(lines)):
            raise Wrong("nothing was sent again")
        want(len(drawn(room)), len(set(lines)), "tokens")
        want_same(room.tree, room.restored(str(number)))
        os.unlink(f"{room.tree}/gone") if number == 0 else None
    want(len(room.backups()["backups"]), 2, "backups")


def write_in(top, name):
    os.makedirs(top, exist_ok=True)
    write(f"{top}/{name}", name.encode())


def lost_commit(room):
    """The answer to the commit is lost, and the server is away until the push ends: the next one says that the backup is done."""
    write_in(room.tree, "a")

    def spoil(_before, piece):
        if b"/commit HTTP" not in piece:
            return None
        room.relay.is_down = True
        return "pass"

    room.relay.reset(spoil=spoil)
    room.client("push", room.host, room.tree, "--retry", "0.5").wants(4)
    wait_for(lambda: room.backups_now()["backups"], "the backup")
    room.relay.reset()
    run = room.client("push", room.host, room.tree).wants(0)
    want_in("backup 0 is done already", run.err)
    want_in("backup 1 of", run.out)
    want_same(room.tree, room.restored("0"))
    if "done already" in room.client("push", room.host, room.tree).wants(0).err:
        raise Wrong("it is told twice")


def lost_opening(room):
    """The answer to the opening is lost, and the server is away until the push ends: the dump isn't in the way of the next one,
    but one of somebody else is."""
    write_in(room.tree, "a")

    def spoil(_before, piece):
        if b"/dumps?kind=full" not in piece:
            return None
        room.relay.is_down = True
        return "pass"

    room.relay.reset(spoil=spoil)
    room.client("push", room.host, room.tree, "--retry", "0.5").wants(4)
    wait_for(lambda: room.backups_now()["dump"], "the dump")
    room.relay.reset()
    want(room.push()["number"], 0, "number")
    room.relay.reset(spoil=lambda _before, piece: "drop" if b"/dumps?kind=full" in piece else None)
    room.client("push", room.host, room.tree, "--full", "--retry", "0.5").wants(4)
    room.relay.reset()
    ask(room.server.port, "POST", f"/hosts/{room.host}/dumps?kind=full")
    want_in("SessionOpen", room.client("push", room.host, room.tree).wants(1).err)


def without_tokens(room):
    """A server of an older version, which takes no tokens, isn't given any behind the first."""
    write_in(room.tree, "a")
    relay = room.relay

    def answer(method, target, _body):
        if "token=" in target:
            return 400, {"refused": "BadQuery.Unknown"}
        if target.endswith("/backups"):
            return 200, {"backups": [], "dump": None, "next": 0}
        if target == "/stats":
            return 200, dict.fromkeys(("backups", "bytes", "dumps", "files", "hosts", "marked", "restores"), 0)
        if method == "POST":
            return 201, {"number": 0} if target.endswith("/commit") else {"dump": "1-0"}
        return 200, {}

    liar = Liar(answer)
    room.relay = Relay(liar.port)
    want(room.push()["number"], 0, "number")
    want(len(drawn(room)), 1, "tokens")
    room.relay = relay


def one_file(room):
    """The client is one file that can be run, of the grammar of Python 3.8."""
    with open(CLIENT, encoding="utf-8") as it:
        ast.parse(it.read(), feature_version=(3, 8))
    done = subprocess.run([CLIENT, "hosts"], env={**os.environ, "TURRETGAGE_URL": f"http://127.0.0.1:{room.server.port}"}, capture_output=True)
    want((done.returncode, done.stderr), (0, b""), "a run")


TESTS = [one_file, every_kind, other_kinds, two_in_a_hundred, plain_paths, stopped, broken_connections, lost_answers, away_and_back,
         open_dumps, left_out, unreadable, moving_files, choices, other_commands, many_listings, hostile_names, hostile_links,
         hostile_lengths, hostile_answers, hostile_pushes, proxies, parked, tokens, lost_commit, lost_opening, without_tokens]


def main():
    program, chosen = sys.argv[1], sys.argv[2:]
    top = tempfile.mkdtemp()
    os.chmod(top, 0o755)
    server = Server(program, os.path.join(top, "store"))
    passed = failed = 0
    for test in [*TESTS, killed_server]:
        if chosen and test.__name__ not in chosen:
            continue
        start = time.monotonic()
        try:
            if test is killed_server:
                test(top, program)
            else:
                test(Room(top, server, test.__name__.replace("_", "-")))
            passed += 1
        except Exception as fault:
            failed += 1
            print(f"FAILED: {test.__name__}: {fault!r}", flush=True)
        if chosen or os.environ.get("TIMES"):
            print(f"{test.__name__}: {time.monotonic() - start:.1f} s", flush=True)
    server.kill()
    remove(top)
    print(f"{passed} passed, {failed} failed")
    sys.exit(1 if failed else 0)


if sys.argv[1:] == ["nursery"]:
    Nursery.serve()
else:
    NURSERY = Nursery()
    main()
