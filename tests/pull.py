#!/usr/bin/env python3
"""A second server that pulls a host's backups from a first one, both on loopback: tests/pull.py PROGRAM [KILLS]. Backups are made on the first over HTTP; what the second has
behind a pull is compared with them line by line and byte by byte, also behind pulls and servers that are killed at random moments. The last line is 'N passed, M failed'."""
import http.client
import json
import os
import pty
import random
import re
import shutil
import signal
import subprocess
import sys
import tempfile
import time
from urllib.parse import quote

FAILURES = (OSError, http.client.HTTPException)


class Wrong(Exception):
    """What came isn't what is wanted."""


class Server:
    """A run of `serve` on a store, at a port, or at one that the system chooses."""

    def __init__(self, program, store, port=0):
        words = [program, "serve", "--store", store, "--listen", f"127.0.0.1:{port}"]
        self.run = subprocess.Popen(words, stdin=subprocess.DEVNULL, stderr=subprocess.PIPE, text=True)
        said = self.run.stderr.readline()
        told = re.fullmatch(r"listening on 127\.0\.0\.1:(\d+)\n", said)
        if not told:
            raise Wrong(f"a server said {said!r}{self.run.stderr.read()!r}")
        self.port = int(told.group(1))
        self.connection = http.client.HTTPConnection("127.0.0.1", self.port, timeout=120)

    def want(self, status, method, target, body=None):
        """The body of the response, which has this status."""
        self.connection.request(method, target, body)
        response = self.connection.getresponse()
        text = response.read()
        if response.status != status:
            raise Wrong(f"{method} {target} was answered by {response.status} {text[:200]}")
        return text

    def end(self, sent=signal.SIGTERM):
        self.connection.close()
        self.run.send_signal(sent)
        self.run.stderr.read()
        self.run.wait()


class Host:
    """The host `pc1` of the first server, whose tree changes from backup to backup."""

    def __init__(self, seed):
        self.random, self.files, self.kinds = random.Random(seed), {}, 0

    def content(self):
        size = self.random.choice([0, 1, 9, 700, 65_536, 65_537, 200_000])
        return self.random.randbytes(size)

    def change(self):
        """Which paths go, and which come or have another content."""
        gone = [path for path in self.files if self.random.random() < 0.2]
        for path in gone:
            del self.files[path]
        new = {f"d{self.random.randrange(4)}/f{self.random.randrange(12)}" for _ in range(6)}
        self.files.update({path: self.content() for path in new})
        return gone, sorted(new)

    def backup(self, server, kind=None):
        """One more backup, of this kind, or a full or an incremental one by its turn."""
        kind = kind or ("full" if self.kinds % 5 == 0 else "incr")
        self.kinds += 1
        gone, new = self.change()
        dump = json.loads(server.want(201, "POST", f"/hosts/pc1/dumps?kind={kind}"))["dump"]
        for number in range(4):
            server.want(200, "PUT", f"/dumps/{dump}/entry?path=d{number}&kind=dir&mode=755")
        for path in gone if kind == "incr" else ():
            server.want(200, "DELETE", f"/dumps/{dump}/entry?path={quote(path)}")
        for path in sorted(self.files) if kind == "full" else new:
            server.want(200, "PUT", f"/dumps/{dump}/entry?path={quote(path)}&kind=file&mode=644&mtime={self.kinds}", self.files[path])
        return json.loads(server.want(201, "POST", f"/dumps/{dump}/commit"))["number"]


def lines_of(server):
    """What a replica has to have of each backup that is listed."""
    listing = json.loads(server.want(200, "GET", "/hosts/pc1/backups"))
    return [tuple(it[key] for key in ("number", "start", "end", "kind")) for it in listing["backups"]]


def stream_of(server, number):
    """All frames of a restore of a backup, one behind the other."""
    restore = json.loads(server.want(201, "POST", f"/hosts/pc1/backups/{number}/restores"))["restore"]
    frames = []
    while not frames or frames[-1][:1] != b"Z":
        frames.append(server.want(200, "GET", f"/restores/{restore}/next"))
    server.want(200, "DELETE", f"/restores/{restore}")
    return b"".join(frames)


class Replica:
    """The second server's store."""

    def __init__(self, program, store):
        self.program, self.store = program, store

    def words(self, port, host="pc1"):
        return [self.program, "pull", "--store", self.store, "--host", host, "--from", f"127.0.0.1:{port}"]

    def pull(self, port, host="pc1"):
        """The status of a pull, and what it said on standard error; on standard output it says nothing."""
        ran = subprocess.run(self.words(port, host), stdin=subprocess.DEVNULL, capture_output=True, text=True, timeout=300, check=False)
        if ran.stdout:
            raise Wrong(f"a pull printed {ran.stdout[:200]!r}")
        return ran.returncode, ran.stderr.rstrip("\n")

    def pull_at_terminal(self, port):
        """The status of a pull whose standard error is a terminal, and what stood there."""
        terminal, end = pty.openpty()
        run = subprocess.Popen(self.words(port), stdin=subprocess.DEVNULL, stdout=subprocess.DEVNULL, stderr=end)
        os.close(end)
        said = b""
        try:
            while some := os.read(terminal, 4096):
                said += some
        except OSError:
            pass  # no writer is left
        os.close(terminal)
        return run.wait(120), said.decode()

    def serve(self):
        return Server(self.program, self.store)


def expect(what, found, wanted):
    if found != wanted:
        raise Wrong(f"{what}: {str(found)[:300]} in place of {str(wanted)[:300]}")


def same(first, replica, numbers=None):
    """The replica lists the first server's backups, and each has the same frames."""
    second = replica.serve()
    try:
        expect("the replica's listing", lines_of(second), lines_of(first))
        for number in numbers if numbers is not None else [line[0] for line in lines_of(first)]:
            if stream_of(second, number) != stream_of(first, number):
                raise Wrong(f"backup {number} has other frames at the replica")
    finally:
        second.end()


def worked(program, room):
    """Whole backups, later ones as differences, a second pull of nothing, one behind a deletion there."""
    first = Server(program, f"{room}/first")
    replica, host = Replica(program, f"{room}/second"), Host(1)
    first.want(201, "PUT", "/hosts/pc1")
    for _ in range(7):
        host.backup(first)
    expect("the first pull", replica.pull(first.port), (0, "pulled pc1 7"))
    same(first, replica)
    expect("a pull of nothing", replica.pull(first.port), (0, "pulled pc1 0"))
    host.backup(first)
    expect("a pull of one more", replica.pull(first.port), (0, "pulled pc1 1"))
    same(first, replica)
    first.want(200, "DELETE", "/hosts/pc1/backups/7")
    host.backup(first, "full")
    expect("a pull whose base has gone there", replica.pull(first.port), (0, "pulled pc1 1"))
    second = replica.serve()
    expect("what the replica keeps", [line[0] for line in lines_of(second)], list(range(9)))
    expect("the newest backup's frames", stream_of(second, 8) == stream_of(first, 8), True)
    second.end()
    first.end()


def shown(program, room):
    """At a terminal a pull says how far it is: all entries and all bytes at its end; elsewhere its note alone."""
    first, replica = Server(program, f"{room}/first"), Replica(program, f"{room}/second")
    first.want(201, "PUT", "/hosts/pc1")
    dump = json.loads(first.want(201, "POST", "/hosts/pc1/dumps?kind=full"))["dump"]
    for number in range(30):
        first.want(200, "PUT", f"/dumps/{dump}/entry?path=f{number}&kind=file&mode=644", b"x" * 1000)
    first.want(201, "POST", f"/dumps/{dump}/commit")
    status, said = replica.pull_at_terminal(first.port)
    expect("the status at a terminal", status, 0)
    expect("what it came to", bool(re.search(r"30 entries, 30000 bytes, \d+\.\d MB/s\s", said)), True)
    expect("the note at a terminal", said.rstrip().endswith("pulled pc1 1"), True)
    first.end()


def refused(program, room):
    """A host that the first server hasn't; a server that isn't there; one that is none."""
    first = Server(program, f"{room}/first")
    replica = Replica(program, f"{room}/second")
    expect("a host that isn't there", replica.pull(first.port, "pc9"), (1, "peer refused 404"))
    port = first.port
    first.end()
    status, said = replica.pull(port)
    expect("nobody listens: the status", status, 8)
    if "can't be reached" not in said:
        raise Wrong(f"nobody listens: {said!r}")


def killed(program, room, kills):
    """Pulls and servers that are killed at random moments leave the replica's list a beginning of the first's; a pull to its end makes them equal."""
    chance = random.Random(7)
    first, host = Server(program, f"{room}/first"), Host(2)
    port = first.port
    replica = Replica(program, f"{room}/second")
    first.want(201, "PUT", "/hosts/pc1")
    for _ in range(12):
        host.backup(first)
    for round_ in range(kills):
        if round_ % 10 == 9:
            shutil.rmtree(f"{room}/second", ignore_errors=True)
        run = subprocess.Popen(replica.words(port), stdin=subprocess.DEVNULL, stdout=subprocess.DEVNULL, stderr=subprocess.DEVNULL)
        time.sleep(chance.random() * 0.3)
        if round_ % 2:
            first.end(signal.SIGKILL)
            run.wait(120)
            first = Server(program, f"{room}/first", port)
        else:
            run.kill()
            run.wait()
        second = replica.serve()
        try:
            listed = lines_of(second) if "pc1" in json.loads(second.want(200, "GET", "/hosts"))["hosts"] else []
        finally:
            second.end()
        expect(f"the replica's list behind kill {round_}", listed, lines_of(first)[: len(listed)])
    status, said = replica.pull(port)
    expect("the pull behind all kills", (status, bool(re.fullmatch(r"pulled pc1 \d+", said))), (0, True))
    same(first, replica)
    first.end()


def main(program, kills):
    passed = failed = 0
    for what, steps in (("worked", worked), ("shown", shown), ("refused", refused), ("killed", lambda *given: killed(*given, kills))):
        room = tempfile.mkdtemp()
        try:
            steps(program, room)
            passed += 1
        except (Wrong, subprocess.TimeoutExpired, *FAILURES) as wrong:
            failed += 1
            print(f"FAILED: {what}: {wrong}")
        finally:
            shutil.rmtree(room, ignore_errors=True)
    print(f"{passed} passed, {failed} failed")
    return 1 if failed else 0


if __name__ == "__main__":
    if len(sys.argv) < 2 or not os.access(sys.argv[1], os.X_OK):
        sys.exit(__doc__)
    sys.exit(main(sys.argv[1], int(sys.argv[2]) if len(sys.argv) > 2 else 50))
