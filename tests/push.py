#!/usr/bin/env python3
"""A folder that is pushed to a server on loopback, full and then incremental after changes: tests/push.py PROGRAM. What the server has is restored by `restore-folder` behind
it, and compared entry by entry. The last line is 'N passed, M failed'."""
import http.client
import json
import os
import pathlib
import random
import re
import shutil
import signal
import stat
import subprocess
import sys
import tempfile

FAILURES = (OSError, http.client.HTTPException)
SIZES = (0, 1, 700, 65_535, 65_536, 65_537, 200_000)


class Wrong(Exception):
    """What came isn't what is wanted."""


def expect(what, found, wanted):
    if found != wanted:
        raise Wrong(f"{what}: {str(found)[:300]} in place of {str(wanted)[:300]}")


class Server:
    """A run of `serve` on a store, at a port that the system chooses."""

    def __init__(self, program, store):
        words = [program, "serve", "--store", store, "--listen", "127.0.0.1:0"]
        self.run = subprocess.Popen(words, stdin=subprocess.DEVNULL, stderr=subprocess.PIPE, text=True)
        said = self.run.stderr.readline()
        told = re.fullmatch(r"listening on 127\.0\.0\.1:(\d+)\n", said)
        if not told:
            raise Wrong(f"a server said {said!r}{self.run.stderr.read()!r}")
        self.port = int(told.group(1))

    def want(self, status, method, target, body=None):
        """The body of the response, which has this status."""
        connection = http.client.HTTPConnection("127.0.0.1", self.port, timeout=120)
        connection.request(method, target, body)
        response = connection.getresponse()
        text = response.read()
        connection.close()
        if response.status != status:
            raise Wrong(f"{method} {target} was answered by {response.status} {text[:200]}")
        return text

    def end(self):
        self.run.send_signal(signal.SIGTERM)
        self.run.stderr.read()
        self.run.wait()


def push(program, port, folder, kind="full", host="pc1"):
    """The status of a push, and what it said on standard error; on standard output it says nothing."""
    words = [program, "push-folder", "--to", f"127.0.0.1:{port}", "--host", host, "--kind", kind, folder]
    ran = subprocess.run(words, stdin=subprocess.DEVNULL, capture_output=True, text=True, timeout=300, check=False)
    if ran.stdout:
        raise Wrong(f"a push printed {ran.stdout[:200]!r}")
    return ran.returncode, ran.stderr.rstrip("\n")


def seen(folder):
    """What a folder has that a backup keeps: each path with its kind, mode, time and content. The mode and the time of a link aren't kept."""
    found, root = {}, os.fsencode(folder)
    for at, folders, files in os.walk(root):
        for name in folders + files:
            path = os.path.join(at, name)
            st, short = os.lstat(path), os.path.relpath(path, root)
            if stat.S_ISLNK(st.st_mode):
                found[short] = ("link", os.readlink(path))
            elif stat.S_ISDIR(st.st_mode):
                found[short] = ("dir", st.st_mode, st.st_mtime_ns)
            else:
                found[short] = ("file", st.st_mode, st.st_mtime_ns, pathlib.Path(os.fsdecode(path)).read_bytes())
    return found


class Folder:
    """A real folder with entries of every kind, which changes."""

    def __init__(self, root, seed):
        self.root, self.random = pathlib.Path(root), random.Random(seed)
        for number in range(12):
            place = self.root / f"d{number}" / "inner é+&%"
            place.mkdir(parents=True)
            for other in range(20):
                self.write(place / f"f {other}")
            os.symlink(f"f {number}", place / "link")
            (place / "empty").mkdir()
        (self.root / "d0").chmod(0o700)

    def write(self, path):
        path.write_bytes(self.random.randbytes(self.random.choice(SIZES)))
        path.chmod(self.random.choice((0o644, 0o600, 0o755)))

    def change(self):
        shutil.rmtree(self.root / "d3")
        (self.root / "d4" / "inner é+&%" / "f 2").unlink()
        (self.root / "d4" / "inner é+&%" / "f 2").mkdir()
        shutil.rmtree(self.root / "d5" / "inner é+&%")
        self.write(self.root / "d5" / "inner é+&%")
        for other in range(9):
            self.write(self.root / "d6" / f"new {other}")


def worked(program, room):
    """A full push, and incremental ones behind it: each is a whole backup of the folder, whatever was pushed before."""
    server, folder = Server(program, f"{room}/store"), Folder(f"{room}/folder", 1)
    server.want(201, "PUT", "/hosts/pc1")
    expect("a full push", push(program, server.port, f"{room}/folder"), (0, "pushed pc1 0"))
    wanted = [seen(f"{room}/folder")]
    folder.change()
    expect("an incremental push", push(program, server.port, f"{room}/folder", "incr"), (0, "pushed pc1 1"))
    wanted.append(seen(f"{room}/folder"))
    expect("one without a change", push(program, server.port, f"{room}/folder", "incr"), (0, "pushed pc1 2"))
    wanted.append(wanted[-1])
    listing = json.loads(server.want(200, "GET", "/hosts/pc1/backups"))
    expect("the listing", [(it["number"], it["kind"]) for it in listing["backups"]], [(0, "full"), (1, "incr"), (2, "incr")])
    server.end()
    for number, tree in enumerate(wanted):
        words = [program, "restore-folder", "--store", f"{room}/store", "--host", "pc1", "--number", str(number), f"{room}/back{number}"]
        ran = subprocess.run(words, stdin=subprocess.DEVNULL, capture_output=True, timeout=300, check=False)
        expect(f"the restore of backup {number}", (ran.returncode, ran.stderr), (0, b""))
        back = seen(f"{room}/back{number}")
        expect(f"the paths of backup {number}", sorted(back), sorted(tree))
        expect(f"what differs in backup {number}", [path for path in tree if back[path] != tree[path]], [])


def refused(program, room):
    """An unknown host; an incremental push without a base; a dump that is open; names that can't be asked for; a file that is too large; no folder;
    nobody who listens."""
    server, folder = Server(program, f"{room}/store"), f"{room}/folder"
    os.mkdir(folder)
    expect("a host that isn't there", push(program, server.port, folder), (1, "refused NoHost"))
    server.want(201, "PUT", "/hosts/pc1")
    expect("no base", push(program, server.port, folder, "incr"), (1, "refused NoBackup"))
    dump = json.loads(server.want(201, "POST", "/hosts/pc1/dumps?kind=full"))["dump"]
    expect("an open dump", push(program, server.port, folder), (1, "refused SessionOpen"))
    server.want(200, "DELETE", f"/dumps/{dump}")
    for name, said in ((b"no text \xff", "BadPath"), ("told as no text \ufffd".encode(), "NoPath")):
        path = os.path.join(os.fsencode(folder), name)
        os.mkdir(path)
        expect(f"the name {name}", push(program, server.port, folder), (1, f"refused {said}"))
        os.rmdir(path)
    with open(f"{folder}/large", "wb") as file:
        file.truncate(67_108_865)
    expect("a file too large", push(program, server.port, folder), (1, "refused FileTooLarge"))
    expect("what is left of it", json.loads(server.want(200, "GET", "/hosts/pc1/backups"))["backups"], [])
    os.truncate(f"{folder}/large", 67_108_864)
    expect("one that isn't", push(program, server.port, folder), (0, "pushed pc1 0"))
    status, said = push(program, server.port, f"{room}/nowhere")
    expect("no folder: the status", (status, "the folder can't be opened" in said), (8, True))
    port = server.port
    server.end()
    status, said = push(program, port, folder)
    expect("nobody listens: the status", (status, "can't be reached" in said), (8, True))


def misspelt(program, room):
    """Words that are no push are a usage error that names it."""
    words = [program, "push-folder", "--to", "127.0.0.1:1", "--host", "pc1", "--kind", "half", room]
    ran = subprocess.run(words, stdin=subprocess.DEVNULL, capture_output=True, text=True, timeout=60, check=False)
    expect("the status", ran.returncode, 2)
    expect("the usage", "backup_server push-folder --to ADDR --host H --kind full|incr FOLDER" in ran.stderr, True)


def main(program):
    passed = failed = 0
    for what, steps in (("worked", worked), ("refused", refused), ("misspelt", misspelt)):
        room = tempfile.mkdtemp()
        try:
            steps(program, room)
            passed += 1
        except (Wrong, subprocess.TimeoutExpired, *FAILURES) as wrong:
            failed += 1
            print(f"FAILED: {what}: {wrong}")
        finally:
            shutil.rmtree(room, ignore_errors=True)
    print(f"{passed} passed, {failed} failed")
    return 1 if failed else 0


if __name__ == "__main__":
    if len(sys.argv) < 2 or not os.access(sys.argv[1], os.X_OK):
        sys.exit(__doc__)
    sys.exit(main(sys.argv[1]))
