#!/usr/bin/env python3
"""Measures bin/backup_server over its command `pipe`. bench/README.md says what."""
import argparse
import hashlib
import os
import platform
import subprocess
import sys
import tempfile
import threading
import time

TOP = os.path.dirname(os.path.dirname(os.path.realpath(__file__)))
PIECE = 1 << 20
GETS = 10_000
# How many names one file has: file systems take 65,000 and more.
LINKS = 50_000


def request(line, body=None):
    length = b"" if body is None else b"Content-Length: %d\r\n" % len(body)
    return line.encode() + b" HTTP/1.1\r\nHost: b\r\n" + length + b"\r\n" + (body or b"")


class Taken:
    """The time that something took, and the processor time of the program in it, in seconds."""

    def __init__(self, wall, busy):
        self.wall, self.busy = wall, busy


class Server:
    """A run of the program on a store."""

    def __init__(self, program, store):
        words = [program, "pipe", "--store", store]
        self.run = subprocess.Popen(words, stdin=subprocess.PIPE, stdout=subprocess.PIPE, bufsize=0)
        self.rest = b""

    def send(self, text):
        view = memoryview(text)
        while view:
            view = view[self.run.stdin.write(view[:PIECE]) :]

    def more(self):
        piece = self.run.stdout.read(PIECE)
        assert piece, "the program has gone"
        return piece

    def response(self):
        """Reads one response, and gives its body."""
        while (end := self.rest.find(b"\r\n\r\n")) < 0:
            self.rest += self.more()
        head = self.rest[:end]
        assert head.startswith(b"HTTP/1.1 20"), head
        length = int(head.partition(b"Content-Length: ")[2].partition(b"\r")[0])
        pieces, got = [self.rest[end + 4 :]], len(self.rest) - end - 4
        while got < length:
            pieces.append(self.more())
            got += len(pieces[-1])
        body = b"".join(pieces) if len(pieces) > 1 else pieces[0]
        self.rest = body[length:]
        return body[:length] if self.rest else body

    def ask(self, text):
        self.send(text)
        return self.response()

    def ask_all(self, texts):
        """Sends requests without waiting, while the responses are read, and gives their bodies."""
        sender = threading.Thread(target=self.send, args=[b"".join(texts)])
        sender.start()
        bodies, buffer, at = [], b"", 0
        for _ in texts:
            while (end := buffer.find(b"\r\n\r\n", at)) < 0:
                buffer, at = buffer[at:] + self.more(), 0
            head = buffer[at:end]
            assert head.startswith(b"HTTP/1.1 20"), head
            begin = end + 4
            length = int(head.partition(b"Content-Length: ")[2].partition(b"\r")[0])
            while len(buffer) < begin + length:
                buffer, begin = buffer[begin:] + self.more(), 0
            bodies.append(buffer[begin : begin + length])
            at = begin + length
        self.rest = buffer[at:]
        sender.join()
        return bodies

    def open_dump(self, host, kind):
        return self.ask(request(f"POST /hosts/{host}/dumps?kind={kind}")).decode().split('"')[3]

    def busy(self):
        """The processor time that the run took so far, in seconds."""
        with open(f"/proc/{self.run.pid}/schedstat") as it:
            return int(it.read().split()[0]) / 1e9

    def timed(self, call, *arguments):
        """What a call takes, which this run answers, and what it gives."""
        busy = self.busy()
        taken, answer = timed(call, *arguments)
        return Taken(taken, self.busy() - busy), answer

    def most_memory(self):
        """The most memory that the run took, in MB."""
        with open(f"/proc/{self.run.pid}/status") as it:
            return [int(line.split()[1]) // 1000 for line in it if line.startswith("VmHWM")][0]

    def end(self):
        self.run.stdin.close()
        assert self.run.wait() == 0


def timed(call, *arguments):
    start = time.monotonic()
    answer = call(*arguments)
    return time.monotonic() - start, answer


def say(what):
    """What is being done now, on standard error."""
    print(f"  .. {what}", file=sys.stderr, flush=True)


def beside(label, taken, hashing, *others):
    """A line: a time, the program's processor time in it beside that of hashing, which hardly depends on what else runs here, and
    the ratios of the whole time to others."""
    what, time = hashing
    ratios = "".join(f"; {taken.wall / max(time, 1e-6):.2g} times {what}" for what, time in others)
    print(f"  {label}: {taken.wall:.3f} s; of processor {taken.busy:.3f} s, {taken.busy / max(time, 1e-6):.2g} times {what}{ratios}", flush=True)


def content(size, number):
    """Bytes of this size, other ones for each number."""
    return (b"%d " % number * (size // 2 + 1))[:size]


def hashed(bodies):
    """The processor time of hashing bodies, each for itself."""
    start = time.process_time()
    for body in bodies:
        hashlib.md5(body).digest()
    return time.process_time() - start


def synced(path):
    handle = os.open(path, os.O_RDONLY)
    os.fsync(handle)
    os.close(handle)


def written(room, bodies, each):
    """Writes bodies to files, one each, and syncs each of them, or all at the end, and the folder."""
    os.mkdir(room)
    for number, body in enumerate(bodies):
        with open(f"{room}/{number}", "wb", buffering=0) as it:
            it.write(body)
            if each:
                os.fsync(it.fileno())
    if not each:
        subprocess.run(["sync", "-f", room], check=True)
    synced(room)


def piped(texts):
    """Sends texts through a pipe, and reads them back from another, behind cat."""
    whole = b"".join(texts)
    run = subprocess.Popen(["cat"], stdin=subprocess.PIPE, stdout=subprocess.PIPE)
    sender = threading.Thread(target=lambda: (run.stdin.write(whole), run.stdin.close()))
    sender.start()
    left = len(whole)
    while left:
        left -= len(run.stdout.read1(PIECE))
    sender.join()
    run.wait()


def opened(program, store, host):
    """A run of the program on a store, until it has answered its first request: what that takes, and the run."""
    start = time.monotonic()
    server = Server(program, store)
    assert host in server.ask(request("GET /hosts")).decode()
    return Taken(time.monotonic() - start, server.busy()), server


def sealed(store):
    """The processor time of listing a store, and reading and hashing each file of it but contents, as an opening of it must do
    about."""
    start = time.process_time()
    for entry in os.scandir(store):
        if not entry.name.startswith("pool-") or entry.name.startswith("pool-index"):
            with open(entry.path, "rb") as it:
                hashlib.md5(it.read()).digest()
    return time.process_time() - start


def put_all(server, dump, bodies):
    return server.ask_all([request(f"PUT /dumps/{dump}/entry?path=f{n}&kind=file", body) for n, body in enumerate(bodies)])


def measure_small(program, room, count, size):
    """Many small files of contents that differ, and a commit of them; a full dump of the same; opening the store; and GETs of
    the newest and the oldest of ten backups."""
    room = f"{room}/{count}"
    os.mkdir(room)
    bodies = [content(size, number) for number in range(count)]
    say(f"writing and hashing {count} files of {size} bytes, without the program")
    hashing = hashed(bodies)
    piping, _ = timed(piped, bodies)
    writing, _ = timed(written, f"{room}/written", bodies, False)
    few = max(count // 10, 1)
    syncing = timed(written, f"{room}/synced", bodies[:few], True)[0] * count / few
    print(f"{count} files of {size} bytes, all different")
    print(f"  the machine: hashed in {hashing:.3f} s of processor, through a pipe in {piping:.3f} s, written with one sync in {writing:.2f} s, with a sync each in {syncing:.2f} s")
    times = {}
    say(f"{count} PUTs")
    server = Server(program, f"{room}/store")
    server.ask(request("PUT /hosts/pc1"))
    dump = server.open_dump("pc1", "full")
    times["PUTs of new contents"], _ = server.timed(put_all, server, dump, bodies)
    times["commit of them"], _ = server.timed(server.ask, request(f"POST /dumps/{dump}/commit"))
    dump = server.open_dump("pc1", "full")
    times["PUTs of contents that the pool has"], _ = server.timed(put_all, server, dump, bodies)
    times["commit of the same tree"], _ = server.timed(server.ask, request(f"POST /dumps/{dump}/commit"))
    say("eight incremental dumps, of one file in a hundred")
    commits = []
    for turn in range(2, 10):
        dump = server.open_dump("pc1", "incr")
        names = range(turn, count, 100)
        server.ask_all([request(f"PUT /dumps/{dump}/entry?path=f{n}&kind=file", content(size, count * turn + n)) for n in names])
        commits.append(server.timed(server.ask, request(f"POST /dumps/{dump}/commit"))[0])
    times["commit of one file in a hundred"] = Taken(sum(it.wall for it in commits) / len(commits), sum(it.busy for it in commits) / len(commits))
    server.end()
    say("opening the store again")
    times["opening"], server = opened(program, f"{room}/store", "pc1")
    reading = sealed(f"{room}/store")
    gets = min(count, GETS)
    got = bodies[:gets]
    for number, what in ((9, "newest"), (0, "oldest")):
        say(f"{gets} GETs of the {what} of ten backups")
        asked = [request(f"GET /hosts/pc1/backups/{number}/file?path=f{n}") for n in range(gets)]
        times[f"{gets} GETs of the {what}"], found = server.timed(server.ask_all, asked)
        assert number or found == got, "a file of the oldest backup isn't what was put"
    hashing_got = hashed(got)
    piping_got, _ = timed(piped, got)
    files = [("hashing them", hashing), ("a pipe", piping), ("writing them with one sync", writing), ("writing them with a sync each", syncing)]
    for what, taken in times.items():
        if "GETs" in what:
            beside(what, taken, ("hashing them", hashing_got), ("a pipe", piping_got))
        elif what == "opening":
            beside(what, taken, ("listing it and hashing its files but contents", reading))
        else:
            beside(what, taken, *files)
    print(f"  most memory: {server.most_memory()} MB after an opening and the GETs")
    server.end()
    return times


def grown(small, large, factor):
    """How much each time grows from one size to another."""
    print(f"growth at {factor} times as many, and of processor time:")
    for (before, first), (what, second) in zip(small.items(), large.items()):
        if before == what:
            print(f"  {what}: {second.wall / max(first.wall, 1e-6):.1f}, {second.busy / max(first.busy, 1e-6):.1f}", flush=True)


def digest_of(number):
    return hashlib.md5(b"%032d" % number).digest()


def lay(store, count):
    """Makes so many contents live in a store that has none and that no run is on: names of files, and the index of them. The
    files are links to a few, since nothing here reads them."""
    one = f"{store}/content"
    for number in range(count):
        if number % LINKS == 0:
            with open(f"{one}-{number}", "wb") as it:
                it.write(b"%032d" % number)
        os.link(f"{one}-{number - number % LINKS}", f"{store}/pool-{digest_of(number).hex()}-0")
    buckets = [[] for _ in range(256)]
    for digest in sorted(digest_of(number) for number in range(count)):
        buckets[digest[0]].append(digest + b"\0\0" + (32).to_bytes(8, "big") + b"\0")
    for byte, items in enumerate(buckets):
        body = b"RPB1" + bytes([byte]) + len(items).to_bytes(8, "big") + b"".join(items)
        with open(f"{store}/pool-index-{byte}", "wb") as it:
            it.write(body + hashlib.md5(body).digest())


def measure_contents(program, room, count):
    """An opening of a store of so many contents, and commits of many new files and of one over it."""
    print(f"a store of {count} contents")
    store, times = f"{room}/contents-{count}", {}
    say(f"laying {count} contents")
    server = Server(program, store)
    server.ask(request("PUT /hosts/pc1"))
    server.end()
    lay(store, count)
    say("opening it")
    times["opening"], server = opened(program, store, "pc1")
    beside("opening", times["opening"], ("listing it and hashing its files but contents", sealed(store)))
    print(f"  most memory: {server.most_memory()} MB")
    index, size = index_of(store)
    machine = (f"hashing the index of {size} bytes", hashed(index)), ("writing it with a sync for each file", timed(written, f"{room}/index-{count}", index, True)[0])
    for files in (GETS, 1):
        say(f"{files} PUTs over it")
        bodies = [b"%d of %d" % (number, files) for number in range(files)]
        server.ask(request(f"PUT /hosts/of-{files}"))
        dump = server.open_dump(f"of-{files}", "full")
        put, commit = f"PUTs of {files} new contents", f"commit of {files} new contents"
        times[put], _ = server.timed(put_all, server, dump, bodies)
        beside(put, times[put], ("hashing them", hashed(bodies)))
        times[commit], _ = server.timed(server.ask, request(f"POST /dumps/{dump}/commit"))
        beside(commit, times[commit], *machine)
    server.end()
    return times


def index_of(store):
    """The files of the pool's index, and how many bytes they have."""
    files = []
    for number in range(256):
        path = f"{store}/pool-index-{number}"
        if os.path.exists(path):
            with open(path, "rb") as it:
                files.append(it.read())
    return files, sum(map(len, files))


def measure_large(program, room, size):
    body = os.urandom(size)
    say(f"one file of {size} bytes")
    hashing = hashed([body])
    piping, _ = timed(piped, [body])
    writing, _ = timed(written, f"{room}/one", [body], True)
    server = Server(program, f"{room}/large")
    server.ask(request("PUT /hosts/pc1"))
    dump = server.open_dump("pc1", "full")
    put, _ = server.timed(server.ask, request(f"PUT /dumps/{dump}/entry?path=f&kind=file", body))
    commit, _ = server.timed(server.ask, request(f"POST /dumps/{dump}/commit"))
    get, found = server.timed(server.ask, request("GET /hosts/pc1/backups/0/file?path=f"))
    server.end()
    assert found == body
    rate = size / 1_000_000
    print(f"one file of {size} bytes: hashed at {rate / hashing:.0f} MB/s, through a pipe at {rate / piping:.0f} MB/s, written and synced at {rate / writing:.0f} MB/s")
    machine = [("hashing it", hashing), ("a pipe", piping), ("writing it with its sync", writing)]
    for what, taken in (("PUT", put), ("commit", commit), ("GET", get)):
        beside(f"{what} ({rate / taken.wall:.0f} MB/s)", taken, *machine)


def main():
    words = argparse.ArgumentParser(description=__doc__, epilog="A size of 0 leaves a measurement out.")
    words.add_argument("--count", type=int, default=100_000, help="how many small files; a tenth is measured first")
    words.add_argument("--small", type=int, default=1_000, help="the bytes of each")
    words.add_argument("--large", type=int, default=67_108_864, help="the bytes of the large file")
    words.add_argument("--contents", type=int, default=1_000_000, help="how many contents the large store has")
    words.add_argument("--folder", help="where the stores are made and removed again")
    words.add_argument("--program", default=f"{TOP}/bin/backup_server", help="the program to measure")
    said = words.parse_args()
    if not os.path.exists(said.program):
        raise SystemExit(f"{said.program} isn't there: make build first")
    program = os.path.abspath(said.program)
    load = os.getloadavg()[0]
    print(f"{platform.machine()}, {os.cpu_count()} processors, load {load:.1f}, {platform.system()} {platform.release()}")
    with tempfile.TemporaryDirectory(dir=said.folder) as room:
        if said.large:
            measure_large(program, room, said.large)
        if said.count:
            small = measure_small(program, room, said.count // 10, said.small)
            grown(small, measure_small(program, room, said.count, said.small), 10)
        if said.contents:
            small = measure_contents(program, room, said.contents // 10)
            grown(small, measure_contents(program, room, said.contents), 10)
        say("removing the stores")


if __name__ == "__main__":
    main()
