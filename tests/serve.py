#!/usr/bin/env python3
"""Real clients against `serve`, and stops of it under load: tests/serve.py PROGRAM [KILLS]. The last line is 'N passed, M failed'."""
import contextlib
import http.client
import json
import os
import random
import re
import resource
import shutil
import signal
import socket
import subprocess
import sys
import tempfile
import threading
import time

WORKERS = 4
# For how many seconds a peer may be silent.
PATIENCE = 60
FAILURES = (OSError, http.client.HTTPException)


class Server:
    """A run of `serve` on a store, at a port, or at one that the system chooses."""

    def __init__(self, program, store, *words, port=0, under=()):
        asked = [*under, program, "serve", "--store", store, "--listen", f"127.0.0.1:{port}", *words]
        self.run = subprocess.Popen(asked, stdin=subprocess.DEVNULL, stderr=subprocess.PIPE, text=True)
        self.said = self.run.stderr.readline()
        told = re.fullmatch(r"listening on 127\.0\.0\.1:(\d+)\n", self.said)
        self.port = int(told.group(1)) if told else None

    def client(self, timeout=120):
        return Client(self.port, timeout)

    def end(self, sent=None):
        """Its status, and what it said behind its first line, once it has ended, by this signal if there is one."""
        if sent:
            self.run.send_signal(sent)
        rest = self.run.stderr.read()
        return self.run.wait(), rest if self.port else self.said + rest


class Client:
    """A connection that is kept."""

    def __init__(self, port, timeout=120):
        self.connection = http.client.HTTPConnection("127.0.0.1", port, timeout=timeout)

    def ask(self, method, target, body=None):
        """The status and the body of the response."""
        self.connection.request(method, target, body)
        response = self.connection.getresponse()
        return response.status, response.read()

    def want(self, status, method, target, body=None):
        """The body of a response that has this status."""
        found, text = self.ask(method, target, body)
        if found != status:
            raise Wrong(f"{method} {target} was answered by {found} {text[:200]}")
        return text

    def open_dump(self, host, kind):
        return json.loads(self.want(201, "POST", f"/hosts/{host}/dumps?kind={kind}"))["dump"]

    def put(self, dump, path, body):
        self.want(200, "PUT", f"/dumps/{dump}/entry?path={path}&kind=file", body)

    def commit(self, dump):
        return json.loads(self.want(201, "POST", f"/dumps/{dump}/commit"))["number"]

    def backup(self, host, files, kind="full"):
        """The number of a backup that has these files."""
        dump = self.open_dump(host, kind)
        for path, body in files.items():
            self.put(dump, path, body)
        return self.commit(dump)

    def file(self, host, number, path):
        return self.want(200, "GET", f"/hosts/{host}/backups/{number}/file?path={path}")

    def close(self):
        self.connection.close()


class Wrong(Exception):
    """What a try found wrong."""


class Score:
    """How many tries there were, and how many of them failed."""

    def __init__(self):
        self.tries, self.failed, self.lock = 0, 0, threading.Lock()

    def count(self, what, fault):
        """Counts a try, which failed if there is a fault."""
        with self.lock:
            self.tries += 1
            self.failed += 1 if fault else 0
        if fault:
            print(f"FAILED: {what}: {fault}", flush=True)

    def attempt(self, what, call, *arguments):
        """Counts a call, which fails by an exception of its own or of a connection."""
        try:
            call(*arguments)
            self.count(what, None)
        except (Wrong, AssertionError, KeyError, ValueError, *FAILURES) as fault:
            self.count(what, repr(fault))


def ended(server, status, sent=None, said=""):
    """Says what is wrong with the end of a run."""
    found = server.end(sent)
    if found != (status, said):
        raise Wrong(f"it ended with {found}")


def together(call, count):
    """Makes a call for each number in a thread of its own, and raises what the first that failed raised."""
    faults = []

    def caught(number):
        try:
            call(number)
        except Exception as fault:
            faults.append(fault)

    threads = [threading.Thread(target=caught, args=[number]) for number in range(count)]
    for it in threads:
        it.start()
    for it in threads:
        it.join()
    if faults:
        raise faults[0]


def curl(*words):
    return subprocess.run(["curl", "-sS", *words], capture_output=True, timeout=300)


def curl_at_once(server, room):
    """curl gets forty files over as many connections as it likes, and puts and commits some."""
    base = f"http://127.0.0.1:{server.port}"
    client = server.client()
    client.want(201, "PUT", "/hosts/curl")
    files = {f"f{n}": os.urandom(n * 1_000) for n in range(40)}
    number = client.backup("curl", files)
    client.close()
    words = []
    for path in files:
        words += [f"{base}/hosts/curl/backups/{number}/file?path={path}", "-o", f"{room}/{path}"]
    done = curl("--parallel", "--parallel-max", "8", *words)
    if done.returncode:
        raise Wrong(done.stderr)
    for path, body in files.items():
        with open(f"{room}/{path}", "rb") as it:
            if it.read() != body:
                raise Wrong(f"{path} isn't what was put")


def curl_backs_up(server, room):
    """The README's way: each request a connection of its own."""
    base = f"http://127.0.0.1:{server.port}"
    with open(f"{room}/notes.txt", "wb") as it:
        it.write(b"hello")
    text = curl("-X", "PUT", f"{base}/hosts/pc2").stdout
    text += curl("-X", "POST", f"{base}/hosts/pc2/dumps?kind=full").stdout
    dump = json.loads(text[text.index(b"}") + 1 :])["dump"]
    text = curl("-T", f"{room}/notes.txt", f"{base}/dumps/{dump}/entry?path=notes.txt&kind=file").stdout
    text += curl("-X", "POST", f"{base}/dumps/{dump}/commit").stdout
    text += curl(f"{base}/hosts/pc2/backups/0/file?path=notes.txt").stdout
    if text != b'{}{"number":0}hello':
        raise Wrong(text)


def hosts_at_once(server):
    """Callers who dump, list and read each a host of their own."""

    def work(number):
        client, host = server.client(), f"own-{number}"
        client.want(201, "PUT", f"/hosts/{host}")
        for turn in range(5):
            files = {f"f{n}": b"%d %d %d " % (number, turn, n) * 500 for n in range(20)}
            found = client.backup(host, files)
            if found != turn:
                raise Wrong(f"the backup {turn} has number {found}")
            listed = json.loads(client.want(200, "GET", f"/hosts/{host}/backups/{turn}/list"))["entries"]
            if [entry["name"] for entry in listed] != sorted(files):
                raise Wrong(f"{listed}")
            for path, body in files.items():
                if client.file(host, turn, path) != body:
                    raise Wrong(f"{path} isn't what was put")
        client.close()

    together(work, WORKERS)


def slow(server):
    """A peer that sends a byte at a time is answered."""
    with socket.create_connection(("127.0.0.1", server.port), timeout=120) as peer:
        for byte in b"GET /hosts HTTP/1.1\r\nHost: b\r\nConnection: close\r\n\r\n":
            peer.sendall(bytes([byte]))
            time.sleep(0.15)
        answer = received(peer)
    if not answer.startswith(b"HTTP/1.1 200 OK\r\n"):
        raise Wrong(answer)


def received(peer):
    """All that comes until the other side closes, or breaks off."""
    pieces = []
    with contextlib.suppress(ConnectionError):
        while piece := peer.recv(65_536):
            pieces.append(piece)
    return b"".join(pieces)


def load(score, server):
    """wrk for ten seconds, on two connections, beside a peer that is slow and one that is silent."""
    if not shutil.which("wrk"):
        print("skipped: wrk, which isn't there", flush=True)
        return
    client = server.client()
    client.want(201, "PUT", "/hosts/wrk")
    client.backup("wrk", {"f": b"x" * 1_000})
    client.close()
    with socket.create_connection(("127.0.0.1", server.port)):
        other = threading.Thread(target=score.attempt, args=["a slow peer beside wrk", slow, server])
        other.start()
        target = f"http://127.0.0.1:{server.port}/hosts/wrk/backups/0/file?path=f"
        done = subprocess.run(["wrk", "-t2", "-c2", "-d10s", target], capture_output=True, text=True)
        other.join()
    found = re.search(r"(\d+) requests in", done.stdout)
    is_right = found and int(found.group(1)) > 100 and "Non-2xx" not in done.stdout and "Socket errors" not in done.stdout
    score.count("wrk", None if is_right else done.stdout + done.stderr)


def refused_early(server):
    """A PUT of 5 MB whose head is refused: the answer arrives, though the rest isn't read."""
    head = b"PUT /dumps/1-0/entry?path=f&kind=file HTTP/1.1\r\nContent-Length: 5000000\r\n\r\n"
    with socket.create_connection(("127.0.0.1", server.port), timeout=60) as peer:
        with contextlib.suppress(ConnectionError):
            peer.sendall(head + b"x" * 5_000_000)
        answer = received(peer)
    if not answer.startswith(b"HTTP/1.1 400 Bad Request\r\n") or not answer.endswith(b'{"refused":"BadHead"}'):
        raise Wrong(answer)


def refused_early_to_curl(server, room):
    """The same by curl."""
    with open(f"{room}/large", "wb") as it:
        it.write(b"x" * 5_000_000)
    done = curl("-H", "Host:", "-w", "%{http_code}", "-T", f"{room}/large", f"http://127.0.0.1:{server.port}/dumps/1-0/entry?path=f&kind=file")
    if done.stdout != b'{"refused":"BadHead"}400':
        raise Wrong((done.stdout, done.stderr))


def broken_off(server):
    """Peers that go in the middle of a request, or of their answer, harm nobody."""
    client = server.client()
    client.want(201, "PUT", "/hosts/big")
    client.backup("big", {"f": os.urandom(8_000_000)})
    client.close()
    for text in (b"GET /ho", b"PUT /dumps/1-0/entry?path=f&kind=file HTTP/1.1\r\nHost: b\r\nContent-Length: 900\r\n\r\nx", b"GET /hosts/big/backups/0/file?path=f HTTP/1.1\r\nHost: b\r\n\r\n"):
        for _ in range(WORKERS + 1):
            with socket.create_connection(("127.0.0.1", server.port)) as peer:
                peer.sendall(text)
                time.sleep(0.05)
    client = server.client()
    client.want(200, "GET", "/hosts")
    client.close()


def clients(score, program, room):
    """All of these at one server, which a SIGTERM ends."""
    server = Server(program, f"{room}/store")
    score.attempt("curl gets files at once", curl_at_once, server, room)
    score.attempt("a backup by curl, each request on its own connection", curl_backs_up, server, room)
    score.attempt("four callers back up and read at once", hosts_at_once, server)
    score.attempt("a PUT that is refused by its head", refused_early, server)
    score.attempt("a PUT that is refused by its head, by curl", refused_early_to_curl, server, room)
    score.attempt("peers that break off", broken_off, server)
    load(score, server)
    score.attempt("SIGTERM without load", ended, server, -signal.SIGTERM, signal.SIGTERM)


def silent(program, room):
    """Three peers that are silent and one that takes nothing of a large answer hold all workers; another is then served, after a
    minute at the soonest, and each of them is closed."""
    server = Server(program, f"{room}/silent")
    client = server.client()
    client.want(201, "PUT", "/hosts/pc1")
    client.backup("pc1", {"f": os.urandom(30_000_000)})
    client.close()
    peers = [socket.create_connection(("127.0.0.1", server.port)) for _ in range(WORKERS)]
    peers[0].sendall(b"GET /hosts/pc1/backups/0/file?path=f HTTP/1.1\r\nHost: b\r\n\r\n")
    time.sleep(1)
    start = time.monotonic()
    client = server.client(timeout=3 * PATIENCE)
    client.want(200, "GET", "/hosts")
    waited = time.monotonic() - start
    client.close()
    if not PATIENCE - 5 < waited < PATIENCE + 30:
        raise Wrong(f"another was served after {waited:.0f} seconds")
    time.sleep(2 * PATIENCE + 10 - waited)
    together(lambda _: server.client().want(200, "GET", "/hosts"), WORKERS)
    for peer in peers[1:]:
        peer.settimeout(1)
        if peer.recv(1):
            raise Wrong("a silent peer was sent something")
    ended(server, -signal.SIGTERM, signal.SIGTERM)


def counted(program, room):
    """With `--connections 2` the eighth connection is the last of four workers, also where some of them say nothing."""
    server = Server(program, f"{room}/counted", "--connections", "2")
    for number in range(2 * WORKERS):
        if number % 3:
            client = server.client()
            client.want(200, "GET", "/hosts")
            client.close()
        else:
            socket.create_connection(("127.0.0.1", server.port)).close()
    ended(server, 0)
    server = Server(program, f"{room}/counted", "--connections", "0")
    ended(server, 0)


def not_had(program, room):
    """Addresses that can't be had, and the folder of another run."""
    server = Server(program, f"{room}/first")
    taken = f"127.0.0.1:{server.port}"
    second = Server(program, f"{room}/second", port=server.port)
    ended(second, 8, said=f"the address {taken} can't be listened on: Address already in use (os error 98)\n")
    second = Server(program, f"{room}/first")
    ended(second, 8, said=f"the folder {room}/first is in use\n")
    words = [program, "serve", "--store", f"{room}/second", "--listen", "nowhere"]
    done = subprocess.run(words, capture_output=True, text=True)
    if done.returncode != 8 or not done.stderr.startswith("the address nowhere can't be listened on: "):
        raise Wrong(done)
    client = server.client()
    client.want(200, "GET", "/hosts")
    client.close()
    ended(server, -signal.SIGTERM, signal.SIGTERM)


def few_descriptors(program, room):
    """While there is no descriptor for another connection it waits, and is served once there is one again."""
    server = Server(program, f"{room}/few")
    client = server.client()
    client.want(200, "GET", "/hosts")
    client.close()
    time.sleep(1)
    _, most = resource.prlimit(server.run.pid, resource.RLIMIT_NOFILE)
    resource.prlimit(server.run.pid, resource.RLIMIT_NOFILE, (3, most))
    for _ in range(WORKERS):
        client = server.client()
        client.want(200, "GET", "/hosts")
        client.close()
    late = server.client(timeout=3)
    try:
        found = late.ask("GET", "/hosts")
        raise Wrong(f"without descriptors it was answered by {found}")
    except TimeoutError:
        late.close()
    resource.prlimit(server.run.pid, resource.RLIMIT_NOFILE, (most, most))
    client = server.client()
    client.want(200, "GET", "/hosts")
    client.close()
    ended(server, -signal.SIGTERM, signal.SIGTERM)


def failed_calls(program, room):
    """Calls that strace interrupts, or lets fail as for a peer that has gone, are tried again, and nobody sees it."""
    rules = ["accept,accept4:error=ECONNABORTED:when=2+3", "recvfrom:error=EINTR:when=3+2", "sendto:error=EINTR:when=3+2"]
    under = ["strace", "-f", "-qq", "-o", "/dev/null", *(word for rule in rules for word in ("-e", f"inject={rule}"))]
    server = Server(program, f"{room}/traced", "--connections", "10", under=under)
    for _ in range(10 * WORKERS):
        client = server.client()
        client.want(200, "GET", "/hosts")
        client.close()
    ended(server, 0)


class Caller:
    """One that backs up a host of its own again and again, and keeps what was answered: the files of each backup."""

    def __init__(self, name):
        self.name, self.kept, self.fault = name, {}, None

    def work(self, port, seed):
        """Goes on until the server has gone."""
        chance = random.Random(seed)
        try:
            client = Client(port)
            if not self.kept:
                client.ask("PUT", f"/hosts/{self.name}")
            while True:
                size = chance.randint(1, 20_000)
                files = {f"f{n}": b"%s %d %d " % (self.name.encode(), seed, n) * (size // 20 + 1) for n in range(3)}
                number = client.backup(self.name, files, "incr" if self.kept else "full")
                self.kept[number] = files
        except FAILURES:
            pass
        except Wrong as fault:
            self.fault = fault

    def check(self, client):
        """What is missing of what was answered."""
        listed = {line["number"] for line in json.loads(client.want(200, "GET", f"/hosts/{self.name}/backups"))["backups"]}
        if not listed >= set(self.kept):
            raise Wrong(f"{self.name} has {listed}, and {set(self.kept)} were answered")
        for number, files in self.kept.items():
            for path, body in files.items():
                if client.file(self.name, number, path) != body:
                    raise Wrong(f"{path} of backup {number} of {self.name} isn't what was put")


def stop_once(server, callers, sent, seed):
    """Stops a run at a random moment, while the callers work."""
    timer = threading.Timer(random.uniform(0.2, 1.5), server.run.send_signal, [sent])
    timer.start()
    together(lambda number: callers[number].work(server.port, seed * 100 + number), len(callers))
    timer.join()
    ended(server, -sent)
    for caller in callers:
        if caller.fault:
            raise caller.fault


def checked(server, callers):
    """Looks through all that was answered, by a further run."""
    client = server.client()
    for caller in callers:
        if caller.kept:
            caller.check(client)
    client.close()


def stops(score, program, room, kills):
    """Stops runs on one port and one store under load."""
    store, callers, port = f"{room}/stopped", [Caller(f"pc{n}") for n in range(WORKERS)], 0
    for seed, sent in enumerate([signal.SIGTERM] * 3 + [signal.SIGKILL] * kills):
        server = Server(program, store, port=port)
        port = server.port
        score.attempt(f"stop {seed} by signal {int(sent)}", stop_once, server, callers, sent, seed)
        server = Server(program, store, port=port)
        score.attempt(f"what was answered before stop {seed}", checked, server, callers)
        server.end(signal.SIGTERM)
    print(f"{3 + kills} stops under load, {sum(len(caller.kept) for caller in callers)} commits were answered", flush=True)


def main():
    program = os.path.abspath(sys.argv[1])
    kills = int(sys.argv[2]) if len(sys.argv) > 2 else 10
    begun, score = time.monotonic(), Score()
    with tempfile.TemporaryDirectory() as room:
        other = threading.Thread(target=score.attempt, args=["silent peers don't hold the server", silent, program, room])
        other.start()
        clients(score, program, room)
        score.attempt("a number of connections", counted, program, room)
        score.attempt("an address and a folder in use", not_had, program, room)
        score.attempt("no descriptors for a while", few_descriptors, program, room)
        if subprocess.run(["sh", "-c", "strace -qq -o /dev/null true"], stderr=subprocess.DEVNULL).returncode:
            print("skipped: calls that fail, since strace isn't there or may not trace", flush=True)
        else:
            score.attempt("calls that fail for a moment", failed_calls, program, room)
        stops(score, program, room, kills)
        other.join()
    print(f"{time.monotonic() - begun:.0f} seconds")
    print(f"{score.tries - score.failed} passed, {score.failed} failed")
    sys.exit(1 if score.failed else 0)


main()
