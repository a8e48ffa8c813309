#!/usr/bin/env python3
"""Measures bin/backup_server over its command `serve`, beside nginx and beside `pipe`. bench/README.md says what."""
import argparse
import os
import re
import shutil
import socket
import subprocess
import sys
import tempfile
import threading
import time

import pipe
from pipe import PIECE, TOP, content, request, say, timed

CONNECTIONS = 4
# How many files the GETs go round.
FILES = 1_000
SIZE = 1_000
# The requests of wrk: they go round the files.
ROUND = """
local at = 0
request = function()
  at = (at + 1) %% %d
  return wrk.format("GET", "%s" .. at)
end
"""
NGINX = """
worker_processes %d;
daemon off;
pid %s/pid;
error_log stderr;
events { worker_connections 256; }
http {
  access_log off;
  sendfile on;
  tcp_nodelay on;
  keepalive_requests 1000000000;
  client_body_temp_path %s/body;
  proxy_temp_path %s/proxy;
  fastcgi_temp_path %s/fastcgi;
  uwsgi_temp_path %s/uwsgi;
  scgi_temp_path %s/scgi;
  server { listen 127.0.0.1:%d; root %s; }
}
"""


class Link(pipe.Server):
    """A connection, with the calls of a run over `pipe`."""

    def __init__(self, port):
        self.socket, self.rest = socket.create_connection(("127.0.0.1", port)), b""
        self.socket.setsockopt(socket.IPPROTO_TCP, socket.TCP_NODELAY, 1)

    def send(self, text):
        self.socket.sendall(text)

    def more(self):
        piece = self.socket.recv(PIECE)
        assert piece, "the server has gone"
        return piece

    def end(self):
        self.socket.close()


class Server:
    """A run of `serve` on a store, at a port that the system chooses."""

    def __init__(self, program, store):
        words = [program, "serve", "--store", store, "--listen", "127.0.0.1:0"]
        self.run = subprocess.Popen(words, stdin=subprocess.DEVNULL, stderr=subprocess.PIPE, text=True)
        said = self.run.stderr.readline()
        assert said.startswith("listening on "), said
        self.port = int(said.rpartition(":")[2])

    def link(self):
        return Link(self.port)

    def end(self):
        self.run.terminate()
        self.run.wait()


def put_all(link, host, bodies):
    """A dump of these bodies, which is left open: what the PUTs took, and the dump's name."""
    dump = link.open_dump(host, "full")
    texts = [request(f"PUT /dumps/{dump}/entry?path=f{n}&kind=file", body) for n, body in enumerate(bodies)]
    return timed(link.ask_all, texts)[0], dump


def commit(link, dump):
    link.ask(request(f"POST /dumps/{dump}/commit"))


def wrk(room, port, target, seconds):
    """How many GETs a second are answered over kept connections, which all have to be right."""
    script = f"{room}/round.lua"
    with open(script, "w") as it:
        it.write(ROUND % (FILES, target))
    words = ["wrk", f"-t{CONNECTIONS}", f"-c{CONNECTIONS}", f"-d{seconds}s", "-s", script, f"http://127.0.0.1:{port}/"]
    said = subprocess.run(words, capture_output=True, text=True, check=True).stdout
    assert "Non-2xx" not in said and "Socket errors" not in said, said
    return float(re.search(r"Requests/sec:\s+([\d.]+)", said).group(1))


def free_port():
    with socket.create_server(("127.0.0.1", 0)) as it:
        return it.getsockname()[1]


def nginx(room, bodies, seconds):
    """The same by nginx, from files in a folder."""
    root, port = f"{room}/files", free_port()
    os.mkdir(root)
    for number, body in enumerate(bodies):
        with open(f"{root}/f{number}", "wb") as it:
            it.write(body)
    os.chmod(room, 0o755)
    with open(f"{room}/nginx.conf", "w") as it:
        it.write(NGINX % (CONNECTIONS, room, room, room, room, room, room, port, root))
    run = subprocess.Popen(["nginx", "-e", "stderr", "-c", f"{room}/nginx.conf"], stderr=subprocess.DEVNULL)
    try:
        for _ in range(100):
            try:
                socket.create_connection(("127.0.0.1", port)).close()
                break
            except ConnectionRefusedError:
                time.sleep(0.1)
        return wrk(room, port, "/f", seconds)
    finally:
        run.terminate()
        run.wait()


def one_by_one(link, target):
    """How many GETs a second are answered, each asked for once the one before has come, and as many without waiting."""
    texts = [request(f"GET {target}{number}") for number in range(FILES)]
    waiting, _ = timed(lambda: [link.ask(text) for text in texts])
    ahead, _ = timed(link.ask_all, texts)
    return FILES / waiting, FILES / ahead


def measure_gets(program, room, seconds):
    """GETs over four kept connections, and by nginx; and over one, and over `pipe`."""
    bodies = [content(SIZE, number) for number in range(FILES)]
    target = "/hosts/pc1/backups/0/file?path=f"
    server = Server(program, f"{room}/gets")
    link = server.link()
    link.ask(request("PUT /hosts/pc1"))
    _, dump = put_all(link, "pc1", bodies)
    commit(link, dump)
    own = one_by_one(link, target)
    link.end()
    say(f"wrk for {seconds} seconds")
    rate = wrk(room, server.port, target, seconds)
    server.end()
    piped = pipe.Server(program, f"{room}/gets")
    other = one_by_one(piped, target)
    piped.end()
    print(f"GETs of {FILES} files of {SIZE} bytes")
    if shutil.which("nginx"):
        say(f"wrk for {seconds} seconds, at nginx")
        theirs = nginx(room, bodies, seconds)
        print(f"  over {CONNECTIONS} connections: {rate:.0f} a second, {rate / theirs:.2g} of nginx, which answers {theirs:.0f}")
    else:
        print(f"  over {CONNECTIONS} connections: {rate:.0f} a second (nginx isn't there)")
    for what, (waiting, ahead) in (("one connection", own), ("pipe", other)):
        print(f"  over {what}: {waiting:.0f} a second one after the other, {ahead:.0f} without waiting", flush=True)


def measure_puts(program, room, count):
    """PUTs into one dump over `pipe` and over one connection, and into four dumps over four at once."""
    bodies = [content(SIZE, number) for number in range(count)]
    say(f"{count} PUTs over pipe")
    piped = pipe.Server(program, f"{room}/piped")
    piped.ask(request("PUT /hosts/pc1"))
    alone, _ = put_all(piped, "pc1", bodies)
    piped.end()
    server = Server(program, f"{room}/puts")
    say(f"{count} PUTs over one connection")
    link = server.link()
    link.ask(request("PUT /hosts/pc1"))
    one, dump = put_all(link, "pc1", bodies)
    commit(link, dump)
    link.end()
    say(f"{count} PUTs over {CONNECTIONS} connections")
    four, _ = timed(at_once, server, count)
    server.end()
    print(f"{count} PUTs of {SIZE} bytes, all different, without waiting")
    print(f"  into one dump over pipe: {count / alone:.0f} a second")
    print(f"  into one dump over one connection: {count / one:.0f} a second")
    print(f"  into {CONNECTIONS} dumps over {CONNECTIONS} connections: {count / four:.0f} a second, {one / four:.2g} times one", flush=True)


def at_once(server, count):
    """PUTs of contents that are new, a part of them over each connection."""

    def work(part):
        link = server.link()
        link.ask(request(f"PUT /hosts/part-{part}"))
        numbers = range(count * (part + 1), count * (part + 1) + count // CONNECTIONS)
        put_all(link, f"part-{part}", [content(SIZE, number) for number in numbers])
        link.end()

    threads = [threading.Thread(target=work, args=[part]) for part in range(CONNECTIONS)]
    for it in threads:
        it.start()
    for it in threads:
        it.join()


def measure_waiting(program, room, count):
    """How long a GET waits while another caller commits many files."""
    server = Server(program, f"{room}/waiting")
    link, reader = server.link(), server.link()
    link.ask(request("PUT /hosts/pc1"))
    _, dump = put_all(link, "pc1", [b"x" * SIZE])
    commit(link, dump)
    asked = request("GET /hosts/pc1/backups/0/file?path=f0")
    idle = [timed(reader.ask, asked)[0] for _ in range(FILES)]
    link.ask(request("PUT /hosts/pc2"))
    say(f"{count} PUTs, and GETs while they are committed")
    _, dump = put_all(link, "pc2", [content(SIZE, number) for number in range(count)])
    other = threading.Thread(target=commit, args=[link, dump])
    start = time.monotonic()
    other.start()
    waits = [timed(reader.ask, asked)[0]]
    while other.is_alive():
        waits.append(timed(reader.ask, asked)[0])
    taken = time.monotonic() - start
    other.join()
    server.end()
    print(f"a commit of {count} files of {SIZE} bytes beside GETs of one file: {taken:.3f} s")
    print(f"  the longest GET: {max(waits):.3f} s; without it the longest of {FILES} takes {max(idle) * 1_000:.2f} ms, the middle one {sorted(idle)[FILES // 2] * 1_000:.2f} ms", flush=True)


def main():
    words = argparse.ArgumentParser(description=__doc__, epilog="A number of 0 leaves a measurement out.")
    words.add_argument("--seconds", type=int, default=10, help="how long wrk asks")
    words.add_argument("--puts", type=int, default=20_000, help="how many PUTs")
    words.add_argument("--commit", type=int, default=100_000, help="how many files are committed beside GETs")
    words.add_argument("--folder", help="where the stores are made and removed again")
    words.add_argument("--program", default=f"{TOP}/bin/backup_server", help="the program to measure")
    said = words.parse_args()
    if not os.path.exists(said.program):
        raise SystemExit(f"{said.program} isn't there: make build first")
    if said.seconds and not shutil.which("wrk"):
        raise SystemExit("wrk isn't there: --seconds 0 leaves its measurement out")
    program = os.path.abspath(said.program)
    subprocess.run([sys.executable, f"{TOP}/bench/machine.py"], check=True)
    with tempfile.TemporaryDirectory(dir=said.folder) as room:
        if said.seconds:
            measure_gets(program, room, said.seconds)
        if said.puts:
            measure_puts(program, room, said.puts)
        if said.commit:
            measure_waiting(program, room, said.commit)
        say("removing the stores")


if __name__ == "__main__":
    main()
