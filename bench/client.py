#!/usr/bin/env python3
"""Times pushes of a made corpus by clients/turretgage to `serve`, beside `restic backup` to a local folder and `rsync -a` over
loopback, in turns: bench/client.py [--program PROGRAM] [--files N] [--bytes N] [--rounds N] [--folder FOLDER]. What isn't
installed is left out. Each round has fresh stores; then the same corpus once more, unchanged, into each."""
import argparse
import os
import random
import re
import shutil
import statistics
import subprocess
import sys
import tempfile
import time

TOP = os.path.dirname(os.path.dirname(os.path.realpath(__file__)))


def options():
    parser = argparse.ArgumentParser(description=__doc__)
    parser.add_argument("--program", default=os.path.join(TOP, "bin", "backup_server"))
    parser.add_argument("--files", type=int, default=20_000)
    parser.add_argument("--bytes", type=int, default=1_000, help="of a file, in the middle")
    parser.add_argument("--rounds", type=int, default=1)
    parser.add_argument("--folder", help="where stores and corpus lie")
    return parser.parse_args()


def make_corpus(folder, files, size):
    """Files of up to twice the size, with bytes of their own, a hundred to a folder."""
    numbers = random.Random(1)
    for number in range(files):
        inner = os.path.join(folder, f"d{number // 10_000}", f"e{number // 100}")
        os.makedirs(inner, exist_ok=True)
        with open(os.path.join(inner, f"file-{number}.txt"), "wb") as it:
            it.write(numbers.randbytes(numbers.randrange(2 * size)))


def timed(words, **environment):
    start = time.monotonic()
    done = subprocess.run(words, env={**os.environ, **environment}, capture_output=True, text=True)
    if done.returncode:
        sys.exit(f"{words[0]} ended with {done.returncode}: {done.stderr}")
    return time.monotonic() - start


def turretgage(room, corpus, program, connections):
    """A full push into a fresh store, and a push of nothing new."""
    words = [program, "serve", "--store", os.path.join(room, "store"), "--listen", "127.0.0.1:0"]
    server = subprocess.Popen(words, stderr=subprocess.PIPE, text=True)
    try:
        port = re.search(r":(\d+)$", server.stderr.readline().strip()).group(1)
        push = [sys.executable, os.path.join(TOP, "clients", "turretgage"), "push", "bench", corpus, "--quiet", "--connections", connections]
        settings = {"TURRETGAGE_URL": f"http://127.0.0.1:{port}", "TURRETGAGE_STATE": os.path.join(room, "state")}
        return [timed(push, **settings) for _ in range(2)]
    finally:
        server.kill()
        server.wait()


def restic(room, corpus):
    settings = {"RESTIC_PASSWORD": "bench", "RESTIC_CACHE_DIR": os.path.join(room, "cache"), "RESTIC_REPOSITORY": os.path.join(room, "store")}
    timed(["restic", "init", "--quiet"], **settings)
    return [timed(["restic", "backup", "--quiet", corpus], **settings) for _ in range(2)]


def rsync(room, corpus):
    """To a daemon on loopback, by its own protocol."""
    os.mkdir(os.path.join(room, "store"))
    port, conf = str(20_000 + os.getpid() % 10_000), os.path.join(room, "rsyncd.conf")
    with open(conf, "w", encoding="utf-8") as it:
        it.write(f"use chroot = no\n[store]\npath = {room}/store\nread only = no\nuid = {os.getuid()}\ngid = {os.getgid()}\n")
    daemon = subprocess.Popen(["rsync", "--daemon", "--no-detach", "--address=127.0.0.1", f"--port={port}", f"--config={conf}"])
    try:
        time.sleep(1)
        return [timed(["rsync", "-a", corpus + "/", f"rsync://127.0.0.1:{port}/store/"]) for _ in range(2)]
    finally:
        daemon.kill()
        daemon.wait()


def main():
    words = options()
    room = tempfile.mkdtemp(dir=words.folder)
    corpus = os.path.join(room, "corpus")
    make_corpus(corpus, words.files, words.bytes)
    ways = {"turretgage push": lambda at: turretgage(at, corpus, words.program, "1"),
            "turretgage push --connections 3": lambda at: turretgage(at, corpus, words.program, "3")}
    ways.update({f"{tool} {what}": way for tool, what, way in (("restic", "backup", lambda at: restic(at, corpus)),
                                                              ("rsync", "-a", lambda at: rsync(at, corpus))) if shutil.which(tool)})
    times = {name: [] for name in ways}
    try:
        subprocess.run([os.path.join(TOP, "bench", "machine.py")], check=False)
        print(f"load {os.getloadavg()[0]:.0f}, {words.files} files of {words.bytes} bytes in the middle", flush=True)
        for turn in range(words.rounds):
            for name, way in ways.items():
                at = os.path.join(room, f"{turn}-{len(times[name])}-{re.sub('[^a-z0-9]', '', name)}")
                os.mkdir(at)
                times[name].append(way(at))
                shutil.rmtree(at)
        for name, found in times.items():
            first, again = (statistics.median(each) for each in zip(*found))
            print(f"{name}: {first:.2f} s, again unchanged {again:.2f} s")
    finally:
        shutil.rmtree(room)


main()
