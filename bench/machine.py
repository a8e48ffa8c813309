#!/usr/bin/env python3
"""What this machine does without any program of ours: it hashes 64 MiB by MD5, writes them to a file with its sync, and sends
them through a pipe and back behind cat. It prints 'machine: hash A MB/s, write B MB/s, pipe C MB/s', the best of three."""
import hashlib
import os
import subprocess
import tempfile
import threading
import time

BYTES = os.urandom(1 << 26)


def write():
    with tempfile.TemporaryFile() as it:
        it.write(BYTES)
        it.flush()
        os.fsync(it.fileno())


def pipe():
    run = subprocess.Popen(["cat"], stdin=subprocess.PIPE, stdout=subprocess.PIPE)
    sender = threading.Thread(target=lambda: (run.stdin.write(BYTES), run.stdin.close()))
    sender.start()
    while run.stdout.read1(1 << 20):
        pass
    sender.join()
    run.wait()


def rate(call):
    """The best of three, in MB/s."""
    times = []
    for _ in range(3):
        start = time.monotonic()
        call()
        times.append(time.monotonic() - start)
    return len(BYTES) / min(times) / 1_000_000


print(f"machine: hash {rate(lambda: hashlib.md5(BYTES).digest()):.0f} MB/s, write {rate(write):.0f} MB/s, pipe {rate(pipe):.0f} MB/s", flush=True)
