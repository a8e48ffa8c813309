#!/usr/bin/env python3
"""Sends requests to a fresh store in one run of the program, and to the same store in another, one after the other, and
prints each before its response. It runs bin/backup_server, as `make build` makes it: `make demo` does both."""
import os
import shutil
import subprocess
import sys

TOP = os.path.dirname(os.path.dirname(os.path.realpath(__file__)))
PROGRAM = os.path.join(TOP, "bin", "backup_server")
STORE = os.path.join(TOP, "build", "demo")

NOTES = b"Buy milk.\nCall Ada.\n"
TODO = b"1. Back up.\n"

# what is shown, the request's line, its body
FIRST = [
    ("A machine of the office is added.", "PUT /hosts/laptop", None),
    ("A full dump of it begins, and gets a name.", "POST /hosts/laptop/dumps?kind=full", None),
    ("A file is put into the dump.", "PUT /dumps/1-0/entry?path=notes.txt&kind=file", NOTES),
    ("And another.", "PUT /dumps/1-0/entry?path=todo.txt&kind=file", TODO),
    ("The dump becomes backup 0. From this response on it is kept.", "POST /dumps/1-0/commit", None),
]
SECOND = [
    ("The program was started again: the backup is there.", "GET /hosts/laptop/backups", None),
    ("An incremental dump begins with the newest backup.", "POST /hosts/laptop/dumps?kind=incr", None),
    ("The second file goes.", "DELETE /dumps/2-0/entry?path=todo.txt", None),
    ("The dump becomes backup 1.", "POST /dumps/2-0/commit", None),
    ("Backup 1 has one file.", "GET /hosts/laptop/backups/1/list", None),
    ("Backup 0 has both, as it had.", "GET /hosts/laptop/backups/0/list", None),
    ("A file of it is given back.", "GET /hosts/laptop/backups/0/file?path=todo.txt", None),
]


def request(line, body):
    length = b"" if body is None else b"Content-Length: %d\r\n" % len(body)
    return line.encode() + b" HTTP/1.1\r\nHost: demo\r\n" + length + b"\r\n" + (body or b"")


def response(stream):
    """Reads one response, and gives its first line and its body."""
    first = stream.readline()
    length = 0
    while (line := stream.readline()) not in (b"\r\n", b""):
        name, value = line.split(b": ")
        if name == b"Content-Length":
            length = int(value)
    return first.decode().strip(), stream.read(length)


def serve(steps):
    """Runs the program over the store, and gives its status and the body of the last response."""
    run = subprocess.Popen([PROGRAM, "pipe", "--store", STORE], stdin=subprocess.PIPE, stdout=subprocess.PIPE)
    body = b""
    for shown, line, sent in steps:
        print(f"\n{shown}\n> {line}")
        for text in (sent or b"").decode().splitlines():
            print(f"> {text}")
        run.stdin.write(request(line, sent))
        run.stdin.flush()
        first, body = response(run.stdout)
        print(f"< {first}")
        for text in body.decode().splitlines():
            print(f"< {text}")
    run.stdin.close()
    return run.wait(), body


def main():
    if not os.path.exists(PROGRAM):
        sys.exit("bin/backup_server isn't there: make build first")
    shutil.rmtree(STORE, ignore_errors=True)
    first, _ = serve(FIRST)
    second, body = serve(SECOND)
    if first != 0 or second != 0 or body != TODO:
        sys.exit(f"not as it should be: statuses {first} and {second}")
    print(f"\nSeen: todo.txt came back byte for byte from another run. The store is in {STORE}.")


main()
