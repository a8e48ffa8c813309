#!/usr/bin/env python3
"""Stops the program at random moments, fills its disk, fails its syncs, interrupts its reads and writes, and starts two on
one folder, and looks whether each backup whose commit was answered is read back whole by the next run: tests/crash.py PROGRAM [KILLS [TERMS [STARTS]]]. The last line is
'N passed, M failed'."""
import contextlib
import hashlib
import os
import random
import resource
import shutil
import signal
import subprocess
import sys
import tempfile
import threading
import time

ROOM = "16m"


def request(line, body=None):
    length = b"" if body is None else b"Content-Length: %d\r\n" % len(body)
    return line.encode() + b" HTTP/1.1\r\nHost: b\r\n" + length + b"\r\n" + (body or b"")


def response(stream):
    """Reads one response, and gives its status and body, or None at the end of the output."""
    first = stream.readline()
    if not first.endswith(b"\r\n"):
        return None
    length = 0
    while (line := stream.readline()) != b"\r\n":
        if not line:
            return None
        name, value = line.split(b": ")
        if name == b"Content-Length":
            length = int(value)
    body = stream.read(length)
    return (int(first.split()[1]), body) if len(body) == length else None


def limit_files(size, count):
    """Lets this process write no file beyond a size, if one is given: a write fails there, and no signal ends the process; and lets
    it have no more files open than a count, if one is given."""
    if size is not None:
        signal.signal(signal.SIGXFSZ, signal.SIG_IGN)
        resource.setrlimit(resource.RLIMIT_FSIZE, (size, size))
    if count is not None:
        resource.setrlimit(resource.RLIMIT_NOFILE, (count, count))


class Run:
    """A run of the program on a store; with no file above a size, and no more of them open than a count, if these are given, and
    under another program's words."""

    def __init__(self, program, store, limit=None, under=(), count=None):
        words = [*under, program, "pipe", "--store", store]
        before = None if (limit, count) == (None, None) else lambda: limit_files(limit, count)
        pipe = subprocess.PIPE
        self.run = subprocess.Popen(words, stdin=pipe, stdout=pipe, stderr=pipe, preexec_fn=before)

    def ask(self, text):
        """The response to a request, or None if the program has gone."""
        try:
            self.run.stdin.write(text)
            self.run.stdin.flush()
        except BrokenPipeError:
            return None
        return response(self.run.stdout)

    def end(self):
        """The status, and what was said on standard error."""
        with contextlib.suppress(BrokenPipeError):
            self.run.stdin.close()
        self.run.stdout.read()
        said = self.run.stderr.read().decode(errors="replace")
        return self.run.wait(), said


class Score:
    """How many tries there were, and how many of them failed."""

    def __init__(self):
        self.tries, self.failed = 0, 0

    def count(self, what, fault):
        """Counts a try, which failed if there is a fault."""
        self.tries += 1
        if fault:
            self.failed += 1
            print(f"FAILED: {what}: {fault}", flush=True)


def backup_again(run, kept, seed):
    """Dumps and commits until the program has gone or refuses; what was answered goes into `kept`, by the backup's number.
    It gives the status of the refusal, if there is one."""
    chance = random.Random(seed)
    for turn in range(1_000):
        kind = "incr" if kept or turn else "full"
        found = run.ask(request(f"POST /hosts/pc1/dumps?kind={kind}"))
        if found is None or found[0] != 201:
            return found and found[0]
        dump = found[1].decode().split('"')[3]
        body = f"{seed} {turn} ".encode() * chance.randint(1, 2_000)
        found = run.ask(request(f"PUT /dumps/{dump}/entry?path=f&kind=file", body))
        if found is None or found[0] != 200:
            return found and found[0]
        found = run.ask(request(f"POST /dumps/{dump}/commit"))
        if found is None or found[0] != 201:
            return found and found[0]
        kept[int(found[1].decode().strip("}").split(":")[1])] = body
    return None


def stop_once(program, store, kept, sent, seed):
    """Stops a run at a random moment."""
    run = Run(program, store)
    timer = threading.Timer(random.uniform(0.02, 0.4), run.run.send_signal, [sent])
    timer.start()
    run.ask(request("PUT /hosts/pc1"))
    backup_again(run, kept, seed)
    timer.join()
    run.end()


def missing(run, kept, numbers):
    """What a run hasn't of the backups whose commits were answered: of these numbers, each is read."""
    found = run.ask(request("GET /hosts/pc1/backups"))
    if kept and (found is None or found[0] != 200 or found[1].count(b'"number"') < len(kept)):
        return f"{len(kept)} backups were answered, and {found} is listed"
    for number in numbers:
        found = run.ask(request(f"GET /hosts/pc1/backups/{number}/file?path=f"))
        if found != (200, kept[number]):
            return f"backup {number} isn't read back whole: {found and found[0]}"
    return None


def reopened(program, store, kept, numbers):
    """What is wrong with a further run, which is to have these backups."""
    run = Run(program, store)
    fault = missing(run, kept, numbers)
    status, said = run.end()
    return fault or (f"the next run ended with {status}: {said}" if status else None)


def stops(score, program, room, sent, count):
    """Stops runs on one store, again and again, with a new store now and then, which is read whole before it goes."""
    answered = 0
    for at in range(count):
        if at % 20 == 0:
            store, kept = os.path.join(room, f"{int(sent)}-{at}"), {}
        before = len(kept)
        stop_once(program, store, kept, sent, at)
        is_last = at % 20 == 19 or at == count - 1
        numbers = sorted(kept) if is_last else sorted(kept)[before:]
        score.count(f"stop {at} by signal {int(sent)}", reopened(program, store, kept, numbers))
        answered += len(kept) - before
        if is_last:
            shutil.rmtree(store, ignore_errors=True)
    print(f"{count} runs stopped by signal {int(sent)}, after {answered} commits", flush=True)


def starts(score, program, room, count):
    """Starts two runs at once on a new folder: one has it, the other is told so, and what was answered is kept."""
    for at in range(count):
        store = os.path.join(room, f"start-{at}")
        both = [Run(program, store), Run(program, store)]
        answers = [run.ask(request(f"PUT /hosts/pc{n}")) for n, run in enumerate(both)]
        ends = [run.end() for run in both]
        told = [n for n, answer in enumerate(answers) if answer is not None and answer[0] == 201]
        names = ",".join(f'"pc{n}"' for n in told).encode()
        run = Run(program, store)
        found = run.ask(request("GET /hosts"))
        run.end()
        refused = [said for status, said in ends if status == 8]
        is_told = all(said == f"the folder {store} is in use\n" for said in refused)
        is_one = found == (200, b'{"hosts":[' + names + b"]}") and told and is_told
        is_right = is_one and sorted(status for status, _ in ends) in ([0, 8], [0, 0])
        score.count(f"pair {at}", None if is_right else f"{answers}, {ends}, then {found}")
        shutil.rmtree(store)
    print(f"{count} pairs started at once", flush=True)


def fill(program, store, limit=None, under=()):
    """A run that goes on until its disk fails, and what it answered: the run, the backups, the status of the refusal."""
    run, kept = Run(program, store, limit, under), {}
    found = run.ask(request("PUT /hosts/pc1"))
    if found is None or found[0] != 201:
        return run, kept, found and found[0]
    return run, kept, backup_again(run, kept, 1)


def ended_full(run, refused, reasons=(27, 28), name=""):
    """What is wrong with the end of a run whose disk failed: a line for each cause has the file (of this name, if one is given)
    or the folder, and the reason; behind it stands that the store was halted, and that it was reopened; the note comes last."""
    status, said = run.end()
    if refused not in (None, 500, 503):
        return f"a disk that failed was answered by {refused}"
    lines = [line for line in said.splitlines() if not line.endswith((": halted: reopen or restart", ": reopened"))]
    if status == 4 and lines[-1:] == ["disk failed"]:
        lines.pop()
    ends = tuple(f"{name}: {text} (os error {reason})" for reason in reasons for text in [os.strerror(reason)])
    if lines and all(line.endswith(ends) for line in lines) and len(lines) <= len(reasons):
        if status == 4 or status == 8 and refused is None or status == 0 and refused is not None:
            return None
    return f"a run whose disk failed, refused by {refused}, ended with {status}: {said}"


def limits(score, program, room):
    """Limits on the size of a file: each fails another call, of the first opening or of a commit. Without it there is room."""
    tried = [*range(0, 40, 2), *range(40, 1_240, 40)]
    reached = set()
    for size in tried:
        store = os.path.join(room, f"limit-{size}")
        run, kept, refused = fill(program, store, size)
        reached.add(refused)
        fault = ended_full(run, refused) or reopened(program, store, kept, sorted(kept))
        score.count(f"files of at most {size} bytes", fault)
        shutil.rmtree(store, ignore_errors=True)
    is_met = reached >= {None, 500}
    score.count("limits that fail the opening, and others that fail a request", None if is_met else str(reached))
    print(f"{len(tried)} limits on the size of a file", flush=True)


def mount(place, options):
    """Whether a small disk in memory could be mounted."""
    os.makedirs(place, exist_ok=True)
    words = ["mount", "-t", "tmpfs", "-o", options, "tmpfs", place]
    try:
        return subprocess.run(words, stderr=subprocess.DEVNULL).returncode == 0
    except OSError:
        return False


def full_once(score, program, place, options):
    """A disk that gets full; then it has room, and the same run goes on after a reopening, or the next run does. It gives the
    status of the refusal, or -1 if no disk could be mounted."""
    if not mount(place, options):
        return -1
    try:
        store = os.path.join(place, "store")
        run, kept, refused = fill(program, store)
        if refused is None:
            subprocess.run(["mount", "-o", f"remount,size={ROOM},nr_inodes=10000", place], check=True)
            fault = ended_full(run, refused) or reopened(program, store, kept, sorted(kept))
            score.count(f"a disk with {options}, full at its first opening", fault)
            return refused
        subprocess.run(["mount", "-o", f"remount,size={ROOM},nr_inodes=10000", place], check=True)
        found = run.ask(request("POST /reopen"))
        fault = None if found is not None and found[0] == 200 else f"with room again it is reopened with {found}"
        fault = fault or missing(run, kept, sorted(kept))
        fault = fault or ended_full(run, refused)
        fault = fault or reopened(program, store, kept, sorted(kept))
        score.count(f"a disk with {options}, full after {len(kept)} commits", fault)
        return refused
    finally:
        subprocess.run(["umount", place], check=True)


def full_disks(score, program, room):
    """Small disks: of some pages, and of some files."""
    place = os.path.join(room, "disk")
    sizes = [f"size={pages * 4}k" for pages in range(1, 61)] + [f"size={ROOM},nr_inodes={files}" for files in range(2, 42)]
    reached = set()
    for options in sizes:
        refused = full_once(score, program, place, options)
        if refused == -1:
            print("skipped: full disks, since no tmpfs can be mounted here (as root, or where unshare may)", flush=True)
            return
        reached.add(refused)
    is_met = reached >= {None, 500}
    score.count("disks full at the first opening, and others full at a request", None if is_met else str(reached))
    print(f"{len(sizes)} disks that got full", flush=True)


def last_room(score, program, room):
    """A content that doesn't fit leaves the disk as much room as before it: the run goes on, and the store can be opened again. One
    of more than 65,536 bytes takes its room twice until the next sweep, as a stage and in the pool."""
    place = os.path.join(room, "last_room")
    if not mount(place, "size=1m"):
        print("skipped: the last room of a disk, since no tmpfs can be mounted here", flush=True)
        return
    try:
        store = os.path.join(place, "store")
        run, kept = Run(program, store), {0: b"1" * 400_000}
        answers = [run.ask(request("PUT /hosts/pc1"))]
        for dump, body in (("1-0", kept[0]), ("1-1", b"2" * 400_000)):
            answers.append(run.ask(request("POST /hosts/pc1/dumps?kind=full")))
            answers.append(run.ask(request(f"PUT /dumps/{dump}/entry?path=f&kind=file", body)))
            if body == kept[0]:
                answers.append(run.ask(request(f"POST /dumps/{dump}/commit")))
        answers.append(run.ask(request("PUT /hosts/pc2")))
        found = [answer and answer[0] for answer in answers]
        fault = None if found == [201, 201, 200, 201, 201, 500, 201] else f"answered by {found}"
        fault = fault or ended_full(run, 500)
        score.count("the last room of a disk", fault or reopened(program, store, kept, [0]))
    finally:
        subprocess.run(["umount", place], check=True)


def traced(rules):
    """The words that have strace inject these errors into the calls of a program."""
    return ["strace", "-f", "-qq", "-o", "/dev/null", *(word for rule in rules for word in ("-e", f"inject={rule}"))]


def failing_syncs(score, program, room):
    """Each sync fails in one run: nothing is answered as kept from then on, and what was answered before is."""
    calls, reached = 0, set()
    for at in range(1, 81):
        store = os.path.join(room, f"sync-{at}")
        run, kept, refused = fill(program, store, under=traced([f"fsync,fdatasync:error=EIO:when={at}"]))
        more = dict(kept)
        again = backup_again(run, more, 2)
        fault = None if more == kept else f"{len(more) - len(kept)} commits were answered after a sync that failed"
        fault = fault or ended_full(run, refused, [5]) or reopened(program, store, kept, sorted(kept))
        score.count(f"sync {at} fails", fault)
        reached |= {refused, again}
        calls += len(kept)
        shutil.rmtree(store, ignore_errors=True)
    score.count("a sync that fails an opening, and one that fails a request", None if {None, 500} <= reached else str(reached))
    print(f"80 syncs that failed, after {calls} commits", flush=True)


def commit_beside(run, bodies):
    """Commits a dump of files with these bodies, and gives the status of the last answer."""
    found = run.ask(request("PUT /hosts/pc1"))
    found = found and run.ask(request("POST /hosts/pc1/dumps?kind=full"))
    dump = found and found[1].decode().split('"')[3]
    for at, body in enumerate(bodies):
        found = found and run.ask(request(f"PUT /dumps/{dump}/entry?path=f{at}&kind=file", body))
    found = found and run.ask(request(f"POST /dumps/{dump}/commit"))
    return found and found[0]


def failing_parts(score, program, room):
    """In a commit of many new files, which are made durable side by side, each of them fails in one run: the commit is refused,
    and this file is named. In every other run so few files may be open that most are made durable early."""
    bodies = [f"content {at} ".encode() * 100 for at in range(48)]
    for at, body in enumerate(bodies):
        store = os.path.join(room, f"part-{at}")
        name = f"pool-{hashlib.md5(body).hexdigest()}-0"
        of_file = ["-P", os.path.join(os.path.realpath(room), f"part-{at}", name)]
        count = 48 if at % 2 else None
        run = Run(program, store, under=[*traced(["fsync,fdatasync:error=EIO"]), *of_file], count=count)
        refused = commit_beside(run, bodies)
        again = run.ask(request("PUT /hosts/pc2"))
        fault = None if again and again[0] in (500, 503) else f"after a sync that failed {again} was answered"
        fault = fault or ended_full(run, refused, [5], name) or reopened(program, store, {}, [])
        score.count(f"file {at} of a commit fails", fault)
        shutil.rmtree(store, ignore_errors=True)
    print(f"{len(bodies)} commits of {len(bodies)} files, of which one fails", flush=True)


def interrupted(run, kept):
    """Ten dumps with a commit each, and reading them back: what is wrong with an answer."""
    found = run.ask(request("PUT /hosts/pc1"))
    for seed in range(10):
        if found is None or found[0] != 201:
            return f"a host or a commit was answered by {found}"
        found = run.ask(request("POST /hosts/pc1/dumps?kind=full"))
        if found is None or found[0] != 201:
            return f"a dump was answered by {found}"
        dump = found[1].decode().split('"')[3]
        body = f"{seed} ".encode() * 5_000
        run.ask(request(f"PUT /dumps/{dump}/entry?path=f&kind=file", body))
        found = run.ask(request(f"POST /dumps/{dump}/commit"))
        kept[seed] = body
    return missing(run, kept, sorted(kept))


def interrupts(score, program, room):
    """Reads and writes are interrupted, again and again, once the program's libraries are loaded: they are tried again, and
    nobody sees it."""
    rules = ["read:error=EINTR:when=16+{0}", "write:error=EINTR:when=1+{0}", "pread64,pwrite64:error=EINTR:when=32+{0}"]
    for step in range(2, 12):
        store, kept = os.path.join(room, f"interrupt-{step}"), {}
        run = Run(program, store, under=traced([rule.format(step) for rule in rules]))
        fault = interrupted(run, kept)
        status, said = run.end()
        fault = fault or (f"the run ended with {status}: {said}" if status or said else None)
        fault = fault or reopened(program, store, kept, sorted(kept))
        score.count(f"each {step}th read and write interrupted", fault)
        shutil.rmtree(store, ignore_errors=True)
    print("10 runs whose reads and writes were interrupted", flush=True)


def calls_that_fail(score, program, room):
    """What strace can do to single calls, if it is there and may."""
    if subprocess.run(["sh", "-c", "strace -qq -o /dev/null true"], stderr=subprocess.DEVNULL).returncode:
        print("skipped: syncs that fail and calls that are interrupted, since strace isn't there or may not trace", flush=True)
        return
    failing_syncs(score, program, room)
    failing_parts(score, program, room)
    interrupts(score, program, room)


def main():
    program = os.path.abspath(sys.argv[1])
    kills, terms, pairs = [int(word) for word in sys.argv[2:5]] + [300, 100, 200][len(sys.argv) - 2 :]
    begun, score = time.monotonic(), Score()
    with tempfile.TemporaryDirectory() as room:
        limits(score, program, room)
        full_disks(score, program, room)
        last_room(score, program, room)
        calls_that_fail(score, program, room)
        starts(score, program, room, pairs)
        stops(score, program, room, signal.SIGTERM, terms)
        stops(score, program, room, signal.SIGKILL, kills)
    print(f"{time.monotonic() - begun:.0f} seconds")
    print(f"{score.tries - score.failed} passed, {score.failed} failed")
    sys.exit(1 if score.failed else 0)


main()
