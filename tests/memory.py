#!/usr/bin/env python3
"""Runs of the program in which one allocation is refused, each in turn: tests/memory.py TOP [STEP] [PROGRAM].

`rt try --fail-alloc N` refuses the N-th allocation, and compiles the program anew for each N. It is called once, with a number that no run comes to;
the program that it made is kept, and its number is turned in place: it stands twice, where an allocation and where a growing one are
counted. PROGRAM is such a program that an earlier call kept. A run that gets to its number can also be made to stop there, which
tells how many allocations a run has. The last line is 'N passed, M failed'."""
import os
import re
import shutil
import subprocess
import sys
import tempfile
import time

# No run has so many allocations, and the program has these four bytes nowhere else.
NEVER = 1_979_339_339
COMPARE = b"\x48\x3d"
REFUSE = b"\x31\xc0"
STOP = b"\x0f\x0b"
NO_MEMORY = b"HTTP/1.1 507 Insufficient Storage\r\nContent-Length: 0\r\nConnection: close\r\n\r\n"
HEAD = "HTTP/1.1\r\nHost: b\r\n"


def request(line, body=b"", fields=""):
    length = f"Content-Length: {len(body)}\r\n" if body and not fields else ""
    return f"{line} {HEAD}{length}{fields}\r\n".encode() + body


def chunks(body):
    return b"%x\r\n%s\r\n0\r\n\r\n" % (len(body), body)


# A host, a full backup with a long file that comes in chunks, an incremental one, a restore, a deletion with its cleaning, a reopening.
FIRST = [
    request("PUT /hosts/pc1"),
    request("PUT /hosts/pc1/rules?IncrKeepCnt=3"),
    request("POST /hosts/pc1/dumps?kind=full"),
    request("PUT /dumps/1-0/entry?path=a.txt&kind=file", b"hello"),
    request("PUT /dumps/1-0/entry?path=d&kind=dir"),
    request("PUT /dumps/1-0/entry?path=d/l&kind=link", b"../a.txt"),
    request("PUT /dumps/1-0/entry?path=long&kind=file", chunks(b"x" * 70_000), "Transfer-Encoding: chunked\r\n"),
    request("POST /dumps/1-0/commit"),
    request("GET /hosts/pc1/backups/0/list"),
    request("GET /hosts/pc1/backups/0/file?path=a.txt"),
    request("POST /hosts/pc1/dumps?kind=incr"),
    request("DELETE /dumps/1-1/entry?path=d"),
    request("PUT /dumps/1-1/entry?path=b&kind=file", b"other"),
    request("POST /dumps/1-1/commit"),
    request("POST /hosts/pc1/backups/0/restores"),
    request("GET /restores/1-2/next"),
    request("GET /restores/1-2/next"),
    request("DELETE /restores/1-2"),
    request("POST /hosts/pc1/contacts?good=1"),
    request("GET /hosts/pc1/due"),
    request("POST /hosts/pc1/dumps?kind=incr"),
    request("DELETE /dumps/1-3/entry?path=b"),
    request("POST /dumps/1-3/commit"),
    request("DELETE /hosts/pc1/backups/1"),
    request("POST /night/clean?bucket=7"),
    request("POST /night/clean?bucket=7"),
    request("POST /night/sweep"),
    request("POST /reopen"),
    request("GET /stats"),
]

# On the folder of the first run, whose reopening was the second opening.
NEXT = [
    request("GET /hosts/pc1/backups"),
    request("GET /hosts/pc1/backups/2/file?path=long"),
    request("POST /hosts/pc1/dumps?kind=incr"),
    request("PUT /dumps/3-0/entry?path=new&kind=file", b"x" * 1000),
    request("POST /dumps/3-0/commit"),
    request("GET /hosts/pc1/backups/3/list"),
    request("POST /hosts/pc1/expire"),
]

# What a folder holds.
QUESTIONS = [
    request("GET /hosts"),
    request("GET /hosts/pc1/backups"),
    *(request(f"GET /hosts/pc1/backups/{number}/list") for number in range(5)),
    *(request(f"GET /hosts/pc1/backups/{number}/file?path={path}") for number in range(5) for path in ("a.txt", "b", "long", "new")),
    request("GET /hosts/pc1/due"),
    request("GET /stats"),
]

# The events of a night of one host.
NIGHT = [request("POST /hosts/pc1/expire"), *(request(f"POST /night/clean?bucket={it}") for it in range(16)), request("POST /night/sweep")]


class Wrong(Exception):
    """What came isn't what is to come."""


class Program:
    """The program of `rt try`, whose number is turned."""

    def __init__(self, path, kit):
        self.path = path
        with open(path, "rb") as it:
            text = it.read()
        word = COMPARE + NEVER.to_bytes(4, "little")
        self.places = [it.start() + len(COMPARE) for it in re.finditer(re.escape(word), text)]
        if len(self.places) != 2 or any(text[it + 6 : it + 8] != REFUSE for it in self.places):
            sys.exit(f"{path} keeps its number otherwise: this kit's `rt try` isn't the one that this was written for")
        toolchain = f"{kit}/toolchain"
        self.words = [f"{toolchain}/lib/ld-linux-x86-64.so.2", "--inhibit-cache", "--library-path", f"{toolchain}/lib", path]

    def turn(self, number, answer):
        with open(self.path, "r+b") as it:
            for place in self.places:
                it.seek(place)
                it.write(number.to_bytes(4, "little"))
                it.seek(place + 6)
                it.write(answer)

    def run(self, words, lines=(), number=NEVER, answer=REFUSE):
        """The status, the output and standard error of a run whose allocation of this number is refused."""
        self.turn(number, answer)
        ran = subprocess.run([*self.words, *words], input=b"".join(lines), capture_output=True, env={}, timeout=600)
        return ran.returncode, masked(ran.stdout), ran.stderr


def masked(text):
    """A text with naughts for the moments of its backups."""
    return re.sub(rb'("(?:start|end)":)(\d+)', lambda it: it[1] + b"0" * len(it[2]), text)


def compiled(top, folder):
    """The program of `rt try`: it is linked to as soon as it is there, and is whole when rt has ended."""
    print("compiling the program from its sources: some minutes", flush=True)
    words = ["rt", "try", "--fail-alloc", str(NEVER), "--", "pipe", "--store", f"{folder}/none"]
    run = subprocess.Popen(words, cwd=f"{top}/crates/backup_server", stdin=subprocess.DEVNULL, env={**os.environ, "TMPDIR": folder})
    kept, seen = f"{folder}/program", None
    while run.poll() is None:
        for at, _, names in os.walk(folder):
            if "program" in names and at != folder:
                seen = link(f"{at}/program", kept, seen)
        time.sleep(0.02)
    if seen is None:
        sys.exit("rt try made no program")
    return kept


def link(path, kept, seen):
    """Links to a file that isn't linked to yet; its number."""
    try:
        number = os.stat(path).st_ino
        if number != seen:
            os.link(path, f"{kept}.new")
            os.replace(f"{kept}.new", kept)
        return number
    except FileNotFoundError:
        return seen


def answers(output):
    """How many whole responses an output has; it may end with that of want of memory, which isn't counted."""
    count, rest = 0, output.removesuffix(NO_MEMORY)
    while rest:
        head, found, behind = rest.partition(b"\r\n\r\n")
        length = re.search(rb"\r\nContent-Length: (\d+)", head)
        if not found or not length or len(behind) < int(length[1]):
            raise Wrong(f"a response is cut: {rest[:100]}")
        count, rest = count + 1, behind[int(length[1]) :]
    return count


class Work:
    """A worked run: the words of its command and its requests, the folder that it begins with (None: it makes one), and what that folder
    holds after the first requests, for each number of them."""

    def __init__(self, name, program, folder, words, lines, begins=None, events=None):
        self.name, self.program, self.folder, self.words, self.lines, self.begins = name, program, folder, words, lines, begins
        self.store = f"{folder}/store"
        asked = events or lines
        self.states = [self.after(asked[:count]) for count in range(len(asked) + 1)]
        self.whole = self.ran()
        if self.whole[0] != 0 or self.held() != self.states[-1]:
            raise Wrong(f"{name} without a refusal ended with {self.whole[0]}: {self.whole[2]}")

    def begin(self):
        shutil.rmtree(self.store, ignore_errors=True)
        if self.begins:
            shutil.copytree(self.begins, self.store)

    def after(self, lines):
        self.begin()
        ran = self.program.run(["pipe", "--store", self.store], lines)
        if ran[0] != 0:
            raise Wrong(f"{self.name} ended with {ran[0]}: {ran[2]}")
        return self.held()

    def ran(self, number=NEVER, answer=REFUSE):
        self.begin()
        return self.program.run([*self.words, "--store", self.store], self.lines, number, answer)

    def held(self):
        """What the folder holds, by a run to which nothing is refused."""
        status, output, said = self.program.run(["pipe", "--store", self.store], QUESTIONS)
        if status != 0 or answers(output) != len(QUESTIONS):
            raise Wrong(f"the folder doesn't open: {status}, {said}")
        return output

    def allocations(self):
        """How many allocations the run has: the greatest number at which a run that stops there does stop."""
        few, many = 0, 1
        while self.ran(many, STOP)[0] != 0:
            few, many = many, many * 2
        while few + 1 < many:
            middle = (few + many) // 2
            if self.ran(middle, STOP)[0] != 0:
                few = middle
            else:
                many = middle
        return few

    def judge(self, number):
        """Whether the run went on as without the refusal."""
        status, output, said = ran = self.ran(number)
        if ran == self.whole:
            if self.held() != self.states[-1]:
                raise Wrong("answered as without the refusal, and the folder holds something else")
            return True
        if status != 6 or said.split(b"\n")[0] != b"no memory":
            raise Wrong(f"status {status}, {said[:300]}, {output[-200:]}")
        if not self.whole[1].startswith(output.removesuffix(NO_MEMORY)):
            raise Wrong(f"answered otherwise: {output[-200:]}")
        held = self.held()
        if held not in self.near(output):
            places = [place for place, state in enumerate(self.states) if state == held]
            raise Wrong(f"behind {answers(output)} answers the folder holds {'what comes after ' + str(places) if places else held}")
        return False

    def near(self, output):
        """What the folder may hold: what it does before or after the request that was at work, if requests were answered."""
        if not self.lines:
            return self.states
        count = answers(output)
        return self.states[count : count + 2]

    def all(self, step):
        """Tries each number of this step: how many passed and failed."""
        total, went_on, failed, tried = self.allocations(), 0, 0, 0
        for number in range(1, total + 1, step):
            tried += 1
            try:
                went_on += self.judge(number)
            except (Wrong, subprocess.TimeoutExpired) as wrong:
                failed += 1
                print(f"{self.name}, allocation {number}: {wrong}", flush=True)
            if tried % 100 == 0:
                print(f"{self.name}: {tried} tried, {failed} failed", flush=True)
        print(f"{self.name}: of {total} allocations {tried} were refused: {tried - went_on - failed} runs ended with 6, {went_on} as without the refusal, {failed} failed")
        return tried - failed, failed


def works(program, folder):
    """The worked runs, one by one, each on the folder that the one before it left."""
    pipe = ["pipe"]
    yield Work("a first run", program, folder, pipe, FIRST)
    first = f"{folder}/first"
    shutil.copytree(f"{folder}/store", first)
    yield Work("a second run", program, folder, pipe, NEXT, first)
    yield Work("a night", program, folder, ["night"], [], first, NIGHT)


def main(top, step="1", path=None):
    kit = os.path.dirname(subprocess.run(["rt", "doc"], stdout=subprocess.PIPE, check=True, text=True).stdout.strip())
    passed = failed = 0
    with tempfile.TemporaryDirectory(prefix="turretgage-memory-") as folder:
        kept = shutil.copy(path, f"{folder}/program") if path else compiled(top, folder)
        program = Program(kept, kit)
        for work in works(program, folder):
            # The next one begins with what this one leaves without a refusal.
            good, bad = work.all(int(step))
            work.ran()
            passed, failed = passed + good, failed + bad
    print(f"{passed} passed, {failed} failed")
    return 1 if failed else 0


if __name__ == "__main__":
    sys.exit(main(*sys.argv[1:]))
