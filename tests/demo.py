#!/usr/bin/env python3
"""What `backup_server demo NUMBER` has to print, by a model of its own: tests/demo.py NUMBER.

The job is stated here once more, over whole trees: the keeping rules as a set of backups, the pool as a set of contents with marks, a restore stream byte
by byte as in docs/FORMATS.md. Nothing here is made from the program's code, so tests/program.sh compares the two."""
import hashlib
import struct
import sys

DAY = 86400
CYCLE = 7 * DAY  # FillCycle 7
FULL_KEEP = (4, 2, 3)  # FullKeepCnt; each other rule has its default
FULL_KEEP_MIN, FULL_AGE_MAX = 1, 180
INCR_KEEP, INCR_KEEP_MIN, INCR_AGE_MAX = 6, 1, 30
DIRECTORY = object()  # a directory of mode 0755, all else 0; a file of mode 0644, all else 0, is its bytes


class Draws:
    def __init__(self, number):
        self.state = number

    def below(self, limit):
        self.state = (self.state * 6364136223846793005 + 1442695040888963407) % 2**64
        return (self.state >> 33) % limit


class Backup:
    def __init__(self, number, start, tree):
        self.number, self.start, self.tree, self.filled = number, start, tree, True


def kept(filled):
    """Which of these filled backups, the newest first, the counts keep."""
    chosen = []
    for at, backup in enumerate(filled):
        places = [j for j in range(len(FULL_KEEP)) if sum(FULL_KEEP[: j + 1]) > len(chosen)]
        older = filled[at + 1 : at + 2]
        if places and (not older or backup.start - older[0].start >= 2 ** places[0] * CYCLE - CYCLE // 2):
            chosen.append(backup)
    return chosen


def named(backups, now):
    """The backups of a host that its rules name: never the newest."""
    candidates = backups[-2::-1] if len(backups) > 1 else []
    filled = [it for it in candidates if it.filled]
    unfilled = [it for it in candidates if not it.filled]
    chosen = kept(filled)
    oldest = max(FULL_AGE_MAX * DAY, sum(count * 2**at * CYCLE for at, count in enumerate(FULL_KEEP)))
    for rank, it in enumerate(filled):
        if it not in chosen or (rank >= FULL_KEEP_MIN and now - it.start > oldest):
            yield it
    for rank, it in enumerate(unfilled):
        if rank >= INCR_KEEP or (rank >= INCR_KEEP_MIN and now - it.start > INCR_AGE_MAX * DAY):
            yield it


def edited(draws, tree):
    """The tree with ten directories and the drawn edits."""
    tree = {**tree, **{f"d{number}": DIRECTORY for number in range(10)}}
    for _ in range(1 + draws.below(20)):
        directory, name, choice = draws.below(10), draws.below(10), draws.below(4)
        path = f"d{directory}/f{name}"
        if choice == 0:
            tree.pop(path, None)
        else:
            value, times = draws.below(50), 1 + draws.below(100)
            tree[path] = f"v{value}".encode() * times
    return tree


def contents(tree):
    return {it for it in tree.values() if it is not DIRECTORY}


def clean(pool, hosts, bucket):
    """A content without a backup gains a mark, and leaves the pool if it has one."""
    protected = set().union(*(contents(backup.tree) for backups in hosts for backup in backups))
    for it in [it for it in pool if hashlib.md5(it).digest()[0] // 16 == bucket]:
        if it in protected:
            pool[it] = False
        elif pool[it]:
            del pool[it]
        else:
            pool[it] = True


def stream(tree):
    """A restore stream."""
    yield b"RST2"
    paths = sorted(tree, key=lambda path: path.encode().split(b"/"))
    for path in paths:
        node, name = tree[path], path.encode()
        kind, mode = (2, 0o755) if node is DIRECTORY else (1, 0o644)
        yield b"E" + struct.pack(">BH", kind, len(name)) + name + struct.pack(">IIIqI", mode, 0, 0, 0, 0)
        if node is not DIRECTORY:
            yield struct.pack(">IQ", 0, len(node))
            for at in range(0, len(node), 65536):
                piece = node[at : at + 65536]
                yield b"D" + struct.pack(">I", len(piece)) + piece
    yield b"Z" + struct.pack(">I", len(paths))


def back_up(draws, hosts, pool, day, host):
    now, backups = 1700000000 + DAY * day + 600 * host, hosts[host]
    full = day % 7 == host or not backups
    tree = edited(draws, {} if full else backups[-1].tree)
    number = backups[-1].number + 1 if backups else 0
    if backups:
        backups[-1].filled = backups[-1].number % 7 == 0
    backups.append(Backup(number, now, tree))
    pool.update((it, False) for it in contents(tree))
    gone = list(named(backups, now + 120))
    hosts[host] = [it for it in backups if it not in gone]


def main(number):
    draws, hosts, pool = Draws(number), [[] for _ in range(4)], {}
    for day in range(60):
        for host in range(4):
            back_up(draws, hosts, pool, day, host)
        for bucket in range(16):
            if bucket % 4 == day % 4:
                clean(pool, hosts, bucket)
    check, left = hashlib.md5(), [backup for backups in hosts for backup in backups]
    for backup in left:
        for part in stream(backup.tree):
            check.update(part)
    print(f"demo {number}\nhosts 4\nbackups {len(left)} filled {sum(it.filled for it in left)}")
    print(f"pool files {len(pool)} bytes {sum(map(len, pool))} marked {sum(pool.values())}\ncheck {check.hexdigest()}")


main(int(sys.argv[1]))
