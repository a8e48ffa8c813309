#!/usr/bin/env python3
"""Lists what the headline says: the definition modules to which the clauses of `run` lead, by `use` and `pub mod`, with the lines of each (blank lines and
`use` lines apart; modules of laws apart, which a reader may skip, since they are proved), by crate, in the order of the layers from the top. It prints the
table of docs/REVIEW.md; with --write it puts it there; with --check it says whether the page has it, by its status. Python 3.8 alone."""
import collections
import os
import re
import sys

TOP = os.path.dirname(os.path.dirname(os.path.realpath(__file__)))
PAGE = os.path.join(TOP, "docs", "REVIEW.md")
START = "crates/admin_cli/src/commands.rt"
USE = re.compile(r"\s*(?:pub )?(?:ghost )?use Rattle\.([a-z_0-9]+)\.specs\.([A-Za-z_.0-9]+)")
MODULE = re.compile(r"pub mod (\w+)")
ROW = "| Crate | Lines | Modules |"


def module_of(crate, parts):
    """The file of the longest beginning of these parts that is one."""
    for end in range(len(parts), 0, -1):
        path = f"crates/{crate}/specs/{'/'.join(parts[:end])}.antt"
        if os.path.exists(os.path.join(TOP, path)):
            return path
    return None


def lines_of(path):
    with open(os.path.join(TOP, path), encoding="utf-8") as text:
        return text.read().split("\n")


def leads_to(path):
    for line in lines_of(path):
        used = USE.match(line)
        if used and used.group(2) != "declared" and not used.group(2).startswith("declared."):
            yield module_of(used.group(1), used.group(2).strip(".").split("."))
        inner = MODULE.match(line)
        if inner and path.endswith(".antt"):
            yield f"{path[:-5]}/{inner.group(1)}.antt"


def reached():
    seen, waiting = set(), [START]
    while waiting:
        path = waiting.pop()
        if path and path not in seen:
            seen.add(path)
            waiting += leads_to(path)
    return sorted(seen - {START})


def is_laws(path):
    return "Laws" in os.path.basename(path) or "/laws/" in path or path.endswith("/laws.antt")


def count(path):
    return sum(1 for line in lines_of(path) if line.strip() and not re.match(r"\s*(pub )?use ", line))


def layers():
    """The crates by the table of docs/ARCHITECTURE.md, from the top."""
    found = []
    with open(os.path.join(TOP, "docs", "ARCHITECTURE.md"), encoding="utf-8") as text:
        for line in text:
            cells = line.split("|")
            if len(cells) == 6 and "`" in cells[3] and "`" not in cells[1]:
                found += re.findall(r"`(\w+)`", cells[3])
    return found[::-1]


def table():
    by = collections.defaultdict(list)
    for path in reached():
        if not is_laws(path):
            by[path.split("/")[1]].append((path.split("/specs/")[1][:-5], count(path)))
    rows = [ROW, "|---|---|---|"]
    order = layers()
    for crate in sorted(by, key=order.index):
        rows.append(f"| `{crate}` | {sum(it for _, it in by[crate])} | {', '.join(f'{name} {lines}' for name, lines in by[crate])} |")
    rows.append(f"| together | {sum(it for of in by.values() for _, it in of)} | {sum(len(it) for it in by.values())} modules of {len(by)} crates |")
    return rows


def main():
    rows = table()
    if "--write" not in sys.argv and "--check" not in sys.argv:
        print("\n".join(rows))
        return 0
    with open(PAGE, encoding="utf-8") as page:
        lines = page.read().split("\n")
    begin = lines.index(ROW)
    end = next(at for at in range(begin, len(lines)) if not lines[at].startswith("|"))
    if "--check" in sys.argv:
        if lines[begin:end] != rows:
            print("docs/REVIEW.md hasn't the modules as they are: tests/reading.py --write")
            return 1
        return 0
    with open(PAGE, "w", encoding="utf-8") as page:
        page.write("\n".join(lines[:begin] + rows + lines[end:]))
    return 0


if __name__ == "__main__":
    sys.exit(main())
