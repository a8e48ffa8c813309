#!/usr/bin/env python3
"""Holds the layers of docs/ARCHITECTURE.md. It reads that page's three tables (which crates a layer has and which layers it may
name; who never names what; what stands over a limit today, and why), crates.txt, and the `use` and `ghost use` lines of each
crate's src/, specs/ and proofs/. A line is printed for each of these, and the status is then 1:

  - a crate of crates.txt in no layer or in two, a crate of the table that crates.txt hasn't, a layer that isn't there;
  - a crate that names one of a layer that its own may not name; a row of crates.txt with a crate of a higher layer;
  - a name that its crate's row of crates.txt hasn't; a row that leads to itself; a name in a row that no line of its crate names;
    more paths through crates.txt than WALKS (rt walks every one of them, twice for each proof: docs/ARCHITECTURE.md);
  - a crate that names what the second table keeps from it;
  - a crate over 1,500 lines of code (blank lines and comments apart) or 100 functions (`fn` of src/, tests too);
  - a line of a definition over 140 columns: of a file of specs/ without laws, `use` lines and comments apart;
  - more of these than the third table allows by name; or a row of it that nothing needs any more.

Printed and not judged: how many files of specs/ mix definitions with laws: those not called Laws that import proofs of std (--mixed
lists them).
It needs Python 3.8 alone, and a second or two. `tests/layers.py TOP` reads another checkout."""
import argparse
import os
import re
import sys

LINES, FUNCTIONS, COLUMNS, WALKS = 1_500, 100, 140, 1_500_000
# What the kit always has, under `Rattle.` and in paths.
ALWAYS = {"std", "core", "mathlib"}
# First parts of a path that are the crate's own.
OWN = {"crate", "self", "super"}

USE = re.compile(r"\s*(?:pub(?:\([a-z ]+\))? )?(ghost )?use (.*)")
PATH = re.compile(r"(?<![\w:.])([a-z_][a-z_0-9]*)((?:::[A-Za-z_][A-Za-z_0-9]*)+)")
FUNCTION = re.compile(r"\s*(?:pub(?:\([a-z ]+\))? )?(?:const |unsafe |ghost )*fn \w")
WORD = re.compile(r"[A-Za-z_][A-Za-z_0-9]*")


class Page:
    """The tables of docs/ARCHITECTURE.md."""

    def __init__(self, path):
        self.layers, self.may, self.layer_of, self.faults = [], {}, {}, []
        self.never, self.allowed = [], {}
        with open(path, encoding="utf-8") as page:
            lines = page.read().split("\n")
        for layer, may, crates, _ in rows_under(lines, "| Layer | May name | Crates | What they have in common |"):
            self.add_layer(layer, may, crates)
        for who, what, _ in rows_under(lines, "| Who | Never names | Why |"):
            self.never.append((self.crates_of(who), re.findall(r"`([^`]+)`", what)))
        for limit, counts, _ in rows_under(lines, "| Limit | Who stands over it, by how many | Why, and until when |"):
            for crate, count in re.findall(r"`(\w+)` (\d+)", counts):
                self.allowed[limit, crate] = int(count)
        if not self.layers or not self.never:
            self.faults.append(f"{path}: a table of layers, or of names, isn't there")

    def add_layer(self, layer, may, crates):
        names = [it.strip() for it in may.split(",") if it.strip()]
        above = self.layers[:] if names == ["all above"] else [it for it in names if it != "none"]
        for name in above:
            if name not in self.layers:
                self.faults.append(f"docs/ARCHITECTURE.md: {layer} may name {name}, which is no layer above it in the table")
        self.layers.append(layer)
        self.may[layer] = {layer, *above}
        for crate in re.findall(r"`(\w+)`", crates):
            if crate in self.layer_of:
                self.faults.append(f"docs/ARCHITECTURE.md: {crate} stands in two layers")
            self.layer_of[crate] = layer

    def crates_of(self, who):
        """The crates that a cell means: layers by name and crates in `..`; after `all but` the others."""
        others = who.startswith("all but ")
        words = [it.strip() for it in who.replace("all but ", "").split(",")]
        named = set()
        for word in words:
            if word.startswith("`"):
                named.add(word.strip("`"))
            elif word in self.may:
                named |= {crate for crate, layer in self.layer_of.items() if layer == word}
            else:
                self.faults.append(f"docs/ARCHITECTURE.md: {word} is neither a layer nor a crate in `..`")
        return {it for it in self.layer_of if it not in named} if others else named


def rows_under(lines, head):
    """The cells of each row of the table that has this head."""
    if head not in lines:
        return
    for line in lines[lines.index(head) + 2 :]:
        if not line.startswith("|"):
            return
        yield [it.strip() for it in line.strip("|").split("|")]


def read_rows(path):
    rows = {}
    with open(path, encoding="utf-8") as text:
        for line in text:
            if line.strip() and not line.startswith("#"):
                head, _, below = line.partition(":")
                rows[head.split()[0]] = below.split()
    return rows


class Crate:
    """What the files of a crate name, and how large they are."""

    def __init__(self, top, name, known):
        self.name, self.known = name, known
        # by the name of a crate: the names that follow it in a path, with the first place where it stands
        self.named, self.places = {}, {}
        self.code = self.functions = self.long = 0
        self.mixed, self.long_at = [], []
        for part in ("src", "specs", "proofs"):
            for at, _, files in sorted(os.walk(os.path.join(top, "crates", name, part))):
                for file in sorted(files):
                    self.read(os.path.relpath(os.path.join(at, file), top), os.path.join(at, file), part)

    def read(self, shown, path, part):
        with open(path, encoding="utf-8") as text:
            lines = text.read().split("\n")
        is_code = path.endswith(".rt")
        has_laws = "Laws" in os.path.basename(path) or "/laws/" in path
        uses, statement = 0, ""
        for number, line in enumerate(lines, 1):
            bare = line.strip()
            if is_code and bare and not bare.startswith("//"):
                self.code += 1
                self.functions += bool(FUNCTION.match(line))
            statement += bare
            if USE.match(statement) and statement.count("{") > statement.count("}"):
                continue
            if found := USE.match(statement):
                uses += "Rattle.std.proofs" in statement
                self.add_use(found.group(2), is_code and not found.group(1), f"{shown}:{number}")
            elif part == "src" and is_code and not bare.startswith("//"):
                for first, rest in PATH.findall(bare):
                    if first in self.known or first == "std":
                        self.add(first, WORD.findall(rest), f"{shown}:{number}")
            statement = ""
        if part == "specs" and not has_laws:
            if uses:
                self.mixed.append(shown)
            else:
                self.find_long(shown, lines)

    def find_long(self, shown, lines):
        for number, line in enumerate(lines, 1):
            if len(line) > COLUMNS and not USE.match(line) and not line.lstrip().startswith("--"):
                self.long += 1
                self.long_at.append(f"{shown}:{number}")

    def add_use(self, path, is_plain, place):
        words = WORD.findall(path)
        if not is_plain and words[0] == "Rattle":
            self.add(words[1], words[2:], place)
        elif is_plain and words[0] not in OWN and (words[0] in self.known or words[0] == "std"):
            self.add(words[0], words[1:], place)

    def add(self, crate, items, place):
        if crate != self.name:
            self.named.setdefault(crate, {})
            for item in items or [""]:
                self.named[crate].setdefault(item, place)
            self.places.setdefault(crate, place)


def walks(rows, name, seen):
    """How many paths lead down from a row, its own among them; 0 for a crate of the kit. Stops at a row that leads to itself."""
    if name not in seen:
        seen[name] = 0
        seen[name] = 1 + sum(walks(rows, it, seen) for it in rows[name]) if name in rows else 0
    return seen[name]


def walks_of(rows):
    seen = {}
    return sum(walks(rows, it, seen) for it in rows)


def below(rows, name, seen):
    """All crates that a row leads to, with those of the kit."""
    if name not in seen:
        seen[name] = set()
        seen[name] = set(rows.get(name, [])).union(*[below(rows, it, seen) for it in rows.get(name, [])])
    return seen[name]


def judge_layers(page, rows, crates):
    for name in rows:
        if name not in page.layer_of:
            yield f"crates.txt: {name} stands in no layer of docs/ARCHITECTURE.md"
    for name in page.layer_of:
        if name not in rows:
            yield f"docs/ARCHITECTURE.md: crates.txt has no {name}"
    for crate in crates:
        layer = page.layer_of.get(crate.name)
        for other in crate.named:
            its = page.layer_of.get(other)
            if layer and its and its not in page.may[layer]:
                yield f"{crate.places[other]}: {crate.name} is of the layer {layer} and may not name {other}, which is of {its}"
    height = {layer: index for index, layer in enumerate(page.layers)}
    for name in rows:
        layer = page.layer_of.get(name)
        for other in rows[name]:
            its = page.layer_of.get(other)
            if layer and its and height[its] > height[layer]:
                yield f"crates.txt: {name} is of the layer {layer} and may not stand on {other}, which is of {its}, above it"


def judge_rows(rows, crates):
    seen = {}
    for name in rows:
        if name in below(rows, name, seen):
            yield f"crates.txt: {name} leads to itself"
    for crate in crates:
        for other, place in crate.places.items():
            if other not in rows[crate.name] and other not in ALWAYS:
                yield f"{place}: {crate.name} names {other}, which its row of crates.txt hasn't"
    count = walks_of(rows)
    if count > WALKS:
        yield f"crates.txt: {count:,} paths, where {WALKS:,} may be: pass names on (docs/ARCHITECTURE.md, 'Rows of crates.txt')"


def judge_names(page, crates):
    for names, kept in page.never:
        for crate in crates:
            if crate.name not in names:
                continue
            for it in kept:
                first, _, item = it.partition("::")
                found = crate.named.get(first, {})
                place = found.get(item) if item else crate.places.get(first)
                if place:
                    yield f"{place}: {crate.name} names {it}, which it never does"


def judge_spare(rows, crates):
    for crate in crates:
        for other in rows[crate.name]:
            if other not in crate.named:
                yield f"crates.txt: {crate.name} has {other}, which no line of it names"


def judge_sizes(page, crates):
    for crate in crates:
        for limit, count, most in (("lines", crate.code, LINES), ("functions", crate.functions, FUNCTIONS), ("columns", crate.long, 0)):
            allowed = page.allowed.get((limit, crate.name))
            where = " (" + " ".join(crate.long_at) + ")" if limit == "columns" else ""
            if count > (most if allowed is None else allowed):
                yield f"crates/{crate.name}: {count} {shown_limit(limit)}, where {most if allowed is None else allowed} may be{where}"
            elif allowed is not None and count <= most:
                yield f"docs/ARCHITECTURE.md: {crate.name} needs no row for its {limit} any more: it has {count}"
    for limit, name in page.allowed:
        if name not in [it.name for it in crates]:
            yield f"docs/ARCHITECTURE.md: {name} of the limit of {limit} is no crate"


def shown_limit(limit):
    return f"lines of definitions over {COLUMNS} columns" if limit == "columns" else "lines of code" if limit == "lines" else limit


def main():
    words = argparse.ArgumentParser(description=__doc__, formatter_class=argparse.RawDescriptionHelpFormatter)
    words.add_argument("top", nargs="?", default=os.path.dirname(os.path.dirname(os.path.realpath(__file__))))
    words.add_argument("--mixed", action="store_true", help="list the files of specs/ that mix definitions with laws")
    asked = words.parse_args()
    page = Page(os.path.join(asked.top, "docs", "ARCHITECTURE.md"))
    rows = read_rows(os.path.join(asked.top, "crates.txt"))
    known = {*rows, *[it for row in rows.values() for it in row]}
    crates = [Crate(asked.top, it, known) for it in rows]
    faults = [*page.faults, *judge_layers(page, rows, crates), *judge_rows(rows, crates), *judge_names(page, crates)]
    faults += [*judge_spare(rows, crates), *judge_sizes(page, crates)]
    for fault in faults:
        print(fault)
    mixed = [path for it in crates for path in it.mixed]
    if asked.mixed:
        print("\n".join(mixed))
    print(f"{len(mixed)} files of specs/ mix definitions with laws")
    print(f"{len(rows)} crates in {len(page.layers)} layers, {walks_of(rows):,} paths through crates.txt, {len(faults)} faults")
    return 1 if faults else 0


if __name__ == "__main__":
    sys.exit(main())
