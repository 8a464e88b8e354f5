#!/usr/bin/env python3
"""Counts what a change proves anew: python3 bench/measures/anew.py [--at REV] [--wanted] [CRATES..]

A change of what a crate promises proves anew the crate itself and all crates that stand on it, directly or not. For each crate, the
one with the most lines first, printed are its own lines of src, specs and proofs (.rt and .antt), the crates and the lines that are
proved anew, itself and tests among them, and how many are tests. A test crate is a library on which nothing stands. A second table
has the longest chain of lines to each program, which no number of processors shortens. With names of crates the first table has
only these. `--wanted` prints, in place of both tables, the figures that have a limit below; one above its limit has a mark behind
it. `--at REV` counts a revision of the repository in place of the files.
"""
import io
import os
import subprocess
import sys
import tarfile

TOP = os.path.dirname(os.path.dirname(os.path.dirname(os.path.abspath(__file__))))
PROGRAMS = ("sf_program", "sf_batch", "floorplan", "floorbatch")
PARTS, ENDINGS = ("src", "specs", "proofs"), (".rt", ".antt")

# What a change may prove anew at most, itself and tests among it: a crate, or the next one where the first isn't there; crates; lines.
WANTED = [
    (("sf_lex",), 23, None),
    (("sf_words",), 8, None),
    (("sf_parts", "sf_model"), 16, 36_000),
]
# The longest chains, in lines.
WANTED_CHAINS = [("sf_batch", 28_000)]


def files_here():
    """The names of all files of crates/ and of crates.txt, with their bytes."""
    with open(os.path.join(TOP, "crates.txt"), "rb") as file:
        yield "crates.txt", file.read()
    for crate in sorted(os.listdir(os.path.join(TOP, "crates"))):
        for part in PARTS:
            for folder, _, names in os.walk(os.path.join(TOP, "crates", crate, part)):
                for name in names:
                    with open(os.path.join(folder, name), "rb") as file:
                        yield os.path.relpath(file.name, TOP), file.read()


def files_at(revision):
    """The same of a revision."""
    packed = subprocess.run(["git", "-C", TOP, "archive", revision, "crates.txt", "crates"], stdout=subprocess.PIPE, check=True).stdout
    with tarfile.open(fileobj=io.BytesIO(packed)) as archive:
        for member in archive:
            if member.isfile():
                yield member.name, archive.extractfile(member).read()


class Crates:
    """What stands on what, by crates.txt: `below` has all crates below one, `above` all that a change of it proves anew."""

    def __init__(self, files):
        self.lines, with_main = {}, set()
        for name, text in files:
            if name == "crates.txt":
                listed = [line.partition("#")[0].strip() for line in text.decode().splitlines()]
                self.on = {line.split(":")[0].split()[0]: line.partition(":")[2].split() for line in listed if line}
                continue
            _, crate, part, *_ = name.split("/")
            if part in PARTS and name.endswith(ENDINGS):
                self.lines[crate] = self.lines.get(crate, 0) + text.count(b"\n")
            if name.endswith("/src/main.rt"):
                with_main.add(crate)
        self.on = {name: [it for it in on if it in self.on] for name, on in self.on.items()}
        self.below, self.chains = {}, {}
        for name in self.on:
            self.visit(name)
        self.above = {name: [it for it in self.on if it == name or name in self.below[it]] for name in self.on}
        self.tests = {name for name in self.on if self.above[name] == [name] and name not in with_main}

    def visit(self, name):
        """Finds all crates below one, and the longest chain of lines that ends with it."""
        if name not in self.below:
            for it in self.on[name]:
                self.visit(it)
            self.below[name] = set(self.on[name]).union(*(self.below[it] for it in self.on[name]))
            longest = max((self.chains[it] for it in self.on[name]), key=self.sum_of, default=[])
            self.chains[name] = [*longest, name]

    def sum_of(self, names):
        return sum(self.lines[name] for name in names)

    def row(self, name):
        """What a change of a crate proves anew: its own lines, crates, lines, and those of the tests."""
        anew, tests = self.above[name], [it for it in self.above[name] if it in self.tests]
        return self.lines[name], len(anew), self.sum_of(anew), len(tests), self.sum_of(tests)


def grouped(number):
    return format(number, ",")


def marked(number, most):
    return grouped(number) + (" !" if most is not None and number > most else "")


def print_wanted(crates):
    print("| What | crates | at most | lines | at most | its own lines | tests: crates | lines |\n|---|---|---|---|---|---|---|---|")
    for names, most_crates, most_lines in WANTED:
        name = next(it for it in names if it in crates.on)
        told = "`%s`" % name + (", since `%s` isn't there" % names[0] if name != names[0] else "")
        own, count, lines, *tests = crates.row(name)
        limits = ["" if most is None else grouped(most) for most in (most_crates, most_lines)]
        figures = [marked(count, most_crates), limits[0], marked(lines, most_lines), limits[1], *map(grouped, (own, *tests))]
        print("| a change of %s | %s |" % (told, " | ".join(figures)))
    for name, most in WANTED_CHAINS:
        chain = crates.chains[name]
        print("| the longest chain to `%s` | %d | | %s | %s | | | |" % (name, len(chain), marked(crates.sum_of(chain), most), grouped(most)))


def print_crates(crates, names):
    print("| Crate | lines | proved anew: crates | lines | of these tests: crates | lines |\n|---|---|---|---|---|---|")
    for name in sorted(names, key=lambda it: (-crates.row(it)[2], it)):
        print("| `%s` | %s |" % (name, " | ".join(map(grouped, crates.row(name)))))
    tests = crates.tests & set(names)
    print("%d crates, %s lines; %d of them tests, %s lines" % (len(names), grouped(crates.sum_of(names)), len(tests), grouped(crates.sum_of(tests))))


def print_chains(crates):
    print("\n| Program | longest chain, lines | crates of it, each with its lines |\n|---|---|---|")
    for name in PROGRAMS:
        chain = crates.chains[name]
        told = ", ".join("%s %s" % (it, grouped(crates.lines[it])) for it in chain)
        print("| `%s` | %s | %s |" % (name, grouped(crates.sum_of(chain)), told))


def main():
    words = sys.argv[1:]
    revision = words[words.index("--at") + 1] if "--at" in words[:-1] else None
    crates = Crates(files_here() if revision is None else files_at(revision))
    names = [word for at, word in enumerate(words) if not word.startswith("--") and words[at - 1 : at] != ["--at"]]
    unknown = [name for name in names if name not in crates.on]
    if unknown:
        sys.exit("no crate %s" % unknown[0])
    if "--wanted" in words:
        print_wanted(crates)
    else:
        print_crates(crates, names or list(crates.on))
        if not names:
            print_chains(crates)


if __name__ == "__main__":
    main()
