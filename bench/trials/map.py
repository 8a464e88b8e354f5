#!/usr/bin/env python3
"""Compares the tables of documents with what they tell of: python3 bench/trials/map.py

Of the table of crates in docs/ARCHITECTURE.md: each crate of crates.txt stands in it once, and no other, below all crates of its
line; what a row says that its crate depends on is on the crate's line; each crate of that line which no other one of it stands on
is named, and so are all of the kit's. Of the paragraphs at the head of each crate: they are there, and name no crate besides those
of its line and those above it. Of all documents: each name that begins with sf_ is a crate. Of the table of wrong bodies in
docs/CHANGING.md: it is what bench/edits.py makes of the edits. Printed is a line for each difference, and how much was compared; a
difference ends the run with status 1.
"""
import glob
import os
import re
import sys

sys.dont_write_bytecode = True
sys.path.append(os.path.dirname(os.path.dirname(os.path.abspath(__file__))))
import edits
from common import TOP

OF_TESTS = "those that it tests"


def read(*names):
    with open(os.path.join(TOP, *names), encoding="utf-8") as file:
        return file.read()


class Crates:
    """The crates of crates.txt: what stands on the line of each, of the repository and of the kit, and all that is below it."""

    def __init__(self):
        lines = [line.partition("#")[0].strip() for line in read("crates.txt").splitlines()]
        words = {line.split(":")[0].split()[0]: line.partition(":")[2].split() for line in lines if line}
        self.own = {name: [it for it in on if it in words] for name, on in words.items()}
        self.kit = {name: {it for it in on if it not in words} for name, on in words.items()}
        self.below = {}
        for name in words:
            self.visit(name)

    def visit(self, name):
        if name not in self.below:
            for it in self.own[name]:
                self.visit(it)
            self.below[name] = set(self.own[name]).union(*(self.below[it] for it in self.own[name]))
        return self.below[name]

    def nearest(self, name):
        """The crates of its line on which no other one of the line stands."""
        return {it for it in self.own[name] if not any(it in self.below[other] for other in self.own[name])}

    def named(self, short):
        """The crate that the table calls so."""
        long = "sf_" + short.replace(" ", "_")
        return long if long in self.own else short


def rows():
    """The cells of each row of the table of crates."""
    part = read("docs", "ARCHITECTURE.md").partition("\n## The crates\n")[2].partition("\n## ")[0]
    return [[cell.strip() for cell in line.strip("|").split("|")] for line in part.splitlines() if line.startswith("| `")]


def faults_of_row(crates, name, cell, before):
    """What is wrong with the row of one crate, below the crates of these rows. That of a test crate needn't name what it tests."""
    words = [word.strip() for word in cell.split(",") if word.strip()]
    kit = {word.strip("*") for word in words if word.startswith("*")}
    told = {crates.named(word) for word in words if not word.startswith("*")}
    for it in sorted(set(crates.own[name]) - before):
        yield "%s stands above %s, which it depends on" % (name, it)
    for it in sorted(kit ^ crates.kit[name]):
        yield "%s: of the kit, %s is %s" % (name, it, "not on its line" if it in kit else "not named")
    for it in sorted(told - {OF_TESTS} - set(crates.own[name])):
        yield "%s: %s isn't on its line" % (name, it)
    for it in sorted(crates.nearest(name) - told if OF_TESTS not in told else ()):
        yield "%s: %s isn't named" % (name, it)


def faults_of_table(crates):
    before = set()
    for names, _, cell, *_ in rows():
        for name in re.findall(r"`(\w+)`", names):
            if name not in crates.own:
                yield "%s: no such crate" % name
            elif name in before:
                yield "%s stands in the table twice" % name
            else:
                yield from faults_of_row(crates, name, cell, before)
        before |= set(re.findall(r"`(\w+)`", names))
    for name in sorted(set(crates.own) - before):
        yield "%s isn't in the table" % name


def faults_of_head(crates, name):
    """What is wrong with the paragraphs at the head of a crate."""
    file = next(it for it in ("lib.rt", "main.rt") if os.path.exists(os.path.join(TOP, "crates", name, "src", it)))
    head = re.match(r"(?://!.*\n)*", read("crates", name, "src", file))[0]
    if not head:
        yield "%s: %s has no paragraph at its head" % (name, file)
    for it in sorted(set(re.findall(r"`(\w+)`", head)) - {name}):
        is_known = it in crates.own and (it in crates.own[name] or name in crates.below[it])
        if it.startswith("sf_") and not is_known:
            yield "%s: the head of %s names %s" % (name, file, it)


def faults_of_names(crates, page):
    for name in sorted(set(re.findall(r"\bsf_\w+", read(page))) - set(crates.own)):
        yield "%s: %s is no crate" % (page, name)


def faults_of_edits():
    """The rows by which the table of wrong bodies differs from what the edits say."""
    try:
        made, found = edits.table(), edits.table_in_page()[1]
    except edits.NoWords as error:
        yield str(error)
        return
    for line in [it for it in made if it not in found]:
        yield "CHANGING lacks the row %s" % line
    for line in [it for it in found if it not in made]:
        yield "CHANGING has the row %s" % line
    if sorted(made) == sorted(found) and made != found:
        yield "CHANGING has the rows of wrong bodies in another order"


def main():
    crates = Crates()
    pages = ["README.md", *(os.path.relpath(it, TOP) for folder in ("docs", "examples/*", "examples") for it in sorted(glob.glob(os.path.join(TOP, folder, "*.md"))))]
    faults = [*faults_of_table(crates), *faults_of_edits()]
    for name in crates.own:
        faults += faults_of_head(crates, name)
    for page in pages:
        faults += faults_of_names(crates, page)
    told = "%d crates, %d documents and %d wrong bodies compared, %d differences"
    print("\n".join([*faults, told % (len(crates.own), len(pages), len(edits.table_in_page()[1]) - len(edits.HEAD), len(faults))]))
    sys.exit(1 if faults else 0)


if __name__ == "__main__":
    main()
