#!/usr/bin/env python3
"""Looks up what docs/CLAIMS.md names: python3 bench/trials/claims.py

Each row of its tables names calls, clauses and tests. Looked for are: the call as a function of its crate, exported at the
root unless the row says otherwise; each clause as an `ensures` of one of the row's calls, or a definition in a `specs` folder,
and behind a definition and a colon its fields; each test as a function under `#[test]`, and each script in bench/trials. Printed is a
line for each name that isn't there, and how many were looked up; a missing one ends the run with status 1.
"""
import os
import re
import sys

TOP = os.path.dirname(os.path.dirname(os.path.dirname(os.path.abspath(__file__))))
CRATES = os.path.join(TOP, "crates")
PROGRAMS = ("floorplan", "floorbatch")
RUNS = "sf_runs/src/tests"
TESTS = ("sf_input_tests/src", "sf_model_tests/src", "sf_search_tests/src")


def files(folder, ending):
    for at, _, names in os.walk(folder):
        for name in sorted(names):
            if name.endswith(ending):
                with open(os.path.join(at, name), encoding="utf-8") as file:
                    yield os.path.join(at, name), file.read()


def definitions():
    """What the specs of all crates and the code's types define, each with the text that follows up to the next one."""
    found = {}
    for crate in sorted(os.listdir(CRATES)):
        for _, text in files(os.path.join(CRATES, crate, "specs"), ".antt"):
            for piece in re.split(r"\n(?=\s*(?:abbrev pub|pub record|pub data|abbrev|record) )", text):
                head = re.match(r"\s*(?:abbrev pub|pub record|pub data|abbrev|record) (\S+)", piece)
                if head:
                    found.setdefault(head.group(1), []).append(piece)
        for _, text in files(os.path.join(CRATES, crate, "src"), ".rt"):
            for name in re.findall(r"pub (?:struct|trait|enum) (\w+)", text):
                found.setdefault(name, []).append(text)
    return found


def handed_out(crate):
    with open(os.path.join(CRATES, crate, "src", "lib.rt"), encoding="utf-8") as file:
        text = file.read()
    names = re.findall(r"pub use [\w:]+::(\w+);", text)
    for group in re.findall(r"pub use [\w:]+::\{([^}]*)\}", text):
        names += re.findall(r"\w+", group)
    return set(names) | set(re.findall(r"\npub (?:fn|struct|trait) (\w+)", text))


def contracts(crate, path):
    """The heads of the functions, or members of the type, of this path in the crate: their texts up to their bodies."""
    name = path[-1]
    owner = path[-2] if len(path) > 1 and path[-2][0].isupper() else None
    for _, text in files(os.path.join(CRATES, crate, "src"), ".rt"):
        if name[0].isupper():
            if re.search(r"pub (?:struct|trait) %s\b" % name, text):
                yield text
            continue
        for part in re.split(r"\n(?=(?:pub )?(?:impl|trait)\b)", text):
            if owner and not re.search(r"\b%s\b" % owner, part.split("{")[0]):
                continue
            for head in re.finditer(r"\bfn %s\b(.*?)(?=\n\s*(?:///|(?:pub )?(?:const )?fn )|\n\s*\{\s*\n|\Z)" % name, part, re.S):
                yield head.group(1)


def cells(line):
    return [cell.strip() for cell in re.split(r"(?<!\\)\|", line.strip().strip("|"))]


def calls_in(cell, last):
    if not cell.startswith("`"):
        return last if cell.startswith("the same") else []
    return [name.split("::") for name in re.findall(r"`([^`]+)`", cell) if "::" in name]


def unfound_calls(calls, cell):
    for call in calls:
        if not list(contracts(call[0], call[1:])):
            yield "::".join(call)
        elif "(" not in cell and call[0] not in PROGRAMS and call[1] not in handed_out(call[0]):
            yield "::".join(call) + " at the root"


def unfound_clauses(cell, heads, known):
    record = None
    for before, name in re.findall(r"([^`]*)`([^`]+)`", cell):
        if record and (before.strip() == ":" or (before.strip() == "," and name[0].islower())):
            if not any(re.search(r"\bpub %s\b" % name, piece) for piece in known[record]):
                yield "%s: %s" % (record, name)
            continue
        record = name if name in known and name[0].isupper() else None
        if not record and not any(re.search(r"\b(?:ensures|ghost) %s\b" % name, head) for head in heads):
            yield name
    if "(one)" in cell and not any(re.search(r"\bensures \{", head) for head in heads):
        yield "(one)"


def file_of(name):
    """Where the tests of this name stand: a file of whole runs, or the one of its name in a crate of tests."""
    run, _, of_run = name.rpartition("/")
    if run:
        return os.path.join(CRATES, RUNS, of_run + ".rt")
    places = [os.path.join(CRATES, folder, name + ".rt") for folder in TESTS]
    return next((place for place in places if os.path.exists(place)), name + ".rt")


def tests_in(cell):
    """The names of tests and scripts in the last column, each with the file where it should stand."""
    for part in cell.split("; "):
        named = re.match(r"(runs/\w+|\w+): (.*)", part)
        if named:
            file = file_of(named.group(1))
            for name in named.group(2).split(", "):
                yield file, name
        elif part.endswith(".py"):
            yield os.path.join(TOP, "bench", "trials", part), None


def unfound_tests(tests):
    for file, name in tests:
        if not os.path.exists(file):
            yield file
        elif name:
            with open(file, encoding="utf-8") as text:
                if not re.search(r"#\[test\]\s*(?:#\[[^\n]*\n\s*)*fn %s\b" % name, text.read()):
                    yield "%s: %s" % (os.path.basename(file), name)


def main():
    known, last, looked, missing = definitions(), [], 0, []
    with open(os.path.join(TOP, "docs", "CLAIMS.md"), encoding="utf-8") as file:
        rows = [line for line in file if line.startswith("| ") and "| Call |" not in line]
    for row in rows:
        claim, calls_cell, clauses, tests = cells(row)
        last = calls_in(calls_cell, last)
        heads = [head for call in last for head in contracts(call[0], call[1:])]
        places = list(tests_in(tests))
        looked += len(last) + len(re.findall("`", clauses)) // 2 + len(places)
        for name in [*unfound_calls(last, calls_cell), *unfound_clauses(clauses, heads, known), *unfound_tests(places)]:
            missing.append("%s | %s" % (claim[:60], name))
    print("\n".join(missing + ["%d rows, %d names looked up, %d not found" % (len(rows), looked, len(missing))]))
    sys.exit(1 if missing else 0)


if __name__ == "__main__":
    main()
