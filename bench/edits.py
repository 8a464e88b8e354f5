#!/usr/bin/env python3
"""Prints the table of wrong bodies that docs/CHANGING.md has: python3 bench/edits.py [--write]

Each edit, crates/CRATE/must-fail/NAME.edit, begins with a line `# ..` that says what is wrong with the body that it makes. The table
has a row for each edit, by crate and name. `--write` puts it into docs/CHANGING.md, in place of the one that stands there. An edit
without such a line ends the run with status 1.
"""
import glob
import os
import sys

TOP = os.path.dirname(os.path.dirname(os.path.abspath(__file__)))
PAGE = os.path.join(TOP, "docs", "CHANGING.md")
HEAD = ["| Edit | What is wrong |", "|---|---|"]


class NoWords(Exception):
    """An edit whose first line doesn't say what is wrong."""


def row(name):
    """The row of an edit, by the name of its file."""
    with open(name, encoding="utf-8") as file:
        first = file.readline().rstrip("\n")
    crate, _, edit = os.path.relpath(name, os.path.join(TOP, "crates")).split(os.sep)
    if not first.startswith("# ") or not first[2:].strip() or "|" in first:
        raise NoWords("crates/%s/must-fail/%s: its first line doesn't say what is wrong, as `# ..`" % (crate, edit))
    return "| `%s/%s` | %s |" % (crate, edit[: -len(".edit")], first[2:].strip())


def table():
    """The lines of the table."""
    return HEAD + [row(name) for name in sorted(glob.glob(os.path.join(TOP, "crates", "*", "must-fail", "*.edit")))]


def around(lines):
    """Where the table stands in a page: its first line, and the first one after it."""
    begin = lines.index(HEAD[0])
    return begin, next((at for at in range(begin, len(lines)) if not lines[at].startswith("|")), len(lines))


def table_in_page():
    """The lines of the page, and those of its table."""
    with open(PAGE, encoding="utf-8") as file:
        lines = file.read().split("\n")
    begin, end = around(lines)
    return lines, lines[begin:end]


def main():
    try:
        made = table()
    except NoWords as error:
        sys.exit(str(error))
    if "--write" in sys.argv[1:]:
        lines, _ = table_in_page()
        begin, end = around(lines)
        lines[begin:end] = made
        with open(PAGE, "w", encoding="utf-8") as file:
            file.write("\n".join(lines))
    else:
        print("\n".join(made))


if __name__ == "__main__":
    main()
