#!/usr/bin/env python3
"""Tries what a terminal shows of a long search: python3 bench/trials/progress.py [PATH/floorplan]

PATH is the start script by default. Squares of the sides 1 to 7 are planned with a budget of 300,000 decisions, once with
pipes, once with a terminal of its own in the place of the standard error, and once with one terminal for both outputs.
The pipes must take the report alone. The terminal must take a line each 65,536 decisions and then one that clears it;
the standard output must be the same byte for byte; and where both go to one terminal, the line must be gone before the
report. The first difference ends the run with status 1.
"""
import os
import pty
import subprocess
import sys
import tempfile

TOP = os.path.dirname(os.path.dirname(os.path.dirname(os.path.abspath(__file__))))
BUDGET, STRIDE = 300_000, 65_536
CLEAR = b"\r\x1b[K"


def read_all(terminal):
    """What a terminal took, until the last of those that write to it has ended."""
    taken = b""
    while True:
        try:
            piece = os.read(terminal, 4096)
        except OSError:
            return taken
        if not piece:
            return taken
        taken += piece


def with_terminal(words, is_for_both):
    """The standard output where it is a pipe, and what the terminal took."""
    master, slave = pty.openpty()
    process = subprocess.Popen(words, stdout=slave if is_for_both else subprocess.PIPE, stderr=slave)
    os.close(slave)
    taken = read_all(master)
    out = b"" if is_for_both else process.stdout.read()
    process.wait()
    os.close(master)
    return out, taken


def same(what, found, wanted):
    if found != wanted:
        sys.exit("%s: %r, and not %r" % (what, found, wanted))


def main():
    program = os.path.abspath(sys.argv[1]) if len(sys.argv) > 1 else os.path.join(TOP, "floorplan")
    os.environ.pop("FLOORPLAN_PROGRESS", None)
    with tempfile.TemporaryDirectory() as folder:
        blocks = os.path.join(folder, "squares.blocks")
        with open(blocks, "w") as file:
            file.write("UCSC blocks 1.0\nNumSoftRectangularBlocks : 0\nNumHardRectilinearBlocks : 7\nNumTerminals : 0\n")
            file.writelines("s%d hardrectilinear 4 (0, 0) (0, %d) (%d, %d) (%d, 0)\n" % (n, n, n, n, n) for n in range(1, 8))
        words = [program, "plan", "--format", "gsrc", "--blocks", blocks, "--cert", os.path.join(folder, "squares.cert"), "--nodes", str(BUDGET), "--long"]
        plain = subprocess.run(words, stdout=subprocess.PIPE, stderr=subprocess.PIPE)
        same("standard error without a terminal", plain.stderr, b"")
        # The start script sees the terminal by itself; the program alone is told.
        with open(program, "rb") as file:
            if file.read(2) != b"#!":
                os.environ["FLOORPLAN_PROGRESS"] = "1"
        lines = [b"floorplan: %d of %d decided" % (count, BUDGET) for count in range(STRIDE, BUDGET + 1, STRIDE)]
        told = b"".join(CLEAR + line for line in lines) + CLEAR
        out, taken = with_terminal(words, False)
        same("standard output beside a terminal", out, plain.stdout)
        same("terminal", taken, told)
        _, taken = with_terminal(words, True)
        same("terminal of both", taken, told + plain.stdout.replace(b"\n", b"\r\n"))
    print("the terminal shows %d lines, and the report is the same" % len(lines))


if __name__ == "__main__":
    main()
