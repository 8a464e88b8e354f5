#!/usr/bin/env python3
"""Squares of the sides 1 to n in the smallest rectangle: python3 examples/squares/squares.py [PATH/floorplan]

Korf (Optimal Rectangle Packing: Initial Results, ICAPS 2003) gives the least area of a rectangle that holds the squares of
the sides 1 to n. Up to n = 7 a slicing plan reaches it, so the program must find just this area and prove it: its bound is
the cost, and no limit of decisions is spent. The designs are written into a temporary folder. Printed is a line for each
n; an area that isn't the published one ends the run with status 1.
"""
import os
import subprocess
import sys
import tempfile

PUBLISHED = {1: 1, 2: 6, 3: 15, 4: 35, 5: 60, 6: 99, 7: 154}
BUDGET = "2300000"
TOP = os.path.dirname(os.path.dirname(os.path.dirname(os.path.abspath(__file__))))


def blocks_text(n):
    lines = ["UCSC blocks 1.0", "NumSoftRectangularBlocks : 0", "NumHardRectilinearBlocks : %d" % n, "NumTerminals : 0"]
    lines += ["s%d hardrectilinear 4 (0, 0) (0, %d) (%d, %d) (%d, 0)" % (side, side, side, side, side) for side in range(1, n + 1)]
    return "\n".join(lines) + "\n"


def main():
    program = os.path.abspath(sys.argv[1]) if len(sys.argv) > 1 else os.path.join(TOP, "floorplan")
    with tempfile.TemporaryDirectory() as folder:
        blocks, cert = os.path.join(folder, "squares.blocks"), os.path.join(folder, "squares.cert")
        for n, area in PUBLISHED.items():
            with open(blocks, "w") as file:
                file.write(blocks_text(n))
            words = [program, "plan", "--format", "gsrc", "--blocks", blocks, "--cert", cert, "--nodes", BUDGET]
            out = subprocess.run(words, stdout=subprocess.PIPE, text=True).stdout
            said = dict(line.split(" ", 1) for line in out.splitlines())
            if (said.get("status"), said.get("area")) != ("Optimal", str(area)):
                sys.exit("n = %d: %s %s, and not Optimal %d" % (n, said.get("status"), said.get("area"), area))
            print("n = %d: %s, area %d as published, decided %s, plan %s" % (n, said["size"], area, said["decided"], said["plan"]), flush=True)


if __name__ == "__main__":
    main()
