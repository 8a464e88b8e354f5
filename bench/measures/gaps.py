#!/usr/bin/env python3
"""Measures gaps: python3 bench/measures/gaps.py PATH/floorplan [BLOCKS..]

Designs of `gen`, seeds 1 to 10, hard and mixed, so twenty of each number of blocks, are planned by

    plan --starts 4 --nodes 1000

with one worker: by area alone, by area and wires (both weights 1), and so with `--bounds strong`; of 100 blocks by the last alone,
and seeds 1 to 3. Printed are, per number of blocks and way, the least, the mean and the greatest gap (cost less bound over cost),
and the greatest processor time. Gaps don't depend on the machine.
"""
import os
import subprocess
import sys
import tempfile

sys.dont_write_bytecode = True
sys.path.append(os.path.dirname(os.path.dirname(os.path.abspath(__file__))))
from common import line_of, measured

SIZES = (10, 20, 50, 100)
KINDS = ("hard", "mixed")
WAYS = {"area": [], "area and wires": ["--wire-weight", "1"], "area and wires, strong": ["--wire-weight", "1", "--bounds", "strong"]}
PLAN = ["--starts", "4", "--nodes", "1000", "--cert", "g.cert"]


def gap_of(program, blocks, seed, kinds, way):
    """The gap of a design in percent, and the processor time of its plan."""
    words = ["gen", "--seed", str(seed), "--count", str(blocks), "--kinds", kinds, "--out", "g", "--nodes", "1"]
    subprocess.run([program, *words], stdout=subprocess.DEVNULL)
    files = ["--blocks", "g.blocks"] + (["--nets", "g.nets", "--pl", "g.pl"] if way else [])
    status, text, seconds, _ = measured([program, "plan", "--format", "gsrc", *files, *way, *PLAN])
    if status not in (0, 3):
        sys.exit("%d blocks of seed %d: plan ended with status %d" % (blocks, seed, status))
    cost, bound = int(line_of(text, "cost")), int(line_of(text, "bound"))
    return 100 * (cost - bound) / cost, seconds


def main():
    program = os.path.abspath(sys.argv[1])
    sizes = [int(word) for word in sys.argv[2:]] or SIZES
    os.chdir(tempfile.mkdtemp())
    print("| Blocks | counted | designs | least gap | mean | greatest | processor time, at most |")
    print("|---|---|---|---|---|---|---|")
    for blocks in sizes:
        for name, way in WAYS.items():
            if blocks >= 100 and "strong" not in way:
                continue
            seeds = range(1, 4 if blocks >= 100 else 11)
            found = [gap_of(program, blocks, seed, kinds, way) for seed in seeds for kinds in KINDS]
            gaps = [gap for gap, _ in found]
            row = (blocks, name, len(found), "%.1f %%" % min(gaps), "%.1f %%" % (sum(gaps) / len(gaps)), "%.1f %%" % max(gaps))
            print("| " + " | ".join(map(str, row)) + " | %.2f s |" % max(seconds for _, seconds in found), flush=True)


if __name__ == "__main__":
    main()
