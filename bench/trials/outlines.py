#!/usr/bin/env python3
"""Tries plans within random outlines: python3 bench/trials/outlines.py PATH/floorplan

Designs that `gen` makes, of 2 to 12 blocks, hard and mixed, are planned within 200 random outlines, with nets and without, from one or two starts. A
plan that is printed must lie in the outline, and `measure` must say of the stored placement in the same outline that it is legal and costs what was
printed. Where none is printed nothing may be stored as a placement, and where the status says that none fits, longer walks must find none either. The
first difference ends the run with status 1.
"""
import math
import os
import random
import subprocess
import sys
import tempfile

sys.dont_write_bytecode = True
sys.path.append(os.path.dirname(os.path.dirname(os.path.abspath(__file__))))
from common import fail, line_of

RUNS = 200


def run(words):
    done = subprocess.run(words, stdout=subprocess.PIPE, stderr=subprocess.DEVNULL, text=True)
    return done.returncode, done.stdout


def least_areas():
    """The areas of the blocks of o.blocks in sum, and the longest side of a hard one."""
    total, longest = 0, 0
    with open("o.blocks") as file:
        for line in file:
            words = line.replace("(", " ").replace(")", " ").replace(",", " ").split()
            if words[1:2] == ["hardrectilinear"]:
                sides = max(map(int, words[3::2])), max(map(int, words[4::2]))
                total, longest = total + sides[0] * sides[1], max(longest, *sides)
            elif words[1:2] == ["softrectangular"]:
                total += int(words[2])
    return total, longest


def tried(program, draw):
    """Whether a random design got a plan in a random outline."""
    blocks, kinds = draw.randint(2, 12), draw.choice(["hard", "mixed"])
    run([program, "gen", "--seed", str(draw.randrange(2**32)), "--count", str(blocks), "--kinds", kinds, "--out", "o", "--nodes", "1"])
    area, longest = least_areas()
    room = area * draw.uniform(0.9, 1.6)
    width = max(1, round(math.sqrt(room * draw.uniform(0.3, 3))), longest * draw.randint(0, 1))
    height = max(1, math.ceil(room / width))
    design = ["--format", "gsrc", "--blocks", "o.blocks", "--outline", "%dx%d" % (width, height)]
    if draw.randint(0, 1):
        design += ["--nets", "o.nets", "--pl", "o.pl", "--wire-weight", str(draw.choice([1, 3]))]
    if draw.randint(0, 3) == 0:
        design += ["--fixed"]
    starts = ["--starts", str(draw.randint(1, 2)), "--start-seed", str(draw.randrange(1000))]
    if os.path.exists("o.placed"):
        os.remove("o.placed")
    words = [program, "plan", *design, *starts, "--improve", "4000", "--nodes", "100", "--cert", "o.cert", "--pl-out", "o.placed"]
    status, text = run(words)
    if status not in (0, 1, 3):
        fail("status %d: %s" % (status, " ".join(words)))
    cost = line_of(text, "cost")
    if cost == "none":
        if os.path.exists("o.placed"):
            fail("no plan, and a placement: %s" % " ".join(words))
        if status == 1 and "cost none" not in run([*words[:2], *design, "--starts", "8", "--nodes", "1", "--cert", "o.cert"])[1]:
            fail("no plan fits, and one was found: %s" % " ".join(words))
        return False
    size = [int(word) for word in line_of(text, "size").split()]
    judged, said = run([program, "measure", *design, "--placed", "o.placed"])
    if size[0] > width or size[1] > height or judged != 0 or line_of(said, "status") != "Legal" or line_of(said, "cost") != cost:
        fail("size %s, cost %s, and measure says %s: %s" % (size, cost, said.split("\n")[:2], " ".join(words)))
    return True


def main():
    program = os.path.abspath(sys.argv[1])
    draw = random.Random(1)
    with tempfile.TemporaryDirectory() as folder:
        os.chdir(folder)
        found = sum(tried(program, draw) for _ in range(RUNS))
    print("%d outlines: %d plans, each legal in its outline" % (RUNS, found))


if __name__ == "__main__":
    main()
