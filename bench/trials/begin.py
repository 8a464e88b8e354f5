#!/usr/bin/env python3
"""Tries searches that begin with a placement: python3 bench/trials/begin.py PATH/floorplan

Sixty small designs of `gen`, hard and mixed, are planned once, and the placement that `--pl-out` stores is taken as that of
`--begin`: as it is, and with the blocks moved apart. With `--improve 0` and one decision the printed cost must be at most that of the
packed plan, which this script finds by itself: the last cut across before the last upward, packed to the lower left, and measured by
`measure`. Where packing moves nothing, or areas alone count, it must be at most the cost of the file. With `--improve 500`, alone
and beside `--starts 2`, it must be no greater. `measure` must call each new placement Legal, at the printed cost. Placements that no
slicing tree cuts, sizes that aren't listed, blocks without a line and files that aren't there must be refused, in their order.
Printed is a line for each kind of design; the first difference ends the run with status 1.
"""
import os
import random
import subprocess
import sys
import tempfile

sys.dont_write_bytecode = True
sys.path.append(os.path.dirname(os.path.dirname(os.path.abspath(__file__))))
from common import fail, generated, line_of, write

SEEDS = range(30)
PINWHEEL = [("b0", 0, 0, 2, 1), ("b1", 1, 2, 2, 1), ("b2", 2, 0, 1, 2), ("b3", 0, 1, 1, 2), ("b4", 1, 1, 1, 1)]


def run(words):
    """The status and what is printed."""
    done = subprocess.run(words, stdout=subprocess.PIPE, text=True)
    return done.returncode, done.stdout


def placed_in(name):
    """The placed blocks of a pl text: name, x, y, width and height."""
    found = []
    with open(name) as file:
        for line in file:
            words = line.replace("(", " ").replace(")", " ").replace(",", " ").replace("=", " ").split()
            if len(words) > 5 and words[3] == "DIMS":
                found.append((words[0], *(int(word) for word in (words[1], words[2], words[4], words[5]))))
    return found


def pl_of(spots):
    return "UCLA pl 1.0\n" + "".join("%s %d %d DIMS = (%d, %d) : N\n" % spot for spot in spots)


def parts_of(spots):
    """The axis of the cut that is taken, and both parts, or none where there is no cut."""
    for axis in (0, 1):
        in_order = sorted(spots, key=lambda s: (s[1 + axis], s[3 + axis]))
        for place in range(len(in_order) - 1, 0, -1):
            if max(s[1 + axis] + s[3 + axis] for s in in_order[:place]) <= in_order[place][1 + axis]:
                return axis, in_order[:place], in_order[place:]
    return None


def packed(spots, x=0, y=0):
    """The spots of the packed plan with its lower left corner here, and its size."""
    if len(spots) == 1:
        name, _, _, w, h = spots[0]
        return [(name, x, y, w, h)], w, h
    axis, first, second = parts_of(spots)
    left, w, h = packed(first, x, y)
    right, v, g = packed(second, x + w, y) if axis == 0 else packed(second, x, y + h)
    return left + right, *((w + v, max(h, g)) if axis == 0 else (max(w, v), h + g))


def apart(spots, stream):
    """The same blocks with space between them, in the same order both ways."""
    many = stream.randint(2, 5)
    return [(name, many * x - 7, many * y + 3, w, h) for name, x, y, w, h in spots]


def in_a_row(spots):
    """The same blocks side by side, the first one wider than any block is."""
    row, x = [], 0
    for name, _, _, w, h in spots:
        w += 0 if row else 900
        row.append((name, x, 0, w, h))
        x += w
    return row


class Design:
    def __init__(self, program, words):
        self.program, self.words = program, words

    def cost_of(self, spots):
        """What `measure` says that the spots cost."""
        write("m.placed", pl_of(spots))
        status, out = run([self.program, "measure", *self.words, "--placed", "m.placed"])
        if status != 0 or line_of(out, "status") != "Legal":
            fail("measure of %s: status %d, %s" % (self.words, status, out))
        return int(line_of(out, "cost"))

    def plan(self, *more):
        """The printed cost of a search of one decision, whose placement is stored and measured."""
        status, out = run([self.program, "plan", *self.words, "--nodes", "1", *more, "--cert", "s.cert", "--pl-out", "s.placed"])
        if status not in (0, 3) or line_of(out, "cost") == "none":
            fail("plan of %s with %s: status %d, %s" % (self.words, more, status, out))
        cost = int(line_of(out, "cost"))
        if self.cost_of(placed_in("s.placed")) != cost:
            fail("plan of %s with %s: the placement doesn't cost %d" % (self.words, more, cost))
        return cost

    def tried(self, spots):
        """The packed plan's cost, beside which each search that begins with the spots is held."""
        bound = self.cost_of(packed(spots)[0])
        write("b.placed", pl_of(spots))
        begun = self.plan("--begin", "b.placed", "--improve", "0")
        improved = self.plan("--begin", "b.placed", "--improve", "500")
        beside = self.plan("--begin", "b.placed", "--improve", "500", "--starts", "2", "--moves", "100")
        if begun > bound or improved > begun or beside > bound:
            fail("%s: packed %d, begun %d, improved %d, beside walks %d" % (self.words, bound, begun, improved, beside))
        return bound

    def refused(self, spots, wanted):
        """A placement that is refused by this line."""
        if spots is not None:
            write("r.placed", pl_of(spots))
        status, out = run([self.program, "plan", *self.words, "--nodes", "1", "--begin", "r.placed" if spots is not None else "none.placed", "--cert", "r.cert"])
        if (status, out) != wanted or os.path.exists("r.cert"):
            fail("%s: status %d, %r in place of %r" % (self.words, status, out, wanted))


def bad(fault):
    return 5, "error BadInput design 0 %s\n" % fault


def designs(program, folder, kinds):
    """Plans each design of these kinds, and begins with what was found."""
    gained = 0
    for seed in SEEDS:
        stream = random.Random(seed)
        base = generated(program, folder, seed + 1, stream.randint(2, 9), kinds)
        more = [] if seed % 2 else ["--nets", base[3].replace(".blocks", ".nets"), "--pl", base[3].replace(".blocks", ".pl"), "--wire-weight", "1"]
        design = Design(program, base + more)
        first = design.plan("--starts", "1", "--moves", "30", "--improve", "0")
        spots = placed_in("s.placed")
        stays = sorted(packed(spots)[0]) == sorted(spots)
        if design.tried(spots) > first and (stays or not more):
            fail("%s: a stored placement is packed to a dearer plan" % design.words)
        design.tried(apart(spots, stream))
        gained += first > design.plan("--begin", "b.placed", "--improve", "500")
        overlapping = [spots[0], (spots[1][0], spots[0][1], spots[0][2], spots[1][3], spots[1][4]), *spots[2:]]
        design.refused(overlapping, bad("NotSlicing"))
        design.refused(in_a_row(spots), bad("Unlisted " + spots[0][0]))
        design.refused(spots[:-1], bad("MissingPlace " + spots[-1][0]))
        design.refused(spots + spots[:1], bad("DuplicateName " + spots[0][0]))
        design.refused(None, (7, ""))
    print("%s: %d designs, of which an improvement made %d cheaper" % (kinds, len(SEEDS), gained), flush=True)


def main():
    program = os.path.abspath(sys.argv[1])
    with tempfile.TemporaryDirectory() as folder:
        os.chdir(folder)
        for kinds in ("hard", "mixed"):
            designs(program, folder, kinds)
        sides = {name: (w, h) for name, _, _, w, h in PINWHEEL}
        head = "UCSC blocks 1.0\nNumSoftRectangularBlocks : 0\nNumHardRectilinearBlocks : 5\nNumTerminals : 0\n"
        write("p.blocks", head + "".join("%s hardrectilinear 4 (0, 0) (0, %d) (%d, %d) (%d, 0)\n" % (name, h, w, h, w) for name, (w, h) in sides.items()))
        Design(program, ["--format", "gsrc", "--blocks", "p.blocks"]).refused(PINWHEEL, bad("NotSlicing"))
        print("the pinwheel is refused")


if __name__ == "__main__":
    main()
