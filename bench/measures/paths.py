#!/usr/bin/env python3
"""Measures the bound with paths: python3 bench/measures/paths.py PATH/floorplan [roots] [rim] [decisions] [decision] [speed]

roots: generated designs of 10, 20, 50 and 100 blocks, seeds 1 to 3: how far the bound lies below the floorplan of
`plan --starts 4 --bounds strong --nodes 1`, as a share of its cost, in the mean of the three; and the same by standard bounds.
rim: the same of designs with pads on the rim of an outline of 1.15 times the blocks' area, which the script makes: a net of two
blocks for each block with a pad of its own, and as many without. Walks seldom find a floorplan that fits such an outline. So the
pads stand on the rim of a square first, the walks find a floorplan without an outline, the outline gets the ratio of its sides,
and the pads are moved with it. The floorplan then fits, and costs at least as much as the best one.
decisions: generated designs of 6 blocks, seeds 1 to 3: the subproblems that are decided with strong bounds, in sum, as a part
of those with standard ones.
decision: generated designs of 20 and 100 blocks: the processor time of a decision with strong bounds, as a part of that with
standard ones; what a run with one decision takes is left out of both.
speed: a design of 300 blocks, 1,900 nets and 570 pads, and one at the limits of the file: what finding the paths adds to the
processor time of `plan --nodes 1`, and testing them to that of `check`.
Without a choice all run. Each line has what was measured and what is wanted, which is the most that it may be. Times are the
least of three runs, user and system. Where a figure is above what is wanted, the run ends with status 1.
"""
import os
import random
import sys
import tempfile

sys.dont_write_bytecode = True
sys.path.append(os.path.dirname(os.path.dirname(os.path.abspath(__file__))))
from common import line_of, measured, paths_in

AIMS = {10: 16, 20: 14, 50: 14, 100: 14}
RIM_AIM = 30
DECISIONS_AIM = 0.75
MOST = 2_900_000
DECISION_AIM = 1.2
BUDGETS = {20: 100_000, 100: 19_000}
SPEED = ((300, 1_900, 570, 0.2), (320, 65_536, 16_384, 2.0))
TEST_AIM = 0.05
STRONG = ["--bounds", "strong"]
WIRES = ["--wire-weight", "1"]
ROOM = 1.15
missed = []


def tell(what, figure, wanted, unit, more):
    print("%s: %.2f%s, wanted %.2f%s; %s" % (what, figure, unit, wanted, unit, more), flush=True)
    if figure > wanted:
        missed.append(what)


def gsrc(base):
    return ["--format", "gsrc", "--blocks", base + ".blocks", "--nets", base + ".nets", "--pl", base + ".pl"]


def generated(program, folder, seed, count):
    """The words that name a generated design."""
    base = os.path.join(folder, "gen-%d-%d" % (count, seed))
    measured([program, "gen", "--seed", str(seed), "--count", str(count), "--kinds", "hard", "--out", base, "--nodes", "1"])
    return gsrc(base)


def stored(base, blocks, nets, pads):
    """Stores a design of hard blocks."""
    with open(base + ".blocks", "w") as file:
        file.write("UCSC blocks 1.0\nNumSoftRectangularBlocks : 0\nNumHardRectilinearBlocks : %d\nNumTerminals : %d\n" % (len(blocks), len(pads)))
        file.writelines("b%d hardrectilinear 4 (0, 0) (0, %d) (%d, %d) (%d, 0)\n" % (b, h, w, h, w) for b, (w, h) in enumerate(blocks))
        file.writelines("p%d terminal\n" % p for p in range(len(pads)))
    with open(base + ".nets", "w") as file:
        file.write("UCLA nets 1.0\nNumNets : %d\nNumPins : %d\n" % (len(nets), sum(map(len, nets))))
        for net in nets:
            file.write("NetDegree : %d\n" % len(net) + "".join("%s B\n" % pin for pin in net))
    with open(base + ".pl", "w") as file:
        file.write("UCLA pl 1.0\n" + "".join("p%d %d %d\n" % (p, x, y) for p, (x, y) in enumerate(pads)))


def made(folder, name, seed, count, net_count, pad_count, room):
    """A design whose pads lie on the rim of a square of so many times its area: the words that name it."""
    draw = random.Random(seed)
    blocks = [(draw.randint(4, 32), draw.randint(4, 32)) for _ in range(count)]
    side = int((room * sum(w * h for w, h in blocks)) ** 0.5) + 1
    rim = [draw.randrange(4 * side) for _ in range(pad_count)]
    pads = [((at % side, 0), (side, at % side), (side - at % side, side), (0, side - at % side))[at // side] for at in rim]
    nets = []
    for number in range(net_count):
        pins = ["b%d" % block for block in draw.sample(range(count), 2)]
        nets.append(pins + (["p%d" % number] if number < pad_count else []))
    base = os.path.join(folder, "%s-%d-%d" % (name, count, seed))
    stored(base, blocks, nets, pads)
    return gsrc(base) + ["--outline", "%dx%d" % (side, side)]


def gap(program, files, folder, bounds):
    """The share of a plan's cost that the bound lies below it, in percent, or None where no plan is found."""
    cert = os.path.join(folder, "paths.cert")
    _, text, _, _ = measured([program, "plan", *files, *WIRES, "--cert", cert, "--starts", "4", "--nodes", "1", *bounds])
    cost, bound = line_of(text, "cost"), line_of(text, "bound")
    return None if cost in (None, "none") else 100 * (int(cost) - int(bound)) / int(cost)


def tell_gaps(what, gaps, plain, aim):
    one_by_one = " ".join("%.1f" % gap for gap in gaps)
    tell(what, sum(gaps) / len(gaps), aim, " %", "one by one %s, with standard bounds %.1f %%" % (one_by_one, sum(plain) / len(plain)))


def roots(program, folder):
    for count, aim in AIMS.items():
        designs = [generated(program, folder, seed, count) for seed in (1, 2, 3)]
        strong, plain = ([gap(program, files, folder, bounds) for files in designs] for bounds in (STRONG, []))
        tell_gaps("gap, gen, %d blocks" % count, strong, plain, aim)


def fitted(program, folder, seed, count):
    """The words that name a design with pads on the rim of its outline, and what a floorplan that fits costs."""
    *files, _, square = made(folder, "rim", seed, count, 2 * count, count, ROOM)
    side, cert, places = int(square.split("x")[0]), os.path.join(folder, "paths.cert"), files[files.index("--pl") + 1]
    _, text, _, _ = measured([program, "plan", *files, *WIRES, "--cert", cert, "--starts", "4", "--nodes", "1"])
    size = [int(word) for word in line_of(text, "size").split()]
    ratio = side / (size[0] * size[1]) ** 0.5
    sides = [int(ratio * way) for way in size]
    with open(places) as file:
        title, *pads = file.read().splitlines()
    moved = [(name, int(x) * sides[0] // side, int(y) * sides[1] // side) for name, x, y in map(str.split, pads)]
    with open(places, "w") as file:
        file.write(title + "\n" + "".join("%s %d %d\n" % pad for pad in moved))
    with open(cert, "w") as file:
        file.write("slicing-certificate 2\nblocks %d\ncost 0\nbound 0\nplan %s\ntree\nO\n" % (count, line_of(text, "plan")))
    files += ["--outline", "%dx%d" % tuple(sides)]
    _, text, _, _ = measured([program, "check", *files, *WIRES, "--cert", cert])
    return files, int(line_of(text, "status No CostDiffers 0"))


def rim(program, folder):
    for count in AIMS:
        gaps = [[], []]
        for files, cost in (fitted(program, folder, seed, count) for seed in (1, 2, 3)):
            for bounds, listed in zip((STRONG, []), gaps):
                words = [*files, *WIRES, "--cert", os.path.join(folder, "paths.cert"), "--nodes", "1"]
                _, text, _, _ = measured([program, "plan", *words, *bounds])
                listed.append(100 * (cost - int(line_of(text, "bound"))) / cost)
        tell_gaps("gap, rim, %d blocks" % count, *gaps, RIM_AIM)


def decisions(program, folder):
    sums = [0, 0]
    for seed in (1, 2, 3):
        files = generated(program, folder, seed, 6)
        for at, bounds in enumerate((STRONG, [])):
            cert = os.path.join(folder, "paths.cert")
            _, text, _, _ = measured([program, "plan", *files, *WIRES, "--cert", cert, "--starts", "4", "--nodes", str(MOST), *bounds])
            sums[at] += int(line_of(text, "decided"))
    tell("decisions, gen, 6 blocks", sums[0] / sums[1], DECISIONS_AIM, " times", "%d, with standard bounds %d" % tuple(sums))


def least_time(words):
    """The least processor time of three runs, and what the last one printed."""
    runs = [measured(words) for _ in range(3)]
    return min(run[2] for run in runs), runs[-1][1]


def decision(program, folder):
    for count, budget in BUDGETS.items():
        files, each = generated(program, folder, 1, count), []
        words = [program, "plan", *files, *WIRES, "--cert", os.path.join(folder, "paths.cert")]
        for bounds in (STRONG, []):
            first, _ = least_time([*words, *bounds, "--nodes", "1"])
            whole, text = least_time([*words, *bounds, "--nodes", str(budget)])
            each.append(1e6 * (whole - first) / (int(line_of(text, "decided")) - 1))
        tell("a decision, gen, %d blocks" % count, each[0] / each[1], DECISION_AIM, " times", "%.2f µs, with standard bounds %.2f µs" % tuple(each))


def speed(program, folder):
    for count, nets, pads, aim in SPEED:
        files = made(folder, "speed", 1, count, nets, pads, 2)
        what, cert = "%d blocks, %d nets, %d pads" % (count, nets, pads), os.path.join(folder, "paths.cert")
        words = [*files, *WIRES, "--cert", cert]
        plain, _ = least_time([program, "plan", *words, "--nodes", "1"])
        strong, _ = least_time([program, "plan", *words, "--nodes", "1", *STRONG])
        with open(cert) as file:
            found = sum(map(len, paths_in(file.read())))
        tell("finding paths, " + what, strong - plain, aim, " s", "%d paths, the whole run %.2f s, with standard bounds %.2f s" % (found, strong, plain))
        plain, _ = least_time([program, "check", *words])
        strong, text = least_time([program, "check", *words, *STRONG])
        tell("testing paths, " + what, strong - plain, TEST_AIM, " s", "status %s, the whole run %.2f s" % (line_of(text, "status"), strong))


def main():
    program, *choices = sys.argv[1:]
    program = os.path.abspath(program)
    runs = {"roots": roots, "rim": rim, "decisions": decisions, "decision": decision, "speed": speed}
    with tempfile.TemporaryDirectory() as folder:
        for choice in choices or runs:
            runs[choice](program, folder)
    if missed:
        sys.exit("above what is wanted: " + "; ".join(missed))


if __name__ == "__main__":
    main()
