#!/usr/bin/env python3
"""What annealed starts bring: python3 bench/measures/plans.py PATH/floorplan [strong] [BLOCKS..]

Each line of best.txt names a design that `gen` makes, two weights, and the least cost known of a plan of it. Each of these, or each
of so many blocks where numbers are given, is planned by

    plan --starts 4 --nodes 1000

with one worker, and with `--bounds strong` where `strong` is given. Printed are, per design, the cost and how far it is above the
least cost known, the dead space of the plan (its area over the least areas of its blocks in sum, less one), the bound, the gap (cost
less bound over cost), and the wall and the processor time. Wanted is, of the designs with an area weight of 1, a cost of at most 2 %
above the least one known in the mean, and of at most 5 % each; a figure that is not as wanted has a mark behind it. Costs don't
depend on the machine.
"""
import os
import subprocess
import sys
import tempfile
import time

sys.dont_write_bytecode = True

WORDS = ["--starts", "4", "--nodes", "1000"]
MOST, MOST_IN_MEAN = 5.0, 2.0


def least_costs():
    """The lines of best.txt: blocks, seed, kinds, both weights, and the least cost known."""
    lines = []
    with open(os.path.join(os.path.dirname(os.path.abspath(__file__)), "best.txt")) as file:
        for line in file:
            words = line.split()
            if words and words[0].isdigit():
                lines.append((int(words[0]), words[1], words[2], words[3], words[4], int(words[5])))
    return lines


def least_areas():
    """The least areas of the blocks of p.blocks, in sum. Shapes of soft blocks are listed at whole widths, so theirs is a floor."""
    total = 0
    with open("p.blocks") as file:
        for line in file:
            words = line.replace("(", " ").replace(")", " ").replace(",", " ").split()
            if words[1:2] == ["hardrectilinear"]:
                total += max(map(int, words[3::2])) * max(map(int, words[4::2]))
            elif words[1:2] == ["softrectangular"]:
                total += int(words[2])
    return total


def planned(program, blocks, seed, kinds, area, wire):
    """The report of `plan`, its wall time and its processor time."""
    made = [program, "gen", "--seed", seed, "--count", str(blocks), "--kinds", kinds, "--out", "p", "--nodes", "1"]
    subprocess.run(made, stdout=subprocess.DEVNULL)
    design = ["--format", "gsrc", "--blocks", "p.blocks", "--nets", "p.nets", "--pl", "p.pl"]
    words = [program, "plan", *design, "--area-weight", area, "--wire-weight", wire, *WORDS, "--cert", "p.cert"]
    begun = time.monotonic()
    process = subprocess.Popen(words, stdout=subprocess.PIPE, text=True)
    out = process.stdout.read()
    _, status, usage = os.wait4(process.pid, 0)
    wall = time.monotonic() - begun
    if os.waitstatus_to_exitcode(status) not in (0, 3):
        sys.exit("%d blocks of seed %s: plan ended with status %d" % (blocks, seed, os.waitstatus_to_exitcode(status)))
    return dict(line.split(" ", 1) for line in out.splitlines()), wall, usage.ru_utime + usage.ru_stime


def judged(figure, is_as_wanted):
    return "%.2f %%%s" % (figure, "" if is_as_wanted else " !")


def main():
    program = os.path.abspath(sys.argv[1])
    sizes = [int(word) for word in sys.argv[2:] if word != "strong"]
    if "strong" in sys.argv[2:]:
        WORDS.extend(["--bounds", "strong"])
    os.chdir(tempfile.mkdtemp())
    print("| Blocks | seed | kinds | area weight | wire weight | cost | least known | above it | dead space | bound | gap | wall time | processor time |")
    print("|---|---|---|---|---|---|---|---|---|---|---|---|---|")
    above = []
    for blocks, seed, kinds, area, wire, least in least_costs():
        if sizes and blocks not in sizes:
            continue
        said, wall, processor = planned(program, blocks, seed, kinds, area, wire)
        cost, bound = int(said["cost"]), int(said["bound"])
        over = 100 * (cost / least - 1)
        if area == "1":
            above.append(over)
        dead = 100 * (int(said["area"]) / least_areas() - 1)
        told = judged(over, area != "1" or over <= MOST)
        row = (blocks, seed, kinds, area, wire, cost, least, told, "%.1f %%" % dead, bound, "%.1f %%" % (100 * (cost - bound) / cost), "%.1f s" % wall, "%.1f s" % processor)
        print("| " + " | ".join(map(str, row)) + " |", flush=True)
    if above:
        mean = sum(above) / len(above)
        print("\nArea weight 1: %s above the least cost known in the mean of %d designs, %.2f %% at most" % (judged(mean, mean <= MOST_IN_MEAN), len(above), max(above)))


if __name__ == "__main__":
    main()
