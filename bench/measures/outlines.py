#!/usr/bin/env python3
"""Plans within a fixed outline: python3 bench/measures/outlines.py PATH/floorplan [--few] [--at-once N] [BLOCKS..]

Designs of `gen`, 20 of each of 10, 20, 50 and 100 blocks and 5 of each of 200 and 300, hard and mixed, are planned by

    plan --starts 4 --nodes 1000 --outline WxH

with nets (both weights 1) and without. With a white space of P % and an aspect of A the outline has (100 + P) / 100 of the blocks' area and is A times
as wide as high: W is the root of A times that area, rounded, and H what W leaves of it, rounded up. P is 10, 15 and 20, A is 1 and 2.

Printed are, for each cell, how many designs got a plan; the mean of cost over the blocks' area; how far the cost is above that of the same call
without an outline in the mean (at 50 and 100 blocks with nets); and the mean and the greatest processor time. Wanted is a plan of each design at 15 and
20 %, and of all but one at 10 %; of the designs of 10 blocks those count that have a plan, by the table of `--bounds strong`. And a cost at most 1.5 %
above that without an outline. A figure that is not as wanted has a mark behind it. Counts and costs don't depend on the machine.

Four programs run at once, or N. With numbers of blocks only these are planned; `--few` takes five designs of each up to 100 blocks and two cells, both
with an aspect of 1: 10 % with nets and 15 % without.
"""
import concurrent.futures
import math
import os
import sys
import tempfile

sys.dont_write_bytecode = True
sys.path.append(os.path.dirname(os.path.dirname(os.path.abspath(__file__))))
from common import line_of, measured

DESIGNS = {10: 20, 20: 20, 50: 20, 100: 20, 200: 5, 300: 5}
SPACES, ASPECTS = (10, 15, 20), (1, 2)
MOST_ABOVE = 1.5
WORDS = ["--starts", "4", "--nodes", "1000"]


def base_of(blocks, kinds, seed):
    return "%s-%d-%d" % (kinds, blocks, seed)


def area_of(base):
    """The area of the blocks of a design: that of a soft block is as its line says."""
    total = 0
    with open(base + ".blocks") as file:
        for line in file:
            words = line.replace("(", " ").replace(")", " ").replace(",", " ").split()
            if words[1:2] == ["hardrectilinear"]:
                total += max(map(int, words[3::2])) * max(map(int, words[4::2]))
            elif words[1:2] == ["softrectangular"]:
                total += int(words[2])
    return total


def outline_of(area, space, aspect):
    room = area * (100 + space) / 100
    width = math.floor(math.sqrt(room * aspect) + 0.5)
    return ["--outline", "%dx%d" % (width, math.ceil(room / width))]


def planned(program, base, nets, outline):
    """The cost of the plan, or None where there is none, the status, and the processor time."""
    words = [program, "plan", "--format", "gsrc", "--blocks", base + ".blocks"]
    if nets:
        words += ["--nets", base + ".nets", "--pl", base + ".pl", "--wire-weight", "1"]
    cert = "%s-%d-%s.cert" % (base, nets, "-".join(outline[1:]))
    status, text, seconds, _ = measured([*words, *WORDS, *outline, "--cert", cert])
    if status not in (0, 1, 3):
        sys.exit("%s: plan ended with status %d" % (base, status))
    os.remove(cert)
    cost = line_of(text, "cost")
    return None if cost == "none" else int(cost), seconds


def has_none(program, base, outline):
    """Whether the table over sets of blocks says that no plan fits."""
    words = [program, "plan", "--format", "gsrc", "--blocks", base + ".blocks", *outline, "--bounds", "strong", "--nodes", "1", "--cert", base + ".strong.cert"]
    return measured(words)[0] == 1


def cells(is_few):
    if is_few:
        return [(1, 1, 10), (0, 1, 15)]
    return [(nets, aspect, space) for nets in (0, 1) for aspect in ASPECTS for space in SPACES]


def row(program, pool, blocks, kinds, cell, free, seeds):
    """A row of the table, from the plans of one cell."""
    nets, aspect, space = cell
    bases = [base_of(blocks, kinds, seed) for seed in seeds]
    outlines = [outline_of(area_of(base), space, aspect) for base in bases]
    found = list(pool.map(lambda it: planned(program, it[0], nets, it[1]), zip(bases, outlines)))
    lacking = [(base, outline) for base, outline, (cost, _) in zip(bases, outlines, found) if cost is None]
    impossible = sum(has_none(program, *it) for it in lacking) if blocks <= 10 else 0
    fit, possible = len(bases) - len(lacking), len(bases) - impossible
    is_wanted = fit >= possible - (space == 10 and len(bases) > 5)
    ratios = [cost / area_of(base) for base, (cost, _) in zip(bases, found) if cost]
    above = [100 * (cost / free[base] - 1) for base, (cost, _) in zip(bases, found) if cost and base in free] if nets else []
    mean = sum(above) / len(above) if above else None
    told = "" if mean is None else "%.2f %%%s" % (mean, "" if mean <= MOST_ABOVE else " !")
    seconds = [it for _, it in found]
    return [
        blocks,
        kinds,
        "yes" if nets else "no",
        aspect,
        "%d %%" % space,
        "%d of %d%s" % (fit, possible, "" if is_wanted else " !"),
        "%.4f" % (sum(ratios) / len(ratios)) if ratios else "",
        told,
        "%.2f s" % (sum(seconds) / len(seconds)),
        "%.2f s" % max(seconds),
    ]


def main():
    words = sys.argv[2:]
    is_few = "--few" in words
    at_once = int(words[words.index("--at-once") + 1]) if "--at-once" in words else 4
    sizes = [int(word) for at, word in enumerate(words) if word.isdigit() and words[at - 1 : at] != ["--at-once"]]
    program = os.path.abspath(sys.argv[1])
    os.chdir(tempfile.mkdtemp())
    print("| Blocks | kinds | nets | aspect | white space | got a plan | cost over area | above that without an outline | processor time, mean | greatest |")
    print("|---|---|---|---|---|---|---|---|---|---|")
    with concurrent.futures.ThreadPoolExecutor(at_once) as pool:
        for blocks, many in DESIGNS.items():
            if (sizes and blocks not in sizes) or (is_few and blocks > 100):
                continue
            for kinds in ("hard", "mixed"):
                seeds = range(1, (min(many, 5) if is_few else many) + 1)
                made = lambda seed: measured([program, "gen", "--seed", str(seed), "--count", str(blocks), "--kinds", kinds, "--out", base_of(blocks, kinds, seed), "--nodes", "1"])
                list(pool.map(made, seeds))
                bases = [base_of(blocks, kinds, seed) for seed in seeds]
                free = {}
                if blocks in (50, 100):
                    free = dict(zip(bases, (cost for cost, _ in pool.map(lambda base: planned(program, base, 1, []), bases))))
                for cell in cells(is_few):
                    print("| " + " | ".join(map(str, row(program, pool, blocks, kinds, cell, free, seeds))) + " |", flush=True)


if __name__ == "__main__":
    main()
