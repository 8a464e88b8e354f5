#!/usr/bin/env python3
"""How many blocks a proof of the optimum is within reach of: python3 bench/measures/reach.py PATH/floorplan [FOLDER]

Ten designs of each size and kind are generated into FOLDER (a temporary one by default) and planned by one worker with
the greatest budget that `--nodes` takes, once for areas alone and once with the 2n nets and four pads of the design. Printed
are, per size and kind, how many searches end with the best plan, and of these the least, the middle and the greatest number
of decisions. These numbers don't depend on the machine.
"""
import os
import subprocess
import sys
import tempfile

SIZES = range(3, 8)
SEEDS = range(1, 11)


def limit(blocks):
    return min(4_000_000, 4_000_000_000 // ((blocks + 2) * (20 * blocks + 48)))


def decisions(program, seed, blocks, kinds, words):
    """How many decisions the search took, or None where its budget was spent."""
    subprocess.run([program, "gen", "--seed", str(seed), "--count", str(blocks), "--kinds", kinds, "--out", "r", "--nodes", "1"], stdout=subprocess.DEVNULL)
    words = [program, "plan", "--format", "gsrc", "--blocks", "r.blocks", "--cert", "r.cert", "--nodes", str(limit(blocks)), *words]
    done = subprocess.run(words, stdout=subprocess.PIPE, text=True)
    said = dict(line.split(" ", 1) for line in done.stdout.splitlines())
    if done.returncode not in (0, 3):
        sys.exit("seed %d: plan ended with status %d" % (seed, done.returncode))
    return int(said["decided"]) if said["status"] == "Optimal" else None


def main():
    program = os.path.abspath(sys.argv[1])
    os.chdir(sys.argv[2] if len(sys.argv) > 2 else tempfile.mkdtemp())
    print("| Blocks | kinds | counted | budget | ended | decided |")
    print("|---|---|---|---|---|---|")
    for blocks in SIZES:
        for kinds in ("hard", "mixed"):
            for counted, words in (("areas", []), ("areas and nets", ["--nets", "r.nets", "--pl", "r.pl", "--wire-weight", "1"])):
                ended = sorted(n for n in (decisions(program, seed, blocks, kinds, words) for seed in SEEDS) if n is not None)
                told = "%d / %d / %d" % (ended[0], ended[len(ended) // 2], ended[-1]) if ended else "-"
                print("| %d | %s | %s | %d | %d of %d | %s |" % (blocks, kinds, counted, limit(blocks), len(ended), len(SEEDS), told), flush=True)


if __name__ == "__main__":
    main()
