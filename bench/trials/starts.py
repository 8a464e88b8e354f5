#!/usr/bin/env python3
"""Tries annealed starts: python3 bench/trials/starts.py PATH/floorplan

Designs that `gen` makes are planned with `--starts 8` and a budget of one decision, with as many processors as there are, with two
and with one: what is printed must be the same, byte for byte, and its cost must be the least of eight runs with one start each.
With an improvement behind it each of these eight must cost no more than without. Printed is a line for each design; the first
difference ends the run with status 1.
"""
import os
import subprocess
import sys
import tempfile

sys.dont_write_bytecode = True
sys.path.append(os.path.dirname(os.path.dirname(os.path.abspath(__file__))))
from common import fail, line_of, started_words

#        blocks, wire weight, trials of the walk, trials of the improvement
CASES = [(20, 0, 20000, 40000), (50, 1, 5000, 20000), (320, 0, 5000, 20000)]
SEEDS = range(8)


def run(words, processors=None):
    """What the words print."""
    bind = (lambda: os.sched_setaffinity(0, processors)) if processors else None
    done = subprocess.run(words, stdout=subprocess.PIPE, preexec_fn=bind, text=True)
    if done.returncode not in (0, 3):
        fail("status %d: %s" % (done.returncode, " ".join(words)))
    return done.stdout


def cost(program, wire, moves, improve, seed):
    return int(line_of(run(started_words(program, wire, 1, moves, improve, seed) + ["--nodes", "1"]), "cost"))


def tried(program, blocks, wire, moves, improve):
    run([program, "gen", "--seed", "1", "--count", str(blocks), "--out", "s", "--nodes", "1"])
    own = sorted(os.sched_getaffinity(0))
    words = started_words(program, wire, len(SEEDS), moves, improve) + ["--nodes", "1"]
    printed = {run(words, own[:many]) for many in {1, min(2, len(own)), len(own)}}
    if len(printed) != 1:
        fail("%d blocks: what is printed depends on the processors" % blocks)
    costs = [cost(program, wire, moves, improve, seed) for seed in SEEDS]
    bare = [cost(program, wire, moves, 0, seed) for seed in SEEDS]
    together = int(line_of(printed.pop(), "cost"))
    if together != min(costs):
        fail("%d blocks: cost %d, and not the least of %s" % (blocks, together, costs))
    if any(after > before for after, before in zip(costs, bare)):
        fail("%d blocks: costs %s, and without an improvement %s" % (blocks, costs, bare))
    print("%d blocks, wire weight %d: cost %d, of walks that end at %d to %d" % (blocks, wire, together, min(bare), max(bare)), flush=True)


def main():
    program = os.path.abspath(sys.argv[1])
    with tempfile.TemporaryDirectory() as folder:
        os.chdir(folder)
        for case in CASES:
            tried(program, *case)


if __name__ == "__main__":
    main()
