#!/usr/bin/env python3
"""Measures annealed starts: python3 bench/measures/starts.py PATH/floorplan [PATH/annealer]

Three things are measured, of designs that `gen` makes:

  the processor time of one trial of a walk, and of one trial of the improvement after it. It is the time of a run with many trials
  minus that of a run with few, divided by the difference of their numbers, the least of three. Where the path of the native
  annealer is given, it is measured in turn on the same designs, with the ratio of the two times;
  the wall time of `--starts 8`, whose walks are shared out among threads, and of its eight walks one after another, each by a run
  of its own;
  the processor time of one decision of a search by one worker that begins with a plan (the chain of all blocks, or one step from
  it), and of one that begins with none, the least of three. The first should be at most 1.5 times the second, and 2.5 times where
  a design has 100 blocks and more; a figure that misses its aim has a mark behind it.

In all but the last, each search has a budget of one decision. Times want a machine with nothing else to do.
"""
import os
import subprocess
import sys
import tempfile
import time

sys.dont_write_bytecode = True
sys.path.append(os.path.dirname(os.path.dirname(os.path.abspath(__file__))))
from common import started_words

#        blocks, wire weight, trials of the walk, trials of the improvement
CASES = [
    (10, 0, 90000, 400000),
    (10, 1, 90000, 200000),
    (20, 0, 90000, 400000),
    (20, 1, 50000, 100000),
    (50, 0, 50000, 200000),
    (50, 1, 20000, 50000),
    (100, 0, 20000, 100000),
    (100, 1, 10000, 20000),
    (320, 0, 90000, 50000),
    (320, 1, 4000, 10000),
]
SHARED = [(20, 0, 20000, 40000), (50, 1, 5000, 20000), (320, 0, 5000, 20000)]
DECIDED = [(7, 0, 1000000, 1.5), (20, 0, 1000000, 1.5), (20, 1, 200000, 1.5), (50, 1, 50000, 1.5), (100, 0, 40000, 2.5), (320, 0, 20000, 2.5)]
TIMES = 3
FEW = 1


def run(words):
    """What the words print, their wall time and their processor time."""
    begun = time.monotonic()
    process = subprocess.Popen(words, stdout=subprocess.PIPE)
    out = process.stdout.read()
    _, status, usage = os.wait4(process.pid, 0)
    wall = time.monotonic() - begun
    if os.waitstatus_to_exitcode(status) not in (0, 3):
        sys.exit("status %d: %s" % (os.waitstatus_to_exitcode(status), " ".join(words)))
    return out, wall, usage.ru_utime + usage.ru_stime


def made(program, blocks):
    run([program, "gen", "--seed", "1", "--count", str(blocks), "--out", "s", "--nodes", "1"])


def bare_words(program, wire, starts, moves, improve, seed=0):
    """The words of `plan` with walks and a budget of one decision."""
    return started_words(program, wire, starts, moves, improve, seed) + ["--nodes", "1"]


def native_words(annealer, blocks, wire, moves, improve):
    design = ["--n", str(blocks), "--seed", "1", "--ww", str(wire)]
    if improve is None:
        return [annealer, "walk", *design, "--moves", str(moves), "--starts", "1"]
    return [annealer, "plan", *design, "--moves", str(FEW), "--starts", "1", "--reps", "1", "--budgets", str(improve), "--rounds", "1", "--q", str(2 * blocks), "--mix", "0"]


def a_trial(words, trials):
    """The processor time of one trial in nanoseconds; the words are a function of the number of trials."""
    return 1e9 * (run(words(trials + FEW))[2] - run(words(FEW))[2]) / trials


def trial_row(program, annealer, blocks, wire, walk, improvement):
    made(program, blocks)
    ways = {
        "walk": (lambda n: bare_words(program, wire, 1, n, 0), lambda n: native_words(annealer, blocks, wire, n, None), walk),
        "improvement": (lambda n: bare_words(program, wire, 1, FEW, n), lambda n: native_words(annealer, blocks, wire, FEW, n), improvement),
    }
    row = [str(blocks), str(wire)]
    for own, native, trials in ways.values():
        least, other = None, None
        for _ in range(TIMES):
            taken = a_trial(own, trials)
            least = taken if least is None else min(least, taken)
            if annealer:
                taken = a_trial(native, trials)
                other = taken if other is None else min(other, taken)
        row += ["%.0f" % least, "%.0f" % other if other else "-", "%.2f" % (least / other) if other else "-"]
    print("| " + " | ".join(row) + " |", flush=True)


def shared_row(program, blocks, wire, moves, improve):
    made(program, blocks)
    words = bare_words(program, wire, 8, moves, improve)
    together = min(run(words)[1] for _ in range(TIMES))
    alone = sum(run(bare_words(program, wire, 1, moves, improve, seed))[1] for seed in range(8))
    print("| %d | %d | %.2f s | %.2f s | %.2f |" % (blocks, wire, together, alone, alone / together), flush=True)


def decision_row(program, blocks, wire, nodes, most):
    made(program, blocks)
    least = {}
    for _ in range(TIMES):
        for starts in (0, 1):
            words = started_words(program, wire, starts, 1, 0) + ["--long"]
            few, many = (words + ["--nodes", str(n)] for n in (1, nodes))
            out, _, taken = run(many)
            decided = int(dict(line.split(" ", 1) for line in out.decode().splitlines())["decided"])
            taken = 1e9 * (taken - run(few)[2]) / decided
            least[starts] = min(taken, least.get(starts, taken))
    ratio = least[1] / least[0]
    print("| %d | %d | %d | %.0f ns | %.0f ns | %.2f%s |" % (blocks, wire, nodes, least[0], least[1], ratio, "" if ratio <= most else " !"), flush=True)


def main():
    program = os.path.abspath(sys.argv[1])
    annealer = os.path.abspath(sys.argv[2]) if len(sys.argv) > 2 else None
    os.chdir(tempfile.mkdtemp())
    print("| Blocks | wire weight | walk: ns a trial | native | ratio | improvement: ns a trial | native | ratio |")
    print("|---|---|---|---|---|---|---|---|")
    for case in CASES:
        trial_row(program, annealer, *case)
    print("\n| Blocks | wire weight | eight walks in threads | in turn | faster |")
    print("|---|---|---|---|---|")
    for case in SHARED:
        shared_row(program, *case)
    print("\n| Blocks | wire weight | budget | a decision without a start | with one | ratio |")
    print("|---|---|---|---|---|---|")
    for case in DECIDED:
        decision_row(program, *case)


if __name__ == "__main__":
    main()
