#!/usr/bin/env python3
"""Tries many workers: python3 bench/trials/many_workers.py PATH/floorplan [DESIGNS [FOLDER]]

Thirty designs (or the first DESIGNS of them) are generated, of 2 to 5 hard or mixed blocks with nets. Each is planned
by one worker and by 2 to 16, with a budget that suffices and with a small one, and `check` is asked of each certificate, and
second_checker.py of each that decides few subproblems, which takes it a second. Where both searches end, several workers must
find the cost of one. Printed is a line for each design; the first answer that is not as it should be ends the run with status 1.
"""
import os
import subprocess
import sys
import tempfile

sys.dont_write_bytecode = True
sys.path.append(os.path.dirname(os.path.dirname(os.path.abspath(__file__))))
from common import SECOND

DESIGNS = 30
WORKERS = range(2, 17)
KINDS = ("hard", "mixed")
BUDGETS = ("200", "200000")
FEW = 3000


def run(words):
    done = subprocess.run(words, stdout=subprocess.PIPE, text=True)
    return done.returncode, dict(line.split(" ", 1) for line in done.stdout.splitlines() if " " in line)


def fail(seed, workers, what):
    sys.exit("seed %d, %s workers: %s" % (seed, workers, what))


def planned(program, design, seed, workers, budget):
    """The cost where the search ended, and None where the budget was spent."""
    words = design + ["--cert", "w.cert"]
    status, lines = run([program, "plan"] + words + ["--workers", str(workers), "--nodes", budget])
    if status not in (0, 3):
        fail(seed, workers, "plan ended with status %d" % status)
    is_small = int(lines["decided"]) <= FEW
    for checker in [[program, "check"]] + [[sys.executable, SECOND]] * is_small:
        status, said = run(checker + words)
        if status != 0 or said.get("status") != "Yes":
            fail(seed, workers, "%s said %s" % (" ".join(checker), said.get("status")))
    return lines["cost"] if lines["cost"] == lines["bound"] else None


def main():
    program = os.path.abspath(sys.argv[1])
    designs = int(sys.argv[2]) if len(sys.argv) > 2 else DESIGNS
    os.chdir(sys.argv[3] if len(sys.argv) > 3 else tempfile.mkdtemp())
    for seed in range(1, designs + 1):
        count, kinds = 2 + seed % 4, KINDS[seed % 3 % 2]
        status, _ = run([program, "gen", "--seed", str(seed), "--count", str(count), "--kinds", kinds, "--out", "w", "--nodes", "1"])
        if status not in (0, 3):
            fail(seed, "one", "gen ended with status %d" % status)
        design = ["--format", "gsrc", "--blocks", "w.blocks", "--nets", "w.nets", "--pl", "w.pl", "--wire-weight", "1"]
        alone, ended = None, 0
        for budget in BUDGETS:
            alone = planned(program, design, seed, 1, budget)
            for workers in WORKERS:
                together = planned(program, design, seed, workers, budget)
                ended += together is not None
                if alone is not None and together is not None and together != alone:
                    fail(seed, workers, "cost %s and not %s" % (together, alone))
        tried = len(WORKERS) * len(BUDGETS)
        print("seed %d, %d %s blocks: cost %s; %d of %d searches ended" % (seed, count, kinds, alone or "open", ended, tried), flush=True)


if __name__ == "__main__":
    main()
