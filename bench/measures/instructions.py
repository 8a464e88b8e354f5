#!/usr/bin/env python3
"""Counts instructions: python3 bench/measures/instructions.py PATH/floorplan [FOLDER]

The designs of run.py with smaller budgets, and two of them again with so great an area weight that the area closes most
leaves, each planned, and its certificate checked, under `valgrind --tool=callgrind`. The counts don't depend on what else
the machine does. Printed are, per case: the instructions of the whole run of `plan`, the decided subproblems, and the
instructions of one decision of `plan`, of `check`, and of `check` on the same certificate in version 1, whose leaves are
judged by the full bound; reading and writing included.

Behind it stand the instructions of one trial of the improvement behind a walk, of designs that `gen` makes: those of a run with 200,000
trials less those of one with 50,000, divided by the difference.
"""
import os
import re
import subprocess
import sys
import tempfile

sys.dont_write_bytecode = True
sys.path.append(os.path.dirname(os.path.dirname(os.path.abspath(__file__))))
from common import started_words, write_design

#        name       blocks  nets   budget  area weight
CASES = [
    ("area-6", 6, 0, 20000, 1),
    ("area-7", 7, 0, 20000, 1),
    ("area-20", 20, 0, 20000, 1),
    ("area-320", 320, 0, 640, 1),
    ("wire-6", 6, 12, 20000, 1),
    ("wire-20", 20, 40, 10000, 1),
    ("wire-100", 100, 200, 2000, 1),
    ("wire-6, area weight 20", 6, 12, 20000, 20),
    ("wire-20, area weight 200", 20, 40, 10000, 200),
]

#         blocks, wire weight
TRIALS = [(50, 0), (100, 0), (300, 0), (50, 1), (100, 1), (300, 1)]
FEW, MANY = 50000, 200000


def counted(program, words):
    """What the program prints, and how many instructions it takes."""
    run = ["valgrind", "--tool=callgrind", "--callgrind-out-file=/dev/null", program] + words
    done = subprocess.run(run, stdout=subprocess.PIPE, stderr=subprocess.PIPE, text=True)
    return done.stdout, int(re.search(r"Collected : (\d+)", done.stderr).group(1))


def first_version(text):
    """The certificate with leaves that name no part."""
    lines = ["C" if re.fullmatch("C [arphf]", line) else line for line in text.splitlines()]
    return "\n".join(["slicing-certificate 1"] + lines[1:]) + "\n"


def checked(program, name, words):
    """How many instructions `check` takes, whose answer is to be Yes."""
    answer, instructions = counted(program, ["check"] + words)
    if not answer.startswith("status Yes"):
        sys.exit("check refuses the certificate of %s: %s" % (name, answer))
    return instructions


def trial(program, blocks, wire):
    """How many instructions one trial of the improvement takes."""
    subprocess.run([program, "gen", "--seed", "1", "--count", str(blocks), "--out", "s", "--nodes", "1"], stdout=subprocess.DEVNULL)
    few, many = (counted(program, started_words(program, wire, 1, 1000, trials)[1:] + ["--nodes", "1"])[1] for trials in (FEW, MANY))
    return (many - few) // (MANY - FEW)


def main():
    program = os.path.abspath(sys.argv[1])
    os.chdir(sys.argv[2] if len(sys.argv) > 2 else tempfile.mkdtemp())
    print("| Case | instructions | decided | instructions per decision | of check | of check, version 1 |")
    print("|---|---|---|---|---|---|")
    for name, blocks, nets, budget, weight in CASES:
        write_design(blocks, nets)
        words = ["--format", "gsrc", "--blocks", "d.blocks", "--cert", "d.cert", "--area-weight", str(weight)]
        words += ["--nets", "d.nets", "--wire-weight", "1"] if nets else []
        report, plan = counted(program, ["plan"] + words + ["--nodes", str(budget)])
        decided = int(re.search(r"^decided (\d+)$", report, re.M).group(1))
        by_parts = checked(program, name, words)
        with open("d.cert") as text:
            full = first_version(text.read())
        with open("d.cert", "w") as text:
            text.write(full)
        by_full = checked(program, name, words)
        print("| %s | %d | %d | %d | %d | %d |" % (name, plan, decided, plan // decided, by_parts // decided, by_full // decided), flush=True)
    print("\n| Blocks | wire weight | instructions per trial of the improvement |")
    print("|---|---|---|")
    for blocks, wire in TRIALS:
        print("| %d | %d | %d |" % (blocks, wire, trial(program, blocks, wire)), flush=True)


main()
