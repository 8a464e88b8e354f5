#!/usr/bin/env python3
"""Measures the built program: python3 bench/measures/run.py PATH/floorplan [FOLDER]

Each case is a design that this script writes into FOLDER (a temporary one by default), and the arguments of one run on it.
The designs follow from the number of blocks (`write_design` of common.py): block i is w by h with w and h from 4 to 32, and
net j joins two blocks. Printed are, per case: processor time, the decided subproblems, decisions per second,
greatest resident memory, bytes of certificate per decided subproblem, the gap between cost and bound, and, where the
case asks for it, the time of `check` on the certificate.
"""
import os
import subprocess
import sys
import tempfile

sys.dont_write_bytecode = True
sys.path.append(os.path.dirname(os.path.dirname(os.path.abspath(__file__))))
from common import write_design

#        name               blocks  nets   words                                              check too
TIME = "/usr/bin/time"
CASES = [
    ("area-6", 6, 0, ["--nodes", "200000"], True),
    ("area-7", 7, 0, ["--nodes", "1800000"], True),
    ("area-20", 20, 0, ["--nodes", "400000"], True),
    ("area-320", 320, 0, ["--nodes", "1926"], True),
    ("wire-6", 6, 12, ["--wire-weight", "1", "--nodes", "500000"], True),
    ("wire-20", 20, 40, ["--wire-weight", "1", "--nodes", "100000"], True),
    ("wire-100", 100, 200, ["--wire-weight", "1", "--nodes", "19148"], True),
]


def timed(words):
    """The processor time, the memory in MB, the status and the report. A process that this script starts begins with the size of
    the script, so GNU time tells the memory."""
    process = subprocess.Popen([TIME, "--quiet", "-f", "%M", "-o", "memory.kb"] + words, stdout=subprocess.PIPE)
    out = process.stdout.read().decode()
    _, status, usage = os.wait4(process.pid, 0)
    with open("memory.kb") as told:
        memory = int(told.read()) / 1024
    lines = dict(line.split(" ", 1) for line in out.splitlines() if " " in line)
    return usage.ru_utime + usage.ru_stime, memory, os.waitstatus_to_exitcode(status), lines


def gap(lines):
    if lines.get("cost", "none") == "none":
        return "no plan"
    cost, bound = int(lines["cost"]), int(lines["bound"])
    return "%.1f %%" % (100 * (cost - bound) / cost)


def main():
    program = os.path.abspath(sys.argv[1])
    os.chdir(sys.argv[2] if len(sys.argv) > 2 else tempfile.mkdtemp())
    print("| Case | time | decided | decisions per second | memory | bytes per decision | gap | check |")
    print("|---|---|---|---|---|---|---|---|")
    for name, blocks, nets, words, with_check in CASES:
        write_design(blocks, nets)
        design = ["--format", "gsrc", "--blocks", "d.blocks"] + (["--nets", "d.nets"] if nets else [])
        seconds, memory, status, lines = timed([program, "plan"] + design + words + ["--cert", "d.cert"])
        if status not in (0, 3):
            sys.exit("%s ended with status %d" % (name, status))
        decided = int(lines["decided"])
        checked = "-"
        if with_check:
            weight = words[:2] if nets else []
            took, _, status, said = timed([program, "check"] + design + weight + ["--cert", "d.cert"])
            checked = "%.2f s, %s" % (took, said["status"])
        row = (name, "%.2f s" % seconds, str(decided), "%d" % (decided / seconds), "%.1f MB" % memory, "%.1f" % (os.path.getsize("d.cert") / decided), gap(lines), checked)
        print("| " + " | ".join(row) + " |")


if __name__ == "__main__":
    main()
