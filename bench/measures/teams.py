#!/usr/bin/env python3
"""Measures teams of workers: python3 bench/measures/teams.py PATH/floorplan [CASE..]

Each case is one of run.py's designs with a budget. In turn, nine times each, or three where no wall time is wanted, it is
searched by one worker (`plan --workers 1`, one walk), by teams of one (`resume` from a certificate that leaves all but the
root open), of two and of four workers, and by four programs at once that share nothing. Printed are, per case, the least of
all times:

  processor time per decision of one worker and of each team, and the ratio of each team's to one worker's. Wanted is at most 1.5,
  and 2.5 where a design has 100 blocks and more;
  wall time per decision, and how much faster two and four workers are than one;
  how many times the work of one program four programs do at once on this machine, and the speedup of four workers divided by
  that. Wanted, of the cases with a million decisions and more, is a speedup of 2.5 where the four programs do 3.3 times the work
  and more, and else of 0.75 times what they do;
  greatest resident memory per decision, of those beyond a quarter of the budget: what a search takes before, and threads with
  their stacks and heaps, are not counted; and the ratio of each team's to one worker's. Wanted is at most 1.5.

A figure that misses its aim has a mark behind it. The program runs with the heap settings of `./floorplan`. Memory is measured by
GNU time, which starts each run: a process that is started by this script begins with the size of the script. Times want a machine
with four processors and nothing else to do.
"""
import os
import subprocess
import sys
import tempfile
import time

sys.dont_write_bytecode = True
sys.path.append(os.path.dirname(os.path.dirname(os.path.abspath(__file__))))
from common import write_design

#         name     blocks nets   decisions  most processor time, as fast as four programs
CASES = [
    ("area-7", 7, 0, 2400000, 1.5, True),
    ("area-20", 20, 0, 12000000, 1.5, True),
    ("area-100", 100, 0, 4000000, 2.5, False),
    ("area-320", 320, 0, 4000000, 2.5, False),
    ("wire-6", 6, 12, 1000000, 1.5, True),
    ("wire-20", 20, 40, 4000000, 1.5, True),
    ("wire-50", 50, 100, 300000, 1.5, False),
]
MOST_MEMORY = 1.5
WORK_OF_FOUR, FASTER, FASTER_THAN_FOUR = 3.3, 2.5, 0.75
TIMES, FEWER_TIMES = 9, 3
TIME = "/usr/bin/time"
HEAPS = "glibc.malloc.top_pad=1048576"


def remove(folder):
    """Removes the certificate that a run will store: to cut an old one off takes a while, which is none of the search."""
    if os.path.exists(folder + "/w.cert"):
        os.remove(folder + "/w.cert")


class Run:
    """One run: its processor and wall time in seconds, its memory in bytes, its status and how many it decided."""

    def __init__(self, words):
        remove(".")
        begun = time.monotonic()
        timed = [TIME, "--quiet", "-f", "%M", "-o", "memory.kb"] + words
        process = subprocess.Popen(timed, stdout=subprocess.PIPE, stderr=subprocess.DEVNULL)
        out = process.stdout.read().decode()
        _, status, usage = os.wait4(process.pid, 0)
        self.wall = time.monotonic() - begun
        self.processor = usage.ru_utime + usage.ru_stime
        with open("memory.kb") as told:
            self.memory = int(told.read()) * 1024
        self.status = os.waitstatus_to_exitcode(status)
        lines = dict(line.split(" ", 1) for line in out.splitlines() if " " in line)
        self.decided = max(1, int(lines.get("decided", "0")))


def words_of(blocks, nets):
    write_design(blocks, nets)
    here = os.getcwd()
    words = ["--format", "gsrc", "--blocks", here + "/d.blocks", "--nets", here + "/d.nets"]
    return words + (["--wire-weight", "1"] if nets else [])


def ways_of(program, design):
    """The words of each way to search, without the number of decisions."""
    plan, resume = [program, "plan"] + design, [program, "resume"] + design
    Run(plan + ["--nodes", "1", "--cert", "open.cert"])
    ways = {"one": plan + ["--long", "--workers", "1", "--cert", "w.cert"]}
    ways["1"] = resume + ["--long", "--workers", "1", "--cert", os.path.abspath("open.cert"), "--cert-out", "w.cert"]
    for workers in ("2", "4"):
        ways[workers] = plan + ["--long", "--workers", workers, "--cert", "w.cert"]
    return ways


def four_at_once(words):
    """The wall time of four programs that share nothing."""
    for number in range(4):
        os.makedirs(str(number), exist_ok=True)
        remove(str(number))
    begun = time.monotonic()
    running = []
    for number in range(4):
        running.append(subprocess.Popen(words, cwd=str(number), stdout=subprocess.DEVNULL, stderr=subprocess.DEVNULL))
    for process in running:
        process.wait()
    return time.monotonic() - begun


def judged(figure, is_as_wanted):
    return "%.2f%s" % (figure, "" if is_as_wanted else " !")


def measure(program, name, blocks, nets, nodes, most, is_timed):
    ways = ways_of(program, words_of(blocks, nets))
    least, four = {}, None
    for _ in range(TIMES if is_timed else FEWER_TIMES):
        for way, words in ways.items():
            part, run = (Run(words + ["--nodes", str(budget)]) for budget in (nodes // 4, nodes))
            if run.status not in (0, 3):
                sys.exit("%s, %s: status %d" % (name, way, run.status))
            memory = max(0, run.memory - part.memory) / max(1, run.decided - part.decided)
            taken = (run.processor / run.decided, run.wall / run.decided, memory)
            least[way] = tuple(map(min, taken, least.get(way, taken)))
        taken = four_at_once(ways["one"] + ["--nodes", str(nodes)]) / run.decided
        four = taken if four is None else min(four, taken)
    one = least["one"]
    print("%s, %d decisions" % (name, run.decided))
    for way, (processor, wall, memory) in least.items():
        who = "one worker" if way == "one" else "team of " + way
        over = processor / one[0], memory / one[2] if one[2] else 1
        print("  %-10s %7.3f us processor (%s), %7.3f us wall (%.2f times as fast), %6.1f bytes (%s)" % (
            who, 1e6 * processor, judged(over[0], over[0] <= most), 1e6 * wall, one[1] / wall, memory, judged(over[1], over[1] <= MOST_MEMORY)))
    work, faster = 4 * one[1] / four, one[1] / least["4"][1]
    as_wanted = faster >= FASTER if work >= WORK_OF_FOUR else faster >= FASTER_THAN_FOUR * work
    print("  four programs do %.2f times the work of one; four workers are %s times as fast as one, %.2f of that" % (work, judged(faster, as_wanted or not is_timed), faster / work), flush=True)


def main():
    program = os.path.abspath(sys.argv[1])
    os.environ.setdefault("GLIBC_TUNABLES", HEAPS)
    os.chdir(tempfile.mkdtemp())
    for case in CASES:
        if len(sys.argv) < 3 or case[0] in sys.argv[2:]:
            measure(program, *case)


if __name__ == "__main__":
    main()
