#!/usr/bin/env python3
"""Measures the search by workers: python3 bench/measures/workers.py PATH/floorplan [TABLE..]

TABLE is results or memory; without one both are printed. Each figure is taken three times. The designs are those of run.py and
examples/ten. How much faster several workers are than one is measured by teams.py. The program runs with the heap settings of
`./floorplan`, unless the caller's environment says otherwise (`GLIBC_TUNABLES`, which may be empty).

results  cost, bound and wall time for 1, 2 and 4 workers after 10^3, 10^4, 10^5 and 10^6 decisions. What several workers
         find depends on their timing, so the greatest cost, the least bound and the longest time of three are printed.
         A budget above the design's limit is left out.

memory   greatest resident size of a search of 2,000,000 decisions of 7 blocks by 4 workers.
"""
import os
import sys
import tempfile
import time

sys.dont_write_bytecode = True
sys.path.append(os.path.dirname(os.path.dirname(os.path.abspath(__file__))))
from common import TOP, write_design
from run import timed

TEN = os.path.join(TOP, "examples", "ten", "ten")
DESIGNS = [("ten", None, None), ("area-6", 6, 0), ("area-7", 7, 0), ("area-20", 20, 0), ("area-320", 320, 0), ("wire-6", 6, 12), ("wire-20", 20, 40), ("wire-50", 50, 100), ("wire-100", 100, 200)]
BUDGETS = (1000, 10000, 100000, 1000000)
WORKERS = (1, 2, 4)
OVER_LIMIT = 6
TIMES = 3
HEAPS = "glibc.malloc.top_pad=1048576"


class Run:
    """One run of `plan`."""

    def __init__(self, program, design, nodes, workers):
        words = [program, "plan"] + design + ["--nodes", str(nodes), "--workers", str(workers), "--cert", "w.cert"]
        begun = time.monotonic()
        _, self.memory, self.status, lines = timed(words)
        self.wall = time.monotonic() - begun
        if self.status not in (0, 3, OVER_LIMIT):
            sys.exit("%s ended with status %d" % (" ".join(words), self.status))
        if self.status != OVER_LIMIT:
            self.cost, self.bound = (float("inf") if lines[word] == "none" else int(lines[word]) for word in ("cost", "bound"))
            self.decided = int(lines["decided"])


def words_of(name, blocks, nets):
    """The words that name the design, whose files are written here unless it is the shipped one."""
    if blocks is None:
        return ["--format", "gsrc", "--blocks", TEN + ".blocks", "--nets", TEN + ".nets", "--pl", TEN + ".pl", "--wire-weight", "1"]
    write_design(blocks, nets)
    return ["--format", "gsrc", "--blocks", "d.blocks"] + (["--nets", "d.nets", "--wire-weight", "1"] if nets else [])


def row(*cells):
    print("| " + " | ".join(cells) + " |", flush=True)


def head(*cells):
    row(*cells)
    print("|" + "---|" * len(cells))


def number(value):
    return "none" if value == float("inf") else str(value)


def results(program):
    head("Case", "budget", "workers", "cost", "bound", "decided", "wall time")
    for name, blocks, nets in DESIGNS:
        design = words_of(name, blocks, nets)
        for nodes in BUDGETS:
            for workers in WORKERS:
                runs = [Run(program, design, nodes, workers) for _ in range(TIMES)]
                if runs[0].status == OVER_LIMIT:
                    break
                row(name, str(nodes), str(workers), number(max(run.cost for run in runs)), number(min(run.bound for run in runs)), str(min(run.decided for run in runs)), "%.2f s" % max(run.wall for run in runs))


def memory(program):
    design = words_of("area-7", 7, 0)
    runs = [Run(program, design, 2000000, 4) for _ in range(TIMES)]
    head("Case", "budget", "workers", "decided", "memory")
    row("area-7", "2000000", "4", str(max(run.decided for run in runs)), "%d MB" % max(run.memory for run in runs))


TABLES = {"results": results, "memory": memory}


def main():
    program = os.path.abspath(sys.argv[1])
    os.environ.setdefault("GLIBC_TUNABLES", HEAPS)
    os.chdir(tempfile.mkdtemp())
    for table in sys.argv[2:] or TABLES:
        TABLES[table](program)
        print()


if __name__ == "__main__":
    main()
