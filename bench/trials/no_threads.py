#!/usr/bin/env python3
"""Lets no thread start: python3 bench/trials/no_threads.py PATH/floorplan [FOLDER]

Some generated designs are planned by 2, 4 and 16 workers, each twice: as it is, and with no second process allowed, so that
the system refuses every thread. Then the caller does the work of all workers. Both runs must end with the same status, cost
and bound, and `check` must accept the certificate of the second one. Printed is a line for each design; the first answer
that is not as it should be ends the run with status 1.

Wanted is root, so that the runs can be those of a user that has no other process; no such limit binds root.
"""
import os
import resource
import shutil
import subprocess
import sys
import tempfile
import threading

USER = 64321
DESIGNS = ((1, 4, "hard"), (2, 4, "mixed"), (3, 5, "hard"))
WORKERS = (2, 4, 16)
BUDGET = "200000"


def no_second_process():
    resource.setrlimit(resource.RLIMIT_NPROC, (1, 1))


def is_refused():
    """Whether the limit refuses a thread."""
    child = os.fork()
    if child == 0:
        os.setgroups([])
        os.setgid(USER)
        os.setuid(USER)
        no_second_process()
        try:
            threading.Thread(target=int).start()
        except RuntimeError:
            os._exit(0)
        os._exit(1)
    return os.waitpid(child, 0)[1] == 0


def run(words, limited=False):
    """The status, and the first words of the lines with what stands behind them."""
    limit = no_second_process if limited else None
    done = subprocess.run(
        words, stdout=subprocess.PIPE, text=True, timeout=600, user=USER, group=USER, extra_groups=[], preexec_fn=limit
    )
    return done.returncode, dict(line.split(" ", 1) for line in done.stdout.splitlines() if " " in line)


def answer(program, design, workers, limited):
    words = [program, "plan"] + design + ["--cert", "w.cert", "--workers", str(workers), "--nodes", BUDGET]
    status, lines = run(words, limited)
    return status, lines.get("cost"), lines.get("bound")


def try_design(program, seed, count, kinds):
    words = ["gen", "--seed", str(seed), "--count", str(count), "--kinds", kinds, "--out", "w", "--nodes", "1"]
    if run([program] + words)[0] not in (0, 3):
        sys.exit("seed %d: gen failed" % seed)
    design = ["--format", "gsrc", "--blocks", "w.blocks", "--nets", "w.nets", "--pl", "w.pl", "--wire-weight", "1"]
    for workers in WORKERS:
        free = answer(program, design, workers, False)
        alone = answer(program, design, workers, True)
        if free != alone:
            sys.exit("seed %d, %d workers: %s without threads and %s with them" % (seed, workers, alone, free))
        status, lines = run([program, "check"] + design + ["--cert", "w.cert"])
        if (status, lines.get("status")) != (0, "Yes"):
            sys.exit("seed %d, %d workers: check said %s" % (seed, workers, lines.get("status")))
    print("seed %d, %d %s blocks: status %d, cost %s, bound %s" % ((seed, count, kinds) + free), flush=True)


def main():
    if os.getuid() != 0:
        sys.exit("wanted is root")
    folder = os.path.abspath(sys.argv[2]) if len(sys.argv) > 2 else tempfile.mkdtemp()
    os.makedirs(folder, exist_ok=True)
    program = shutil.copy(sys.argv[1], os.path.join(folder, "floorplan"))
    os.chmod(program, 0o755)
    os.chown(folder, USER, USER)
    os.chmod(folder, 0o755)
    os.chdir(folder)
    if not is_refused():
        sys.exit("the limit refuses no thread")
    for seed, count, kinds in DESIGNS:
        try_design(program, seed, count, kinds)


main()
