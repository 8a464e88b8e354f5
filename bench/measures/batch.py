#!/usr/bin/env python3
"""Measures the batch program: python3 bench/measures/batch.py PATH/floorplan PATH/floorbatch [FOLDER]

The designs and jobs files are written into FOLDER, a temporary one by default.

  speed   sixty-four designs of 6 to 10 blocks, one after another by `plan`, by teams of 1 and of 4, and by four programs at
          once with a quarter of the jobs each. Each figure is the least of three runs. A team of 4 should take at most
          1 / 2.5 of what a team of 1 takes, or as long as the four programs take divided by 0.75, and a team of 1 at most
          1.1 times what `plan` takes, less its starts
  memory  the greatest resident memory of a batch of 256 designs of 320 blocks
"""
import os
import subprocess
import sys
import tempfile
import time

sys.dont_write_bytecode = True
sys.path.append(os.path.dirname(os.path.dirname(os.path.abspath(__file__))))
from common import batch_words, plan_words, write, write_padded_design


def least(call, times=3):
    return min(call() for _ in range(times))


def timed(*commands):
    """How long all of these take, which run at once."""
    begun = time.monotonic()
    running = [subprocess.Popen(it, stdout=subprocess.DEVNULL) for it in commands]
    for it in running:
        it.wait()
    return time.monotonic() - begun


def speed(plan, program):
    jobs = []
    for i in range(64):
        write_padded_design("s%d" % i, 6 + i % 5, 1000 + i)
        jobs.append("s%d.blocks s%d.nets s%d.pl 1 -\n" % (i, i, i))
    write("all.jobs", "".join(jobs))
    for quarter in range(4):
        write("part%d.jobs" % quarter, "".join(jobs[quarter::4]))
    start = least(lambda: timed([plan]), 20)
    alone = least(lambda: sum(timed([plan, *plan_words(it)]) for it in jobs)) - 64 * start
    one = least(lambda: timed(batch_words(program, "all.jobs", 1)))
    four = least(lambda: timed(batch_words(program, "all.jobs", 4)))
    apart = least(lambda: timed(*[batch_words(program, "part%d.jobs" % it, 1) for it in range(4)]))
    print("speed: plan %.2f s less starts, team of 1 %.2f s (%.2f), team of 4 %.2f s (%.2f times as fast as 1)" % (alone, one, one / alone, four, one / four))
    print("speed: four programs that share nothing %.2f s (%.2f times as fast as 1), of which the team of 4 has %.2f" % (apart, one / apart, apart / four), flush=True)


def memory(program):
    write_padded_design("m", 320, 5)
    write("m.jobs", "m.blocks m.nets m.pl 1 640\n" * 256)
    process = subprocess.Popen(batch_words(program, "m.jobs", 4), stdout=subprocess.DEVNULL)
    _, status, usage = os.wait4(process.pid, 0)
    print("memory: %.0f MB at most for 256 designs of 320 blocks, %.1f s of processor time, status %d" % (usage.ru_maxrss / 1024, usage.ru_utime + usage.ru_stime, os.waitstatus_to_exitcode(status)))


def main():
    if len(sys.argv) not in (3, 4):
        sys.exit(__doc__)
    plan, program = os.path.abspath(sys.argv[1]), os.path.abspath(sys.argv[2])
    with tempfile.TemporaryDirectory() as folder:
        os.chdir(sys.argv[3] if len(sys.argv) == 4 else folder)
        speed(plan, program)
        memory(program)


if __name__ == "__main__":
    main()
