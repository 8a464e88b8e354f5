#!/usr/bin/env python3
"""Tries the batch program: python3 bench/trials/batch.py PATH/floorplan PATH/floorbatch [FOLDER]

A hundred jobs are written into FOLDER, a temporary one by default: good ones, refused ones and ones without their files, with a
hyphen in each field where one may stand, in a file with comments, blank lines and CR LF. For teams of 1, 2, 4 and 16 the bytes
must be those of `plan` run for each; the first difference ends the run.
"""
import os
import subprocess
import sys
import tempfile

sys.dont_write_bytecode = True
sys.path.append(os.path.dirname(os.path.dirname(os.path.abspath(__file__))))
from common import batch_words, plan_words, write, write_padded_design

OUTCOMES = {0: "good", 1: "nothing fits", 2: "no meaning", 3: "open", 5: "refused", 6: "over a limit", 7: "lost"}


def write_refused():
    """Files that are refused, each for another reason."""
    write("cut.blocks", "UCSC blocks 1.0\nNumSoftRectangularBlocks : 0\n")
    write("title.blocks", "no title\n")
    write("wide.blocks", "UCSC blocks 1.0\nNumSoftRectangularBlocks : 0\nNumHardRectilinearBlocks : 1\nNumTerminals : 0\n"
          "b hardrectilinear 4 (0, 0) (0, 1) (1048577, 1) (1048577, 0)\n")
    write("huge.blocks", "UCSC blocks 1.0\nNumSoftRectangularBlocks : 0\nNumHardRectilinearBlocks : 2\nNumTerminals : 0\n"
          + "".join("b%d hardrectilinear 4 (0, 0) (0, 1048576) (1048576, 1048576) (1048576, 0)\n" % i for i in range(2)))
    write("odd.nets", "UCLA nets 1.0\nNumNets : 1\nNumPins : 3\nNetDegree : 3\nb0 B\nb1 B\n")
    write("stranger.nets", "UCLA nets 1.0\nNumNets : 1\nNumPins : 2\nNetDegree : 2\nb0 B\nzz B\n")
    write("bad.pl", "UCLA pl 1.0\np0 0\n")


def mixed_jobs():
    kinds = ["d%d.blocks - - 0 -", "d%d.blocks d%d.nets - 1 300", "d%d.blocks d%d.nets d%d.pl 2 500", "d%d.blocks - d%d.pl 0 200", "d%d.blocks d%d.nets d%d.pl 65535 1"]
    refused = ["cut.blocks - - 0 -", "title.blocks - - 0 -", "wide.blocks - - 0 -", "huge.blocks - - 0 -", "d1.blocks odd.nets - 1 -",
               "d1.blocks stranger.nets d1.pl 1 -", "d1.blocks - bad.pl 0 -", "none.blocks - - 0 -", "d1.blocks none.nets - 0 -",
               "d1.blocks - none.pl 0 -", "-d1.blocks - - 0 -", "d1.blocks -n - 0 1", "d8.blocks - - 00 4000000", "- - - 0 -", "d1.blocks - - 0 0000003"]
    jobs = []
    for i in range(100):
        if i % 3 == 2:
            jobs.append(refused[(i // 3) % len(refused)])
        else:
            form = kinds[i % len(kinds)]
            jobs.append(form % ((i % 10,) * form.count("%d")))
    return jobs


def same(plan, program):
    for i in range(10):
        write_padded_design("d%d" % i, 1 + i % 9, i)
    write_refused()
    jobs = mixed_jobs()
    lines = ["# a hundred jobs\r\n", "\r\n"]
    for i, job in enumerate(jobs):
        lines.append(("\t" if i % 7 == 0 else "") + job.replace(" ", "  " if i % 5 == 0 else " ") + ("\r\n" if i % 2 else "\n"))
        if i % 11 == 0:
            lines.append(" # a comment\n")
    write("mixed.jobs", "".join(lines).rstrip("\n"))
    texts, statuses = [], []
    for i, job in enumerate(jobs):
        done = subprocess.run([plan, *plan_words(job)], stdout=subprocess.PIPE)
        statuses.append(done.returncode)
        texts.append(b"job %d %d\n" % (i, done.returncode) + done.stdout)
    wanted = next((it for it in statuses if it not in (0, 1, 3)), 0)
    for team in (1, 2, 4, 16):
        done = subprocess.run(batch_words(program, "mixed.jobs", team), stdout=subprocess.PIPE)
        if (done.returncode, done.stdout) != (wanted, b"".join(texts)):
            with open("printed", "wb") as file:
                file.write(done.stdout)
            sys.exit("same: a team of %d prints something else (see 'printed'), or ends with %d and not %d" % (team, done.returncode, wanted))
    told = ", ".join("%d %s" % (statuses.count(it), what) for it, what in OUTCOMES.items() if it in statuses)
    print("same: %d jobs (%s), teams of 1, 2, 4 and 16" % (len(jobs), told), flush=True)


def main():
    if len(sys.argv) not in (3, 4):
        sys.exit(__doc__)
    plan, program = os.path.abspath(sys.argv[1]), os.path.abspath(sys.argv[2])
    with tempfile.TemporaryDirectory() as folder:
        os.chdir(sys.argv[3] if len(sys.argv) == 4 else folder)
        same(plan, program)


if __name__ == "__main__":
    main()
