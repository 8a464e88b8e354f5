#!/usr/bin/env python3
"""Tries strong bounds: python3 bench/trials/strong.py PATH/floorplan [squares] [small]

squares: squares of the sides 1 to n for n up to 12: the areas are the published ones up to 7, and those of the second
checker's own table up to 12.
small: 200 generated designs of 2 to 7 blocks: the cost is that of the search without strong bounds; both checkers say Yes
to the certificate, and No to one whose cost is one less.
Without a choice both run. The first difference ends the run with status 1.
"""
import os
import re
import subprocess
import sys
import tempfile

sys.dont_write_bytecode = True
sys.path.append(os.path.dirname(os.path.dirname(os.path.abspath(__file__))))
from common import SECOND, fail, generated, line_of, measured
from second_checker import MOST_SIDE, least_area

STRONG = ["--bounds", "strong"]
PUBLISHED = [1, 6, 15, 35, 60, 99, 154]


def planned(program, files, folder, bounds, *more):
    cert = os.path.join(folder, "strong.cert" if bounds else "plain.cert")
    return cert, measured([program, "plan", *files, "--cert", cert, *bounds, *more])


def squares(program, folder):
    for most in range(1, 13):
        base = os.path.join(folder, "squares.blocks")
        with open(base, "w") as file:
            file.write("UCSC blocks 1.0\nNumSoftRectangularBlocks : 0\nNumHardRectilinearBlocks : %d\nNumTerminals : 0\n" % most)
            file.writelines("s%d hardrectilinear 4 (0, 0) (0, %d) (%d, %d) (%d, 0)\n" % (n, n, n, n, n) for n in range(1, most + 1))
        cert, plan = planned(program, ["--format", "gsrc", "--blocks", base], folder, STRONG)
        check = measured([program, "check", "--format", "gsrc", "--blocks", base, "--cert", cert, *STRONG])
        table = least_area([[(n, n)] for n in range(1, most + 1)], [MOST_SIDE] * 2)
        area = int(line_of(plan[1], "cost"))
        if plan[0] != 0 or area != table or line_of(check[1], "status") != "Yes" or most <= 7 and area != PUBLISHED[most - 1]:
            fail("squares up to %d: %s, by the second table %d, %s" % (most, area, table, check[1]))
        print("squares 1 to %d: area %d" % (most, area))


def small(program, folder):
    for number in range(200):
        count, kinds, seed = 2 + number % 6, ("hard", "mixed")[number % 2], 100 + number
        files = generated(program, folder, seed, count, kinds)
        cert, strong = planned(program, files, folder, STRONG)
        _, plain = planned(program, files, folder, [], "--shapes", "16", "--nodes", "20000000", "--long")
        costs = line_of(strong[1], "cost"), line_of(plain[1], "cost")
        if strong[0] != 0 or plain[0] not in (0, 3) or plain[0] == 0 and costs[0] != costs[1] or int(costs[0]) > int(costs[1]):
            fail("%s %d seed %d: costs %s" % (kinds, count, seed, costs))
        with open(cert) as file:
            text = file.read()
        lesser = str(int(costs[0]) - 1)
        with open(cert + ".less", "w") as file:
            file.write(re.sub("(?m)^(cost|bound) .*$", lambda m: m[1] + " " + lesser, text))
        for name, wanted in ((cert, "Yes"), (cert + ".less", "No")):
            words = ["check", *files, "--cert", name, *STRONG]
            first = measured([program, *words])
            second = subprocess.run([sys.executable, SECOND, *words[1:]], stdout=subprocess.PIPE, text=True)
            if not (line_of(first[1], "status") or "").startswith(wanted) or (first[0], first[1]) != (second.returncode, second.stdout):
                fail("%s %d seed %d: %s %s" % (kinds, count, seed, first[:2], second.stdout))
        print("%s %d blocks, seed %d: cost %s, decided %s and %s" % (kinds, count, seed, costs[0], line_of(strong[1], "decided"), line_of(plain[1], "decided")))


def main():
    program = os.path.abspath(sys.argv[1])
    with tempfile.TemporaryDirectory() as folder:
        for choice in sys.argv[2:] or ["squares", "small"]:
            {"squares": squares, "small": small}[choice](program, folder)


if __name__ == "__main__":
    main()
