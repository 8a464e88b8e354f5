#!/usr/bin/env python3
"""Measures strong bounds: python3 bench/measures/strong.py PATH/floorplan [speed] [squares] [native=FOLDER]

speed: generated designs of 10 to 16 blocks, hard and mixed, seeds 1 to 10, areas alone: what `plan --bounds strong` and
`check --bounds strong` take of one processor, and the greatest memory; printed is the worst of each ten beside its aim.
squares: the same of the squares of the sides 1 to 12, which `plan` should find within 2 s.
native=FOLDER: the folder has areadp.cpp, a native program for such tables. It is built with the budgets of dead space that
the program takes one after another, and the processor time of all these tables is compared with that of `check`: designs
of 14 and 16 blocks, hard and mixed, seeds 1 to 5. A table should take at most 3 times the native one.
Without a choice the first two run. An aim that is missed ends the run with status 1.
"""
import os
import subprocess
import sys
import tempfile

sys.dont_write_bytecode = True
sys.path.append(os.path.dirname(os.path.dirname(os.path.abspath(__file__))))
from common import fail, generated, line_of, measured

STRONG = ["--bounds", "strong"]
SQUARES, SQUARES_AIM = 12, 2
AIMS = {10: 0.2, 12: 1, 14: 3, 16: 12}
MEMORY = 200
NATIVE_MOST = 3
NATIVE_MAIN = """
int main(int, char** v) {
  n = atoi(v[2]); d = ::gen_design(atoi(v[3]), n, v[1]); A.assign(1u << n, 0);
  for (u32 S = 1; S < 1u << n; S++) {
    u64 least = ~0ull; for (auto& p : d.shapes[__builtin_ctz(S)]) least = std::min(least, (u64)p.w * p.h);
    A[S] = A[S & (S - 1)] + least;
  }
  T = A[(1u << n) - 1]; Res r; double t = 0;
  for (u64 D = T / 256; ; D += (D + 1) / 4 + 1) { r = run(D); t += r.t; if (r.best != ~0ull) break; }
  printf("%lu %.4f\\n", (unsigned long)r.best, t);
}
"""


def planned(program, files, folder, bounds):
    cert = os.path.join(folder, "strong.cert")
    return cert, measured([program, "plan", *files, "--cert", cert, *bounds])


def speed(program, folder):
    for kinds in ("hard", "mixed"):
        for count, aim in AIMS.items():
            worst = [0, 0, 0, 0]
            for seed in range(1, 11):
                files = generated(program, folder, seed, count, kinds)
                cert, plan = planned(program, files, folder, STRONG)
                check = measured([program, "check", *files, "--cert", cert, *STRONG])
                if plan[0] != 0 or line_of(check[1], "status") != "Yes":
                    fail("%s %d seed %d: %s %s" % (kinds, count, seed, plan[:2], check[:2]))
                worst = list(map(max, worst, (*plan[2:], *check[2:])))
            print("%s %d blocks: plan %.2f of %.2f s, %.0f MB; check %.2f of %.2f s, %.0f MB" % (kinds, count, worst[0], aim, worst[1], worst[2], aim / 2, worst[3]))
            if worst[0] > aim or worst[2] > aim / 2 or max(worst[1], worst[3]) > MEMORY:
                fail("an aim is missed")


def squares(program, folder):
    base = os.path.join(folder, "squares.blocks")
    with open(base, "w") as file:
        file.write("UCSC blocks 1.0\nNumSoftRectangularBlocks : 0\nNumHardRectilinearBlocks : %d\nNumTerminals : 0\n" % SQUARES)
        file.writelines("s%d hardrectilinear 4 (0, 0) (0, %d) (%d, %d) (%d, 0)\n" % (n, n, n, n, n) for n in range(1, SQUARES + 1))
    files = ["--format", "gsrc", "--blocks", base]
    cert, plan = planned(program, files, folder, STRONG)
    check = measured([program, "check", *files, "--cert", cert, *STRONG])
    print("squares 1 to %d: plan %.2f of %.2f s, check %.2f s" % (SQUARES, plan[2], SQUARES_AIM, check[2]))
    if plan[2] > SQUARES_AIM:
        fail("an aim is missed")


def native(program, folder, source):
    with open(os.path.join(source, "areadp.cpp")) as file:
        text = file.read().split("int main")[0] + NATIVE_MAIN
    with open(os.path.join(folder, "tables.cpp"), "w") as file:
        file.write(text)
    tables = os.path.join(folder, "tables")
    subprocess.run(["g++", "-O2", "-I", source, "-o", tables, tables + ".cpp"], check=True)
    for kinds in ("hard", "mixed"):
        for count in (14, 16):
            own = other = 0
            for seed in range(1, 6):
                files = generated(program, folder, seed, count, kinds)
                cert, plan = planned(program, files, folder, STRONG)
                own += min(measured([program, "check", *files, "--cert", cert, *STRONG])[2] for _ in range(3))
                area, taken = min((measured([tables, kinds, str(count), str(seed)])[1].split() for _ in range(3)), key=lambda said: float(said[1]))
                other += float(taken)
                if area != line_of(plan[1], "cost"):
                    fail("%s %d seed %d: area %s, natively %s" % (kinds, count, seed, line_of(plan[1], "cost"), area))
            print("%s %d blocks: tables %.2f s, natively %.2f s, %.2f times" % (kinds, count, own, other, own / other), flush=True)
            if own > NATIVE_MOST * other:
                fail("an aim is missed")


def main():
    program = os.path.abspath(sys.argv[1])
    with tempfile.TemporaryDirectory() as folder:
        for choice in sys.argv[2:] or ["speed", "squares"]:
            if choice.startswith("native="):
                native(program, folder, choice.split("=", 1)[1])
            else:
                {"speed": speed, "squares": squares}[choice](program, folder)


if __name__ == "__main__":
    main()
