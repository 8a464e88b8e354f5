#!/usr/bin/env python3
"""Runs all scripts that measure: python3 bench/measures/all.py [PATH/floorplan PATH/floorbatch]

The programs are those that the start script builds, unless others are named. Printed is a line for each script, with how many of
its figures miss their aims; its tables are stored. Times want a machine with nothing else to do, and `instructions` valgrind.
What the gate takes is left out, since that is hours (gate.py), and so is the whole table of plans within an outline (outlines.py).
"""
import sys

sys.dont_write_bytecode = True
import os

sys.path.append(os.path.dirname(os.path.dirname(os.path.abspath(__file__))))
from common import run_all

# each, with words of its own, and with the number of programs that it is given
SCRIPTS = {
    "run": 1,
    "instructions": 1,
    "readers": 1,
    "batch": 2,
    "strong": 1,
    "paths": 1,
    "starts": 1,
    "plans": 1,
    "outlines --few": 1,
    "gaps": 1,
    "teams": 1,
    "workers": 1,
    "reach": 1,
    "hostile": 1,
    "anew --wanted": 0,
}

if __name__ == "__main__":
    sys.exit(not run_all("measures", SCRIPTS, sys.argv[1:]))
