#!/usr/bin/env python3
"""Runs all scripts that answer yes or no: python3 bench/trials/all.py [PATH/floorplan PATH/floorbatch]

The programs are those that the start script builds, unless others are named. Printed is a line for each script; one that says no
ends the run with status 1, once all have run. `no_threads` and `stores` want root, `faults` and `stores` a C compiler.
"""
import sys

sys.dont_write_bytecode = True
import os

sys.path.append(os.path.dirname(os.path.dirname(os.path.abspath(__file__))))
from common import run_all

# each with the number of programs that it is given
SCRIPTS = {
    "claims": 0,
    "map": 0,
    "start": 0,
    "progress": 1,
    "losses": 1,
    "no_threads": 1,
    "legs": 1,
    "starts": 1,
    "begin": 1,
    "outlines": 1,
    "draw": 1,
    "batch": 2,
    "strong": 1,
    "faults": 1,
    "stores": 1,
    "many_workers": 1,
    "second_agrees": 1,
}

if __name__ == "__main__":
    sys.exit(not run_all("trials", SCRIPTS, sys.argv[1:]))
