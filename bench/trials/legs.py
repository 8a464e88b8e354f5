#!/usr/bin/env python3
"""Tests searches that go on from a certificate: python3 bench/trials/legs.py PATH/floorplan [DESIGNS [FOLDER]]

Twelve designs (or DESIGNS of them) are generated, of 2 to 5 hard or mixed blocks with nets, and each is planned in one go.
Then a search stops at 1,000 decisions, and goes on in legs of 1,000 by 1, 2 and 4 workers until it ends. `check`
must say Yes to each certificate on the way; each leg that spends its budget must have decided 1,000 more; and the cost at the end
must be that of the search in one go. So must it be where a leg goes on from a tree that no search has left: subtrees of the
certificate of that search are cut out at random, and its root is split before anything else is decided. Printed is a line for each
design; the first answer that is not as it should be ends the run with status 1.
"""
import os
import random
import subprocess
import sys
import tempfile

DESIGNS = 12
WORKERS = (1, 2, 4)
KINDS = ("hard", "mixed")
LEG = 1000
MOST = "4000000"


def run(words):
    done = subprocess.run(words, stdout=subprocess.PIPE, text=True)
    return done.returncode, dict(line.split(" ", 1) for line in done.stdout.splitlines() if " " in line)


def next_steps(tokens, blocks):
    """The tokens that may follow: operators, and then the blocks that are unused."""
    if len(tokens) == 2 * blocks - 1:
        return []
    operands = [token for token in tokens if token not in "*+"]
    room = 2 * len(operands) - len(tokens) > 1
    return [sign for sign in "*+" if room and tokens[-1] != sign] + [str(b) for b in range(blocks) if str(b) not in operands]


def end_of(tags, start, tokens, blocks):
    """Where the subtree ends that begins at this tag, below these tokens."""
    todo, at = [tokens], start
    while todo:
        tokens = todo.pop()
        if tags[at] == "E":
            todo.extend(tokens + [step] for step in reversed(next_steps(tokens, blocks)))
        elif tags[at].startswith("S"):
            todo.extend([tokens, tokens])
        at += 1
    return at


def cut(tags, blocks, chance):
    """The tree with some subtrees left open."""
    left, todo, at = [], [[]], 0
    while todo:
        tokens = todo.pop()
        if random.random() < chance:
            left.append("O")
            at = end_of(tags, at, tokens, blocks)
            continue
        left.append(tags[at])
        if tags[at] == "E":
            todo.extend(tokens + [step] for step in reversed(next_steps(tokens, blocks)))
        elif tags[at].startswith("S"):
            todo.extend([tokens, tokens])
        at += 1
    return left


class Trial:
    """A program, and the words of a design."""

    def __init__(self, program, design, seed):
        self.program, self.design, self.seed = program, design, seed

    def fail(self, what):
        sys.exit("seed %d: %s" % (self.seed, what))

    def run(self, command, *words):
        return run([self.program, command, *self.design, *words])

    def check(self, cert):
        status, said = self.run("check", "--cert", cert)
        if status != 0 or said["status"] != "Yes":
            self.fail("check said %s" % said)
        return said

    def go_on(self, cert, workers):
        """Legs from this certificate until the search ends: its cost, and how many legs there were."""
        legs = 0
        while True:
            before = self.check(cert)
            status, report = self.run("resume", "--cert", cert, "--cert-out", "l.cert", "--nodes", str(LEG), "--workers", str(workers))
            if status not in (0, 1, 3):
                self.fail("resume ended with status %d" % status)
            legs += 1
            said = self.check("l.cert")
            more = int(said["decided"]) - int(before["decided"])
            if more > LEG or (status == 3 and more != LEG):
                self.fail("a leg with status %d decided %d more" % (status, more))
            if status != 3:
                return report["cost"], legs
            cert = "l.cert"

    def store(self, head, tags):
        """A certificate with this tree, and the bound that is right for it."""
        for bound in ("none", None):
            if bound is None:
                bound = self.run("check", "--cert", "f.cert")[1]["status"].split()[-1]
            with open("f.cert", "w") as file:
                file.write("\n".join([*head[:3], "bound " + bound, *head[4:], *tags]) + "\n")
            status, _ = self.run("check", "--cert", "f.cert")
            if status == 0:
                return
        self.fail("no bound is right for a tree")


def tried(trial, blocks):
    """The cost in one go, and the legs of each number of workers."""
    status, whole = trial.run("plan", "--cert", "o.cert", "--nodes", MOST, "--long")
    if status not in (0, 1):
        return None, []
    legs = []
    with open("o.cert") as file:
        lines = file.read().splitlines()
    head, tags = lines[:6], lines[6:]
    none = [head[0], head[1], "cost none", "bound none", "plan none", "tree"]
    for workers in WORKERS:
        trial.run("plan", "--cert", "s.cert", "--nodes", str(LEG))
        cost, count = trial.go_on("s.cert", workers)
        legs.append(count)
        if cost != whole["cost"]:
            trial.fail("%d workers in legs found %s and not %s" % (workers, cost, whole["cost"]))
        trial.store(head, cut(tags, blocks, 0.01))
        if trial.go_on("f.cert", workers)[0] != whole["cost"]:
            trial.fail("%d workers found another cost from a tree with holes" % workers)
        if any(tag.startswith("S") for tag in tags):
            trial.store(none, [next(tag for tag in tags if tag.startswith("S")), "O", "O"])
            if trial.go_on("f.cert", workers)[0] != whole["cost"]:
                trial.fail("%d workers found another cost from a root that is split" % workers)
    return whole["cost"], legs


def main():
    program = os.path.abspath(sys.argv[1])
    designs = int(sys.argv[2]) if len(sys.argv) > 2 else DESIGNS
    os.chdir(sys.argv[3] if len(sys.argv) > 3 else tempfile.mkdtemp())
    for seed in range(1, designs + 1):
        random.seed(seed)
        blocks, kinds = 2 + seed % 4, KINDS[seed % 3 % 2]
        status, _ = run([program, "gen", "--seed", str(seed), "--count", str(blocks), "--kinds", kinds, "--out", "l", "--nodes", "1"])
        if status not in (0, 3):
            sys.exit("seed %d: gen ended with status %d" % (seed, status))
        design = ["--format", "gsrc", "--blocks", "l.blocks", "--nets", "l.nets", "--pl", "l.pl", "--wire-weight", "1"]
        cost, legs = tried(Trial(program, design, seed), blocks)
        told = "open" if cost is None else "cost %s in legs: %s" % (cost, ", ".join(map(str, legs)))
        print("seed %d, %d %s blocks: %s" % (seed, blocks, kinds, told), flush=True)


if __name__ == "__main__":
    main()
