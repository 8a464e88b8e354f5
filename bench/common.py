"""What scripts of both folders use: designs made from a seed, runs of a program, and one call that runs all scripts of a folder.

The designs follow from a generator of their own, x -> 6364136223846793005 x + 1442695040888963407 mod 2^64, of which the upper
31 bits are used: block i is w by h with w and h from 4 to 32.
"""
import os
import re
import subprocess
import sys
import tempfile
import time

BENCH = os.path.dirname(os.path.abspath(__file__))
TOP = os.path.dirname(BENCH)
SECOND = os.path.join(BENCH, "second_checker.py")
PROGRAMS = [os.path.join(TOP, "crates", name, "out", name) for name in ("floorplan", "floorbatch")]


def numbers(seed):
    x = seed
    while True:
        x = (6364136223846793005 * x + 1442695040888963407) % 2**64
        yield x >> 33


def write(name, text):
    with open(name, "w", newline="") as file:
        file.write(text)


def blocks_text(stream, blocks, pads):
    """So many hard blocks and pads."""
    lines = ["UCSC blocks 1.0", "NumSoftRectangularBlocks : 0", "NumHardRectilinearBlocks : %d" % blocks, "NumTerminals : %d" % pads]
    for i in range(blocks):
        w, h = 4 + next(stream) % 29, 4 + next(stream) % 29
        lines.append("b%d hardrectilinear 4 (0, 0) (0, %d) (%d, %d) (%d, 0)" % (i, h, w, h, w))
    return "\n".join(lines + ["p%d terminal" % i for i in range(pads)]) + "\n"


def nets_text(nets):
    """Nets of these pins."""
    lines = ["UCLA nets 1.0", "NumNets : %d" % len(nets), "NumPins : %d" % sum(map(len, nets))]
    for net in nets:
        lines += ["NetDegree : %d" % len(net)] + [pin + " B" for pin in net]
    return "\n".join(lines) + "\n"


def write_design(blocks, nets):
    """Stores d.blocks and d.nets, begun at the number of blocks: nets of two blocks each."""
    stream = numbers(blocks)
    write("d.blocks", blocks_text(stream, blocks, 0))
    write("d.nets", nets_text([["b%d" % (next(stream) % blocks) for _ in range(2)] for _ in range(nets)]))


def write_padded_design(name, blocks, seed):
    """Stores NAME.blocks, NAME.nets and NAME.pl: nets of two blocks or of a block and a pad, and two pads."""
    stream = numbers(seed)
    write(name + ".blocks", blocks_text(stream, blocks, 2))
    write(name + ".nets", nets_text([["b%d" % i, "p%d" % (i % 2) if i % 3 == 0 else "b%d" % (next(stream) % blocks)] for i in range(blocks)]))
    write(name + ".pl", "UCLA pl 1.0\np0 0 0\np1 40 30\n")


def plan_words(job):
    """The words of `plan` that a line of a jobs file stands for."""
    blocks, nets, pl, wire, nodes = job.split()
    words = ["plan", "--format", "gsrc", "--blocks", blocks]
    for option, value in (("--nets", nets), ("--pl", pl)):
        words += [option, value] if value != "-" else []
    words += ["--wire-weight", wire] + (["--nodes", nodes] if nodes != "-" else [])
    return words + ["--cert", "of_plan.cert"]


def batch_words(program, jobs, team):
    return [program, "--jobs", jobs, "--team", str(team)]


def generated(program, folder, seed, count, kinds):
    """The words that name the blocks of a design that `gen` makes."""
    base = os.path.join(folder, "%s-%d-%d" % (kinds, count, seed))
    words = ["gen", "--seed", str(seed), "--count", str(count), "--kinds", kinds, "--out", base, "--nodes", "1"]
    subprocess.run([program, *words], stdout=subprocess.DEVNULL)
    return ["--format", "gsrc", "--blocks", base + ".blocks"]


def started_words(program, wire, starts, moves, improve, seed=0):
    """The words of `plan` with walks, of the design s.blocks, s.nets and s.pl, without a budget."""
    design = ["--format", "gsrc", "--blocks", "s.blocks", "--nets", "s.nets", "--pl", "s.pl", "--wire-weight", str(wire)]
    walks = ["--starts", str(starts), "--moves", str(moves), "--improve", str(improve), "--start-seed", str(seed)]
    return [program, "plan", *design, *walks, "--cert", "s.cert"]


def fail(what):
    print(what)
    sys.exit(1)


def measured(words):
    """The status, what was printed, the processor seconds and the MB of a run."""
    read, write_end = os.pipe()
    pid = os.fork()
    if pid == 0:
        os.dup2(write_end, 1)
        os.close(read)
        os.execv(words[0], words)
    os.close(write_end)
    with os.fdopen(read) as out:
        text = out.read()
    _, ended, used = os.wait4(pid, 0)
    return os.waitstatus_to_exitcode(ended), text, used.ru_utime + used.ru_stime, used.ru_maxrss / 1024


def paths_in(text):
    """The paths across and the paths upward, each as its numbers."""
    lines = text.split("tree\n")[0].splitlines()[5:]
    middle = next((at for at, line in enumerate(lines) if line.startswith("upward")), 0)
    return [[[int(word) for word in line.split()] for line in part] for part in (lines[1:middle], lines[middle + 1 :])]


def line_of(text, word):
    found = re.search("(?m)^%s (.*)$" % word, text)
    return found[1] if found else None


def run_all(folder, scripts, words):
    """Runs the scripts of a folder one after another, each with as many of the programs as it takes, and prints a line for each:
    its name, whether it ended well, how long it took, how many of its figures have a mark, and its last line. What a script
    prints is stored under its name. Gives whether all ended well."""
    programs = [os.path.abspath(word) for word in words] or PROGRAMS
    lacking = [program for program in programs[: max(scripts.values())] if not os.access(program, os.X_OK)]
    if lacking:
        sys.exit("not built: %s; ./floorplan builds floorplan, and ./floorbatch floorbatch" % " ".join(lacking))
    outputs, well = tempfile.mkdtemp(), 0
    for call, count in scripts.items():
        name, *more = call.split()
        begun = time.monotonic()
        with open(os.path.join(outputs, name + ".txt"), "w+") as out:
            done = subprocess.run([sys.executable, os.path.join(BENCH, folder, name + ".py"), *programs[:count], *more], stdin=subprocess.DEVNULL, stdout=out, stderr=subprocess.STDOUT)
            out.seek(0)
            lines = [line for line in out.read().splitlines() if line.strip()] or [""]
        marks = sum(len(re.findall(r" !(?=[ |,)]|$)", line)) for line in lines)
        well += done.returncode == 0
        print("%-14s %-4s %6.0f s  %s%s" % (name, "yes" if done.returncode == 0 else "NO", time.monotonic() - begun, "%d not as wanted; " % marks if marks else "", lines[-1][:150]), flush=True)
    print("%d of %d ended well; what they printed is in %s" % (well, len(scripts), outputs))
    return well == len(scripts)
