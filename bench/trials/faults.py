#!/usr/bin/env python3
"""Makes memory, files and output of the built program fail: python3 bench/trials/faults.py PATH/floorplan [FOLDER]

Each case is run once undisturbed, and then once for each allocation that it makes, with this one refused. A run with a
refused allocation has to answer NoMemory with nothing stored and nothing printed, or what the undisturbed run answers, or
a fault of reading or of writing where the memory was wanted to open or to write a file; each file then holds the old text or the
new one, whole. No run may be ended by a signal.

Then the program's own statuses: arguments and files for each of 0 to 8, with what is printed.

Last the files and the output of a run are real ones that fail: a full device, a closed stream, a folder that isn't there, a
folder in the place of a file, and a file of more than 64 MiB.

Needed are `cc`, with which an object is built that counts allocations and refuses one, and a system with /dev/full.
"""
import os
import subprocess
import sys
import tempfile

REFUSE = r"""
#define _GNU_SOURCE
#include <dlfcn.h>
#include <errno.h>
#include <fcntl.h>
#include <stdatomic.h>
#include <stdlib.h>
#include <sys/mman.h>
#include <unistd.h>

static atomic_long unseen;
static atomic_long *seen = &unseen;
static long at = -1;
static void *(*real_malloc)(size_t);
static void *(*real_realloc)(void *, size_t);

/* The count lies in a file that is mapped, since a program may end without a last call here. */
__attribute__((constructor)) static void start(void) {
    int file = open(getenv("REFUSE_COUNT"), O_RDWR);
    void *place = mmap(0, sizeof *seen, PROT_READ | PROT_WRITE, MAP_SHARED, file, 0);
    if (file < 0 || place == MAP_FAILED) _exit(99);
    close(file);
    seen = place;
    at = atol(getenv("REFUSE_AT"));
}

static int refused(void) {
    return at >= 0 && atomic_fetch_add(seen, 1) + 1 == at;
}

void *malloc(size_t size) {
    if (!real_malloc) real_malloc = dlsym(RTLD_NEXT, "malloc");
    if (refused()) { errno = ENOMEM; return 0; }
    return real_malloc(size);
}

void *realloc(void *old, size_t size) {
    if (!real_realloc) real_realloc = dlsym(RTLD_NEXT, "realloc");
    if (refused()) { errno = ENOMEM; return 0; }
    return real_realloc(old, size);
}
"""

HEAD = "UCSC blocks 1.0\nNumSoftRectangularBlocks : 0\nNumHardRectilinearBlocks : %d\nNumTerminals : 0\n"


def blocks(*sides):
    lines = ["b%d hardrectilinear 4 (0, 0) (0, %d) (%d, %d) (%d, 0)\n" % (i, h, w, h, w) for i, (w, h) in enumerate(sides)]
    return HEAD % len(sides) + "".join(lines)


def pins(count):
    """A net that names the first block so often; pins are counted as they are listed."""
    return "UCLA nets 1.0\nNumNets : 1\nNumPins : %d\nNetDegree : %d\n" % (count, count) + "b0 B\n" * count


PLAN = "plan --format gsrc --blocks a.blocks --cert a.cert"
NETS = "UCLA nets 1.0\nNumNets : 1\nNumPins : 2\nNetDegree : 2\nb0 B\nb1 B\n"
CERT = "slicing-certificate 2\nblocks 2\ncost 15\nbound 15\nplan 0:2x3 1:3x2 *\ntree\nE\nE\nE\nC a\nC a\nE\nE\nC a\nC a\n"
UNNAMED = CERT.replace("certificate 2", "certificate 1").replace("C a", "C")
OPEN = "slicing-certificate 2\nblocks 2\ncost none\nbound 12\nplan none\ntree\nE\nO\nO\n"
RESUME = "resume --format gsrc --blocks a.blocks --cert a.cert --cert-out b.cert --pl-out a.out --nodes 10"

# what two threads store and print may differ from run to run
FREE = ("workers", "resume")

# a name, the words, and the files that stand in the folder before the run
CASES = [
    ("plan", PLAN + " --fixed --pl-out a.out", {"a.blocks": blocks((2, 3), (3, 2))}),
    (
        "weights",
        PLAN + " --nets a.nets --wire-weight 1 --net-weights a.weights",
        {"a.blocks": blocks((2, 3), (3, 2)), "a.nets": NETS, "a.weights": "0 3\n"},
    ),
    ("check", "check --format gsrc --blocks a.blocks --fixed --cert a.cert", {"a.blocks": blocks((2, 3), (3, 2)), "a.cert": CERT}),
    (
        "rewrite",
        "check --format gsrc --blocks a.blocks --fixed --cert a.cert --rewrite b.cert",
        {"a.blocks": blocks((2, 3), (3, 2)), "a.cert": UNNAMED},
    ),
    ("resume", RESUME, {"a.blocks": blocks((2, 3), (2, 3)), "a.cert": OPEN}),
    ("workers", PLAN + " --workers 2", {"a.blocks": blocks((2, 3), (2, 3))}),
    ("gen", "gen --seed 7 --count 4 --kinds mixed --out g --nodes 300", {}),
]


class Folder:
    """A folder that holds just these files before each run."""

    def __init__(self, program, top):
        self.program, self.top, self.folder = program, top, os.path.join(top, "case")
        os.makedirs(self.folder, exist_ok=True)
        source = os.path.join(top, "refuse.c")
        with open(source, "w") as file:
            file.write(REFUSE)
        self.object = os.path.join(top, "refuse.so")
        subprocess.run(["cc", "-O1", "-shared", "-fPIC", "-o", self.object, source, "-ldl"], check=True)

    def fill(self, files):
        for name in os.listdir(self.folder):
            os.remove(os.path.join(self.folder, name))
        for name, text in files.items():
            with open(os.path.join(self.folder, name), "w") as file:
                file.write(text)

    def held(self):
        held = {}
        for name in os.listdir(self.folder):
            with open(os.path.join(self.folder, name)) as file:
                held[name] = file.read()
        return held

    def run(self, words, files, refuse_at):
        """The status, the output and what the folder then holds, and how many allocations there were."""
        self.fill(files)
        count = os.path.join(self.top, "count")
        with open(count, "wb") as file:
            file.write(bytes(8))
        env = dict(os.environ, LD_PRELOAD=self.object, REFUSE_AT=str(refuse_at), REFUSE_COUNT=count)
        run = subprocess.run([self.program] + words.split(), cwd=self.folder, env=env, stdout=subprocess.PIPE, timeout=60)
        with open(count, "rb") as file:
            return (run.returncode, run.stdout.decode(), self.held()), int.from_bytes(file.read(), sys.byteorder)


def are_whole(held, before, after):
    """Each file holds what it should, or what it held."""
    return all(text in (before.get(name), after.get(name)) for name, text in held.items())


def refused_memory(folder):
    bad = 0
    for name, words, files in CASES:
        whole, count = folder.run(words, files, 0)
        told = {}
        for number in range(1, count + 1):
            (status, printed, held), _ = folder.run(words, files, number)
            told[status] = told.get(status, 0) + 1
            same = status == whole[0] and held.keys() == whole[2].keys() and (name in FREE or (printed, held) == whole[1:])
            silent = status in (7, 9) and printed == "" and held == files
            halted = status == 8 and whole[1].startswith(printed) and are_whole(held, files, whole[2])
            if not (same or silent or halted):
                bad += 1
                print("%s: refused allocation %d: status %d, printed %r, stored %s" % (name, number, status, printed, sorted(held)))
        answers = ", ".join("%d runs status %d" % (told[status], status) for status in sorted(told))
        print("%-8s undisturbed status %d, %d allocations: %s" % (name, whole[0], count, answers), flush=True)
    return bad


def statuses(folder):
    """Words and files for each status, with the first line that is printed and the names that are then stored."""
    one, two = {"a.blocks": blocks((3, 4))}, {"a.blocks": blocks((2, 3), (3, 2)), "a.cert": CERT}
    check = "check --format gsrc --blocks a.blocks --fixed --cert a.cert"
    measure = "measure --format gsrc --blocks a.blocks --placed=a.pl"
    equals = {"a.blocks": blocks((2, 3), (2, 3)), "a.cert": OPEN}
    resume = "resume --format gsrc --blocks a.blocks --cert a.cert --cert-out b.cert"
    cases = [
        (0, PLAN + " --workers=1 --nodes 2", one, "status Optimal", ["a.cert"]),
        (0, check, two, "status Yes", []),
        (0, check + " --rewrite b.cert", dict(two, **{"a.cert": UNNAMED}), "status Yes", ["b.cert"]),
        (0, PLAN + " --nets a.nets", dict(one, **{"a.nets": pins(1048576)}), "status Optimal", ["a.cert"]),
        (0, resume + " --nodes 10 --workers=2", equals, "status Optimal", ["b.cert"]),
        (0, resume + " --nodes=1000000000000 --long", equals, "status Optimal", ["b.cert"]),
        (1, PLAN + " --outline=2x2", one, "status NoneFits", ["a.cert"]),
        (2, resume, equals, "error Usage", []),
        (2, resume + " --nodes 4000001", equals, "error Usage", []),
        (2, resume + " --nodes 1000000000001 --long", equals, "error Usage", []),
        (2, resume + " --nodes 1 --rewrite c.cert", equals, "error Usage", []),
        (2, measure + " --long", one, "error Usage", []),
        (2, PLAN + " --workers 17", one, "error Usage", []),
        (2, PLAN + " more words", one, "error Usage", []),
        (2, check + " --cert=b.cert", two, "error Usage", []),
        (3, PLAN + " --nodes=1", {"a.blocks": blocks((2, 3), (2, 3))}, "status Open", ["a.cert"]),
        (4, check, dict(two, **{"a.cert": CERT.replace("cost 15", "cost 14")}), "status No CostDiffers 14 15", []),
        (4, check + " --rewrite=b.cert", dict(two, **{"a.cert": CERT.replace("cost 15", "cost 14")}), "status No CostDiffers 14 15", []),
        (3, resume + " --nodes 1", equals, "status Open", ["b.cert"]),
        (4, resume + " --nodes 4000000", dict(equals, **{"a.cert": OPEN.replace("bound 12", "bound 13")}), "status No BoundDiffers 13 12", []),
        (4, measure, dict(one, **{"a.pl": "UCLA pl 1.0\nb0 -1 0 DIMS = (3, 4) : N\n"}), "status Outside 0", []),
        (5, PLAN + " --pl-out a.out", {"a.blocks": ""}, "error BadInput blocks 0 Truncated", []),
        (5, resume + " --nodes 1", dict(equals, **{"a.cert": OPEN[:-2]}), "error BadInput cert 8 Truncated", []),
        (6, resume + " --nodes 4000000", equals, "error OverLimit nodes 4000001 4000000", []),
        (6, PLAN + " --pl-out=a.out", {"a.blocks": blocks((1048577, 1))}, "error OverLimit side 1048577 1048576", []),
        (6, PLAN + " --nets a.nets", dict(one, **{"a.nets": pins(1048577)}), "error OverLimit pins 1048577 1048576", []),
        (7, PLAN + " --nets a.nets", one, "", []),
        (7, resume + " --nodes 1", {"a.blocks": blocks((2, 3), (2, 3))}, "", []),
        (8, PLAN + " --pl-out none/a.out", one, "", ["a.cert"]),
        (8, check + " --rewrite none/b.cert", two, "", []),
    ]
    bad = 0
    for wanted, words, files, line, stored in cases:
        folder.fill(files)
        run = subprocess.run([folder.program] + words.split(), cwd=folder.folder, stdout=subprocess.PIPE, text=True, timeout=60)
        new = sorted(set(os.listdir(folder.folder)) - set(files))
        fine = (run.returncode, run.stdout.split("\n")[0], new) == (wanted, line, stored)
        bad += not fine
        print("status %d: %s%s" % (run.returncode, words, "" if fine else ", WANTED %d %r %s, printed %r" % (wanted, line, stored, run.stdout)), flush=True)
    return bad


def outside(folder):
    """Files and streams that fail: the status, and what is printed where the output can be seen."""
    one = {"a.blocks": blocks((3, 4))}
    large = os.path.join(folder.top, "large")
    with open(large, "wb") as file:
        file.truncate(67108865)
    os.makedirs(os.path.join(folder.top, "taken"), exist_ok=True)
    command = "plan --format gsrc --blocks %s --cert %s"
    pipe, closed = subprocess.PIPE, ">&-"
    cases = [
        ("no such file", command % ("none", "a.cert"), pipe, 7, ""),
        ("no such folder", command % ("none/a.blocks", "a.cert"), pipe, 7, ""),
        ("a folder as input", command % ("../taken", "a.cert"), pipe, 7, ""),
        ("a large file", command % ("../large", "a.cert"), pipe, 6, "error OverLimit file 67108865 67108864\n"),
        ("store without a folder", command % ("a.blocks", "none/a.cert"), pipe, 8, ""),
        ("store over a folder", command % ("a.blocks", "../taken"), pipe, 8, ""),
        ("store on a full device", command % ("a.blocks", "/dev/full"), pipe, 8, ""),
        ("print on a full device", command % ("a.blocks", "a.cert"), "/dev/full", 8, None),
        ("print on a closed stream", command % ("a.blocks", "a.cert"), closed, 8, None),
    ]
    bad = 0
    for name, words, to, wanted, text in cases:
        folder.fill(one)
        if to == pipe:
            run = subprocess.run([folder.program] + words.split(), cwd=folder.folder, stdout=pipe, timeout=60)
        else:
            shell = '"$0" "$@" %s' % (to if to == closed else "> " + to)
            run = subprocess.run(["sh", "-c", shell, folder.program] + words.split(), cwd=folder.folder, timeout=60)
        printed = run.stdout.decode() if run.stdout is not None else None
        stored = "a.cert" in os.listdir(folder.folder)
        fine = run.returncode == wanted and printed == text and stored == (text is None)
        bad += not fine
        print("%-26s status %d%s" % (name, run.returncode, "" if fine else ", WANTED %d, printed %r" % (wanted, printed)), flush=True)
    return bad


def main():
    program = os.path.abspath(sys.argv[1])
    top = os.path.abspath(sys.argv[2]) if len(sys.argv) > 2 else tempfile.mkdtemp()
    folder = Folder(program, top)
    bad = refused_memory(folder) + statuses(folder) + outside(folder)
    print("%d runs against what is wanted" % bad)
    sys.exit(1 if bad else 0)


main()
