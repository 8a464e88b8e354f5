#!/usr/bin/env python3
"""Tests that a store replaces its file whole or not at all: python3 bench/trials/stores.py PATH/floorplan [KILLS [DECISIONS [FOLDER]]]

A search goes on from a certificate and stores the new one under the same name. It is killed at KILLS moments (100), a third of
them spread over the run and the others from when the new file is there; each time `check` must accept what the name holds. The
certificate decides DECISIONS subproblems (400,000, which are 1.2 MB). Then stores that fail: on a full disk, past the limit on
the size of a file, in a folder and over a file that may not be written, where the new file can't be renamed, where all its
names are taken, and where one call of the system fails. The status must be 8, and the folder must hold what it held. Last
stores that don't: through links, into pipes and devices, with the mode of a file that is there or of a new one, and by two
processes at once. Printed is a line for each; the first that is not as it should be ends the run with status 1.

Wanted are root, `mount` and `cc`, with which an object is built that lets one call of the system fail.
"""
import os
import random
import resource
import shutil
import signal
import stat
import subprocess
import sys
import tempfile
import time

sys.dont_write_bytecode = True
sys.path.append(os.path.dirname(os.path.dirname(os.path.abspath(__file__))))
from common import blocks_text, fail, numbers, write

USER = 64321
OLD = "the old text\n"

FAIL = r"""
#define _GNU_SOURCE
#include <dlfcn.h>
#include <errno.h>
#include <stdlib.h>
#include <string.h>
#include <sys/stat.h>
#include <unistd.h>

static int fails(const char *call) {
    if (strcmp(getenv("FAILING"), call)) return 0;
    errno = EIO;
    return 1;
}

#define CALL(type, name, parameters, arguments) \
    type name parameters { return fails(#name) ? -1 : ((type (*) parameters)dlsym(RTLD_NEXT, #name)) arguments; }

CALL(int, fsync, (int file), (file))
CALL(int, fchmod, (int file, mode_t mode), (file, mode))
CALL(int, rename, (const char *from, const char *to), (from, to))
CALL(ssize_t, write, (int file, const void *bytes, size_t count), (file, bytes, count))
CALL(ssize_t, readlink, (const char *link, char *text, size_t room), (link, text, room))
CALL(int, statx, (int at, const char *path, int flags, unsigned mask, struct statx *found), (at, path, flags, mask, found))
"""
CALLS = ("fsync", "fchmod", "rename", "write", "readlink", "statx")


def read(name):
    with open(name, "rb") as file:
        return file.read()


def held(folder):
    """What stands in a folder: links by where they lead, files with their modes and bytes."""
    found = {}
    for name in sorted(os.listdir(folder)):
        path = os.path.join(folder, name)
        is_file = not os.path.islink(path) and os.path.isfile(path)
        mode = stat.S_IMODE(os.lstat(path).st_mode)
        found[name] = (mode, read(path)) if is_file else os.readlink(path) if os.path.islink(path) else None
    return found


def fresh(folder):
    """An empty folder of this name, which all may write."""
    shutil.rmtree(folder, ignore_errors=True)
    os.mkdir(folder)
    os.chmod(folder, 0o777)
    return folder


class Trial:
    """A program, and the words of a design of 20 blocks and of a small one."""

    def __init__(self, program, decisions):
        self.program = os.path.abspath(program)
        write("d.blocks", blocks_text(numbers(20), 20, 0))
        write("s.blocks", blocks_text(numbers(4), 4, 0))
        self.design, self.small = ["--format", "gsrc", "--blocks", os.path.abspath("d.blocks")], ["--format", "gsrc", "--blocks", os.path.abspath("s.blocks")]
        self.decisions = decisions
        if self.run("plan", *self.design, "--cert", "d.cert", "--nodes", str(decisions), "--long").returncode != 3:
            fail("no certificate was made")
        self.plan("s.cert")
        self.text = read("s.cert")

    def run(self, *words, **how):
        return subprocess.run([self.program, *words], stdout=how.pop("stdout", subprocess.PIPE), timeout=600, **how)

    def plan(self, cert, wanted=0, nodes=4000000, **how):
        """A small design is planned, and its certificate stored."""
        done = self.run("plan", *self.small, "--nodes", str(nodes), "--cert", cert, **how)
        if done.returncode != wanted:
            fail("a store under %s: status %d, and not %d" % (cert, done.returncode, wanted))
        return done.stdout

    def resume_words(self, cert):
        return [self.program, "resume", *self.design, "--cert", cert, "--cert-out", cert, "--nodes", "1000", "--long"]

    def accepts(self, cert):
        """How many decisions the certificate has, where `check` accepts it."""
        done = self.run("check", *self.design, "--cert", cert)
        lines = dict(line.split(" ", 1) for line in done.stdout.decode().splitlines())
        if done.returncode != 0 or lines["status"] != "Yes":
            fail("check ended with status %d: %s" % (done.returncode, lines.get("status")))
        return int(lines["decided"])

    def fails(self, what, folder, cert="x", **how):
        """A store fails, and all stays as it is. The name is told in the folder."""
        before = held(folder)
        self.plan(os.path.join(folder, cert), 8, **how)
        if held(folder) != before:
            fail("%s: the folder now holds %s" % (what, sorted(held(folder))))
        print("%s: status 8, and the old bytes stay" % what, flush=True)


def killed(trial, kills):
    """Kills at random moments; a new file that is left stands in nobody's way."""
    folder = fresh("killed")
    cert = os.path.join(folder, "x")
    shutil.copy("d.cert", cert)
    begun = time.monotonic()
    subprocess.run(trial.resume_words(cert), stdout=subprocess.DEVNULL)
    whole = time.monotonic() - begun
    decided, done, left = trial.accepts(cert), 0, 0
    for kill in range(kills):
        there = set(os.listdir(folder))
        process = subprocess.Popen(trial.resume_words(cert), stdout=subprocess.DEVNULL)
        if kill % 3 == 0:
            time.sleep(random.uniform(0, whole))
        else:
            while process.poll() is None and not set(os.listdir(folder)) - there:
                pass
            time.sleep(random.uniform(0, 0.003))
        process.kill()
        process.wait()
        now = trial.accepts(cert)
        if now not in (decided, decided + 1000):
            fail("killed: %d decisions before, and then %d" % (decided, now))
        done += now != decided
        left += bool(set(os.listdir(folder)) - there)
        decided = now
    shutil.rmtree(folder)
    if not left:
        fail("killed: no kill came in the midst of a store")
    print("killed %d times: each certificate is accepted; %d stores were cut off, and %d were done" % (kills, left, done), flush=True)


def full_disk(trial):
    """A disk with room for the old certificate and half of a new one."""
    folder = fresh("full")
    size = os.path.getsize("d.cert")
    subprocess.run(["mount", "-t", "tmpfs", "-o", "size=%d" % (size + size // 2), "tmpfs", folder], check=True)
    try:
        cert = os.path.join(folder, "x")
        shutil.copy("d.cert", cert)
        before = held(folder)
        done = subprocess.run(trial.resume_words(cert), stdout=subprocess.PIPE)
        if done.returncode != 8 or done.stdout or held(folder) != before:
            fail("a full disk: status %d, and the folder holds %s" % (done.returncode, sorted(held(folder))))
    finally:
        subprocess.run(["umount", folder])
    print("a full disk: status 8, and the old bytes stay", flush=True)


def limited(how):
    """What a process does first: no file may have more than a hundred bytes."""

    def begin():
        signal.signal(signal.SIGXFSZ, how)
        resource.setrlimit(resource.RLIMIT_FSIZE, (100, 100))

    return begin


def refused(trial):
    """Limits, permissions, and names that are taken."""
    nobody = {"user": USER, "group": USER, "extra_groups": []}
    folder = fresh("refused")
    old = os.path.join(folder, "x")
    write(old, OLD)
    trial.fails("a limit on the size of a file", folder, preexec_fn=limited(signal.SIG_IGN))
    trial.plan(old, -signal.SIGXFSZ, preexec_fn=limited(signal.SIG_DFL))
    if read(old) != OLD.encode() or sorted(os.listdir(folder)) != ["x", "x.new"]:
        fail("a run that the limit ended: the folder holds %s" % sorted(held(folder)))
    os.remove(old + ".new")
    trial.fails("a file that may not be written", folder, **nobody)
    os.chmod(old, 0o666)
    os.chmod(folder, 0o1777)
    trial.fails("a file that may not be replaced", folder, **nobody)
    os.chmod(folder, 0o755)
    trial.fails("a folder that may not be written", folder, **nobody)
    os.chmod(folder, 0o777)
    for number in range(1000):
        write(old + ".new" + (str(number) if number else ""), "")
    trial.fails("all names of new files taken", folder)
    os.remove(old + ".new999")
    trial.plan(old)
    if read(old) != trial.text or len(os.listdir(folder)) != 1000:
        fail("the last name of a new file: the folder holds %d files" % len(os.listdir(folder)))
    trial.fails("a name of 252 bytes", fresh("refused"), "x" * 252)
    trial.plan(os.path.join("refused", "x" * 251))


def failing_calls(trial):
    """One call of the system fails each time that it is made."""
    write("fail.c", FAIL)
    subprocess.run(["cc", "-O1", "-shared", "-fPIC", "-o", "fail.so", "fail.c", "-ldl"], check=True)
    folder = fresh("failing")
    write(os.path.join(folder, "old"), OLD)
    os.symlink("old", os.path.join(folder, "x"))
    preloaded = dict(os.environ, LD_PRELOAD=os.path.abspath("fail.so"))
    for call in CALLS:
        trial.fails("%s fails" % call, folder, env=dict(preloaded, FAILING=call))
    trial.plan(os.path.join(folder, "x"), env=dict(preloaded, FAILING="none"))


def links(trial):
    """A link stays, and what it leads to is replaced or made."""
    folder = fresh("links")
    os.mkdir(os.path.join(folder, "in"))
    write(os.path.join(folder, "there"), OLD)
    for name, leads in (("a", "there"), ("in/b", "../a"), ("c", os.path.abspath("links/in/b")), ("d", "in/none"), ("e", "none/at/all"), ("f", "f")):
        os.symlink(leads, os.path.join(folder, name))
    before = held(folder)
    for name, target in (("a", "there"), ("in/b", "there"), ("c", "there"), ("d", "in/none")):
        target = os.path.join(folder, target)
        if os.path.exists(target):
            write(target, OLD)
        trial.plan(os.path.join(folder, name))
        if read(target) != trial.text or not os.path.islink(os.path.join(folder, name)):
            fail("a store through the link %s" % name)
    trial.fails("a link into a folder that isn't there", folder, "e")
    trial.fails("a link to itself", folder, "f")
    if sorted(os.listdir(folder)) != sorted(before) or sorted(os.listdir(os.path.join(folder, "in"))) != ["b", "none"]:
        fail("links: the folder holds %s" % sorted(os.listdir(folder)))
    print("links stay, and lead to what was stored", flush=True)


def streams(trial):
    """What is no regular file is written where it is, and so is an open file of the process."""
    printed = trial.plan("s.cert")
    if trial.plan("/dev/stdout") != trial.text + printed:
        fail("a store to a pipe behind /dev/stdout")
    write("out", "longer than what is stored, so that it is cut off\n" * 100)
    with open("out", "ab") as out:
        trial.plan("/dev/stdout", stdout=out)
    if read("out") != trial.text + printed:
        fail("a store to a file behind /dev/stdout")
    folder = fresh("streams")
    pipe = os.path.join(folder, "pipe")
    os.mkfifo(pipe)
    reader = subprocess.Popen(["cat", pipe], stdout=subprocess.PIPE)
    trial.plan(pipe)
    if reader.communicate()[0] != trial.text or sorted(os.listdir(folder)) != ["pipe"]:
        fail("a store to a pipe")
    trial.plan("/dev/null")
    trial.plan("/dev/full", 8)
    trial.plan(folder, 8)
    print("pipes, devices and open files are written where they are", flush=True)


def modes(trial):
    """The mode of a file that is there stays; a new one has that of the process."""
    folder = fresh("modes")
    name = os.path.join(folder, "x")
    for mode in (0o600, 0o640, 0o444, 0o777):
        write(name, OLD)
        os.chmod(name, mode)
        trial.plan(name)
        if held(folder) != {"x": (mode, trial.text)}:
            fail("mode %o: the folder holds %s" % (mode, held(folder)))
        os.remove(name)
    trial.plan(name, umask=0o027)
    if held(folder) != {"x": (0o640, trial.text)}:
        fail("a new file has the mode %o" % held(folder)["x"][0])
    print("modes stay", flush=True)


def at_once(trial):
    """Two processes that store two texts under one name leave one of them."""
    folder = fresh("once")
    name = os.path.join(folder, "x")
    texts, won = [], [0, 0]
    for nodes in (100, 101):
        trial.plan(name, 3, nodes)
        texts.append(read(name))
    for _ in range(50):
        both = [subprocess.Popen([trial.program, "plan", *trial.small, "--cert", name, "--nodes", nodes], stdout=subprocess.DEVNULL) for nodes in ("100", "101")]
        ended = [process.wait() for process in both]
        if ended != [3, 3] or os.listdir(folder) != ["x"] or read(name) not in texts:
            fail("two processes at once: status %s, and the folder holds %s" % (ended, sorted(held(folder))))
        won[texts.index(read(name))] += 1
    print("two processes at once: %d times the first text is left, and %d times the second" % tuple(won), flush=True)


def main():
    if os.getuid() != 0:
        sys.exit("wanted is root")
    kills = int(sys.argv[2]) if len(sys.argv) > 2 else 100
    decisions = int(sys.argv[3]) if len(sys.argv) > 3 else 400000
    folder = os.path.abspath(sys.argv[4]) if len(sys.argv) > 4 else tempfile.mkdtemp()
    os.makedirs(folder, exist_ok=True)
    os.chmod(folder, 0o755)
    program = shutil.copy(sys.argv[1], os.path.join(folder, "floorplan"))
    os.chmod(program, 0o755)
    os.chdir(folder)
    trial = Trial(program, decisions)
    for part in (full_disk, refused, failing_calls, links, streams, modes, at_once):
        part(trial)
    killed(trial, kills)


main()
