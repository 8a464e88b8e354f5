#!/usr/bin/env python3
"""Tries the start script: python3 bench/trials/start.py

Copies of `floorplan`, `floorbatch` and `build.py` stand in a small repository of its own, with a stand-in for the kit's `rt`
that proves nothing and whose program prints its arguments and ends with the status that the first one names. The script is
called by links, through CDPATH, from other folders, twice at once, without `rt`, with a kit that changed, with sources and
tests that changed, with a build that fails, in a folder that can't be written, by the name of the batch program, and with
heap settings of the caller's own. Then all crates of this repository are built by the stand-in, which wants the crates
below each to be built before, by one to four processors; builds fail, are ended and killed, and go on. The first answer
that isn't as it should be ends the run.
"""
import os
import re
import shutil
import signal
import subprocess
import sys
import tempfile
import time

TOP = os.path.dirname(os.path.dirname(os.path.dirname(os.path.abspath(__file__))))

# Proves nothing, but wants the libraries below to be built, and keeps what it began in out/incremental, as rt does.
RT = """#!/bin/sh
cd .
name=${PWD##*/}
echo "$1 $name $3" >>%(folder)s/calls
if [ "$1" = version ]; then cat %(folder)s/kit; exit; fi
for below in $(sed -n "s/^$name: *//p" ../../crates.txt); do
    if [ -d "../$below" ] && [ ! -e "../$below/out/rlib/stamp" ]; then echo "error: $below isn't built"; exit 1; fi
done
if [ "$(cat %(folder)s/broken)" = "$name" ]; then echo "error: a goal is open in $name"; exit 1; fi
if [ "$1" = lib ]; then
    if cmp -s out/rlib/stamp src/lib.rt; then exit; fi
    if [ -e out/incremental ]; then echo "kept $name" >>%(folder)s/calls; fi
    mkdir -p out/incremental && sleep "$(cat %(folder)s/pause)" && mkdir -p out/rlib && cp src/lib.rt out/rlib/stamp
    echo "end $name" >>%(folder)s/calls
    exit
fi
mkdir -p out && cp %(folder)s/program out/$name && echo "error Usage" && exit 2
"""
PROGRAM = """#!/bin/sh
if [ "$1" = sleep ]; then exec sleep 60; fi
if [ "$1" = limit ]; then kill -s XFSZ $$; fi
if [ "$1" = heaps ]; then echo "words heaps $GLIBC_TUNABLES"; exit; fi
echo "words $*"
exit "${STATUS-0}"
"""


class Trial:
    def __init__(self, folder, crates="floorplan: low kit\nother:\nfloorbatch: low\nlow: kit\n"):
        self.folder, self.top = folder, os.path.join(folder, "a repository")
        self.script = os.path.join(self.top, "floorplan")
        self.below = {line.split(":")[0]: line.split(":")[1].split() for line in crates.splitlines()}
        for name in self.below:
            os.makedirs(os.path.join(self.top, "crates", name, "src"))
            self.write(os.path.join(self.top, "crates", name, "src/lib.rt"), "a\n")
        os.makedirs(self.path("caller"))
        os.makedirs(self.path("bin"))
        for name in ("floorplan", "floorbatch", "build.py"):
            shutil.copy(os.path.join(TOP, name), self.top)
        for name, text in (("crates.txt", crates), ("HANDLES", "none\n"), ("crates/floorplan/src/tests.rt", "b\n")):
            self.write(os.path.join(self.top, name), text)
        for name, text in (("kit", "kit 1\n"), ("pause", "0\n"), ("broken", ""), ("calls", ""), ("bin/rt", RT % {"folder": folder}), ("program", PROGRAM)):
            self.write(self.path(name), text)
        os.chmod(self.path("bin/rt"), 0o755)
        os.chmod(self.path("program"), 0o755)
        self.env = {"PATH": self.path("bin") + ":" + os.environ["PATH"]}

    def path(self, name):
        return os.path.join(self.folder, name)

    def write(self, name, text):
        with open(name, "w") as file:
            file.write(text)

    def source(self, name, file="lib.rt"):
        return os.path.join(self.top, "crates", name, "src", file)

    def calls(self):
        """The calls of `rt` since the last question."""
        with open(self.path("calls")) as file:
            calls = [line.split() for line in file]
        self.write(self.path("calls"), "")
        return calls

    def call(self, what, words, wanted=0, told="", builds=0, **how):
        """Calls the script, or what stands in its place, looks at status, outputs and builds, and gives the calls of `rt`."""
        env = {**self.env, **how.pop("env", {})}
        done = subprocess.run(words, cwd=how.pop("cwd", self.path("caller")), env=env, capture_output=True, text=True, **how)
        out = "" if wanted == 125 else "words " + " ".join(words[1:]) + "\n"
        calls = self.calls()
        found = (done.returncode, done.stdout, bool(re.search(told, done.stderr)) and bool(told) == bool(done.stderr), sum(it[0] == "run" for it in calls))
        if found != (wanted, out, True, builds):
            sys.exit("%s: status %d, printed %r, told %r, builds %d" % (what, done.returncode, done.stdout, done.stderr, found[3]))
        print(what, flush=True)
        return calls

    def wait_for(self, call):
        """Waits until `rt` was called so, at most a minute."""
        for _ in range(600):
            with open(self.path("calls")) as file:
                if call in file.read():
                    return
            time.sleep(0.1)
        sys.exit("rt wasn't called: " + call)


def wants(what, holds, *found):
    """Ends the run where something doesn't hold."""
    if not holds:
        sys.exit(" ".join([what + ": found", *map(repr, found)]))
    print(what, flush=True)


def places(trial):
    trial.call("first call", [trial.script, "x", "y z"], told="proved and built for this source first", builds=1)
    calls = trial.call("second call", [trial.script])
    wants("a call of a built program doesn't call rt", not calls, calls)
    link, again, folder = trial.path("link"), trial.path("again"), trial.path("folder")
    os.symlink(trial.script, link)
    os.symlink("link", again)
    os.symlink(trial.top, folder)
    trial.call("by a link", [link, "x"])
    trial.call("by a link to a link, relative", ["../again", "x"])
    trial.call("through a folder that is a link", [os.path.join(folder, "floorplan"), "x"])
    trial.call("found in the PATH", ["again", "x"], env={"PATH": trial.folder + ":" + trial.env["PATH"]})
    trial.call("relative, with CDPATH", ["../a repository/floorplan", "x"], env={"CDPATH": "/tmp:/:" + trial.folder})
    trial.call("in its own folder, with CDPATH", ["./floorplan", "x"], cwd=trial.top, env={"CDPATH": trial.folder})


def changes(trial):
    low, main = trial.source("low"), trial.source("floorplan")
    trial.write(trial.source("floorplan", "tests.rt"), "c\n")
    trial.call("a test changed", [trial.script])
    trial.write(trial.source("other"), "c\n")
    trial.call("a crate changed that the program doesn't stand on", [trial.script])
    trial.write(low, "a\n")
    calls = trial.call("a source was written anew, and is the same", [trial.script])
    wants("then the checksums are compared", calls == [["version", "caller"]], calls)
    calls = trial.call("and the call after it", [trial.script])
    wants("then times are compared", not calls, calls)
    trial.write(low, "c\n")
    trial.call("a source changed", [trial.script], told="proved and built", builds=1)
    times = os.stat(low)
    trial.write(low, "e\n")
    os.utime(low, ns=(times.st_atime_ns, times.st_mtime_ns))
    trial.call("a source changed, and its time was set back", [trial.script], told="proved and built", builds=1)
    trial.write(os.path.join(trial.top, "crates/floorplan/out/floorplan"), PROGRAM + "# of another source\n")
    trial.call("the program was built of something else", [trial.script], told="proved and built", builds=1)
    trial.write(trial.path("kit"), "kit 2\n")
    os.utime(trial.path("bin/rt"))
    trial.call("the kit changed", [trial.script], told=r"proved and built for this source first \(kit 2\)", builds=1)
    bare = {"PATH": os.path.dirname(shutil.which("sha256sum")) + ":/usr/bin:/bin"}
    trial.call("no rt, and built", [trial.script, "x"], env=bare)
    trial.write(low, "d\n")
    trial.call("no rt, and not built", [trial.script], 125, "rt of the Rattle kit isn't in PATH", env=bare)
    for name in ("low", "floorplan"):
        trial.write(trial.path("broken"), name)
        told = r"a goal is open in %s\n.*could not be built; all that the kit said is in .*/out/build.log" % name
        trial.call("a build that fails at " + name, [trial.script], 125, told, builds=int(name == "floorplan"))
        trial.write(trial.path("broken"), "")
    trial.write(low, "e\n")
    trial.call("after a build that failed the former source is built too", [trial.script], told="proved and built", builds=1)
    trial.write(main, "b\n")
    out = os.path.join(trial.top, "crates/floorplan/out")
    shutil.move(out, out + ".away")
    trial.write(out, "")
    trial.call("a folder that can't be written", [trial.script], 125, "can't be written")
    os.remove(out)
    shutil.move(out + ".away", out)
    trial.write(trial.path("pause"), "2\n")
    trial.write(low, "f\n")
    first = subprocess.Popen([trial.script, "x"], env=trial.env, stdout=subprocess.PIPE, stderr=subprocess.PIPE, text=True)
    trial.wait_for("lib low")
    trial.call("twice at once: the second one waits", [trial.script, "y"], told="another call is building", builds=1)
    said = first.communicate()
    wants("twice at once: the first one builds", first.returncode == 0 and said[0] == "words x\n" and "crate 1 of 2: low" in said[1], said)
    trial.write(low, "g\n")
    first = subprocess.Popen([trial.script, "x"], env=trial.env, stdout=subprocess.PIPE, stderr=subprocess.DEVNULL, text=True)
    trial.wait_for("lib low")
    trial.write(low, "h\n")
    said = first.communicate()
    wants("a source changed while it was built", first.returncode == 0 and said[0] == "words x\n", said)
    trial.calls()
    trial.call("then the next call builds anew", [trial.script], told="proved and built", builds=1)
    trial.write(trial.path("pause"), "0\n")


def statuses(trial):
    for status, told in ((0, ""), (1, ""), (3, ""), (4, ""), (5, ""), (6, ""), (9, "memory didn't suffice")):
        trial.call("status %d" % status, [trial.script, "plan", "--cert", "a"], status, told, env={"STATUS": str(status)})
    for words, told in (([], "no command is given"), (["--help"], "--help is no"), (["plan", "--block", "x"], "--block is no"), (["plan"], "missing")):
        trial.call("status 2: " + " ".join(words), [trial.script, *words], 2, told + ".*Commands and options", env={"STATUS": "2"})
    trial.call("status 7", [trial.script, "check", "--blocks", "/dev/null", "--cert=none here"], 7, "could not be read: none here;", env={"STATUS": "7"})
    trial.call("status 8", [trial.script, "plan", "--cert", "no/a"], 8, "could not be written: no;", env={"STATUS": "8"})
    rewrite = [trial.script, "check", "--cert", "none", "--rewrite=no/b"]
    trial.call("status 8 of check", rewrite, 8, "could not be written: no;", env={"STATUS": "8"})
    unread = [trial.script, "resume", "--blocks", "/dev/null", "--cert=none here"]
    trial.call("status 7 of resume", unread, 7, "could not be read: none here;", env={"STATUS": "7"})
    unwritten = [trial.script, "resume", "--cert", "none", "--long", "--cert-out=no/b"]
    trial.call("status 8 of resume", unwritten, 8, "could not be written: no;", env={"STATUS": "8"})
    trial.call("a file past the limit on its size", [trial.script, "limit"])
    process = subprocess.Popen([trial.script, "sleep"], env=trial.env)
    time.sleep(1)
    process.send_signal(signal.SIGTERM)
    if process.wait(10) != 143:
        sys.exit("a signal: status %d" % process.returncode)
    print("a signal ends the program too")


def twin(trial):
    """Called by its other name the script starts the other program, which is built by itself."""
    twin, link = os.path.join(trial.top, "floorbatch"), trial.path("by-link")
    os.symlink(twin, link)
    trial.call("the batch program", [twin, "x"], told="floorbatch: crate 2 of 2: floorbatch", builds=1)
    trial.call("the batch program by a link", [link, "x"])
    trial.call("the batch program again", [twin, "x"])
    trial.call("the floorplanner beside it", [trial.script, "x"])
    for status, told in ((2, "are not --jobs FILE"), (3, ""), (7, "jobs file"), (8, "printed"), (9, "memory")):
        trial.call("status %d of a batch" % status, [twin, "x"], status, told, env={"STATUS": str(status)})


def heaps(trial):
    """How memory is laid out is asked for behind what the caller asks for, and never against it."""
    pad, other, theirs = "glibc.malloc.top_pad=1048576", "glibc.malloc.arena_max=2", "glibc.malloc.top_pad=4096"
    for given, found in (("", pad), (other, other + ":" + pad), (theirs, theirs)):
        done = subprocess.run([trial.script, "heaps"], env={**trial.env, "GLIBC_TUNABLES": given}, capture_output=True, text=True)
        if done.stdout != "words heaps %s\n" % found:
            sys.exit("heaps, with %r given: %r" % (given, done.stdout))
    print("heaps of threads")


def most_at_once(calls):
    """The most processors that calls of `rt` had at once, by what they were given."""
    now, most, jobs = 0, 0, {}
    for call in calls:
        if call[0] == "lib":
            jobs[call[1]] = int(call[2])
            now += jobs[call[1]]
        elif call[0] == "end":
            now -= jobs[call[1]]
        most = max(most, now)
    return most


def order(trial):
    """One processor has the crates in their order: each after those below, first those with the longest chain above."""
    trial.write(trial.source("side"), "ab\n")
    one = lambda: os.sched_setaffinity(0, [min(os.sched_getaffinity(0))])
    calls = trial.call("one processor", [trial.script], told="crate 5 of 5: floorplan", builds=1, preexec_fn=one)
    begun = [it[1] for it in calls if it[0] in ("lib", "run")]
    wants("the longest chain first", begun == ["low", "middle", "side", "high", "floorplan"], begun)


def anew(trial):
    for name in trial.below:
        shutil.rmtree(os.path.join(trial.top, "crates", name, "out"), ignore_errors=True)


def side_by_side(trial):
    """The crates of this repository, by one to four processors where there are so many, with memory."""
    sys.path.append(trial.top)
    from build import checks_at_once

    made, todo = {"floorplan"}, ["floorplan"]
    while todo:
        more = {it for it in trial.below[todo.pop()] if it in trial.below} - made
        made |= more
        todo += more
    trial.write(trial.path("pause"), "0.05\n")
    for processors in range(1, min(4, checks_at_once()) + 1):
        anew(trial)
        some = sorted(os.sched_getaffinity(0))[:processors]
        told = "crate %d of %d: floorplan" % (len(made), len(made))
        calls = trial.call("%d processors" % processors, [trial.script], told=told, builds=1, preexec_fn=lambda: os.sched_setaffinity(0, some))
        libraries = sorted(it[1] for it in calls if it[0] == "lib")
        wants("each library once, after those below it", libraries == sorted(made - {"floorplan"}), libraries)
        wants("as many at once as there are processors", most_at_once(calls) == processors, most_at_once(calls))
    return made


def cut_short(trial, made):
    """A build that fails, is ended or is killed among many: the next one goes on with what was done, and trusts nothing else."""
    out = os.path.join(trial.top, "crates/floorplan/out")
    anew(trial)
    trial.write(trial.path("broken"), "sf_node")
    calls = trial.call("a library fails", [trial.script], 125, r"a goal is open in sf_node\n.*could not be built")
    above = {it for it in made if "sf_node" in trial.below[it]} & {it[1] for it in calls}
    wants("nothing above it began, and nothing is left but the log", not above and os.listdir(out) == ["build.log"], above, os.listdir(out))
    trial.write(trial.path("broken"), "")
    done = {it[1] for it in calls if it[0] == "end"}
    calls = trial.call("mended", [trial.script], told="crate 1 of", builds=1)
    again = done & {it[1] for it in calls if it[0] == "end"}
    wants("what was built isn't built again", "sf_model" in done and not again, again)

    for what, number, status in (("ended", signal.SIGTERM, 130), ("killed", signal.SIGKILL, -9)):
        anew(trial)
        trial.write(trial.path("pause"), "4\n")
        call = subprocess.Popen([trial.script], env=trial.env, stdout=subprocess.DEVNULL, stderr=subprocess.DEVNULL, start_new_session=True)
        trial.wait_for("lib sf_model")
        time.sleep(0.5)
        (os.killpg if number == signal.SIGKILL else os.kill)(call.pid, number)
        found = call.wait(60)
        wants("a build that is %s" % what, found == status and not os.path.exists(os.path.join(out, "source.sum")), found)
        trial.write(trial.path("pause"), "0.05\n")
        calls = trial.call("the build after it", [trial.script], told="crate 1 of", builds=1)
        wants("it goes on with what was kept", ["kept", "sf_model"] in calls and not os.path.exists(os.path.join(out, "lanes")), calls)
        trial.call("a call after both", [trial.script])


def main():
    with tempfile.TemporaryDirectory() as folder:
        trial = Trial(folder)
        places(trial)
        changes(trial)
        statuses(trial)
        twin(trial)
        heaps(trial)
    with tempfile.TemporaryDirectory() as folder:
        order(Trial(folder, "floorplan: high side\nside:\nhigh: middle\nmiddle: low\nlow:\n"))
    with tempfile.TemporaryDirectory() as folder, open(os.path.join(TOP, "crates.txt")) as crates:
        trial = Trial(folder, crates.read())
        cut_short(trial, side_by_side(trial))


if __name__ == "__main__":
    main()
