#!/usr/bin/env python3
"""Proves and builds a program with all libraries below it: build.py PROGRAM LOG, as the start script calls it.

As many checks run at once as there are processors, with 3 GB of free memory each. Each begins when all libraries below it
are built, first those with the longest chain of crates above them; while few are ready, one gets several processors.

A call of `rt` locks the folders of its crate and of all crates below, so two calls in one tree would wait for each other.
So each check has a lane, a tree with the same sources, where the libraries below stand by links as they were built. The
folder out/ of the crate itself moves into the lane and back, and its own folder is locked meanwhile as `rt` locks it. So what
`rt` kept before is used, what is done stays done if the build is ended, and whether a library is built is `rt`'s word alone.
While the build runs, libraries stay in the lanes too: other clones that wait for one take it there.

Standard error says how far it is, and LOG gets what `rt` says, of a check that fails last. The status is then 1.
"""
import contextlib
import fcntl
import os
import re
import shutil
import signal
import subprocess
import sys
import threading
import time
from concurrent.futures import FIRST_COMPLETED, ThreadPoolExecutor, wait

TOP = os.path.dirname(os.path.realpath(__file__))
PARTS = ("src", "specs", "proofs")
MEMORY_OF_A_CHECK = 3_000_000_000
MOST_JOBS_OF_A_CHECK = 4
# The start script opens this descriptor and locks it. Each `rt` has it too, so a later build begins once all of them have ended.
LOCK = 9


class Ended(Exception):
    """The build ends before its time."""


def lines_of_crates():
    """The lines of crates.txt, by the names of their crates."""
    with open(f"{TOP}/crates.txt") as file:
        lines = [it.partition("#")[0].strip() for it in file]
    return {re.split(r"[\s:]", it)[0]: it for it in lines if it}


def crates_below(program, lines):
    """The crates of the repository that the program is made from, itself the last, each with the set of all below it."""
    found = {}

    def visit(name):
        if name not in found:
            below = [it for it in re.split(r"[\s,]+", lines[name].partition(":")[2]) if it in lines]
            for it in below:
                visit(it)
            found[name] = set(below).union(*(found[it] for it in below))

    visit(program)
    return found


def longest_chains(below):
    """For each crate the bytes of its sources and of the longest chain of crates above it."""
    chains = dict.fromkeys(below, 0)
    # (each crate comes after those below it)
    for name in reversed(below):
        for part in PARTS:
            for folder, _, files in os.walk(f"{TOP}/crates/{name}/{part}"):
                chains[name] += sum(os.path.getsize(f"{folder}/{it}") for it in files)
        for it in below[name]:
            chains[it] = max(chains[it], chains[name])
    return chains


def number(file, pattern):
    try:
        with open(file) as it:
            return int(re.search(pattern, it.read())[1])
    except (OSError, TypeError):
        return None


def checks_at_once():
    """One a processor, as far as there is memory; a control group, of either version, may have less than the machine."""
    group = "/sys/fs/cgroup"
    processors = len(os.sched_getaffinity(0))
    for quota, period in ((("cpu.max", r"^(\d+)"), ("cpu.max", r" (\d+)")), (("cpu/cpu.cfs_quota_us", r"^(\d+)"), ("cpu/cpu.cfs_period_us", r"(\d+)"))):
        quota, period = (number(f"{group}/{file}", pattern) for file, pattern in (quota, period))
        if quota and period:
            processors = min(processors, quota // period)
    memory = 1024 * number("/proc/meminfo", r"MemAvailable:\s+(\d+)")
    for limit, held in (("memory.max", ("memory.stat", r"anon (\d+)")), ("memory/memory.limit_in_bytes", ("memory/memory.stat", r"total_rss (\d+)"))):
        limit, held = number(f"{group}/{limit}", r"(\d+)"), number(f"{group}/{held[0]}", held[1])
        if limit and held is not None:
            memory = min(memory, limit - held)
    return max(1, min(processors, memory // MEMORY_OF_A_CHECK))


def link_or_copy(one, other):
    """Gives a file a second name, where the file system has that: `rt` makes such a file anew, and never writes into it."""
    try:
        os.link(one, other)
    except OSError:
        shutil.copyfile(one, other)


def link_all(folder, other):
    """Gives all files of a folder, if it is there, a second name in another one, which appears whole or not at all."""
    if os.path.isdir(folder):
        shutil.rmtree(f"{other}-part", ignore_errors=True)
        shutil.copytree(folder, f"{other}-part", copy_function=link_or_copy)
        os.rename(f"{other}-part", other)


class Build:
    def __init__(self, program, log):
        self.program, self.log = program, log
        self.lines = lines_of_crates()
        self.below = crates_below(program, self.lines)
        self.libraries = [it for it in self.below if it != program]
        self.place = f"{TOP}/crates/{program}/out/lanes"
        self.started = 0
        self.guard, self.is_ending, self.calls = threading.Lock(), False, set()

    def say(self, text, end="\n"):
        """Writes a line to standard error; on a terminal in place of the one that tells how far the build is."""
        begin, most = ("\r\033[K", shutil.get_terminal_size().columns - 1) if sys.stderr.isatty() else ("", None)
        with contextlib.suppress(OSError):
            print(begin + f"{self.program}: {text}"[:most], end=end, file=sys.stderr, flush=True)

    def tell(self, name, beside=()):
        """Says how far the build is; on a terminal in one line, which is written again and again, with all that is being proved."""
        self.started += 1
        text = f"crate {self.started} of {len(self.below)}: "
        if sys.stderr.isatty():
            self.say(text + ", ".join([name, *beside]), end="")
        else:
            self.say(text + name)

    def clear(self):
        """Removes the lanes. What `rt` had kept of crates that a killed build was at goes back first, where nothing has come since."""
        for lane in os.listdir(self.place) if os.path.isdir(self.place) else ():
            for name in self.libraries:
                with contextlib.suppress(OSError):
                    os.rename(f"{self.place}/{lane}/crates/{name}/out", f"{TOP}/crates/{name}/out")
        shutil.rmtree(self.place, ignore_errors=True)

    def lay_out(self, lane, like):
        """Makes a lane with the sources of all libraries, copied from the repository, or linked to those of another lane."""
        copy = shutil.copyfile if like == TOP else link_or_copy
        for name in self.libraries:
            for part in PARTS:
                if os.path.isdir(f"{like}/crates/{name}/{part}"):
                    shutil.copytree(f"{like}/crates/{name}/{part}", f"{lane}/crates/{name}/{part}", copy_function=copy)
        with open(f"{lane}/crates.txt", "w") as file:
            file.writelines(f"{self.lines[it]}\n" for it in self.libraries)

    @contextlib.contextmanager
    def locked(self, name, how):
        """Keeps other calls of `rt` out of a crate's folder, by the lock that they take on it."""
        folder = os.open(f"{TOP}/crates/{name}", os.O_RDONLY)
        try:
            is_first = True
            while True:
                try:
                    fcntl.flock(folder, how | fcntl.LOCK_NB)
                    break
                except BlockingIOError:
                    if is_first:
                        self.say(f"waiting for another rt to finish in crates/{name}")
                    is_first = False
                    time.sleep(0.2)
                except OSError:
                    # some file systems have no locks
                    break
                if self.is_ending:
                    raise Ended
            yield
        finally:
            os.close(folder)

    def bring(self, name, lane):
        """Links a library that is built into the lane."""
        there = f"{lane}/crates/{name}/out/rlib"
        if not os.path.isdir(there):
            with self.locked(name, fcntl.LOCK_SH):
                link_all(f"{TOP}/crates/{name}/out/rlib", there)

    def prove(self, name, lane, jobs):
        """Builds a library in a lane, and returns whether that went well, and what `rt` said."""
        for it in self.below[name]:
            self.bring(it, lane)
        own, there = f"{TOP}/crates/{name}/out", f"{lane}/crates/{name}/out"
        with self.locked(name, fcntl.LOCK_EX):
            if os.path.isdir(own):
                os.rename(own, there)
            try:
                status, said = self.call(["lib", "--jobs", str(jobs)], f"{lane}/crates/{name}")
            finally:
                if os.path.isdir(there):
                    self.hand_back(there, own)
        return status == 0, said

    def hand_back(self, there, own):
        """Moves what a crate's out/ in a lane holds into its own one, but for the library, which is linked."""
        os.makedirs(own, exist_ok=True)
        for it in os.listdir(there):
            if it != "rlib":
                os.rename(f"{there}/{it}", f"{own}/{it}")
        link_all(f"{there}/rlib", f"{own}/rlib")

    def call(self, words, folder, errors=subprocess.STDOUT):
        with self.guard:
            if self.is_ending:
                raise Ended
            how = {"stdin": subprocess.DEVNULL, "stdout": subprocess.PIPE, "stderr": errors, "text": True, "errors": "replace"}
            process = subprocess.Popen(["rt", *words], cwd=folder, pass_fds=(LOCK,), **how)
            self.calls.add(process)
        said = process.communicate()[0]
        with self.guard:
            self.calls.remove(process)
        return process.returncode, said

    def end(self):
        """Ends what still runs: a check ends with the `rt` that started it."""
        with self.guard:
            self.is_ending = True
            for it in self.calls:
                it.terminate()

    def prove_libraries(self):
        """Builds all libraries, and returns whether that went well; the first that fails ends the others."""
        free = checks_at_once()
        lanes = [f"{self.place}/{it}" for it in range(free)]
        for it in lanes:
            self.lay_out(it, TOP if it == lanes[0] else lanes[0])
        chains = longest_chains(self.below)
        left = sorted(self.libraries, key=lambda it: -chains[it])
        done, running = set(), {}
        with ThreadPoolExecutor(free) as pool:
            try:
                while left or running:
                    ready = [it for it in left if self.below[it] <= done]
                    for at, name in enumerate(ready[:free]):
                        jobs = min(MOST_JOBS_OF_A_CHECK, max(1, free // (len(ready) - at)))
                        free -= jobs
                        left.remove(name)
                        self.tell(name, [it for it, _, _ in running.values()])
                        lane = lanes.pop()
                        running[pool.submit(self.prove, name, lane, jobs)] = name, lane, jobs
                    for it in wait(running, return_when=FIRST_COMPLETED).done:
                        name, lane, jobs = running.pop(it)
                        is_well, said = it.result()
                        self.log.write(f"== {name}\n{said}")
                        if not is_well:
                            return False
                        done.add(name)
                        lanes.append(lane)
                        free += jobs
            finally:
                if running:
                    self.end()
        return True

    def link(self):
        """Proves and links the program itself, in its own folder, where nothing runs beside it. Without words it prints just one line."""
        self.tell(self.program)
        self.log.write(f"== {self.program}\n")
        self.log.flush()
        _, said = self.call(["run"], f"{TOP}/crates/{self.program}", self.log)
        self.log.write(said)
        return said.rstrip("\n").endswith("error Usage")

    def run(self):
        try:
            self.clear()
            return self.prove_libraries() and self.link()
        finally:
            for it in (signal.SIGHUP, signal.SIGINT, signal.SIGTERM):
                signal.signal(it, signal.SIG_IGN)
            self.end()
            self.clear()
            if sys.stderr.isatty():
                print("\r\033[K", end="", file=sys.stderr, flush=True)


def main(program, log):
    for it in (signal.SIGHUP, signal.SIGINT, signal.SIGTERM):
        if signal.getsignal(it) != signal.SIG_IGN:
            signal.signal(it, lambda *_: sys.exit(130))
    fcntl.flock(LOCK, fcntl.LOCK_EX)
    with open(log, "a") as file:
        try:
            return 0 if Build(program, file).run() else 1
        except OSError as error:
            print(error, file=file)
            return 1


if __name__ == "__main__":
    sys.exit(main(*sys.argv[1:]))
