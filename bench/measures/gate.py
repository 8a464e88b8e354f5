#!/usr/bin/env python3
"""What the gate takes, part by part: python3 bench/measures/gate.py run FILE [WORD..], or python3 bench/measures/gate.py sum FILE..

`run` runs `rt ci WORD..` at the top of the repository and passes on what it prints: with no word that is the gate, with
`--anew` all of it from nothing, with names of crates these and those below them. Meanwhile it looks every quarter of a
second at the processes below `rt` and stores in FILE, as JSON, the processor time (user and system) of each check: of a
crate's proof, its tests, the seed that its must-fail edits begin with (the crate's own proof once more, and the check at
the end that the seed still holds), and each edit. FILE is written anew every twenty seconds, so that a run which is ended
early leaves what it has seen. `sum` adds up such files, where a part that stands in several counts once, as in the last of
them. Both print the table of crates, the whole, and the longest chain of proofs that wait for one another. What is kept
from earlier runs takes no time here, and `rest` is all that isn't a check: `rt` itself, the linker, the tests and programs
as they run, and what a check takes after the last look at it.
"""
import collections
import json
import os
import re
import resource
import subprocess
import sys
import threading
import time

TICKS = os.sysconf("SC_CLK_TCK")
EVERY = 0.25
STORED_EVERY = 20
KINDS = ("proof", "tests", "seed", "edits")
Process = collections.namedtuple("Process", "parent start seconds")


def processes():
    """Of each process its parent, when it started, and its processor time with that of the children it waited for."""
    found = {}
    for name in os.listdir("/proc"):
        if name.isdigit():
            try:
                with open(f"/proc/{name}/stat") as it:
                    said = it.read().rpartition(")")[2].split()
            except OSError:
                continue
            found[int(name)] = Process(int(said[1]), int(said[19]), sum(map(int, said[11:15])) / TICKS)
    return found


def job_of(number):
    """The crate, kind and edit of a check, or None for a process that is none."""
    try:
        with open(f"/proc/{number}/cmdline", "rb") as it:
            words = it.read().decode(errors="replace").split("\0")
        folder = os.readlink(f"/proc/{number}/cwd")
    except OSError:
        return None
    if os.path.basename(words[0]) != "rattle" or "--crate-name" not in words:
        return None
    crate = words[words.index("--crate-name") + 1]
    if not os.path.basename(folder).startswith("rt-edit-"):
        return crate, "tests" if "--test" in words else "proof", None
    over = os.path.basename(words[words.index("--incremental") + 1]) if "--incremental" in words else "nothing"
    return (crate, "seed", None) if over == "seed" else (crate, "edits", over)


class Looks:
    """What was seen of the checks below one process."""

    def __init__(self, root):
        self.root, self.jobs, self.seconds, self.spans = root, {}, {}, {}

    def look(self):
        found, sums, now = processes(), collections.Counter(), time.time()
        for number, process in found.items():
            above, first, seen = number, None, set()
            while above in found and above != self.root and above not in seen:
                seen.add(above)
                key = above, found[above].start
                if key not in self.jobs or self.jobs[key] is None:
                    self.jobs[key] = job_of(above)
                # (the processes of a check are counted with the one that started them)
                first = key if self.jobs[key] else first
                above = found[above].parent
            if above == self.root and first:
                sums[first] += process.seconds
        for key, seconds in sums.items():
            self.seconds[key] = max(seconds, self.seconds.get(key, 0))
            self.spans[key] = self.spans.get(key, (now, now))[0], now

    def parts(self):
        """Seconds of processor time and of the clock, by crate, kind and edit."""
        parts = {}
        for key, seconds in self.seconds.items():
            part, (begun, ended) = parts.setdefault(self.jobs[key], [0, 0]), self.spans[key]
            part[0], part[1] = part[0] + seconds, part[1] + ended - begun
        return parts


def edits_of(crate):
    folder = f"crates/{crate}/must-fail"
    return sorted(it for it in os.listdir(folder) if it.endswith(".edit")) if os.path.isdir(folder) else []


def store(file, looks, begun, said):
    """Keeps what was seen so far. While the run goes on, the whole is what its parts have taken."""
    parts = []
    for (crate, kind, over), (seconds, clock) in sorted(looks.parts().items(), key=str):
        edits = edits_of(crate)
        edit = edits[int(over)] if over and over.isdigit() and int(over) < len(edits) else over
        parts.append({"crate": crate, "kind": kind, "edit": edit, "seconds": round(seconds, 1), "clock": round(clock, 1)})
    used = resource.getrusage(resource.RUSAGE_CHILDREN)
    user = used.ru_utime or sum(it["seconds"] for it in parts)
    whole = {"user": round(user, 1), "system": round(used.ru_stime, 1), "clock": round(time.time() - begun, 1)}
    with open(file, "w") as it:
        json.dump({**said, "whole": whole, "parts": parts}, it, indent=1)


def run(file, words):
    begun = time.time()
    ran = subprocess.Popen(["rt", "ci", *words], stdout=subprocess.PIPE, stderr=subprocess.STDOUT, text=True, errors="replace")
    looks, ended = Looks(ran.pid), threading.Event()
    said = {"words": words, "last": "", "proved": [], "kept": []}

    def watch():
        stored = begun
        while not ended.wait(EVERY):
            looks.look()
            if time.time() > stored + STORED_EVERY:
                store(file, looks, begun, said)
                stored = time.time()

    watcher = threading.Thread(target=watch)
    watcher.start()
    for line in ran.stdout:
        print(line, end="", flush=True)
        found = re.match(r"rt: (\w+)(: its tests are)? (proved|is kept)", line)
        if found:
            said["proved" if found[3] == "proved" else "kept"].append(found[1] + (" (tests)" if found[2] else ""))
        said["last"] = line.strip() or said["last"]
    status = ran.wait()
    ended.set()
    watcher.join()
    store(file, looks, begun, said)
    return status


def below():
    """The crates that each crate of crates.txt stands on, lowest first."""
    with open("crates.txt") as it:
        lines = [it.split(":") for it in it.read().splitlines() if ":" in it]
    named = {name.strip(): words.split() for name, words in lines}
    left, found = dict(named), {}
    while left:
        ready = [it for it, words in left.items() if not any(word in left for word in words)]
        found.update((it, [word for word in left.pop(it) if word in named]) for it in ready)
    return found


def show(files):
    parts, rest, whole = {}, 0, collections.Counter()
    for file in files:
        with open(file) as it:
            told = json.load(it)
        sums = sum(it["seconds"] for it in told["parts"])
        rest += max(told["whole"]["user"] + told["whole"]["system"] - sums, 0)
        whole.update(told["whole"])
        for crate in {it["crate"] for it in told["parts"]}:
            for kind in KINDS:
                new = [it for it in told["parts"] if (it["crate"], it["kind"]) == (crate, kind)]
                if new:
                    parts[crate, kind] = new
        print(f"{file}: rt ci {' '.join(told['words'])}".rstrip() + f": {told['last']}; kept from earlier runs: {len(told['kept'])}")
    of = lambda crate, kind: sum(it["seconds"] for it in parts.get((crate, kind), []))
    stands_on = below()
    print("\n| Crate | proof | tests | seed | edits | tried | sum |\n|---|---|---|---|---|---|---|")
    for crate in stands_on:
        row = [of(crate, kind) for kind in KINDS]
        if any(row):
            print(f"| `{crate}` | " + " | ".join("%.0f s" % it for it in row) + f" | {len(parts.get((crate, 'edits'), []))} | {sum(row):.0f} s |")
    row = [sum(of(crate, kind) for crate in stands_on) for kind in KINDS]
    print("| all | " + " | ".join("%.0f s" % it for it in row) + f" | {sum(len(it) for (_, kind), it in parts.items() if kind == 'edits')} | {sum(row):.0f} s |")
    told = [*zip(("proofs", "tests", "seeds", "edits"), row), ("rest", rest), ("whole", sum(row) + rest)]
    print("\nprocessor minutes: " + ", ".join(f"{name} {seconds / 60:.1f}" for name, seconds in told))
    print(f"as run: user {whole['user']:.0f} s, system {whole['system']:.0f} s, clock {whole['clock']:.0f} s")
    chains = {}
    for crate, words in stands_on.items():
        longest = max((chains[word] for word in words), default=(0, []))
        chains[crate] = longest[0] + of(crate, "proof"), [*longest[1], crate]
    seconds, chain = max(chains.values(), default=(0, []))
    print(f"longest chain of proofs: {seconds:.0f} s: {' '.join(it for it in chain if of(it, 'proof'))}")
    dearest = sorted((it for (_, kind), them in parts.items() if kind == "edits" for it in them), key=lambda it: -it["seconds"])
    print("dearest edits: " + ", ".join(f"{it['crate']}/{it['edit']} {it['seconds']:.0f} s" for it in dearest[:10]))


def main():
    words = sys.argv[1:]
    if len(words) < 2 or words[0] not in ("run", "sum"):
        sys.exit(__doc__)
    status = run(words[1], words[2:]) if words[0] == "run" else 0
    show([words[1]] if words[0] == "run" else words[1:])
    sys.exit(status)


if __name__ == "__main__":
    main()
