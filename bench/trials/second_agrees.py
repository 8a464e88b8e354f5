#!/usr/bin/env python3
"""Asks two checkers: python3 bench/trials/second_agrees.py PATH/floorplan [FOLDER]

Designs of hard and soft blocks, with and without nets and pads, are written or generated into FOLDER (a temporary one by
default) and planned with several weights (random ones of nets among them), outlines and budgets. Each certificate,
many damaged copies of it, copies with other paths from pad to pad, legal and not, and some random trees, which show
what one part of the bound is worth at one subproblem, are given to `floorplan check`, with `--rewrite` and without, and to
second_checker.py, which must print the same, end with the same status and store the same certificate anew; and what `plan`
stores is stored anew as it is. A random walk between pads is made too, so that paths occur with each bound. Printed is a
line for each design with how many paths its certificate has and the answers that came; the first difference ends the run with
status 1, and leaves the certificate.
"""
import collections
import os
import random
import re
import subprocess
import sys
import tempfile

sys.dont_write_bytecode = True
sys.path.append(os.path.dirname(os.path.dirname(os.path.abspath(__file__))))
from common import SECOND, TOP, paths_in
from second_checker import LETTERS, Design, leads, next_tokens, options_of

EXAMPLES = os.path.join(TOP, "examples")

CHANCES = 12
WALKS = 6

#          design                          options of plan and check                                         budget
CASES = [
    ("one", "", None),
    ("two", "--wire-weight 1 --outline 10x10", None),
    ("two", "--wire-weight 3 --area-weight 0 --fixed", None),
    ("five", "--wire-weight 1", 300),
    ("five", "--wire-weight 2 --outline 24x24 --shapes 5", 200),
    ("five", "--wire-weight 1 --net-weights CHANCE", 300),
    ("five", "--outline 20x24", None),
    ("five", "--outline 2.2x2.8 --per-unit 10 --area-weight 7", 20),
    ("five", "--outline 20x24 --bounds strong", None),
    ("five", "--wire-weight 2 --bounds strong", 200),
    ("two", "--outline 4x5 --fixed --bounds strong", None),
    ("gen --seed 9 --count 6 --kinds mixed", "--wire-weight 1 --bounds strong", 100),
    ("five", "--wire-weight 1 --net-weights CHANCE --bounds strong", 300),
    ("gen --seed 8 --count 4 --kinds hard", "--wire-weight 3 --outline 60x50 --bounds strong", 200),
    ("gen --seed 2 --count 7 --kinds hard", "--wire-weight 1 --net-weights CHANCE --bounds strong", 100),
    ("gen --seed 4 --count 18 --kinds mixed", "--wire-weight 1 --bounds strong", 30),
    ("five", "--outline 20x24 --bounds pair", None),
    ("five", "--wire-weight 2 --bounds both", 200),
    ("two", "--outline 4x4 --fixed --bounds fit", None),
    ("gen --seed 9 --count 6 --kinds mixed", "--wire-weight 1 --outline 40x40 --bounds fit", 100),
    ("gen --seed 9 --count 6 --kinds mixed", "--wire-weight 1 --bounds pair", 100),
    ("gen --seed 3 --count 18 --kinds mixed", "--outline 90x60 --bounds both", 40),
    ("gen --seed 7 --count 3 --kinds hard", "--wire-weight 1", None),
    ("gen --seed 8 --count 4 --kinds mixed", "--wire-weight 5 --area-weight 2 --shapes 7", 250),
    ("gen --seed 8 --count 4 --kinds mixed", "--wire-weight 5 --area-weight 2 --shapes 7 --net-weights CHANCE", 250),
    ("gen --seed 9 --count 6 --kinds mixed", "--shapes 2 --fixed", 300),
    ("gen --seed 3 --count 12 --kinds hard", "--outline 90x60 --wire-weight 1", 60),
    ("gen --seed 5 --count 9 --kinds mixed", "--outline 70.5x60 --per-unit 100 --wire-weight 1", 80),
]


def answer(words):
    done = subprocess.run(words, stdout=subprocess.PIPE, stderr=subprocess.PIPE, text=True)
    return done.returncode, done.stdout


def files_of(program, design, folder):
    """The words that name a design's files; a generated one is made first."""
    if design.startswith("gen "):
        base = os.path.join(folder, "g")
        answer([program, *design.split(), "--out", base, "--nodes", "1"])
    else:
        base = os.path.join(EXAMPLES, design, design if design != "one" else "a")
    named = {"--blocks": base + ".blocks", "--nets": base + ".nets", "--pl": base + ".pl"}
    return [word for pair in named.items() if os.path.exists(pair[1]) for word in pair]


def weights_by_chance(files, folder, dice):
    """The name of a file that gives some of a design's nets weights, in any order."""
    with open(files[files.index("--nets") + 1]) as file:
        nets = file.read().count("NetDegree")
    name = os.path.join(folder, "s.weights")
    with open(name, "w") as file:
        for net in dice.sample(range(nets), nets * 2 // 3):
            file.write("%d %d\n" % (net, dice.choice((0, 1, 2, 17, 255))))
    return name


def changed_number(label, step):
    def change(text, _):
        return re.sub(r"(?m)^%s (\d+)$" % label, lambda m: "%s %d" % (label, int(m[1]) + step), text)
    return change


def unnamed(text):
    """The same certificate, without its paths, as a text of version 1, which names no parts."""
    lines = text.splitlines()
    whole = ["slicing-certificate 1", *lines[1:5], *lines[lines.index("tree") :]]
    return re.sub(r"(?m)^C .$", "C", "".join(line + "\n" for line in whole))


def one_tag(old, new):
    """One tag, of those that are `old`, is another one."""
    def change(text, dice):
        head, tree = text.split("tree\n")
        tags = tree.splitlines()
        places = [place for place, tag in enumerate(tags) if re.fullmatch(old, tag)]
        if places:
            tags[dice.choice(places)] = new
        return head + "tree\n" + "".join(tag + "\n" for tag in tags)
    return change


DAMAGE = [
    lambda text, _: text,
    lambda text, _: text.replace("\n", "\r\n"),
    lambda text, _: text.split("tree\n")[0] + "tree\n" + " ".join(text.split("tree\n")[1].split()),
    changed_number("cost", -1), changed_number("cost", 1), changed_number("bound", -1), changed_number("bound", 1),
    changed_number("blocks", 1), changed_number("slicing-certificate", 1), changed_number("slicing-certificate", -1),
    one_tag("C .", "O"), one_tag("O", "C f"), one_tag("E", "C f"), one_tag("C .", "E"), one_tag("C .", "S 0"), one_tag("C .|O", "S 00001"),
    one_tag("E", "S 0"), one_tag("S .*", "C f"), one_tag("S .*", "S 400"), one_tag("E|C .|O", "S 65536"), one_tag("E|C .|O", "e"),
    *(one_tag("C [^%s]" % letter, "C " + letter) for letter in LETTERS), one_tag("C .", "C x"), one_tag("C .", "C"), one_tag("O", "C ff"),
    lambda text, _: unnamed(text), lambda text, dice: one_tag("O", "C")(unnamed(text), dice), lambda text, dice: one_tag("C", "C a")(unnamed(text), dice),
    lambda text, _: text[: text.rindex("\n", 0, -1) + 1], lambda text, _: text + "C a\n", lambda text, _: text[:-1] + "\n\n S",
    lambda text, _: text[: text.rindex("\n", 0, -1) + 1] + "C", lambda text, _: re.sub(r"(?m)^C (.)$", r"C\n\n \1", text),
    lambda text, _: text.split("tree\n")[0] + "tree\n" + "S 0\n" * 3_300, lambda text, _: text.split("tree\n")[0],
    lambda text, _: text.replace("cost ", "cost 0"), lambda text, _: text.replace("bound", "\nbound"),
    lambda text, _: re.sub(r"plan .*", "plan none", text), lambda text, _: re.sub(r"cost .*", "cost none", text),
    lambda text, _: re.sub(r"(cost|plan) .*", r"\1 none", text), lambda text, _: re.sub(r"(cost|bound|plan) .*", r"\1 none", text),
    lambda text, _: re.sub(r"0:(\d+)x", "0:1\\1x", text), lambda text, _: re.sub(r"0:(\d+)x(\d+)", r"0:\2x\1", text),
    lambda text, _: re.sub(r"(plan .*)[*]", r"\1+", text), lambda text, _: re.sub(r"0:(\d+)x", "0:0x", text),
    lambda text, _: re.sub(r" 0:(\d+x\d+) 1:(\d+x\d+)", r" 1:\2 0:\1", text), lambda text, _: text.replace("plan ", "plan  "),
]


def routed(text, paths):
    """The same certificate with these paths in place of its own."""
    lines = text.splitlines()
    listed = []
    for label, axis in zip(("across", "upward"), paths):
        listed += ["%s %d" % (label, len(axis))] + [" ".join(map(str, path)) for path in axis]
    whole = ["slicing-certificate 3", *lines[1:5], *listed, *lines[lines.index("tree") :]]
    return "".join(line + "\n" for line in whole)


def walk_by_chance(design, dice):
    """A walk from a pad over nets and blocks, to a pad if it doesn't end before: its numbers."""
    nets = [(number, sorted(blocks), sorted(pads)) for number, (_, blocks, pads) in enumerate(design.nets)]
    number, blocks, pads = dice.choice([net for net in nets if net[2]])
    walk = [dice.choice(pads)]
    for _ in range(12):
        ends = pads if not blocks or pads and dice.random() < 0.5 else blocks
        walk += [number, dice.choice(ends)]
        if ends is pads:
            break
        number, blocks, pads = dice.choice([net for net in nets if walk[-1] in net[1]])
    return walk


def walks_by_chance(design, dice):
    """A few walks for each axis; in most cases just those that lead forward."""
    if not any(pads for _, _, pads in design.nets):
        return [[], []]
    paths = [[walk_by_chance(design, dice) for _ in range(dice.randrange(4))] for _ in range(2)]
    if dice.random() < 0.3:
        return paths
    return [[walk for walk in listed if leads(design, axis, walk)] for axis, listed in enumerate(paths)]


def other_number(first):
    """One of the numbers of a path, from the first on every second one, is another one."""
    def change(path, dice):
        place = dice.randrange(first, len(path), 2)
        return path[:place] + [dice.randrange(max(path) + 2)] + path[place + 1 :]
    return change


PATH_DAMAGE = [
    other_number(0), other_number(1), other_number(2), lambda path, _: path[::-1],
    # A net twice, with the pin behind it; to the pad at the end and back; to the pad before; no further than a block; no way.
    lambda path, _: path[:3] + path[1:], lambda path, _: path + path[-2::-1], lambda path, _: path[:2] + path[:1],
    lambda path, _: path[:-2] or path, lambda path, _: path[:1], lambda path, _: path[:-1],
    lambda path, _: path[:-1] + [65_535], lambda path, _: [65_536] + path[1:], lambda path, _: path[:1] + [4_294_967_296] + path[2:],
]

LIST_DAMAGE = [
    lambda across, upward: (upward, across), lambda across, upward: (across + across, upward), lambda across, upward: (across, upward + upward[:1]),
    lambda across, upward: (across[::-1], upward[::-1]), lambda across, upward: (across[1:], upward), lambda across, upward: (across, []),
    lambda across, upward: ([], []), lambda across, upward: (across + upward, across + upward),
]


def damaged_paths(text, paths, dice):
    """The certificate with paths of which one is damaged, or with others of them."""
    texts = [routed(text, change(*paths)) for change in LIST_DAMAGE]
    for change in PATH_DAMAGE:
        copies = [list(axis) for axis in paths]
        axis = dice.choice([axis for axis in copies if axis])
        place = dice.randrange(len(axis))
        axis[place] = change(axis[place], dice)
        texts.append(routed(text, copies))
    return texts + [re.sub(r"(?m)^(across|upward) .*$", r"\1 1", routed(text, paths))]


def tree_by_chance(blocks, dice):
    """A certificate without a plan: of its tree one leaf is closed by some part, and all others are open."""
    tags, waiting = [], [()]
    while waiting:
        tokens = waiting.pop()
        kind = dice.choice("EEEEEEEEEESO" if len(tokens) < 2 * blocks - 1 else "SOOO") if len(tags) < 60 else "O"
        tags.append("S %d" % dice.randrange(blocks) if kind == "S" else kind)
        waiting += {"E": [tokens + (token,) for token in reversed(next_tokens(tokens, blocks))], "S": [tokens] * 2}.get(kind, [])
    places = [place for place, tag in enumerate(tags) if tag == "O"]
    if places:
        tags[dice.choice(places)] = "C " + dice.choice(LETTERS)
    lines = ["slicing-certificate 2", "blocks %d" % blocks, "cost none", "bound none", "plan none", "tree", *tags]
    return "".join(line + "\n" for line in lines)


def rewritten(words, name):
    """The answer to these words with `--rewrite`, and what is then stored."""
    if os.path.exists(name):
        os.remove(name)
    said = answer([*words, "--rewrite", name])
    if not os.path.exists(name):
        return said, None
    with open(name) as file:
        return said, file.read()


def texts_with_paths(text, design, dice):
    """Copies of a certificate, and trees by chance, with its paths, with damaged ones and with others; just some copies, where
    the bound that was chosen passes paths over."""
    chosen = [walks_by_chance(design, dice) for _ in range(WALKS)]
    own = paths_in(text)
    texts = [routed(text, paths) for paths in chosen]
    if design.bounds != "strong":
        return texts
    for paths in [own] * CHANCES + chosen:
        if any(paths):
            texts.append(routed(tree_by_chance(len(design.shapes), dice), paths))
    for paths in [own] + chosen[:2]:
        if any(paths):
            texts += damaged_paths(text, paths, dice)
    return texts


def main():
    program = os.path.abspath(sys.argv[1])
    folder = sys.argv[2] if len(sys.argv) > 2 else tempfile.mkdtemp()
    dice, cert, anew, count = random.Random(1), os.path.join(folder, "s.cert"), os.path.join(folder, "t.cert"), 0
    for design, options, budget in CASES:
        files = files_of(program, design, folder)
        if "CHANCE" in options:
            options = options.replace("CHANCE", weights_by_chance(files, folder, dice))
        words = ["--format", "gsrc", *files, *options.split(), "--cert", cert]
        status, _ = answer([program, "plan", *words, *(["--nodes", str(budget)] if budget else [])])
        if status not in (0, 1, 3):
            sys.exit("%s %s: plan ended with status %d" % (design, options, status))
        with open(cert) as file:
            whole = file.read()
        seen = collections.Counter()
        blocks = int(whole.split()[3])
        texts = [damage(whole, dice) for damage in DAMAGE] + [tree_by_chance(blocks, dice) for _ in range(CHANCES)]
        texts += texts_with_paths(whole, Design(options_of(words[2:])), dice)
        for text in dict.fromkeys(texts):
            with open(cert, "w", newline="") as file:
                file.write(text)
            said = answer([program, "check", *words])
            one, two = rewritten([program, "check", *words], anew), rewritten([sys.executable, SECOND, *words[2:]], anew)
            if one != two or one[0] != said or text == whole and one[1] != whole:
                sys.exit("%s %s: %s, %s and %s to %s" % (design, options, said, one, two, cert))
            kind = said[1].split()
            seen[kind[2] if kind[1] == "No" else kind[4] if kind[1] == "BadInput" else kind[1]] += 1
        count += sum(seen.values())
        paths = sum(map(len, paths_in(whole)))
        print(design, options, ":", "%d paths;" % paths, ", ".join("%s %d" % pair for pair in sorted(seen.items())), flush=True)
    print("the same answer to %d certificates" % count)


if __name__ == "__main__":
    main()
