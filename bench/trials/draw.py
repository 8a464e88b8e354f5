#!/usr/bin/env python3
"""Compares pictures of floorplans with the placements that they show: python3 bench/trials/draw.py PATH/floorplan

Designs of `gen`, of 1 to 60 blocks, hard and mixed, are planned as GSRC files, as GSRC files in tenths (`--per-unit 10`) and, the
hard ones, as YAL, within an outline and without one, and drawn by tools/draw.py. Of each picture this script reads what is drawn:
each block must be there once, at its place, with its size, name and kind, y upward; outline and dead space, pads and the lines of
nets likewise; each label must lie in its block; the title must have the cost and the bound of the report, and `--names` must print
the plan of the report. A picture in which something was moved, dropped or turned must be found out. Texts and arguments with a
fault must be refused, by one line on standard error, without a picture. The first difference ends the run with status 1.
"""
import math
import os
import re
import subprocess
import sys
import tempfile
import xml.etree.ElementTree as ET
from collections import Counter
from fractions import Fraction

sys.dont_write_bytecode = True
sys.path.append(os.path.dirname(os.path.dirname(os.path.abspath(__file__))))
from common import TOP, fail, line_of, write

DRAW = [sys.executable, os.path.join(TOP, "tools", "draw.py")]
SVG = "{http://www.w3.org/2000/svg}"
CASES = [(1, 1, "hard"), (2, 2, "mixed"), (3, 5, "hard"), (4, 9, "mixed"), (5, 20, "hard"), (6, 33, "mixed"), (7, 60, "hard"), (8, 60, "mixed")]


def run(words, text=""):
    done = subprocess.run(words, input=text.encode(), stdout=subprocess.PIPE, stderr=subprocess.PIPE)
    return done.returncode, done.stdout.decode("utf-8", "surrogateescape"), done.stderr.decode()


def lines_of(name):
    """The words of each line of a text after its title, brackets, commas and equals signs left out."""
    with open(name) as file:
        return [re.sub(r"[(),=]", " ", line).split() for line in file][1:]


# Designs.


def in_tenths(name, other):
    """Stores the design of gen again, with each length divided by ten and each area by a hundred."""
    tenth = lambda word, by: "%.2f" % (int(word) / by) if by == 100 else "%.1f" % (int(word) / by)
    for ending in (".blocks", ".pl"):
        with open(name + ending) as file:
            title, *lines = file.read().splitlines()
        for at, line in enumerate(lines):
            if "hardrectilinear" in line:
                head, corners = line.split(" 4 ")
                lines[at] = head + " 4 " + re.sub(r"\d+", lambda it: tenth(it[0], 10), corners)
            elif "softrectangular" in line:
                block, word, area, *aspects = line.split()
                lines[at] = " ".join([block, word, tenth(area, 100), *aspects])
            elif ending == ".pl":
                pad, *place = line.split()
                lines[at] = " ".join([pad, *(tenth(word, 10) for word in place)])
        write(other + ending, "\n".join([title, *lines]) + "\n")
    with open(name + ".nets") as file:
        write(other + ".nets", file.read())


def as_yal(name):
    """Stores a design of hard blocks as YAL: a module for each block, and a signal for each net; those of pads are joined in one."""
    modules, instances, signals = [], {}, {}
    for words in lines_of(name + ".blocks"):
        if words[1:2] == ["hardrectilinear"]:
            modules.append("MODULE m%s; /* a block */ TYPE GENERAL; DIMENSIONS %s; ENDMODULE;" % (words[0], " ".join(words[3:])))
            instances[words[0]] = []
    for number, pins in enumerate(nets_of(name + ".nets")):
        pad = next((pin for pin in pins if pin not in instances), None)
        for pin in pins:
            if pin in instances:
                instances[pin].append(pad or "n%d" % number)
                signals.setdefault(pad or "n%d" % number, []).append(pin)
    pads = ["%s PI %s %s;" % tuple(words[:3]) for words in lines_of(name + ".pl") if words]
    network = ["%s m%s %s;" % (block, block, " ".join(on)) for block, on in instances.items()]
    parent = ["MODULE top; TYPE PARENT; IOLIST;", *pads, "ENDIOLIST; NETWORK;", *network, "ENDNETWORK; ENDMODULE;"]
    write(name + ".yal", "\n".join(modules + parent) + "\n")
    return [pins + [signal] for signal, pins in signals.items()]


def nets_of(name):
    nets = []
    for words in lines_of(name):
        if words[0] == "NetDegree":
            nets.append([])
        elif nets:
            nets[-1].append(words[0])
    return nets


def placed_in(name):
    """The blocks of a pl text, each as x, y, width and height by its name, and the places of the pads."""
    blocks, pads = {}, {}
    for words in lines_of(name):
        if words[3:4] == ["DIMS"]:
            blocks[words[0]] = tuple(map(Fraction, (words[1], words[2], words[4], words[5])))
        else:
            pads[words[0]] = tuple(map(Fraction, words[1:3]))
    return blocks, pads


# What a picture shows.


class Picture:
    """What is read from an SVG text: the matrix of the plane, and what is drawn there."""

    def __init__(self, text):
        self.svg = ET.fromstring(text)
        self.plane = self.svg.find(SVG + "g")
        self.matrix = [float(it) for it in re.fullmatch(r"matrix\((.*)\)", self.plane.get("transform"))[1].split()]
        self.size = [float(it) for it in self.svg.get("viewBox").split()[2:]]
        rects = self.plane.findall(SVG + "rect")
        titled = [(it, it.find(SVG + "title")) for it in rects]
        self.blocks = [(title.text, self.numbers(it), it.get("class").split()[0]) for it, title in titled if title is not None]
        self.boxes = {it.get("id"): self.numbers(it) for it in rects if it.get("id")}
        circles = self.plane.findall(SVG + "circle")
        self.pads = [(it.find(SVG + "title").text, tuple(Fraction(it.get(key)) for key in ("cx", "cy")), it.get("class")) for it in circles]
        self.lines = [(it.get("class"), *(float(it.get(key)) for key in ("x1", "y1", "x2", "y2"))) for it in self.plane.findall(SVG + "line")]
        self.labels = [it for it in self.svg.findall(SVG + "text") if it.get("class") == "label"]

    def numbers(self, rect):
        return tuple(Fraction(rect.get(key)) for key in ("x", "y", "width", "height"))

    def pixel(self, x, y):
        a, _, _, d, e, f = self.matrix
        return a * float(x) + e, d * float(y) + f


def plain(number):
    return "%d" % number if number.denominator == 1 else ("%.6f" % number).rstrip("0")


def wrong_blocks(picture, blocks, kinds):
    """How the drawn blocks differ from the placed ones."""
    a, b, c, d, *_ = picture.matrix
    if not (a > 0 and d == -a and b == c == 0):
        yield "the plane isn't drawn to scale with y upward"
    wanted = Counter()
    for name, spot in blocks.items():
        text = "%s %s × %s at (%s, %s)" % (name, *map(plain, (spot[2], spot[3], spot[0], spot[1]))) + (", soft" if kinds.get(name) == "soft" else "")
        wanted[text, spot, kinds.get(name, "block")] += 1
        for corner in ((spot[0], spot[1]), (spot[0] + spot[2], spot[1] + spot[3])):
            if not all(0 <= at <= most for at, most in zip(picture.pixel(*corner), picture.size)):
                yield "%s isn't within the picture" % name
    found = Counter(picture.blocks)
    yield from ("%s %s isn't drawn" % it[:2] for it in wanted - found)
    yield from ("%s %s is drawn" % it[:2] for it in found - wanted)


def wrong_labels(picture, blocks):
    """Labels that don't lie in a block of their name or size, and large blocks without one."""
    labelled = set()
    for text in picture.labels:
        x, y, font = (float(text.get(key)) for key in ("x", "y", "font-size"))
        for name, spot in blocks.items():
            (left, low), (right, high) = picture.pixel(*spot[:2]), picture.pixel(spot[0] + spot[2], spot[1] + spot[3])
            length = right - left if text.get("transform") is None else low - high
            is_there = left < x < right and high < y < low + font and 0.5 * font * len(text.text) <= length
            if is_there and text.text in (name, "%s × %s" % (plain(spot[2]), plain(spot[3]))):
                labelled.add(name)
                break
        else:
            yield "the label %s isn't in its block" % text.text
    for name, spot in blocks.items():
        if min(spot[2:]) * Fraction(picture.matrix[0]) > 12 * len(name) + 20 and name not in labelled:
            yield "%s has no label" % name


def wrong_pads(picture, pads):
    """How the pads differ: one that is far away must be drawn on the way to its place."""
    (a, _, _, d, e, f), (wide, high) = picture.matrix, picture.size
    named = {"%s (%s, %s)" % (name, *map(plain, place)): place for name, place in pads.items()}
    if sorted(named) != sorted(text for text, _, _ in picture.pads):
        yield "the pads are %s, and not %s" % (picture.pads, sorted(named))
        return
    for text, at, kind in picture.pads:
        x, y = picture.pixel(*named[text])
        if kind == "pad" and at != named[text] or not all(0 <= it <= most for it, most in zip(picture.pixel(*at), picture.size)):
            yield "%s is drawn at %s" % (text, at)
        elif kind == "far" and (0.05 * wide < x < 0.95 * wide and 0.1 * high < y < 0.9 * high):
            yield "%s is drawn as far, and isn't" % text


def wrong_lines(picture, spots, nets, chosen):
    """How the lines of nets differ: a net of two pins is a line between them, a larger one a line from each pin to the middle."""
    ends = {text.split(" (")[0]: at for text, at, _ in picture.pads}
    ends.update({name: (x + w / 2, y + h / 2) for name, (x, y, w, h) in spots.items()})
    wanted = []
    for pins in nets:
        points = [tuple(map(float, ends[pin])) for pin in dict.fromkeys(pins) if pin in ends]
        middle = tuple(sum(way) / len(points) for way in zip(*points))
        pairs = [points] if len(points) == 2 else [(point, middle) for point in points] if len(points) > 2 else []
        wanted += [("net" if chosen in pins else "net faint", *sorted(pair)) for pair in pairs]
    found = [(kind, *sorted([(x1, y1), (x2, y2)])) for kind, x1, y1, x2, y2 in picture.lines]
    near = lambda one, other: one[0] == other[0] and all(math.dist(a, b) < 0.001 for a, b in zip(one[1:], other[1:]))
    for line in wanted:
        at = next((at for at, it in enumerate(found) if near(line, it)), None)
        if at is None:
            yield "the line %s from %s to %s isn't drawn" % line
        else:
            del found[at]
    yield from ("the line %s from %s to %s is drawn" % line for line in found)


# Trials.


def outline_for(name, unit):
    """An outline of some 40 % white space, in the unit of the file, no side less than the longest of a block."""
    area, longest = 0, 0
    for words in lines_of(name + ".blocks"):
        sides = [max(map(Fraction, words[at::2])) for at in (3, 4)] if words[1:2] == ["hardrectilinear"] else []
        longest = max([longest, *sides])
        area += sides[0] * sides[1] if sides else Fraction(words[2]) if words[1:2] == ["softrectangular"] else 0
    side = max(Fraction(math.ceil(math.sqrt(area * Fraction(7, 5)) * unit), unit), longest)
    return "%sx%s" % (plain(side), plain(side + Fraction(1, unit)))


def drawn(program, words, files, kinds, nets, outline):
    """Plans a design, draws the plan and compares; gives the picture's text and the placement, or None where none was found."""
    if os.path.exists("d.placed"):
        os.remove("d.placed")
    within = ["--outline", outline] if outline else []
    status, report, _ = run([program, "plan", *words, *within, "--starts", "1", "--nodes", "20", "--cert", "d.cert", "--pl-out", "d.placed"])
    if status not in (0, 3) or not os.path.exists("d.placed"):
        return None
    blocks, pads = placed_in("d.placed")
    chosen = next(iter(blocks))
    with_nets = ["--all-nets", "--nets-of", chosen] if nets else []
    status, said, errors = run([*DRAW, "d.placed", *files, *within, *with_nets, "-o", "d.svg"], report)
    if status or said or errors:
        fail("draw.py of %s: status %d, %s%s" % (words, status, said, errors))
    with open("d.svg", encoding="utf-8") as file:
        text = file.read()
    picture = Picture(text)
    size = tuple(max(spot[at] + spot[at + 2] for spot in blocks.values()) for at in (0, 1))
    wrong = [*wrong_blocks(picture, blocks, kinds), *wrong_labels(picture, blocks), *wrong_pads(picture, pads)]
    wrong += wrong_lines(picture, blocks, nets, chosen)
    outer = (0, 0, *(map(Fraction, outline.split("x")) if outline else size))
    wrong += ["the %s is %s and not %s" % (it, picture.boxes.get(it), outer) for it in ("outline", "dead-space") if picture.boxes.get(it) != outer]
    head = " ".join(it.text for it in picture.svg.findall(SVG + "text")[-20:] if it.get("class") == "head")
    wrong += ["the title lacks the %s" % it for it in ("cost", "bound") if not re.search(r"\b%s %s\b" % (it, line_of(report, it)), head)]
    if wrong:
        fail("%s in %s: %s" % (words, outline, "; ".join(wrong[:3])))
    compare_names(files, report, list(kinds))
    return text, blocks, kinds


def compare_names(files, report, names):
    """The plan that `--names` prints must be that of the report, once each name is a number again."""
    status, said, _ = run([*DRAW, "--names", *files], report)
    words = [re.sub(r"^(.*)(:\d+x\d+)$", lambda it: "%d%s" % (names.index(it[1]), it[2]), word) for word in said.split()[1:]]
    if status or " ".join(words) != line_of(report, "plan"):
        fail("--names printed %s of %s" % (said, report))


def kinds_in(name):
    kinds = {"hardrectilinear": "hard", "softrectangular": "soft"}
    return {words[0]: kinds[words[1]] for words in lines_of(name + ".blocks") if words[1:2] and words[1] in kinds}


def designs(program):
    """Draws each design in each format, and gives the pictures."""
    for seed, count, kind in CASES:
        run([program, "gen", "--seed", str(seed), "--count", str(count), "--kinds", kind, "--out", "g", "--nodes", "1"])
        in_tenths("g", "t")
        for name, more, unit in (("g", [], 1), ("t", ["--per-unit", "10"], 10)):
            files = ["--blocks", name + ".blocks", "--nets", name + ".nets"]
            words = ["--format", "gsrc", *files, "--pl", name + ".pl", *more, "--wire-weight", "1"]
            for outline in (outline_for(name, unit), None):
                yield drawn(program, words, files, kinds_in(name), nets_of(name + ".nets"), outline)
        if kind == "hard":
            nets, files = as_yal("g"), ["--yal", "g.yal"]
            yield drawn(program, ["--format", "yal", *files, "--wire-weight", "1"], files, kinds_in("g"), nets, outline_for("g", 1))


def planted(text, blocks, kinds):
    """Changes a picture, and expects that each change is found out."""
    rect = re.search(r'<rect x="(\d+)" y="(\d+)" width="\d+" height="\d+" class="(?:hard|soft)[^\n]*\n', text)
    changes = {
        "a block moved": text.replace(rect[0], rect[0].replace('x="%s"' % rect[1], 'x="%d"' % (int(rect[1]) + 1))),
        "a block dropped": text.replace(rect[0], ""),
        "a block drawn twice": text.replace(rect[0], rect[0] * 2),
        "y downward": re.sub(r"(matrix\(\S+ 0 0 )-", r"\1", text),
        "a name exchanged": text.replace("<title>b0 ", "<title>c0 "),
        "a size exchanged": re.sub(r"<title>b0 (\S+) × (\S+) ", r"<title>b0 \2 × 1\1 ", text),
    }
    for what, changed in changes.items():
        if changed == text or not list(wrong_blocks(Picture(changed), blocks, kinds)):
            fail("not found out: %s" % what)
    return len(changes)


PL = "UCLA pl 1.0\na 0 0 DIMS = (4, 2) : N\nb 4 0 DIMS = (3, 3) : N\np 9 0\n"
BLOCKS = "UCSC blocks 1.0\nNumTerminals : 1\na hardrectilinear 4 (0, 0) (0, 4) (2, 4) (2, 0)\nb softrectangular 9 0.5 2\np terminal\n"
NETS = "UCLA nets 1.0\nNumNets : 1\nNetDegree : 3\na B\nb B\np B\n"
YAL = "MODULE m; TYPE GENERAL; DIMENSIONS 0 0 4 0 4 2 0 2; ENDMODULE; MODULE t; TYPE PARENT; NETWORK; a m s; b m s; ENDNETWORK; ENDMODULE;"
REPORT = "status Optimal\ncost 38\nbound 38\ndecided 11\nsize 7 3\narea 21\nwire 17\nplan 0:4x2 1:3x3 *\n"
OF = ["f.placed", "--blocks", "f.blocks", "--nets", "f.nets"]
# each with the arguments, and with what takes which place in which text
FAULTS = [
    (["none.placed"], {}),
    ([], {}),
    ([*OF, "--nonesuch"], {}),
    ([*OF, "--outline", "10"], {}),
    ([*OF, "--outline", "0x10"], {}),
    ([*OF, "--outline", "10x-5"], {}),
    ([*OF, "--nets-of", "c"], {}),
    (["f.placed", "--all-nets"], {}),
    ([*OF, "--yal", "f.yal"], {}),
    ([*OF, "--size", "7"], {}),
    (OF, {PL: PL.replace("UCLA pl", "UCLA nets")}),
    (OF, {PL: ""}),
    (OF, {PL: PL.replace("(4, 2)", "(4, x)")}),
    (OF, {PL: PL.replace("(4, 2)", "(4)")}),
    (OF, {PL: PL.replace("(4, 2)", "(4, 0)")}),
    (OF, {PL: PL.replace("b 4 0", "b 4")}),
    (OF, {PL: PL.replace("b 4 0", "b 4e0 0")}),
    (OF, {PL: PL.replace("b 4 0", "b 0.1234567 0")}),
    (OF, {PL: PL.replace("b 4 0", "b 9%s 0" % ("0" * 400))}),
    (OF, {PL: PL.replace("b 4 0", "a 4 0")}),
    (OF, {PL: PL.replace("b 4 0", "c 4 0")}),
    (OF, {PL: PL.replace(" DIMS = (3, 3) : N", "")}),
    (["f.placed"], {PL: "UCLA pl 1.0\np 9 0\n"}),
    (OF, {BLOCKS: BLOCKS.replace("terminal\n", "thing\n")}),
    (OF, {BLOCKS: BLOCKS.replace("b soft", "a soft")}),
    (OF, {BLOCKS: NETS}),
    (OF, {NETS: NETS.replace("3\n", "4\n")}),
    (OF, {NETS: NETS.replace("NetDegree : 3\n", "")}),
    (["f.placed", "--yal", "f.yal"], {YAL: YAL[:-12]}),
    (["f.placed", "--yal", "f.yal"], {YAL: YAL.replace("PARENT", "GENERAL")}),
    (OF, {REPORT: REPORT.replace("38", "x", 1)}),
    (OF, {REPORT: REPORT.replace("size 7 3", "size 7 4")}),
    (OF, {REPORT: "error BadInput blocks 5 BadLine\n"}),
    (OF, {REPORT: "status NoneFits\ncost none\nbound none\ndecided 3\nsize none\narea none\nwire none\nplan none\n"}),
    ([*OF, "--report", "none.report"], {}),
    ([*OF, "--names"], {REPORT: REPORT.replace("1:3x3", "2:3x3")}),
    ([*OF, "--names"], {REPORT: REPORT.replace("plan", "plane")}),
]


def refused():
    """Each planted fault must be refused, and without it there must be a picture."""
    kept = {PL: "f.placed", BLOCKS: "f.blocks", NETS: "f.nets", YAL: "f.yal"}
    for words, changes in [(OF, {}), (["f.placed", "--yal", "f.yal"], {}), *FAULTS]:
        for text, name in kept.items():
            write(name, changes.get(text, text))
        if os.path.exists("f.svg"):
            os.remove("f.svg")
        status, said, errors = run([*DRAW, *words, "-o", "f.svg"], changes.get(REPORT, REPORT))
        is_well = (words, changes) not in FAULTS
        if is_well != (status == 0) or is_well != os.path.exists("f.svg") or said or errors.count("\n") != (not is_well) or "Traceback" in errors:
            fail("%s with %s: status %d, %s%s" % (words, changes, status, said, errors))
    if run([*DRAW, "f.placed", "-o", "/nowhere/f.svg"])[0] != 1:
        fail("a folder that isn't there is written")


def strange_names():
    """Names of any bytes are drawn, as far as XML may hold them."""
    names = [b"<a&b>", b'"q"', b"'", b"\xff\xfe", b"a\x01", "\u00e4\U0001f600".encode(), b"]]>", b"x" * 300]
    lines = [b"%s %d 0 DIMS = (%d, 9) : N\n" % (name, 20 * at, 20) for at, name in enumerate(names)]
    with open("s.placed", "wb") as file:
        file.write(b"UCLA pl 1.0\n" + b"".join(lines))
    status, said, errors = run([*DRAW, "s.placed"])
    found = [(text.split(" ")[0], spot) for text, spot, _ in Picture(said).blocks] if status == 0 else errors
    wanted = ["<a&b>", '"q"', "'", "\ufffd\ufffd", "a\ufffd", "\u00e4\U0001f600", "]]>", "x" * 300]
    if found != [(name, (20 * at, 0, 20, 9)) for at, name in enumerate(wanted)]:
        fail("strange names: %s" % found)


def negative_places():
    """Blocks to the left of the origin and below it are drawn where they stand, and so are sides with a sign or a bare point."""
    lines = ["left -4.50 -2. DIMS = (4.5, 2) : N", "right +.5 -1 DIMS=(1,.25)", "  low 0 -9 DIMS ( 2 , 2 )", "q -30 -1"]
    write("n.placed", "\n".join(["UCLA pl 1.0\r\n# a comment\n", *lines]))
    status, said, errors = run([*DRAW, "n.placed"])
    if status:
        fail("negative places: %s" % errors)
    blocks = {"left": ("-4.5", -2, "4.5", 2), "right": ("0.5", -1, 1, "0.25"), "low": (0, -9, 2, 2)}
    blocks = {name: tuple(map(Fraction, spot)) for name, spot in blocks.items()}
    wrong = [*wrong_blocks(Picture(said), blocks, {}), *wrong_pads(Picture(said), {"q": (Fraction(-30), Fraction(-1))})]
    if wrong:
        fail("negative places: %s" % "; ".join(wrong))


def main():
    program = os.path.abspath(sys.argv[1])
    with tempfile.TemporaryDirectory() as folder:
        os.chdir(folder)
        pictures = [it for it in designs(program) if it]
        if len(pictures) < 4 * len(CASES):
            fail("%d pictures alone" % len(pictures))
        whole = [it for it in pictures if all(number.denominator == 1 for spot in it[1].values() for number in spot)]
        changes = planted(*max(whole, key=lambda it: len(it[1])))
        refused()
        strange_names()
        negative_places()
    print("%d pictures are as placed, %d changes of one are found out, and %d faults are refused" % (len(pictures), changes, len(FAULTS)))


if __name__ == "__main__":
    main()
