#!/usr/bin/env python3
"""Draws a floorplan as an SVG picture: python3 tools/draw.py PL [OPTIONS]

PL is a pl text with sizes, as `plan --pl-out` stores it, or that of another tool. The picture has y upward, each block with its
name and its size where these fit, the pads, and the outline; what no block covers is hatched. A pad that stands far outside is
drawn as a ring at the frame, in its direction. With --blocks or --yal soft and hard blocks differ in colour, and each block of
the design must be placed. With --nets or --yal, --nets-of draws the nets of chosen blocks and pads as lines, and --all-nets faint
lines of all. A report of `plan`, `resume`, `check` or `measure` that is piped in gives the title its cost and bound.

With --names the `plan` line of the report is printed, with the names of blocks in place of their numbers; a picture is then made
only with -o. The order of the blocks is that of --blocks or --yal, and else that of PL.

    ./floorplan plan $FIVE --cert five.cert --pl-out five.placed | python3 tools/draw.py five.placed -o five.svg

It draws what the texts say, legal or not: `floorplan measure` judges. Lengths are in the unit of the files; what a report says is
in scaled units, as it stands there. Dead and white space are reckoned from the sizes in PL, where soft blocks are rounded up. A text
that can't be drawn gives one line on standard error, status 1 and no file; invalid arguments status 2.
"""
import argparse
import os
import re
import stat
import sys
import xml.etree.ElementTree as ET
from collections import Counter, namedtuple
from decimal import Decimal

Place = namedtuple("Place", "name x y size line")
Block = namedtuple("Block", "name kind x y w h")
Pad = namedtuple("Pad", "name x y")
# kinds: hard or soft by the name of each block, in order. pads: the names of all terminals, or None where they aren't known.
Design = namedtuple("Design", "kinds pads nets")
Box = namedtuple("Box", "left low right high")

UNKNOWN = Design(None, None, ())
SCALES = (1, 10, 100, 1000)
MOST_LENGTH, MOST_DIGITS = 9 * 10**15, 6
COUNT = re.compile(r"(?:NumSoftRectangularBlocks|NumHardRectilinearBlocks|NumTerminals|NumNets|NumPins)(?:[ \t\r:]|$)")
KINDS = {"hardrectilinear": "hard", "softrectangular": "soft", "terminal": "pad"}

# of the drawing, in pixels
BORDER, HEADER, FOOTER, LEAST_WIDTH = 30, 52, 34, 460
LEAST_FONT, MOST_FONT, TITLE_FONT = 6.5, 13, 15
# how far around outline and blocks a pad is drawn at its place, and how far off the frame stands, as parts of their longer side
NEAR, MARGIN = Decimal("0.3"), Decimal("0.04")
STYLE = """
text { font-family: Helvetica, Arial, sans-serif; fill: #1f2933; text-anchor: middle }
.head { font-weight: bold; text-anchor: start } .sub, .legend { fill: #52606d; text-anchor: start } .axis { fill: #52606d }
.label, .name { paint-order: stroke; stroke: #ffffff; stroke-opacity: 0.75; stroke-width: 2.5 }
.hard { fill: #d5e3f3; stroke: #3b5f8a } .soft { fill: #dcedd4; stroke: #4d7a3c } .block { fill: #e6e6ef; stroke: #5a5a78 }
.outline { fill: none; stroke: #1f2933 } .chosen { stroke: #b4232a } .pad { fill: #1f2933 } .far { fill: #ffffff; stroke: #1f2933 }
.net { fill: none; stroke: #b4232a } .faint { stroke: #8a4fa3; stroke-opacity: 0.4 }
"""


class BadInput(Exception):
    """What can't be drawn, and why."""


def refuse(name, line, why):
    raise BadInput("%s: %s%s" % (name, "line %d: " % line if line else "", why))


# The texts.


def read_text(name):
    """The text of a file, in which bytes that aren't UTF-8 are kept."""
    try:
        with open(name, "rb") as file:
            return file.read().decode("utf-8", "surrogateescape")
    except OSError as error:
        raise BadInput("%s: %s" % (name, error.strerror)) from None


def words_of(line):
    return re.findall(r"[^ \t\r\n]+", line)


def gsrc_lines(name, kind):
    """The lines of a GSRC text after its title, each with its number; comments and blank lines are left out."""
    lines = [(number, line.strip(" \t\r")) for number, line in enumerate(read_text(name).split("\n"), 1)]
    lines = [(number, line) for number, line in lines if line and not line.startswith("#")]
    title = words_of(lines[0][1]) if lines else []
    if title[:1] not in (["UCSC"], ["UCLA"]) or title[1:2] != [kind]:
        refuse(name, lines[0][0] if lines else 0, "the title isn't that of a %s text" % kind)
    return lines[1:]


def decimal_in(word, name, line):
    """The number that a word is, with a sign or without."""
    if not re.fullmatch(r"[+-]?(?:[0-9]+\.?[0-9]*|\.[0-9]+)", word, re.ASCII):
        refuse(name, line, "%s is no number" % shown(word))
    fraction = word.partition(".")[2].rstrip("0")
    number = Decimal(word)
    if len(fraction) > MOST_DIGITS or abs(number) > MOST_LENGTH:
        refuse(name, line, "%s has too many digits" % shown(word[:40]))
    return number


def read_places(name):
    """What each line of a pl text places, with its size where it has one."""
    places = []
    for line, text in gsrc_lines(name, "pl"):
        words = words_of(text)
        if len(words) < 3:
            refuse(name, line, "a name and two coordinates are wanted")
        x, y = (decimal_in(word, name, line) for word in words[1:3])
        rest, size = words_of(re.sub(r"[(),=]", " ", text.split(None, 3)[3])) if len(words) > 3 else [], None
        if rest[:1] == ["DIMS"]:
            if len(rest) < 3:
                refuse(name, line, "DIMS has no two sides")
            size = tuple(decimal_in(word, name, line) for word in rest[1:3])
            if min(size) <= 0:
                refuse(name, line, "a side isn't above 0")
        places.append(Place(words[0], x, y, size, line))
    return places


def read_blocks(name):
    """The kinds of the blocks by name, and the names of the pads."""
    kinds, pads = {}, set()
    for line, text in gsrc_lines(name, "blocks"):
        words = words_of(text)
        if COUNT.match(text):
            continue
        kind = KINDS.get(words[1]) if len(words) > 1 else None
        if kind is None:
            refuse(name, line, "neither a block nor a terminal")
        if words[0] in kinds:
            refuse(name, line, "a second block %s" % shown(words[0]))
        if kind == "pad":
            pads.add(words[0])
        else:
            kinds[words[0]] = kind
    return kinds, pads


def read_nets(name):
    """The names of the pins of each net."""
    nets, wanted = [], []
    for line, text in gsrc_lines(name, "nets"):
        if COUNT.match(text):
            continue
        if re.match(r"NetDegree(?:[ \t\r:]|$)", text):
            degree = words_of(text.replace(":", " "))[1:2]
            if not degree or not re.fullmatch(r"[0-9]{1,9}", degree[0], re.ASCII):
                refuse(name, line, "a net without a degree")
            nets.append([])
            wanted.append((line, int(degree[0])))
        elif nets:
            nets[-1].append(words_of(text)[0])
        else:
            refuse(name, line, "a pin before the first net")
    for (line, degree), pins in zip(wanted, nets):
        if len(pins) != degree:
            refuse(name, line, "a net of degree %d with %d pins" % (degree, len(pins)))
    return nets


def yal_statements(name):
    """The words of each statement of a YAL text."""
    text = re.sub(r"/\*.*?\*/", " ", read_text(name), flags=re.DOTALL)
    pieces = text.split(";")
    if words_of(pieces.pop()) or "/*" in text:
        refuse(name, 0, "the text breaks off")
    return [words_of(piece) or [""] for piece in pieces]


def read_yal(name):
    """The design of a YAL text: the instances of the parent, and a net for each of their signals."""
    is_parent, section, kinds, nets = False, None, {}, {}
    for words in yal_statements(name):
        key = words[0].upper()
        if section is None:
            if key == "MODULE":
                is_parent = False
            elif key == "TYPE":
                is_parent = words[1:2] != [] and words[1].upper() == "PARENT"
            elif key in ("IOLIST", "NETWORK"):
                section = key
        elif key == "END" + section:
            section = None
        elif is_parent and section == "NETWORK":
            if words[0] in kinds:
                refuse(name, 0, "a second instance %s" % shown(words[0]))
            kinds[words[0]] = "hard"
            for signal in words[2:]:
                nets.setdefault(signal, []).append(words[0])
    if not kinds:
        refuse(name, 0, "no parent module with instances")
    return kinds, [[*dict.fromkeys(pins), signal] for signal, pins in nets.items()]


def read_design(options):
    """The design that the options name, as far as they name one."""
    if options.yal:
        kinds, nets = read_yal(options.yal)
        return Design(kinds, None, nets)
    kinds, pads = read_blocks(options.blocks) if options.blocks else (None, None)
    return Design(kinds, pads, read_nets(options.nets) if options.nets else ())


def is_piped_in():
    """Whether standard input is a pipe or a file."""
    try:
        mode = os.fstat(0).st_mode
    except OSError:
        return False
    return stat.S_ISFIFO(mode) or stat.S_ISREG(mode)


def read_report(options):
    """The rest of each line of a report by its first word; of no report, nothing."""
    name = options.report
    if name is None:
        if not is_piped_in():
            return {}
        name = "-"
    text = sys.stdin.buffer.read().decode("utf-8", "surrogateescape") if name == "-" else read_text(name)
    name = "the report on standard input" if name == "-" else name
    report = dict(line.rstrip("\r").partition(" ")[::2] for line in text.split("\n") if line)
    if options.report is None and not report:
        return {}
    if "status" not in report:
        refuse(name, 0, "error " + report["error"] if "error" in report else "no line `status`")
    for word in ("cost", "bound"):
        if not re.fullmatch(r"[0-9]{1,20}|none", report.get(word, "none"), re.ASCII):
            refuse(name, 0, "%s is no number" % word)
    return report


# What is drawn.


def placed(name, places, design):
    """The blocks and the pads that a pl text places, the blocks in its order."""
    kinds, pads = design.kinds, design.pads
    is_block = lambda place: place.name in kinds if kinds is not None else place.size is not None
    found = [place for place in places if is_block(place)]
    for place in found:
        if place.size is None:
            refuse(name, place.line, "the block %s has no size" % shown(place.name))
    for block, times in Counter(place.name for place in found).items():
        if times > 1:
            refuse(name, 0, "the block %s is placed twice" % shown(block))
    lacking = [block for block in kinds or () if block not in {place.name for place in found}]
    if lacking:
        refuse(name, 0, "the block %s isn't placed" % shown(lacking[0]))
    if not found:
        refuse(name, 0, "no block with a size is placed")
    blocks = [Block(it.name, kinds[it.name] if kinds else "block", it.x, it.y, *it.size) for it in found]
    is_pad = lambda place: not is_block(place) and (place.name in pads if pads is not None else place.size is None)
    return blocks, [Pad(it.name, it.x, it.y) for it in places if is_pad(it)]


def box_around(boxes):
    boxes = list(boxes)
    return Box(min(it.left for it in boxes), min(it.low for it in boxes), max(it.right for it in boxes), max(it.high for it in boxes))


def box_of(block):
    return Box(block.x, block.y, block.x + block.w, block.y + block.h)


def grown(box, by):
    return Box(box.left - by, box.low - by, box.right + by, box.high + by)


def is_within(pad, box):
    return box.left <= pad.x <= box.right and box.low <= pad.y <= box.high


def at_frame(pad, frame):
    """Where the way from the middle of the frame to a pad outside leaves the frame."""
    x, y = (frame.left + frame.right) / 2, (frame.low + frame.high) / 2
    across, upward = pad.x - x, pad.y - y
    part = min((side / abs(way) for side, way in ((frame.right - x, across), (frame.high - y, upward)) if way), default=1)
    return Pad(pad.name, round(x + across * part, 6), round(y + upward * part, 6))


def outline_in(word):
    """The sides of an outline WxH."""
    sides = word.split("x")
    if len(sides) != 2 or word[:1] in "+-":
        raise BadInput("--outline %s: WxH is wanted" % shown(word))
    w, h = (decimal_in(side, "--outline", 0) for side in sides)
    if min(w, h) <= 0:
        raise BadInput("--outline %s: a side isn't above 0" % shown(word))
    return Box(Decimal(0), Decimal(0), w, h)


# The SVG.


def shown(name):
    """A name with a replacement for each character that no XML text may hold."""
    return re.sub("[^\u0020-\ud7ff\ue000-\ufffd\U00010000-\U0010ffff]", "\ufffd", name)


def plain(number):
    """A number with as many digits as it needs."""
    if isinstance(number, float):
        number = Decimal("%.2f" % number)
    text = format(number, "f")
    return text.rstrip("0").rstrip(".") or "0" if "." in text else text


def add(parent, tag, text=None, **attributes):
    """A new element on a line of its own; `class_` and `font_size` stand for what Python can't name."""
    names = {key: key.rstrip("_").replace("_", "-") for key in attributes}
    values = {names[key]: plain(value) if isinstance(value, (int, float, Decimal)) else shown(value) for key, value in attributes.items()}
    element = ET.SubElement(parent, tag, values)
    element.text, element.tail = text and "\n".join(map(shown, text.split("\n"))), "\n"
    return element


def width_of(text):
    """About how wide a text is at font size 1, rather too much."""
    return sum(0.95 if it in "mwMW@%" or ord(it) > 0x2E7F else 0.78 if it.isupper() else 0.35 if it in " .,:il'" else 0.65 for it in text)


def fitting(lines, wide, high):
    """The font size at which lines fit a rectangle of so many pixels."""
    return min(MOST_FONT, (wide - 4) / max(map(width_of, lines)), (high - 3) / (1.2 * len(lines)))


class Drawing:
    """An SVG picture of a part of the plane. Rectangles and lines stand in `plane`, whose numbers are those of the texts, y
    upward; words stand in the picture itself, in pixels."""

    def __init__(self, frame, size):
        wide, high = frame.right - frame.left, frame.high - frame.low
        self.frame, self.scale = frame, float(size) / float(max(wide, high))
        self.width = max(LEAST_WIDTH, float(wide) * self.scale + 2 * BORDER)
        self.height = float(high) * self.scale + HEADER + FOOTER
        self.left = (self.width - float(wide) * self.scale) / 2
        view = "0 0 %.0f %.0f" % (self.width, self.height)
        sides = {"width": view.split()[2], "height": view.split()[3]}
        self.svg = ET.Element("svg", {"xmlns": "http://www.w3.org/2000/svg", "viewBox": view, **sides, "role": "img"})
        self.svg.text = self.svg.tail = "\n"
        self.title = add(self.svg, "title", " ")
        add(self.svg, "style", STYLE)
        self.hatch(add(self.svg, "defs"))
        add(self.svg, "rect", width="100%", height="100%", fill="#ffffff")
        x, y = self.at(Decimal(0), Decimal(0))
        matrix = "matrix(%.9g 0 0 %.9g %.9g %.9g)" % (self.scale, -self.scale, x, y)
        self.plane = add(self.svg, "g", "\n", id="plane", transform=matrix, stroke_width=self.pixels(1))

    def at(self, x, y):
        """The pixel at a place."""
        return self.left + float(x - self.frame.left) * self.scale, HEADER + float(self.frame.high - y) * self.scale

    def pixels(self, count):
        """So many pixels as a length of the plane."""
        return "%.4g" % (count / self.scale)

    def hatch(self, defs):
        """Defines the hatching of dead space, for the plane and for the legend."""
        for name, length in (("dead", self.pixels(1)), ("legend", "1")):
            turn = "scale(%s) rotate(45)" % length
            pattern = add(defs, "pattern", "\n", id=name, width="6", height="6", patternUnits="userSpaceOnUse", patternTransform=turn)
            add(pattern, "rect", width="6", height="6", fill="#f5efe6")
            add(pattern, "line", x1="0", y1="0", x2="0", y2="6", stroke="#c9ae8c", stroke_width="1.6")

    def box(self, box, **attributes):
        return add(self.plane, "rect", x=box.left, y=box.low, width=box.right - box.left, height=box.high - box.low, **attributes)

    def words(self, x, y, text, font, kind, **attributes):
        add(self.svg, "text", text, x=x, y=y, font_size=font, class_=kind, **attributes)

    def label(self, block):
        """Writes the name and the size into a block, or the name alone, lying or standing, or nothing where nothing fits."""
        wide, high = float(block.w) * self.scale, float(block.h) * self.scale
        x, y = self.at(block.x + block.w / 2, block.y + block.h / 2)
        both = [shown(block.name), "%s × %s" % (plain(block.w), plain(block.h))]
        for lines in (both, both[:1]):
            for turn, sides in (("", (wide, high)), ("rotate(-90 %.2f %.2f)" % (x, y), (high, wide))):
                font = fitting(lines, *sides)
                if font >= LEAST_FONT:
                    for at, line in enumerate(lines):
                        base = y + font * (0.35 + 1.15 * (at - (len(lines) - 1) / 2))
                        self.words(x, base, line, font, "label", **({"transform": turn} if turn else {}))
                    return


def draw_blocks(drawing, blocks, chosen):
    """Draws each block, the chosen ones last, so that their borders are whole."""
    for block in sorted(blocks, key=lambda it: it.name in chosen):
        kind = block.kind + (" chosen" if block.name in chosen else "")
        rect = drawing.box(box_of(block), class_=kind, **({"stroke_width": drawing.pixels(2.5)} if block.name in chosen else {}))
        text = "%s %s × %s at (%s, %s)" % (block.name, *map(plain, (block.w, block.h, block.x, block.y)))
        add(rect, "title", text + (", soft" if block.kind == "soft" else "")).tail = None


def draw_pads(drawing, pads, ends):
    """Draws each pad, one that stands outside the frame as a ring, with its place in its name."""
    for pad in pads:
        x, y, is_far = *ends[pad.name], not is_within(pad, drawing.frame)
        mark = add(drawing.plane, "circle", cx=x, cy=y, r=drawing.pixels(3.5), class_="far" if is_far else "pad")
        add(mark, "title", "%s (%s, %s)" % (pad.name, plain(pad.x), plain(pad.y))).tail = None
        text = "%s (%s, %s)" % (pad.name, plain(pad.x), plain(pad.y)) if is_far else pad.name
        is_right, is_high = x > (drawing.frame.left + drawing.frame.right) / 2, y > (drawing.frame.low + drawing.frame.high) / 2
        at = drawing.at(x, y)
        anchor = {"style": "text-anchor: %s" % ("end" if is_right else "start")}
        drawing.words(at[0] + (-6 if is_right else 6), at[1] + (12 if is_high else -6), text, 10, "name", **anchor)


def draw_nets(drawing, nets, ends, kind):
    """Draws each net as a line between its two pins, or from each pin to the middle of all."""
    for pins in nets:
        points = [ends[pin] for pin in dict.fromkeys(pins) if pin in ends]
        middle = [round(sum(way) / len(points), 6) for way in zip(*points)]
        pairs = [points] if len(points) == 2 else [(point, middle) for point in points] if len(points) > 2 else []
        for (x1, y1), (x2, y2) in pairs:
            wide = drawing.pixels(0.8 if "faint" in kind else 1.5)
            add(drawing.plane, "line", x1=x1, y1=y1, x2=x2, y2=y2, class_=kind, stroke_width=wide)


def draw_words(drawing, title, outer, kinds):
    """Writes the two lines of the title, the corners' coordinates and the legend."""
    for at, (text, most, kind) in enumerate(zip(title, (TITLE_FONT, 12), ("head", "sub"))):
        font = min(most, (drawing.width - 2 * BORDER) / width_of(text))
        drawing.words(BORDER, 20 + 18 * at, text, font, kind)
    (left, low), (right, high) = drawing.at(outer.left, outer.low), drawing.at(outer.right, outer.high)
    for x, number in ((left, outer.left), (right, outer.right)):
        drawing.words(x, low + 13, plain(number), 10, "axis")
    for y, number in ((low, outer.low), (high, outer.high)):
        drawing.words(left - 4, y + 3.5, plain(number), 10, "axis", style="text-anchor: end")
    x, y = BORDER, drawing.height - 12
    names = {"hard": "hard block", "soft": "soft block", "block": "block"}
    for kind, text in [*((kind, names[kind]) for kind in names if kind in kinds), ("dead", "dead space")]:
        fill = {"fill": "url(#legend)"} if kind == "dead" else {"class_": kind}
        add(drawing.svg, "rect", x=x, y=y - 9, width=14, height=10, **fill)
        drawing.words(x + 19, y, text, 11, "legend")
        x += 42 + width_of(text) * 11


def title_of(options, report, blocks, size, outline):
    """The two lines over the picture."""
    name = options.title or os.path.splitext(os.path.basename(options.placement))[0]
    first = ["%s: %d block%s" % (name, len(blocks), "" if len(blocks) == 1 else "s")]
    first += ["%s %s" % (word, report[word]) for word in ("cost", "bound") if report.get(word, "none") != "none"]
    if len(first) == 3:
        cost, bound = int(report["cost"]), int(report["bound"])
        first.append("optimal" if cost == bound else "gap %.1f %%" % (100 * (cost - bound) / max(cost, 1)))
    area = sum(block.w * block.h for block in blocks)
    dead = 1 - area / ((size.right - size.left) * (size.high - size.low))
    second = "size %s × %s, %.1f %% of it dead space" % (plain(size.right), plain(size.high), 100 * dead)
    if outline:
        white = 100 * (outline.right * outline.high / area - 1)
        second += "; outline %s × %s, white space %.1f %%" % (plain(outline.right), plain(outline.high), white)
    return ", ".join(first), second


def test_report(report, size):
    """Refuses a report without a floorplan, and one whose size isn't that of the placement at any scale."""
    if report.get("cost") == "none":
        raise BadInput("the report has no floorplan")
    said = words_of(report.get("size", "none"))
    if said != ["none"] and all(said != [plain(side * scale) for side in (size.right, size.high)] for scale in SCALES):
        raise BadInput("the report's size %s isn't that of the placement, %s %s" % (" ".join(said), plain(size.right), plain(size.high)))


def picture(options, design, report):
    """The picture as a text."""
    blocks, pads = placed(options.placement, read_places(options.placement), design)
    size = box_around([*map(box_of, blocks), Box(Decimal(0), Decimal(0), Decimal(0), Decimal(0))])
    test_report(report, size)
    outline = outline_in(options.outline) if options.outline else None
    outer = outline or size
    core = box_around([outer, size])
    longer = max(core.right - core.left, core.high - core.low)
    near = [Box(pad.x, pad.y, pad.x, pad.y) for pad in pads if is_within(pad, grown(core, NEAR * longer))]
    drawing = Drawing(grown(box_around([core, *near]), MARGIN * longer), options.size)
    ends = {pad.name: (pad if is_within(pad, drawing.frame) else at_frame(pad, drawing.frame))[1:] for pad in pads}
    ends.update({block.name: (block.x + block.w / 2, block.y + block.h / 2) for block in blocks})
    for name in options.nets_of or ():
        if name not in ends:
            raise BadInput("--nets-of %s: no such block or pad is placed" % shown(name))
    drawing.box(outer, fill="url(#dead)", id="dead-space")
    chosen = set(options.nets_of or ())
    draw_blocks(drawing, blocks, chosen)
    drawing.box(outer, class_="outline", id="outline", stroke_width=drawing.pixels(2))
    if options.all_nets:
        draw_nets(drawing, [pins for pins in design.nets if not chosen & set(pins)], ends, "net faint")
    draw_nets(drawing, [pins for pins in design.nets if chosen & set(pins)], ends, "net")
    for block in blocks:
        drawing.label(block)
    draw_pads(drawing, pads, ends)
    title = title_of(options, report, blocks, size, outline)
    drawing.title.text = shown(title[0])
    draw_words(drawing, title, outer, {block.kind for block in blocks})
    return ET.tostring(drawing.svg, encoding="unicode")


def named_plan(options, design, report):
    """The plan line of the report, with the names of blocks in place of their numbers."""
    if "plan" not in report:
        raise BadInput("the report has no line `plan`")
    names = list(design.kinds) if design.kinds else [it.name for it in placed(options.placement, read_places(options.placement), design)[0]]
    words = []
    for word in words_of(report["plan"]):
        block = re.fullmatch(r"([0-9]{1,9})(:[0-9]+x[0-9]+)", word, re.ASCII)
        if block and int(block[1]) >= len(names) or not block and word not in ("*", "+", "none"):
            raise BadInput("the report's plan has a word %s" % shown(word))
        words.append(names[int(block[1])] + block[2] if block else word)
    return " ".join(["plan", *words]) + "\n"


# The arguments.


class Parser(argparse.ArgumentParser):
    def error(self, message):
        self.exit(2, "draw.py: %s; see --help\n" % shown(message))


def parser():
    head, rest = __doc__.split("\n\n", 1)
    as_it_stands = argparse.RawDescriptionHelpFormatter
    it = Parser(prog="draw.py", description=head.partition(":")[0] + ".", epilog=rest, formatter_class=as_it_stands, allow_abbrev=False)
    it.add_argument("placement", metavar="PL", nargs="?", help="the pl text; with --names and --blocks or --yal it may be left out")
    it.add_argument("-o", metavar="FILE", dest="out", help="where the picture is stored; else it is printed")
    it.add_argument("--blocks", metavar="FILE", help="the blocks file of the design")
    it.add_argument("--nets", metavar="FILE", help="its nets file")
    it.add_argument("--yal", metavar="FILE", help="the design as YAL, in place of --blocks and --nets")
    it.add_argument("--outline", metavar="WxH", help="the outline, in the unit of the files; else the picture ends at the blocks")
    it.add_argument("--nets-of", metavar="NAME", nargs="+", help="draw the nets of these blocks and pads")
    it.add_argument("--all-nets", action="store_true", help="draw all nets, faint")
    it.add_argument("--report", metavar="FILE", help="the report; - is standard input, which is also read where a pipe or a file stands there")
    it.add_argument("--names", action="store_true", help="print the report's plan with the names of blocks")
    it.add_argument("--title", metavar="TEXT", help="what the title begins with, in place of the name of PL")
    it.add_argument("--size", metavar="PIXELS", type=int, default=740, help="the longer side of the drawing, 100 to 10000 (default %(default)s)")
    return it


def options_in(words):
    reads = parser()
    options = reads.parse_args(words)
    has_names = options.names and (options.blocks or options.yal) and not options.out
    if not options.placement and not has_names:
        reads.error("the pl text is missing")
    if options.yal and (options.blocks or options.nets):
        reads.error("--yal stands in place of --blocks and --nets")
    if (options.nets_of or options.all_nets) and not (options.nets or options.yal):
        reads.error("--nets-of and --all-nets want --nets or --yal")
    if not 100 <= options.size <= 10000:
        reads.error("--size is from 100 to 10000")
    return options


def main(words):
    options = options_in(words)
    try:
        report, design = read_report(options), read_design(options)
        line = named_plan(options, design, report) if options.names else ""
        image = picture(options, design, report) if options.out or not options.names else ""
        if options.out:
            with open(options.out, "wb") as file:
                file.write(image.encode("utf-8"))
            image = ""
        sys.stdout.buffer.write((line + image).encode("utf-8", "surrogateescape"))
        sys.stdout.buffer.flush()
        return 0
    except BadInput as error:
        why = str(error)
    except OSError as error:
        why = "%s: %s" % (options.out or "standard output", error.strerror)
    print("draw.py: " + shown(why), file=sys.stderr)
    return 1


if __name__ == "__main__":
    sys.exit(main(sys.argv[1:]))
