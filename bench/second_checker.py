#!/usr/bin/env python3
"""A second checker of certificates: python3 bench/second_checker.py OPTIONS

Written from docs/DEFINITIONS.md and docs/FORMATS.md, it keeps to their words and order and shares nothing else with the
program. OPTIONS are those of `floorplan check` on a GSRC design, each as `--name value`, and it prints, stores and ends as
that does, for certificates of each version that are valid, that are not, and whose text is refused. With `--bounds strong` it
tests the paths of a certificate and counts them, and else it passes them over. The design's own texts must be without a fault.
It works slowly and plainly, and isn't for large designs.
"""
import itertools
import math
import re
import sys
from fractions import Fraction

MAX = 2**64 - 1
MOST_SIDE = 1_048_576
MOST_KNOWN = 16
LETTERS = "arphf"
NUMBER = "(0|[1-9][0-9]{0,19})"
COUNT = r"(NumSoftRectangularBlocks|NumHardRectilinearBlocks|NumTerminals|NumNets|NumPins|NetDegree)([ \t\r:]|$)"


class Ended(Exception):
    """The check ends with this status, and prints this line."""


def refuse(fault, line):
    raise Ended(5, "error BadInput cert %d %s" % (line, fault))


def say_no(*why):
    raise Ended(4, " ".join(("status No", *map(str, why))))


def read_file(name):
    with open(name, "rb") as file:
        return file.read().decode("latin-1")


def content_lines(name):
    """The lines of a file without comments and blank ones."""
    lines = (line.strip(" \t\r") for line in read_file(name).split("\n"))
    return [line for line in lines if line and not line.startswith("#")]


def plain_lines(name):
    """The lines of a GSRC file behind its title."""
    return content_lines(name)[1:]


def scaled(word, scale):
    return int(Fraction(word) * scale)


class Design:
    """The shapes of each block, the doubled points of the pads, the weight and the pins of each net (numbers of blocks and of
    pads), the outline and the weights of area and wire; and what paths pull, and what they leave of each net's weight."""

    def __init__(self, options):
        self.unit, self.fixed, self.most = int(options.get("per-unit", 1)), "fixed" in options, int(options.get("shapes", 16))
        self.area_weight, self.wire_weight = int(options.get("area-weight", 1)), int(options.get("wire-weight", 0))
        sides = options["outline"].split("x") if "outline" in options else []
        self.sides = [scaled(side, self.unit) for side in sides] or [MOST_SIDE] * 2
        self.names, self.shapes, terminals, points = [], [], [], {}
        for words in (line.split() for line in plain_lines(options["blocks"]) if not re.match(COUNT, line)):
            if words[1] == "terminal":
                terminals.append(words[0])
            else:
                self.names.append(words[0])
                self.shapes.append(self.soft(words) if words[1] == "softrectangular" else self.hard(words))
        for words in (line.split() for line in (plain_lines(options["pl"]) if "pl" in options else [])):
            if words[0] in terminals:
                points[words[0]] = tuple(2 * scaled(word, self.unit) for word in words[1:3])
        self.points = [points[name] for name in terminals] if "pl" in options else []
        self.nets = self.pin_sets(options, terminals if "pl" in options else []) if "nets" in options else []
        self.pulled, self.left = 0, [weight for weight, _, _ in self.nets]
        self.bounds = options.get("bounds")
        knows = self.bounds == "strong" and len(self.shapes) <= MOST_KNOWN
        self.floor = least_area(self.shapes, self.sides) if knows else 0

    def hard(self, words):
        numbers = re.sub(r"[(),]", " ", " ".join(words[2:])).split()
        numbers = [scaled(word, self.unit) for word in numbers[1 : 1 + 2 * int(numbers[0])]]
        w, h = (max(way) - min(way) for way in (numbers[0::2], numbers[1::2]))
        return [(w, h)] if self.fixed or w == h else sorted([(w, h), (h, w)])

    def soft(self, words):
        area, (least, most) = math.ceil(Fraction(words[2]) * self.unit**2), (scaled(word, 10**6) for word in words[3:5])
        shapes = ((w, -(-area // w)) for w in range(1, MOST_SIDE + 1))
        high_enough = itertools.takewhile(lambda s: s[0] * least <= s[1] * 10**6, shapes)
        allowed = [(w, h) for w, h in high_enough if h <= MOST_SIDE and h * 10**6 <= w * most]
        step = (len(allowed) - 1, self.most - 1)
        return allowed if step[0] <= step[1] else [allowed[j * step[0] // step[1]] for j in range(self.most)]

    def pin_sets(self, options, pads):
        nets = []
        for line in plain_lines(options["nets"]):
            pin = line.split()[0]
            if re.match(COUNT, line):
                nets += [(set(), set())] if line.startswith("NetDegree") else []
            elif pin in self.names:
                nets[-1][0].add(self.names.index(pin))
            elif pin in pads:
                nets[-1][1].add(pads.index(pin))
        weights = [1] * len(nets)
        for words in (line.split() for line in (content_lines(options["net-weights"]) if "net-weights" in options else [])):
            weights[scaled(words[0], 1)] = scaled(words[1], 1)
        return [(weight, *pins) for weight, pins in zip(weights, nets)]


def leads(design, axis, path):
    """Whether a path leads from a pad over blocks to a pad that isn't before it on the axis, where each step's net is there and
    has the pin before the step and the one behind it."""
    pins = [(1, block) for block in path[2:-2:2]]
    pins = [(2, path[0]), *pins, (2, path[-1])]
    for net, *ends in zip(path[1::2], pins, pins[1:]):
        if net >= len(design.nets) or any(number not in design.nets[net][kind] for kind, number in ends):
            return False
    return design.points[path[0]][axis] <= design.points[path[-1]][axis]


def take_paths(design, paths):
    """Has the bound count paths from pad to pad, those across and those upward, where all are legal."""
    number = 0
    for axis, listed in enumerate(paths):
        spare = [weight for weight, _, _ in design.nets]
        for path in listed:
            if not leads(design, axis, path):
                say_no("BadPath", number)
            for net in path[1::2]:
                spare[net] -= 1
                if spare[net] < 0:
                    say_no("BadPath", number)
            design.pulled += design.points[path[-1]][axis] - design.points[path[0]][axis]
            number += 1
        design.left = list(map(min, design.left, spare))


def undominated(sizes):
    """Of these sizes those to which no other is as small both ways."""
    kept = []
    for w, h in sorted(set(sizes)):
        if not kept or h < kept[-1][1]:
            kept.append((w, h))
    return kept


def sizes_of_sets(shapes, sides, least, dead):
    """For each set of blocks the undominated sizes of its plans in the outline that waste at most so much: whose area is at
    most that much above the least areas of the blocks. A set is a number whose bit b is 1 where block b is in it."""
    total, tables = [0], [[]]
    for members in range(1, 2 ** len(shapes)):
        block = members.bit_length() - 1
        rest = members - 2**block
        total.append(total[rest] + least[block])
        found = list(shapes[block]) if not rest else []
        part = rest
        while part:
            for lw, lh in tables[members - part] if tables[part] else []:
                for rw, rh in tables[part]:
                    found += [(lw + rw, max(lh, rh)), (max(lw, rw), lh + rh)]
            part = (part - 1) & rest
        limit = total[members] + dead
        tables.append(undominated((w, h) for w, h in found if w <= sides[0] and h <= sides[1] and w * h <= limit))
    return tables


def least_area(shapes, sides):
    """The least area of all floorplans that fit, or one more than that of the outline where none fits. The waste that is
    allowed grows until a floorplan is found, or nothing that fits wastes more."""
    within = [[(w, h) for w, h in listed if w <= sides[0] and h <= sides[1]] for listed in shapes]
    outline = sides[0] * sides[1]
    if not all(within):
        return outline + 1
    least = [min(w * h for w, h in listed) for listed in within]
    dead = sum(least) // 256
    while True:
        whole = sizes_of_sets(within, sides, least, dead)[-1]
        if whole:
            return min(w * h for w, h in whole)
        if sum(least) + dead >= outline:
            return outline + 1
        dead += dead // 4 + 1


def cost_of(design, tokens, shape):
    """What the plan of these tokens and shapes costs, or MAX where it doesn't lie in the outline."""
    stack = []
    for token in tokens:
        if token not in ("*", "+"):
            stack.append((*shape[token], {token: (0, 0)}))
            continue
        (lw, lh, left), (rw, rh, right) = stack[-2:]
        dx, dy = (lw, 0) if token == "*" else (0, lh)
        size = (lw + rw, max(lh, rh)) if token == "*" else (max(lw, rw), lh + rh)
        stack[-2:] = [(*size, {**left, **{b: (x + dx, y + dy) for b, (x, y) in right.items()}})]
    w, h, corners = stack.pop()
    wire = 0
    for weight, blocks, pads in design.nets:
        pins = [tuple(2 * corner + side for corner, side in zip(corners[b], shape[b])) for b in blocks]
        wire += weight * sum(max(way) - min(way) for way in zip(*pins, *(design.points[pad] for pad in pads)))
    return design.area_weight * w * h + design.wire_weight * wire if w <= design.sides[0] and h <= design.sides[1] else MAX


def gaps(boxes):
    """The gap across and the gap upward, added; each box is an interval across and one upward."""
    return sum(max(0, max(low for low, _ in way) - min(high for _, high in way)) for way in zip(*boxes))


def item(design, sizes, extents, offsets):
    """The undominated sizes of an item's plans in the outline; its extents, the least and the greatest number across and
    upward; and the offset of each of its blocks, likewise."""
    sizes = sorted({size for size in sizes if size[0] <= design.sides[0] and size[1] <= design.sides[1]})
    return [size for i, size in enumerate(sizes) if all(size[1] < other[1] for other in sizes[:i])], extents, offsets


def joined(design, token, left, right):
    """One item beside or above another: along one way the sides are added, the other way the greater one is taken."""
    way, add = "*+".index(token), lambda m, n: m + n
    join = (add, max) if way == 0 else (max, add)
    sizes = [tuple(join[i](l[i], r[i]) for i in (0, 1)) for l in left[0] for r in right[0]]
    extents = [tuple(map(join[i], left[1][i], right[1][i])) for i in (0, 1)]
    moves = [left[1][i] if i == way else (0, 0) for i in (0, 1)]
    moved = {b: [tuple(map(add, move, ends)) for move, ends in zip(moves, at)] for b, at in right[2].items()}
    return item(design, sizes, extents, {**left[2], **moved})


def net_parts(design, extents, items, complete, blocks, pads):
    """Range, pair and hull."""
    points = [[(x, x), (y, y)] for x, y in (design.points[pad] for pad in pads)]
    anywhere = [[(low, 2 * side - low) for (low, _), side in zip(extents[b], design.sides)] for b in blocks]
    small = sorted(min(low for low, _ in extents[b]) for b in blocks)
    hull = 0
    for _, _, offsets in items:
        here = [zip(offsets[b], extents[b]) for b in blocks if b in offsets]
        centres = [[(2 * first + low, 2 * last + high) for (first, last), (low, high) in ways] for ways in here]
        hull = max(hull, gaps(centres + points if complete else centres))
    return gaps(anywhere + points), sum(small[-2:]) if len(small) > 1 else 0, hull


def pairs_need(design, extents):
    """What the pairs of the first blocks say by their least sides, where the bound that was chosen asks for it: that two of
    them need an area, and that two of them have no room."""
    least = [[low for low, _ in extent] for extent in extents[:16]]
    says = [0]
    for (w, h), (v, g) in itertools.combinations(least, 2):
        if design.bounds in ("pair", "both"):
            says.append(design.area_weight * min((w + v) * max(h, g), (h + g) * max(w, v)))
        if design.bounds in ("fit", "both") and w + v > design.sides[0] and h + g > design.sides[1]:
            says.append(MAX)
    return max(says)


def values(design, tokens, spans):
    """What each part of the bound is worth at a subproblem: areas alone, with ranges, with pairs and with hulls, and all of
    it, which is the bound that was chosen."""
    shapes = [listed[first:end] for listed, (first, end) in zip(design.shapes, spans)]
    complete = len(tokens) == 2 * len(spans) - 1
    extents = [[(min(sides), max(sides)) for sides in zip(*left)] for left in shapes]
    lone = [item(design, left, extents[b], {b: [(0, 0), (0, 0)]}) for b, left in enumerate(shapes)]
    items = []
    for token in tokens:
        if token in ("*", "+"):
            items[-2:] = [joined(design, token, *items[-2:])]
        else:
            items.append(lone[token])
    parts = [sizes for sizes, _, _ in items + [it for b, it in enumerate(lone) if b not in tokens]]
    areas, area = None, MAX
    if all(parts):
        areas = sum(min(w * h for w, h in sizes) for sizes in parts)
        widest, highest = (max(min(size[i] for size in sizes) for sizes in parts) for i in (0, 1))
        area = max(areas, widest * highest, design.floor)
    fits = area <= design.sides[0] * design.sides[1]
    nets = [(weight, net_parts(design, extents, items, complete, *pins)) for weight, *pins in design.nets if design.wire_weight]
    wires = [0] + [sum(weight * by[way] for weight, by in nets) for way in range(3)]
    rest = sum(left * max(by) for left, (_, by) in zip(design.left, nets))
    wires.append(max(sum(weight * max(by) for weight, by in nets), design.pulled + rest))
    worth = [design.area_weight * area + design.wire_weight * wire if fits else MAX for wire in wires]
    if complete and design.wire_weight and all(len(left) == 1 for left in shapes):
        worth[4] = cost_of(design, tokens, [left[0] for left in shapes])
    if complete and not design.wire_weight:
        worth[4] = MAX if areas is None else design.area_weight * areas
    worth[4] = max(worth[4], pairs_need(design, extents))
    return dict(zip(LETTERS, worth))


def next_tokens(tokens, count):
    used = {token for token in tokens if token not in ("*", "+")}
    may_join = 2 * len(used) - len(tokens) >= 2
    return [sign for sign in "*+" if may_join and tokens[-1] != sign] + [b for b in range(count) if b not in used]


def read_plan(words, count, line):
    """The tokens of an expression, and the shape of each block."""
    tokens, shapes = [], {}
    for word in words:
        form = re.fullmatch("%s:%sx%s" % (NUMBER, NUMBER, NUMBER), word)
        token, *sides = map(int, form.groups()) if form else [word]
        if token not in next_tokens(tokens, count) or not all(1 <= side <= MOST_SIDE for side in sides):
            refuse("BadHeader", line)
        tokens.append(token)
        if form:
            shapes[token] = tuple(sides)
    if len(tokens) != 2 * count - 1:
        refuse("BadHeader", line)
    return tokens, shapes


def read_paths(lines, number, label, last):
    """The paths of an axis, each as the numbers of its line, and the number of the line behind them."""
    if number > len(lines):
        refuse("BadHeader", last)
    form = re.fullmatch("%s[ \t\r]+%s" % (label, NUMBER), lines[number - 1].strip(" \t\r"))
    if not form or int(form.group(1)) > MAX:
        refuse("BadHeader", number)
    paths = []
    for number in range(number + 1, number + 1 + int(form.group(1))):
        if number > len(lines):
            refuse("BadHeader", last)
        words = re.findall(r"[^ \t\r]+", lines[number - 1])
        numbers = [int(word) if re.fullmatch(NUMBER, word) else MAX for word in words]
        if len(words) < 3 or len(words) % 2 == 0 or max(numbers[::2]) > 65_535 or max(numbers[1::2]) > 4_294_967_295:
            refuse("BadHeader", number)
        paths.append(numbers)
    return paths, number + 1


def read_header(lines, count, last):
    """The version, the stated cost and bound, the plan or None, the paths across and upward, and the number of the line behind
    the header."""
    values, paths, number = {}, ([], []), 0
    for label in ("slicing-certificate", "blocks", "cost", "bound", "plan", "tree"):
        number += 1
        if label == "tree" and values["slicing-certificate"] == 3:
            across, number = read_paths(lines, number, "across", last)
            upward, number = read_paths(lines, number, "upward", last)
            paths = (across, upward)
        if number > len(lines):
            refuse("BadHeader", last)
        word, *rest = re.findall(r"[^ \t\r]+", lines[number - 1]) or [""]
        if word != label or (len(rest) != (label != "tree") if label != "plan" else not rest):
            refuse("BadHeader", number)
        if label == "plan":
            values[label] = None if rest == ["none"] else read_plan(rest, count, number)
        elif rest == ["none"] or rest and re.fullmatch(NUMBER, rest[0]) and int(rest[0]) < MAX:
            values[label] = MAX if rest == ["none"] else int(rest[0])
        wanted = {"slicing-certificate": (1, 2, 3), "blocks": (count,)}.get(label, (values.get(label),))
        if rest and label not in values or values.get(label) not in wanted:
            refuse("BadHeader", number)
        if label == "plan" and (values["plan"] is None) != (values["cost"] == MAX):
            refuse("BadHeader", number)
    return values["slicing-certificate"], values["cost"], values["bound"], values["plan"], paths, number + 1


def read_tree(words, count, version, last):
    """The tags in preorder, a split with its block and a closed one with the letter of its part."""
    tags, waiting, words = [], [((), 0)], iter(words)
    for word, line in words:
        if not waiting:
            refuse("Trailing", line)
        second = {"S": "[0-9]{1,20}", "C": "[%s]" % LETTERS if version > 1 else ""}.get(word, "")
        named = next(words, (None,))[0] if second else ""
        if named is None:
            break
        if word not in ("E", "S", "C", "O") or not re.fullmatch(second, named) or word == "S" and int(named) > 65_535:
            refuse("BadTag", line)
        tokens, depth = waiting.pop()
        if depth >= 3_200:
            refuse("TooDeep", line)
        tags.append((word, int(named) if word == "S" else named or "f"))
        children = {"E": [tokens + (token,) for token in next_tokens(tokens, count)], "S": [tokens] * 2}.get(word, [])
        waiting += [(child, depth + 1) for child in reversed(children)]
    if waiting:
        refuse("Truncated", last)
    return tags


def said(number):
    return "none" if number == MAX else str(number)


def walk(design, tags, cost):
    """The least of the cost and the bounds of what is left open, where each tag may stand; and the tags, in which each closed
    one names the first part that is the cost or more."""
    least, named, waiting = cost, [], [((), tuple((0, len(listed)) for listed in design.shapes))]
    for node, (tag, said_by) in enumerate(tags):
        tokens, spans = waiting.pop()
        if tag == "E":
            if len(tokens) == 2 * len(spans) - 1:
                say_no("BadChildren", node)
            waiting += [(tokens + (token,), spans) for token in reversed(next_tokens(tokens, len(spans)))]
        elif tag == "S":
            first, end = spans[said_by] if said_by < len(spans) else (0, 0)
            if end - first < 2:
                say_no("BadSplit", node)
            middle = (first + end) // 2
            waiting += [(tokens, spans[:said_by] + (half,) + spans[said_by + 1 :]) for half in ((middle, end), (first, middle))]
        else:
            worth = values(design, tokens, spans)
            if tag == "C" and worth[said_by] < cost:
                say_no("NotClosed", node, said(worth[said_by]), said(cost))
            least = min(least, worth["f"]) if tag == "O" else least
            said_by = next((letter for letter in LETTERS if worth[letter] >= cost), said_by)
        named.append((tag, said_by))
    return least, named


def written(count, cost, bound, plan, paths, tags):
    """The text of a certificate, of version 2, or of version 3 where it has paths."""
    version = 3 if any(paths) else 2
    header = ["slicing-certificate %d" % version, "blocks %d" % count, "cost " + said(cost), "bound " + said(bound)]
    words = [str(token) if token in ("*", "+") else "%d:%dx%d" % (token, *plan[1][token]) for token in plan[0]] if plan else ["none"]
    header.append(" ".join(["plan"] + words))
    for label, listed in zip(("across", "upward"), paths) if any(paths) else []:
        header += ["%s %d" % (label, len(listed))] + [" ".join(map(str, path)) for path in listed]
    lines = header + ["tree"] + [tag if tag in "EO" else "%s %s" % (tag, named) for tag, named in tags]
    return "".join(line + "\n" for line in lines)


def check(design, text, rewrite):
    words = [(word, number) for number, line in enumerate(text.split("\n"), 1) for word in re.findall(r"[^ \t\r]+", line)]
    last = words[-1][1] if words else 0
    lines = text.removesuffix("\n").split("\n") if text else []
    version, cost, bound, plan, paths, first = read_header(lines, len(design.shapes), last)
    tags = read_tree([(word, line) for word, line in words if line >= first], len(design.shapes), version, last)
    if plan:
        costs = cost_of(design, *plan)
        if costs == MAX or any(plan[1][b] not in listed for b, listed in enumerate(design.shapes)):
            say_no("BadPlan")
        if costs != cost:
            say_no("CostDiffers", said(cost), said(costs))
    if design.bounds == "strong":
        take_paths(design, paths)
    least, named = walk(design, tags, cost)
    if least != bound:
        say_no("BoundDiffers", said(bound), said(least))
    decided = sum(tag != "O" for tag, _ in tags)
    if rewrite:
        with open(rewrite, "w") as file:
            file.write(written(len(design.shapes), cost, bound, plan, paths, named))
    raise Ended(0, "status Yes\ncost %s\nbound %s\ndecided %d" % (said(cost), said(bound), decided))


def options_of(words):
    words = iter(words)
    return {name[2:]: name == "--fixed" or next(words) for name in words}


def main():
    options = options_of(sys.argv[1:])
    try:
        check(Design(options), read_file(options["cert"]), options.get("rewrite"))
    except Ended as answer:
        print(answer.args[1])
        sys.exit(answer.args[0])


if __name__ == "__main__":
    main()
