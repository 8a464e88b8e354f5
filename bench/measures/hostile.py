#!/usr/bin/env python3
"""Measures the most expensive texts of 64 MiB: python3 bench/measures/hostile.py PATH/floorplan [FOLDER [CASE ..]]

Writes texts into FOLDER (a temporary one by default) that fill all of the bytes that a file may have with the things of
which a reader keeps most, or over which it takes longest, and lets the built program read each of them, and then texts of
a half and of a quarter of the bytes:

  signals     YAL: one instance, whose signals are all distinct
  scattered   YAL: the same in a random order
  long        YAL: as signals, with names of 25 to 29 bytes that begin alike
  alike       YAL: signals of 4,096 bytes that differ at their ends alone
  uses        YAL: instances that all name the same 62 signals
  instances   YAL: instances of one module
  modules     YAL: modules with nothing in them
  terminals   YAL: terminals of the parent, which are pads
  twice       YAL: signals of which each is named by two instances
  comments    YAL: comments of four bytes
  pins        GSRC: pins of one net, with names that no block has
  nets        GSRC: nets of one pin
  corners     GSRC: corners of one block
  blocks      GSRC: soft blocks
  pads        GSRC: pads, and no nets
  padded      GSRC: pads, and a net of one of them
  places      GSRC: lines of a pl file, each with a name of its own
  repeated    GSRC: lines of a pl file, all with one name
  placed      GSRC: three texts of this length: as many pads, pins and places as fit, with names of 4,096 bytes that begin alike
  remarks     GSRC: comments of two bytes in a nets file
  measured    GSRC: lines of a placed file that `measure` reads, each with a name of its own

Printed are how many there are, processor time and greatest resident memory of the three runs, and the first line of the
answer, or the status where nothing is printed.
"""
import os
import random
import subprocess
import sys
import tempfile

LIMIT = 67108864
DIGITS = "abcdefghijklmnopqrstuvwxyzABCDEFGHIJKLMNOPQRSTUVWXYZ0123456789"


def name(number):
    """A short name of its own for each number; the first letter is no digit."""
    text = DIGITS[number % 52]
    number //= 52
    while number:
        number -= 1
        text += DIGITS[number % 62]
        number //= 62
    return text


def long_name(number):
    """A name of 4,096 bytes, of its own for each number below a million."""
    return "a" * 4090 + "%06d" % number


def many(one, room):
    """As many of these as there is room for."""
    items = []
    number = 0
    while True:
        item = one(number)
        room -= len(item)
        if room < 0:
            return items
        items.append(item)
        number += 1


CELL = "MODULE c; TYPE GENERAL; DIMENSIONS 0 0 6 0 6 5 0 5; ENDMODULE;\n"
TOP = "MODULE top; TYPE PARENT; NETWORK;\n"
END = "ENDNETWORK; ENDMODULE;\n"
HEAD = "UCSC blocks 1.0\nNumSoftRectangularBlocks : %d\nNumHardRectilinearBlocks : %d\nNumTerminals : %d\n"
BLOCK = "b hardrectilinear 4 (0, 0) (0, 4) (3, 4) (3, 0)\n"
NETS = "UCLA nets 1.0\nNumNets : %d\n"
PLACES = "UCLA pl 1.0\n"


def one_instance(items):
    return len(items), {"t.yal": CELL + TOP + "i c " + "".join(items) + ";\n" + END}


def signals(room):
    return one_instance(many(lambda i: name(i) + " ", room - 200))


def scattered(room):
    items = many(lambda i: name(i) + " ", room - 200)
    random.Random(1).shuffle(items)
    return one_instance(items)


def long(room):
    return one_instance(many(lambda i: "a_signal_with_a_long_name_" + name(i) + " ", room - 200))


def alike(room):
    return one_instance(many(lambda i: long_name(i) + " ", room - 200))


def uses(room):
    items = many(lambda i: "i c " + " ".join(DIGITS) + ";\n", room - 200)
    return len(items) * 62, {"t.yal": CELL + TOP + "".join(items) + END}


def instances(room):
    items = many(lambda i: "%s c;" % name(52 * 63 + i % 150000), room - 200)
    return len(items), {"t.yal": CELL + TOP + "".join(items) + "\n" + END}


def modules(room):
    items = many(lambda i: "MODULE %s; ENDMODULE;\n" % name(i), room)
    return len(items), {"t.yal": "".join(items)}


def terminals(room):
    items = many(lambda i: "%s B 0 0;" % name(i), room - 200)
    return len(items), {"t.yal": CELL + "MODULE top; TYPE PARENT; IOLIST;\n" + "".join(items) + "\nENDIOLIST; NETWORK;\ni c;\n" + END}


def twice(room):
    items = "".join(many(lambda i: name(i) + " ", (room - 200) // 2))
    return items.count(" "), {"t.yal": CELL + TOP + "i c " + items + ";\nj c " + items + ";\n" + END}


def comments(room):
    count = (room - 200) // 4
    return count, {"t.yal": CELL + TOP + "i c n;\n" + END + "/**/" * count}


def pins(room):
    items = many(lambda i: name(52 * 63 + i) + " B\n", room - 100)
    return len(items), {"t.blocks": HEAD % (0, 1, 0) + BLOCK, "t.nets": NETS % 1 + "NetDegree : %d\n" % len(items) + "".join(items)}


def nets(room):
    count = (room - 100) // len("NetDegree 1\nb B\n")
    return count, {"t.blocks": HEAD % (0, 1, 0) + BLOCK, "t.nets": NETS % count + "NetDegree 1\nb B\n" * count}


def corners(room):
    items = many(lambda i: ("(0, 0) ", "(3, 4) ")[i % 2], room - 200)
    return len(items), {"t.blocks": HEAD % (0, 1, 0) + "b hardrectilinear %d %s\n" % (len(items), "".join(items))}


def blocks(room):
    items = many(lambda i: "%s softrectangular 1 1 1\n" % name(i), room - 200)
    return len(items), {"t.blocks": HEAD % (len(items), 0, 0) + "".join(items)}


def pads(room):
    items = many(lambda i: name(i) + " terminal\n", room - 200)
    return len(items), {"t.blocks": HEAD % (0, 0, len(items)) + "".join(items)}


def padded(room):
    count, texts = pads(room)
    return count, dict(texts, **{"t.nets": NETS % 1 + "NetDegree 1\na B\n"})


def places(room):
    items = many(lambda i: name(52 * 63 + i) + " 0 0\n", room - 20)
    return len(items), {"t.blocks": HEAD % (0, 1, 0) + BLOCK, "t.pl": PLACES + "".join(items)}


def repeated(room):
    count = (room - 20) // len("b 0 0\n")
    return count, {"t.blocks": HEAD % (0, 1, 0) + BLOCK, "t.pl": PLACES + "b 0 0\n" * count}


def placed(room):
    names = [long_name(i) for i in range((room - 300) // len(long_name(0) + " terminal\n"))]
    return len(names), {
        "t.blocks": HEAD % (0, 1, len(names)) + BLOCK + "".join(one + " terminal\n" for one in names),
        "t.nets": NETS % 1 + "NetDegree : %d\n" % len(names) + "".join(one + " B\n" for one in names),
        "t.pl": PLACES + "".join(one + " 0 0\n" for one in names)}


def measured(room):
    items = many(lambda i: name(52 * 63 + i) + " 0 0\n", room - 20)
    return len(items), {"t.blocks": HEAD % (0, 1, 0) + BLOCK, "t.placed": PLACES + "".join(items)}


def remarks(room):
    count = (room - 100) // 2
    return count, {"t.blocks": HEAD % (0, 1, 0) + BLOCK, "t.nets": NETS % 0 + "#\n" * count}


CASES = (signals, scattered, long, alike, uses, instances, modules, terminals, twice, comments,
         pins, nets, corners, blocks, pads, padded, places, repeated, placed, remarks, measured)
WORDS = {".yal": ["--format", "yal", "--yal"], ".blocks": ["--format", "gsrc", "--blocks"], ".nets": ["--nets"], ".pl": ["--pl"],
         ".placed": ["--placed"]}


def write(case, room):
    """Writes the texts of a case and answers how many things they have, and the files. A process of its own does it, since
    the greatest size of the one that starts the program would count as the program's."""
    end, to_end = os.pipe()
    child = os.fork()
    if child == 0:
        count, texts = case(room)
        for file, text in texts.items():
            with open(file, "w") as to:
                to.write(text)
        os.write(to_end, " ".join([str(count)] + list(texts)).encode())
        os._exit(0)
    os.close(to_end)
    os.waitpid(child, 0)
    count, *files = os.read(end, 1000).decode().split()
    os.close(end)
    return int(count), files


def measure(program, files):
    words = ["measure"] if any(file.endswith(".placed") for file in files) else ["plan", "--nodes", "1", "--cert", "c"]
    for file in files:
        words += WORDS[os.path.splitext(file)[1]] + [file]
    process = subprocess.Popen([program] + words, stdout=subprocess.PIPE)
    line = process.stdout.read().decode().split("\n")[0]
    _, status, usage = os.wait4(process.pid, 0)
    process.returncode = os.waitstatus_to_exitcode(status)
    return usage.ru_utime + usage.ru_stime, usage.ru_maxrss / 1024, line or "status %d" % process.returncode


def main():
    program = os.path.abspath(sys.argv[1])
    os.chdir(sys.argv[2] if len(sys.argv) > 2 else tempfile.mkdtemp())
    for case in CASES:
        if len(sys.argv) > 3 and case.__name__ not in sys.argv[3:]:
            continue
        quarter = measure(program, write(case, LIMIT // 4)[1])
        half = measure(program, write(case, LIMIT // 2)[1])
        count, files = write(case, LIMIT)
        time, memory, line = measure(program, files)
        print("%-10s %9d   %5.2f s   %5.0f MB   half %5.2f s   %5.0f MB   quarter %5.2f s   %5.0f MB   %s" % (
            case.__name__, count, time, memory, *half[:2], *quarter[:2], line[:60]), flush=True)


main()
