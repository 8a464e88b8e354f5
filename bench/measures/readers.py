#!/usr/bin/env python3
"""Measures the readers: python3 bench/measures/readers.py PATH/floorplan [FOLDER]

Writes three designs into FOLDER (a temporary one by default) and lets the built program read each of them, with a budget
of one decision, so that nearly all of the time is reading, admitting and building:

  gsrc   320 blocks, 16,384 pads, 65,536 nets of 16 pins, which are all limits at once
  long   the same blocks, and a nets file of 64 MB, most of it comments
  yal    320 instances of one module, 65,536 signals, 1,048,576 pins, and comments up to 64 MB

Printed are the bytes read, processor time and greatest resident memory.
"""
import os
import subprocess
import sys
import tempfile

BLOCKS, PADS, NETS, PINS = 320, 16384, 65536, 16
LIMIT = 67108864


def write(name, text):
    with open(name, "w") as file:
        file.write(text)


def pin(net, k):
    """Every fourth pin is a pad; the pins of one net differ."""
    if k % 4 == 3:
        return "p%d" % ((net + k * 1024) % PADS)
    return "b%d" % ((net + k * 20) % BLOCKS)


def gsrc():
    lines = ["UCSC blocks 1.0", "NumSoftRectangularBlocks : 0", "NumHardRectilinearBlocks : %d" % BLOCKS]
    lines.append("NumTerminals : %d" % PADS)
    lines += ["b%d hardrectilinear 4 (0, 0) (0, %d) (%d, %d) (%d, 0)" % (i, 5 + i % 7, 4 + i % 5, 5 + i % 7, 4 + i % 5) for i in range(BLOCKS)]
    lines += ["p%d terminal" % i for i in range(PADS)]
    write("g.blocks", "\n".join(lines) + "\n")
    lines = ["UCLA nets 1.0", "NumNets : %d" % NETS, "NumPins : %d" % (NETS * PINS)]
    for net in range(NETS):
        lines.append("NetDegree : %d n%d" % (PINS, net))
        lines += ["%s B : %%0.0 %%0.0" % pin(net, k) for k in range(PINS)]
    write("g.nets", "\n".join(lines) + "\n")
    write("g.pl", "\n".join(["UCLA pl 1.0"] + ["p%d %d %d" % (i, i, -i) for i in range(PADS)]) + "\n")
    return ["--format", "gsrc", "--blocks", "g.blocks", "--nets", "g.nets", "--pl", "g.pl"], ["g.blocks", "g.nets", "g.pl"]


def long():
    text = "UCLA nets 1.0\nNumNets : 1\nNetDegree : 2\nb0 B\nb1 B\n"
    comment = "# " + "a comment of eighty bytes and so on " * 2 + "....\n"
    write("l.nets", text + comment * ((LIMIT - len(text)) // len(comment)))
    return ["--format", "gsrc", "--blocks", "g.blocks", "--nets", "l.nets"], ["g.blocks", "l.nets"]


def yal():
    lines = ["MODULE cell;", "TYPE GENERAL;", "DIMENSIONS 0 0 6 0 6 5 0 5;", "ENDMODULE;", "MODULE top;", "TYPE PARENT;"]
    lines.append("NETWORK;")
    per_block = NETS * PINS // BLOCKS
    for block in range(BLOCKS):
        signals = " ".join("s%d" % ((block * 205 + k * 20) % NETS) for k in range(per_block))
        lines.append("i%d cell %s;" % (block, signals))
    lines += ["ENDNETWORK;", "ENDMODULE;"]
    text = "\n".join(lines) + "\n"
    comment = "/* " + "a comment of eighty bytes and so on " * 2 + " */\n"
    write("y.yal", text + comment * ((LIMIT - len(text)) // len(comment)))
    return ["--format", "yal", "--yal", "y.yal"], ["y.yal"]


def main():
    program = os.path.abspath(sys.argv[1])
    os.chdir(sys.argv[2] if len(sys.argv) > 2 else tempfile.mkdtemp())
    for name, case in (("gsrc", gsrc), ("long", long), ("yal", yal)):
        words, files = case()
        size = sum(os.path.getsize(file) for file in files)
        process = subprocess.Popen([program, "plan", "--nodes", "1", "--cert", "c"] + words, stdout=subprocess.PIPE)
        first = process.stdout.read().decode().split("\n")[0]
        _, status, usage = os.wait4(process.pid, 0)
        print("%-5s %5.1f MB   %5.2f s   %6.0f MB   status %d, %s" % (
            name, size / 1e6, usage.ru_utime + usage.ru_stime, usage.ru_maxrss / 1024, os.waitstatus_to_exitcode(status), first), flush=True)


main()
