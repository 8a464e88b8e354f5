#!/usr/bin/env python3
"""Tests what is reported of a design that is read with loss: python3 bench/trials/losses.py PATH/floorplan

Designs are planned, checked and measured whose terminals have no coordinates, whose modules are of the type PAD, or whose pads have
no pl file: a line for each must stand on the standard error, with the count, and nothing else there. Where the design is refused,
or nothing is lost, none may stand there. Status, output and certificate must be those of the same run with the standard error
closed. The first difference ends the run with status 1.
"""
import os
import subprocess
import sys
import tempfile

YAL = """MODULE cell; TYPE GENERAL; DIMENSIONS 0 0 6 5; ENDMODULE;
MODULE pad; TYPE PAD; DIMENSIONS 0 0 2 2; ENDMODULE;
MODULE top; TYPE PARENT; IOLIST; a PI 0 0; b PO LEFT 3; c PO; ENDIOLIST;
NETWORK; u cell a b; v pad b c; ENDNETWORK; ENDMODULE;
"""
BLOCKS = """UCSC blocks 1.0
NumSoftRectangularBlocks : 0
NumHardRectilinearBlocks : 2
NumTerminals : 3
u hardrectilinear 4 (0, 0) (0, 5) (6, 5) (6, 0)
v hardrectilinear 4 (0, 0) (0, 2) (2, 2) (2, 0)
a terminal
b terminal
c terminal
"""
NETS = "UCLA nets 1.0\nNumNets : 1\nNumPins : 3\nNetDegree : 3\nu B\nv B\na B\n"
PL = "UCLA pl 1.0\na 0 0\nb 9 0\nc 0 9\n"
FILES = {"d.yal": YAL, "whole.yal": YAL.replace("TYPE PAD", "TYPE GENERAL").replace("b PO LEFT 3; c PO;", ""), "cut.yal": YAL[:-12], "d.blocks": BLOCKS, "d.nets": NETS, "d.pl": PL}
OF_YAL = "floorplan: terminals left out, since they have no coordinates: 2\nfloorplan: modules of TYPE PAD, whose instances are blocks: 1\n"
OF_PADS = "floorplan: pads left out, since no pl file is named: 3\n"

#        words of the design                                               standard error
CASES = [
    ("--format yal --yal d.yal", OF_YAL),
    ("--format yal --yal whole.yal", ""),
    ("--format yal --yal cut.yal", ""),
    ("--format gsrc --blocks d.blocks", ""),
    ("--format gsrc --blocks d.blocks --nets d.nets", OF_PADS),
    ("--format gsrc --blocks d.blocks --nets d.nets --pl d.pl", ""),
    ("--format gsrc --blocks d.blocks --nets d.nets --outline 1x1", OF_PADS),
]
COMMANDS = ("plan %s --cert d.cert --pl-out d.placed", "check %s --cert d.cert", "measure %s --placed d.placed")


def run(words, closed):
    """Status, output, standard error and the certificate that is there then."""
    shell = ["sh", "-c", 'exec "$0" "$@" 2>&-', *words] if closed else words
    done = subprocess.run(shell, stdout=subprocess.PIPE, stderr=subprocess.PIPE, text=True)
    stored = open("d.cert").read() if os.path.exists("d.cert") else None
    return done.returncode, done.stdout, done.stderr, stored


def main():
    program = os.path.abspath(sys.argv[1])
    with tempfile.TemporaryDirectory() as folder:
        os.chdir(folder)
        for name, text in FILES.items():
            with open(name, "w") as file:
                file.write(text)
        for design, wanted in CASES:
            for command in COMMANDS:
                words = [program, *(command % design).split()]
                status, out, told, stored = run(words, False)
                if told != (wanted if status in (0, 1, 3, 4) else ""):
                    sys.exit("%s: status %d, told %r" % (" ".join(words), status, told))
                again = run(words, True)
                if (status, out, stored) != (again[0], again[1], again[3]):
                    sys.exit("%s: another answer with the standard error closed" % " ".join(words))
    print("%d designs: what is lost is told, and nothing else" % len(CASES))


if __name__ == "__main__":
    main()
