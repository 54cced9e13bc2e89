#!/usr/bin/env python3
"""The bond sheet of a V2000 molfile, for the tests.

    molfile_sheet.py <MOLFILE >SHEET

It is for molfiles that keep the rules: it takes lines and columns as they stand,
and checks nothing. The bonds stay in the order of the file.
"""
import sys


def lines_of(molfile):
    """The counts line, the atom lines and the bond lines."""
    lines = molfile.split(b"\n")[3:]
    atoms, bonds = int(lines[0][0:3]), int(lines[0][3:6])
    return lines[0], lines[1:1 + atoms], lines[1 + atoms:1 + atoms + bonds]


def symbols(molfile):
    """The symbols of the atoms, without the blanks behind them."""
    return [line[31:34].rstrip(b" ") for line in lines_of(molfile)[1]]


def sheet(molfile):
    counts, _, bonds = lines_of(molfile)
    return b"".join(b"%4d%4d\n" % (int(line[0:3]), int(line[3:6])) for line in [counts] + bonds)


if __name__ == "__main__":
    sys.stdout.buffer.write(sheet(sys.stdin.buffer.read()))
