#!/usr/bin/env python3
"""Holds the crates to what a person can read.

    style.py [ROOT]

In the .rt and .antt files of the crates, in src/, specs/ and proofs/:
- no line is longer than 120 characters, imports aside;
- no place of a proof is reached through four or more `.before` in a row, but in a line that only names the place
  (`turn c = c.before.before ..`, or the same after `let`).

Prints a line FILE:LINE: FAULT for each fault; the exit code is 1 if there is any.
"""
import glob
import os
import re
import sys

LENGTH = 120
PARTS = [("src", "rt"), ("specs", "antt"), ("proofs", "antt")]
IMPORT = re.compile(r"\s*(pub |ghost )?use ")
LONG_PATH = re.compile(r"(\.before\s*){3}\.before\b")
NAMING = re.compile(r"\s*(let )?[\w'-]+( c)? = [\w'-]+(\.[\w-]+)+( in)?$")


def line_faults(line):
    if len(line) > LENGTH and not IMPORT.match(line):
        yield "%d characters" % len(line)
    if LONG_PATH.search(line) and not NAMING.match(line):
        yield "a path of four or more `.before` that names no place"


def faults(root):
    for part, ending in PARTS:
        for path in sorted(glob.glob(os.path.join(root, "crates", "*", part, "**", "*." + ending), recursive=True)):
            with open(path, encoding="utf-8") as file:
                for number, line in enumerate(file.read().splitlines(), 1):
                    for fault in line_faults(line):
                        yield "%s:%d: %s" % (os.path.relpath(path, root), number, fault)


if __name__ == "__main__":
    found = list(faults(sys.argv[1] if len(sys.argv) > 1 else "."))
    print("\n".join(found) if found else "style.py: lines and paths are short enough to read")
    sys.exit(1 if found else 0)
