#!/usr/bin/env python3
"""Checks the layers of the crates.

    layout.py [ROOT]

crates.txt lists the crates in layers, from below. A layer is one comment line
`# LAYER: description` and the lines of its crates directly below it (`NAME: DEP ..`,
or of a static library `NAME staticlib: DEP ..`); a blank line ends it. The README's
map of the crates has the same layers and crates.

Asked of the tree:
- each folder of crates/ stands in crates.txt, once, and under a layer;
- a crate depends only on crates above it, and on libraries of the kit;
- no public function of the layers Entries and Tests has a `requires`, and each
  has an `ensures`: these may be called with anything, and say what they do;
- the README's map names the same crates, in the same order, under the same
  first words for the layers.

Prints a line FILE:LINE: FAULT for each fault; the exit code is 1 if there is any.
"""
import glob
import os
import re
import sys

KIT = {"bytes", "io", "check"}
OPEN_LAYERS = ("Entries", "Tests")
LAYER = re.compile(r"# (\w+): ")
CRATE = re.compile(r"\s*(\w+)(?: +staticlib)?\s*:(.*)")
PUBLIC = re.compile(r'\bpub (?:[\w"]+ )*fn (\w+)')


def read(root, name):
    with open(os.path.join(root, name), encoding="utf-8") as file:
        return file.read()


def listed_crates(root):
    """The crates of crates.txt: line, layer (None: under none), name, dependencies."""
    found, layer = [], None
    for number, line in enumerate(read(root, "crates.txt").splitlines(), 1):
        comment, crate = LAYER.match(line), CRATE.match(line)
        if crate:
            found.append((number, layer, crate.group(1), crate.group(2).split("#")[0].split()))
        else:
            layer = comment.group(1) if comment else None
    return found


def list_faults(root, crates):
    """Faults of crates.txt itself."""
    above = set()
    for line, layer, name, needed in crates:
        where = "crates.txt:%d: " % line
        if name in above:
            yield where + "%s is listed twice" % name
        if not os.path.isdir(os.path.join(root, "crates", name)):
            yield where + "%s is not in crates/" % name
        if layer is None:
            yield where + "%s stands under no layer" % name
        for other in needed:
            if other not in above | KIT:
                yield where + "%s depends on %s, which does not stand above it" % (name, other)
        above.add(name)
    for name in sorted(os.listdir(os.path.join(root, "crates"))):
        if name not in above:
            yield "crates.txt:1: crates/%s is not listed" % name
    for layer in OPEN_LAYERS:
        if layer not in [crate[1] for crate in crates]:
            yield "crates.txt:1: there is no layer %s" % layer


def without_comments(text):
    """The text with as many lines, and no comments."""
    return re.sub(r"//[^\n]*|/\*.*?\*/", lambda c: "\n" * c.group().count("\n"), text, flags=re.S)


def past_braces(text, at):
    """The place behind the braces that open at a place."""
    depth = 0
    for place in range(at, len(text)):
        depth += (text[place] == "{") - (text[place] == "}")
        if depth == 0:
            return place + 1
    return len(text)


def clauses(text, at):
    """The words of the clauses, as `requires`, from a signature's start up to its body. A clause may have a name."""
    found = []
    while True:
        brace = text.find("{", at)
        word = (re.search(r"(?:\n|^) *(\w+)\*?(?: +\w+)? *$", text[at:brace])
                or re.search(r"\b(requires|ensures)\*?(?:\s+\w+)?\s*$", text[at:brace]))
        if brace < 0 or not word:
            return found
        found.append(word.group(1))
        at = past_braces(text, brace)


def contract_faults(root, crates):
    """Public functions of the open layers that ask something, or say nothing."""
    for _, layer, name, _ in crates:
        folder = os.path.join(root, "crates", name, "src")
        sources = sorted(glob.glob(folder + "/**/*.rt", recursive=True)) if layer in OPEN_LAYERS else []
        for source in (os.path.relpath(path, root) for path in sources):
            text = without_comments(read(root, source))
            for function in PUBLIC.finditer(text):
                where = "%s:%d: " % (source, text.count("\n", 0, function.start(1)) + 1)
                kinds = clauses(text, function.start())
                if "requires" in kinds:
                    yield where + "%s has a `requires` and is in layer %s" % (function.group(1), layer)
                for word in set(kinds) - {"requires", "ensures"}:
                    yield where + "%s has a clause `%s` that this check does not know" % (function.group(1), word)
                if "ensures" not in kinds:
                    yield where + "%s has no `ensures` and is in layer %s" % (function.group(1), layer)


def map_faults(root, crates):
    """The README's map: under "## The crates", indented by 4 a layer, `LAYER` or
    `LAYER: description`, and by 6 a crate and what it is. Other lines are no part of it."""
    drawn, layer, within = [], None, False
    for number, line in enumerate(read(root, "README.md").splitlines(), 1):
        if line.startswith("## "):
            within = line == "## The crates"
        heading, crate = re.match(r" {4}(\w+)(:|$)", line), re.match(r" {6}(\w+) ", line)
        if within and heading:
            layer = heading.group(1)
        if within and crate:
            drawn.append((number, layer, crate.group(1)))
    for (number, layer, name), (_, layer_listed, name_listed, _) in zip(drawn, crates):
        if (layer, name) != (layer_listed, name_listed):
            yield "README.md:%d: the map has %s: %s where crates.txt has %s: %s" % (
                number, layer, name, layer_listed, name_listed)
            return
    if len(drawn) != len(crates):
        yield "README.md:%d: the map has %d crates and crates.txt has %d" % (
            drawn[-1][0] if drawn else 1, len(drawn), len(crates))


def faults(root):
    crates = listed_crates(root)
    return [*list_faults(root, crates), *contract_faults(root, crates), *map_faults(root, crates)]


if __name__ == "__main__":
    found = faults(sys.argv[1] if len(sys.argv) > 1 else ".")
    print("\n".join(found) if found else "layout.py: the layers of the crates are as they should be")
    sys.exit(1 if found else 0)
