#!/usr/bin/env python3
"""Holds the must-fail edits to the code and to docs/TRACE.md, before the prover tries them.

    edits.py [ROOT]
    edits.py --make ROOT CRATE NAME    makes the edit CRATE/NAME in the tree (tests/try_edit.sh)

- Each `old:` text of an edit stands once in the file that the edit names, as the texts above it in the edit made that
  file, and no two edits of a crate are the same.
- docs/TRACE.md names every edit, and no other; its last table has every edit of a definition (a file of specs/). An edit is
  named as CRATE/NAME; `CRATE/NAME, NAME` names two of one crate.
- Each row of a table of docs/TRACE.md has as many cells as the row above it.

Prints a line for each fault; the exit code is 1 if there is any.
"""
import glob
import os
import re
import sys

TABLE = "## Edits of definitions"
PARTS = {"src", "specs", "proofs", "must-fail", "stdin", "stdout"}


def read(*names):
    with open(os.path.join(*names), encoding="utf-8") as file:
        return file.read()


def edits(root):
    """The edits of the tree: (crate, name) to its (file, old, new) in order."""
    found = {}
    for path in sorted(glob.glob(os.path.join(root, "crates", "*", "must-fail", "*.edit"))):
        changes, file, old = [], None, None
        for line in read(path).splitlines():
            word, _, text = line.partition(": ")
            if word == "file":
                file = text
            elif word == "old":
                old = text
            elif word == "new" or line == "new:":
                changes.append((file, old, text))
        found[path.split(os.sep)[-3], os.path.basename(path)[:-len(".edit")]] = changes
    return found


def text_faults(root, there):
    """Edits that do not fit the file that they name, or are the same as another."""
    seen = {}
    for (crate, name), changes in there.items():
        where, texts = "crates/%s/must-fail/%s.edit: " % (crate, name), {}
        if not changes:
            yield where + "it changes nothing"
        for file, old, new in changes:
            text = texts.get(file) or read(root, "crates", crate, file)
            if text.count(old) != 1 or old == new:
                yield where + "its old text stands %d times in %s" % (text.count(old), file)
            texts[file] = text.replace(old, new)
        if seen.setdefault((crate, tuple(changes)), name) != name:
            yield where + "it is the same as %s" % seen[crate, tuple(changes)]


def make(root, crate, name):
    """Makes an edit in the tree."""
    for file, old, new in edits(root)[crate, name]:
        text = read(root, "crates", crate, file)
        with open(os.path.join(root, "crates", crate, file), "w", encoding="utf-8") as out:
            out.write(text.replace(old, new))


def named(text, crates):
    """The edits that a text names: line, crate, name."""
    names = re.compile(r"(?<![\w/`])(%s)/(\w+(?:, \w+)*)(?=[,;| (])" % "|".join(sorted(crates)))
    for number, line in enumerate(text.splitlines(), 1):
        for match in names.finditer(line) if line.startswith("|") else []:
            for name in match.group(2).split(", "):
                if name not in PARTS:
                    yield number, match.group(1), name


def trace_faults(root, there):
    text, crates = read(root, "docs", "TRACE.md"), os.listdir(os.path.join(root, "crates"))
    cited = list(named(text, crates))
    table = {(crate, name) for _, crate, name in named(text[text.index(TABLE):], crates)}
    for line, crate, name in cited:
        if (crate, name) not in there:
            yield "docs/TRACE.md:%d: there is no edit %s/%s" % (line, crate, name)
    for crate, name in sorted(set(there) - {(crate, name) for _, crate, name in cited}):
        yield "crates/%s/must-fail/%s.edit: docs/TRACE.md does not name it" % (crate, name)
    for (crate, name), changes in there.items():
        if any(file.startswith("specs/") for file, _, _ in changes) and (crate, name) not in table:
            yield "crates/%s/must-fail/%s.edit: the table of docs/TRACE.md has no law for it" % (crate, name)


def table_faults(root):
    """Rows of docs/TRACE.md with more or fewer cells than the row above."""
    cells = 0
    for number, line in enumerate(read(root, "docs", "TRACE.md").splitlines(), 1):
        above, cells = cells, line.count("|") if line.startswith("|") else 0
        if above and cells and cells != above:
            yield "docs/TRACE.md:%d: a row of %d cells below one of %d" % (number, cells - 1, above - 1)


def main():
    if sys.argv[1:2] == ["--make"]:
        return make(*sys.argv[2:])
    root = sys.argv[1] if len(sys.argv) > 1 else "."
    there = edits(root)
    found = [*text_faults(root, there), *trace_faults(root, there), *table_faults(root)]
    print("\n".join(found) if found else "edits.py: %d must-fail edits fit the code, and docs/TRACE.md names them" % len(there))
    sys.exit(1 if found or not there else 0)


if __name__ == "__main__":
    main()
