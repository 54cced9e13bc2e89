#!/usr/bin/env python3
"""Holds docs/SPEC.md to the definitions.

    spec.py [ROOT]

- docs/SPEC.md names every file of crates/*/specs/ (Lib.antt aside), as CRATE/specs/NAME.antt, and no file that is not there.
- A public name of a definition, a struct or an enum has one meaning: it is declared in one file only.
- The table under "## How much must be believed" is what the code has: for each crate the lines of its definitions, of its
  structs and enums, and of the `ensures` of its public functions. Comments, blank lines and imports do not count, nor do
  files named under "## What need not be believed". Inner crates have no line; of a crate of tests the definitions count.

Prints a line for each fault; the exit code is 1 if there is any.
"""
import collections
import glob
import os
import re
import sys

from layout import listed_crates, past_braces, read, without_comments

UNBELIEVED, TABLE = "## What need not be believed", "## How much must be believed"
FILE = re.compile(r"`(\w+/specs/\w+\.antt)`")
DEFINED = re.compile(r"^(?:(?:abbrev|unfoldable) )?pub (?!mod |use )(?:record |data )?([^\s:({]+)", re.M)
DECLARED = re.compile(r"^pub (?:struct|enum) (\w+)", re.M)
PROMISE = re.compile(r'^pub (?:extern "C" )?fn .*?^\{', re.M | re.S)
LAYERS = ("Terms", "Theory", "Entries", "Programs", "Tests")


def section(text, title):
    """The part of the page from a heading to the next of its rank."""
    start = text.find(title)
    end = text.find("\n## ", start + 1)
    return text[start:end if end > 0 else len(text)] if start >= 0 else ""


def paths(root, part, ending):
    """Files of a part of every crate, as CRATE/PART/NAME."""
    found = glob.glob(os.path.join(root, "crates", "*", part, "*" + ending))
    return sorted(os.path.relpath(path, os.path.join(root, "crates")) for path in found if not path.endswith("Lib.antt"))


def code_lines(text):
    """Lines that say something: no comment, no import, not blank."""
    lines = (line.strip() for line in text.splitlines())
    return sum(1 for line in lines if line and not re.match(r"--|//|(pub |ghost )?use |pub mod ", line))


def source_lines(text):
    """The lines of the public structs and enums, and those of the `ensures` of public functions."""
    text, types, promises = without_comments(text), 0, 0
    for match in DECLARED.finditer(text):
        types += code_lines(text[match.start():past_braces(text, text.index("{", match.start()))])
    for match in PROMISE.finditer(text):
        for clause in re.finditer(r"\bensures\s*\w*\s*\{", match.group()):
            promises += code_lines(match.group()[clause.start():past_braces(match.group(), clause.end() - 1)])
    return types, promises


def counted(root, page):
    """The rows of the table: crate to its three numbers."""
    left_out, rows = set(FILE.findall(section(page, UNBELIEVED))), {}
    for _, layer, crate, _ in listed_crates(root) if page else []:
        if layer not in LAYERS:
            continue
        specs = [path for path in paths(root, "specs", ".antt") if path.startswith(crate + "/") and path not in left_out]
        definitions = sum(code_lines(read(root, "crates/" + path)) for path in specs)
        sources = [source_lines(read(root, "crates/" + path)) for path in paths(root, "src", ".rt")
                   if path.startswith(crate + "/") and layer != "Tests"]
        row = (definitions, sum(types for types, _ in sources), sum(promises for _, promises in sources))
        if any(row):
            rows[crate] = row
    return rows


def faults(root):
    page = read(root, "docs/SPEC.md")
    named, there = set(FILE.findall(page)), set(paths(root, "specs", ".antt"))
    for path in sorted(there - named):
        yield "docs/SPEC.md does not name %s" % path
    for path in sorted(named - there):
        yield "docs/SPEC.md names %s, which is not there" % path
    homes = collections.defaultdict(list)
    for path in sorted(there) + paths(root, "src", ".rt"):
        for name in (DEFINED if path.endswith(".antt") else DECLARED).findall(read(root, "crates/" + path)):
            homes[name].append(path)
    for name, files in homes.items():
        if len(files) > 1:
            yield "%s is declared in %s" % (name, " and in ".join(files))
    rows = counted(root, page)
    rows["together"] = tuple(sum(row[k] for row in rows.values()) for k in range(3))
    lines = ["| %s | %d | %d | %d |" % ((crate,) + row) for crate, row in rows.items()]
    stand = [line for line in section(page, TABLE).splitlines() if re.match(r"\| \w+ \| \d", line)]
    if stand != lines:
        yield "docs/SPEC.md: the table of %s should be\n%s" % (TABLE[3:], "\n".join(lines))


if __name__ == "__main__":
    found = list(faults(sys.argv[1] if len(sys.argv) > 1 else "."))
    print("\n".join(found) if found else "spec.py: docs/SPEC.md names every file of definitions, and its counts are those of the code")
    sys.exit(1 if found else 0)
