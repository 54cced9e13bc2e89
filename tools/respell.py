#!/usr/bin/env python3
"""Brings the repository's own names to the library's spelling: words in snake case, types and modules in camel case.

usage: python3 tools/respell.py    once, at the top, after the kit's port.py

- a name that begins with a small letter and has capitals, as readSheet or allBelow-at, takes underscores: read_sheet, all_below-at;
- a field of a record, and a definition of specs/, takes underscores in place of dashes, unless a definition has that name already;
- names that would fall together go by OTHER.
It reads and writes crates/*/src, specs and proofs, and prints each name that it changed.
"""

import os
import re

# Names that the rule would make one with another name.
OTHER = {
    "goesOn": "goes_from", "goesOn-means": "goes_from-means", "means-goesOn": "means-goes_from", "goesOn-exactly": "goes_from-exactly",
}
# Lemmas that have the name of a definition beside them, by crate.
LEMMAS = {
    "molfile": {"last_byte": "last_byte_lem", "no_lines": "no_lines_lem"},
    "sheet": {"line_before": "line_before_lem"},
    "bonds": {"with_cell": "with_cell_lem"},
    "enumeration": {"is_open": "opened"},
}
BREAK = re.compile(r"([\s(){},.;\"«»]+)")
NAME = re.compile(r"[A-Za-z_]\w*'*")


def snake(name):
    return re.sub(r"(?<=[a-z0-9])([A-Z])", lambda m: "_" + m.group(1).lower(), name)


def is_camel(name):
    return re.match(r"[a-z]", name) and re.search(r"[a-z0-9][A-Z]", name) and re.fullmatch(r"[\w'₀-₉-]+", name)


def code(line):
    return re.sub(r"(^|\s)(--|//)( |$).*", "", line)


def files():
    for folder, dirs, names in os.walk("crates"):
        dirs[:] = sorted(d for d in dirs if d != "out")
        for name in sorted(names):
            if name.endswith((".antt", ".rt")):
                yield os.path.join(folder, name)


def dashed(texts):
    """The fields of records, and the definitions of specs/, that have a dash."""
    found = set()
    for path, text in texts.items():
        if not path.endswith(".antt"):
            continue
        depth = None
        for line in map(code, text.split("\n")):
            head = re.match(r"(\s*)(?:pub )?(?:record|data) ", line)
            if head:
                depth = len(head.group(1))
                continue
            if not line.strip():
                continue
            if depth is not None and len(line) - len(line.lstrip()) <= depth:
                depth = None
            it = re.match(r"\s*(?:unfoldable |abbrev |pub )*([^\s:(){},;=]+) :(?= |$)", line)
            if it and "-" in it.group(1) and (depth is not None or "/specs/" in path):
                found.add(it.group(1))
    return found


def main():
    texts = {}
    for path in files():
        with open(path, encoding="utf-8") as f:
            texts[path] = f.read()
    names = set()
    for path, text in texts.items():
        for line in map(code, text.split("\n")):
            names.update(BREAK.split(line) if path.endswith(".antt") else NAME.findall(line))
    turned = {n: OTHER.get(n, snake(n)) for n in names if is_camel(n)}
    taken = names | set(turned.values())
    for name in sorted(dashed(texts)):
        word = turned.get(name, name).replace("-", "_")
        if word not in taken:
            turned[name] = word
    for path, text in texts.items():
        mine = {**LEMMAS.get(path.split(os.sep)[1], {}), **turned} if "/proofs/" in path else turned
        parts = BREAK.split(text)
        for i, part in enumerate(parts):
            if part in mine:
                parts[i] = mine[part]
            elif part.strip("`").strip() in mine and "`" in part:
                parts[i] = part.replace(part.strip("`"), mine[part.strip("`")])
            elif part.strip("`:") in mine and part.strip("`:"):
                parts[i] = part.replace(part.strip("`:"), mine[part.strip("`:")])
        new = "".join(parts)
        if new != text:
            with open(path, "w", encoding="utf-8") as f:
                f.write(new)
    for name in sorted(turned):
        print(f"{name} {turned[name]}")


main()
