#!/usr/bin/env python3
"""layout.py on made-up trees: it passes a good one, and finds each fault, it alone, and its line."""
import os
import sys
import tempfile

sys.dont_write_bytecode = True
import layout

GOOD = {
    "crates.txt": """\
# a line for each crate: NAME: DEP DEP ..

# Terms: numbers
fields:
graph: bytes

# Inner: functions that may ask something
atomset: graph fields

# Entries: functions that ask nothing
sheet: fields atomset # its reader
host staticlib: io sheet

# Tests: entries for the tests
flat staticlib: sheet
""",
    "README.md": """\
# A tree

      flat     a line of another section

## The crates

The crates, from below:

    Terms: numbers
      fields   numbers
      graph    graphs,
               of any kind

    Inner
      atomset  sets

    Entries: functions that ask nothing
      sheet    the reader
      host     the host

    Tests
      flat     for the tests

    tests/     the tests

## The rest

      host     a line of another section
""",
    "crates/fields/src/lib.rt": "pub fn value(v: u8) -> u8 {\n    v\n}\n",
    "crates/graph/src/lib.rt": "",
    "crates/atomset/src/lib.rt": "pub fn at(i: u8) -> u8\n    requires { i < 8 }\n{\n    i\n}\n",
    "crates/sheet/src/lib.rt": """\
// pub fn gone() requires { nothing }
pub struct Sheet {
    pub bonds: u8,
}

// It asks something: no entry, so it may.
fn inner(i: u8) -> u8
    requires { i < 8 }
    ensures { result ≡ {i} }
{
    i
}

pub fn read(s: &[u8]) -> u8
    // requires { a comment }
    ensures value { result ≡ {s} }
    ensures more { true }
{
    if s.len() == 0 { requires } else { inner(0) }
}

impl Sheet {
    pub fn bonds(self) -> u8
        ensures { result ≡ self }
    {
        self.bonds
    }
}
""",
    "crates/host/src/main.rt": "fn main() {\n}\n",
    "crates/flat/src/lib.rt": """\
#[unsafe(no_mangle)]
pub extern "C" fn flat(
    s: &[u8],
    out: &mut [u8],
) -> u8
    ensures { result ≡ s }
{
    0
}
""",
}

# File, text, what stands for it, and the fault.
EDITS = [
    ("crates/search/src/lib.rt", "", "", "crates.txt:1: crates/search is not listed"),
    ("crates.txt", "graph: bytes\n", "graph: bytes\ngraph:\n", "crates.txt:6: graph is listed twice"),
    ("crates.txt", "graph: bytes\n", "graph: bytes\nsearch:\n", "crates.txt:6: search is not in crates/"),
    ("crates.txt", "# Inner: functions that may ask something\n", "", "crates.txt:7: atomset stands under no layer"),
    ("crates.txt", "\natomset", "\n\natomset", "crates.txt:9: atomset stands under no layer"),
    ("crates.txt", "graph: bytes", "graph: bytes sheet",
     "crates.txt:5: graph depends on sheet, which does not stand above it"),
    ("crates.txt", "host staticlib: io", "host staticlib: iz",
     "crates.txt:12: host depends on iz, which does not stand above it"),
    ("crates.txt", "# Entries:", "# Leaves:", "crates.txt:1: there is no layer Entries"),
    ("crates.txt", "# Tests:", "# Trials:", "crates.txt:1: there is no layer Tests"),
    ("crates/sheet/src/lib.rt", "    // requires { a comment }", "    requires { s.now ≡ {0} }",
     "crates/sheet/src/lib.rt:14: read has a `requires` and is in layer Entries"),
    ("crates/sheet/src/lib.rt", "    ensures more { true }", "    requires more { s.now ≡ {0} }",
     "crates/sheet/src/lib.rt:14: read has a `requires` and is in layer Entries"),
    ("crates/sheet/src/lib.rt", "        ensures { result ≡ self }",
     "        ensures { result ≡ self }\n        requires self_kept { true }",
     "crates/sheet/src/lib.rt:23: bonds has a `requires` and is in layer Entries"),
    ("crates/sheet/src/lib.rt", "        ensures { result ≡ self }\n", "",
     "crates/sheet/src/lib.rt:23: bonds has no `ensures` and is in layer Entries"),
    ("crates/flat/src/lib.rt", ") -> u8", ") -> u8 requires { true }",
     "crates/flat/src/lib.rt:2: flat has a `requires` and is in layer Tests"),
    ("crates/sheet/src/lib.rt", "    // requires { a comment }", "    requires* { lies_at s }",
     "crates/sheet/src/lib.rt:14: read has a `requires` and is in layer Entries"),
    ("crates/sheet/src/lib.rt", "    // requires { a comment }", "    measures { s }",
     "crates/sheet/src/lib.rt:14: read has a clause `measures` that this check does not know"),
    ("crates/flat/src/lib.rt", "    ensures { result ≡ s }\n{", "{",
     "crates/flat/src/lib.rt:2: flat has no `ensures` and is in layer Tests"),
    ("crates/host/src/main.rt", "fn main() {", "pub fn main() { // ensures { true }",
     "crates/host/src/main.rt:1: main has no `ensures` and is in layer Entries"),
    ("README.md", "    Inner\n", "    Leaves\n",
     "README.md:15: the map has Leaves: atomset where crates.txt has Inner: atomset"),
    ("README.md", "      atomset  sets\n", "",
     "README.md:17: the map has Entries: sheet where crates.txt has Inner: atomset"),
    ("README.md", "      sheet    the reader\n      host     the host\n",
     "      host     the host\n      sheet    the reader\n",
     "README.md:18: the map has Entries: host where crates.txt has Entries: sheet"),
    ("README.md", "    Tests\n      flat     for the tests\n", "",
     "README.md:19: the map has 5 crates and crates.txt has 6"),
]


def faults(tree):
    with tempfile.TemporaryDirectory() as root:
        for name, text in tree.items():
            path = os.path.join(root, name)
            os.makedirs(os.path.dirname(path), exist_ok=True)
            with open(path, "w", encoding="utf-8") as file:
                file.write(text)
        return layout.faults(root)


def main():
    wrong = 0
    for name, old, new, fault in [("README.md", "# A tree\n", "# A tree\n", None)] + EDITS:
        text = GOOD.get(name, "")
        if text.count(old) != 1:
            sys.exit("layout_test.py: %r stands %d times in %s" % (old, text.count(old), name))
        found = faults(dict(GOOD, **{name: text.replace(old, new)}))
        # A fault of crates.txt is one of the map too.
        found = [line for line in found if not (name == "crates.txt" and line.startswith("README.md"))]
        if found != ([fault] if fault else []):
            print("layout_test.py: %r for %r in %s: found %s, not %s" % (new, old, name, found, fault))
            wrong += 1
    print("layout_test.py: a good tree and %d faults, %d wrong" % (len(EDITS), wrong))
    sys.exit(1 if wrong else 0)


if __name__ == "__main__":
    main()
