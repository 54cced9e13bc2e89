#!/usr/bin/env python3
"""spec.py and style.py on a made-up tree: they pass a good one, and find each fault, it alone."""
import os
import sys
import tempfile

sys.dont_write_bytecode = True
import spec
import style

GOOD = {
    "crates.txt": "# Terms: numbers\nfields:\n\n# Inner: sets\nsets: fields\n\n# Entries: the reader\nsheet: fields sets\n",
    "docs/SPEC.md": """\
# The specification
- `fields/specs/Field.antt`: a field. `sheet/specs/Read.antt`: a sheet.

## What need not be believed
`sets/specs/Set.antt` and `sheet/specs/Parts.antt`.

## How much must be believed
| crate | definitions | structs, enums | `ensures` |
|---|--:|--:|--:|
| fields | 4 | 3 | 1 |
| sheet | 1 | 0 | 2 |
| together | 5 | 3 | 3 |
""",
    "crates/fields/specs/Lib.antt": "pub mod Field\n",
    "crates/fields/specs/Field.antt": """\
-- A field.
use Rattle.std.specs.Prelude.{ℕ}

unfoldable pub read_field : ℕ → ℕ
read_field n = n

pub record Digit : Type 0 where
  pub value : ℕ
""",
    "crates/fields/src/lib.rt": """\
// A number.
pub struct Number {
    pub value: u64, // its value
}

pub fn read(s: u64) -> u64
    requires { true }
    ensures value { s }
{
    s
}

fn inner(s: u64) -> u64
    ensures { s }
{
    s
}
""",
    "crates/sets/specs/Set.antt": "abbrev pub has : ℕ\n",
    "crates/sets/src/lib.rt": "pub struct Set {\n    pub low: u64,\n}\n",
    "crates/sheet/specs/Parts.antt": "abbrev pub part : ℕ\n",
    "crates/sheet/specs/Read.antt": "unfoldable pub read_sheet : ℕ\n",
    "crates/sheet/proofs/read/Answers.antt": "place c = c.before.before.before.before.loop\n",
    "crates/sheet/src/lib.rt": 'pub extern "C" fn sheet(s: u64) -> u64\n    ensures {\n        s }\n{\n    s\n}\n',
}
ROWS = "| fields | 4 | 3 | 1 |\n| sheet | 1 | 0 | 2 |\n| together | 5 | 3 | 3 |"
SHOULD = "docs/SPEC.md: the table of How much must be believed should be\n"
PLACE, PATH = "place c = c.before", "a path of four or more `.before` that names no place"
PROOF, READ = "crates/sheet/proofs/read/Answers.antt", "crates/sheet/specs/Read.antt"

# File, text, what stands for it, and the fault.
EDITS = [
    ("crates/sets/specs/Word.antt", "", "abbrev pub word : ℕ\n", "docs/SPEC.md does not name sets/specs/Word.antt"),
    ("docs/SPEC.md", "a sheet.", "`sheet/specs/Line.antt`.", "docs/SPEC.md names sheet/specs/Line.antt, which is not there"),
    (READ, "read_sheet", "read_field", "read_field is declared in fields/specs/Field.antt and in sheet/specs/Read.antt"),
    ("crates/sets/src/lib.rt", "Set", "Number", "Number is declared in fields/src/lib.rt and in sets/src/lib.rt"),
    ("docs/SPEC.md", "| fields | 4 |", "| fields | 5 |", SHOULD + ROWS),
    ("docs/SPEC.md", "| sheet | 1 | 0 | 2 |\n", "", SHOULD + ROWS),
    ("docs/SPEC.md", " and `sheet/specs/Parts.antt`", "", "docs/SPEC.md does not name sheet/specs/Parts.antt"),
    (PROOF, PLACE, "turn c = (f c.before.before).if1", None),
    (PROOF, PLACE, "place c = f c.before", PROOF + ":1: " + PATH),
    (PROOF, PLACE, "goal c = omega arith c.before.before.before.before\n" + PLACE, PROOF + ":1: " + PATH),
    (PROOF, PLACE, "let place = c.before", None),
    (READ, "ℕ\n", "ℕ" + 91 * "x" + "\n", None),
    (READ, "ℕ\n", "ℕ" + 92 * "x" + "\n", READ + ":1: 121 characters"),
    (READ, "unfoldable", "use " + 140 * "x" + "\nunfoldable", None),
    ("crates/sheet/out/rlib/Read.antt", "", "unfoldable pub read_sheet : ℕ" + 120 * "x" + "\n", None),
]


def faults(tree):
    with tempfile.TemporaryDirectory() as root:
        for name, text in tree.items():
            path = os.path.join(root, name)
            os.makedirs(os.path.dirname(path), exist_ok=True)
            with open(path, "w", encoding="utf-8") as file:
                file.write(text)
        return [*spec.faults(root), *style.faults(root)]


def main():
    wrong = 0
    for name, old, new, fault in [("crates.txt", "# Inner", "# Inner", None)] + EDITS:
        text = GOOD.get(name, "")
        if text.count(old) != 1:
            sys.exit("spec_test.py: %r stands %d times in %s" % (old, text.count(old), name))
        found = faults(dict(GOOD, **{name: text.replace(old, new)}))
        # A definition that moves is one of the count too.
        found = [line for line in found if line.startswith(SHOULD) == (fault or "").startswith(SHOULD)]
        if found != ([fault] if fault else []):
            print("spec_test.py: %r for %r in %s: found %s, not %s" % (new, old, name, found, fault))
            wrong += 1
    print("spec_test.py: a good tree and %d edits of it, %d wrong" % (len(EDITS), wrong))
    sys.exit(1 if wrong else 0)


if __name__ == "__main__":
    main()
