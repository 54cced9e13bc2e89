#!/usr/bin/env python3
"""Writes the example molfiles (V2000), each from the rule of its molecule.

    make_molfiles.py           writes NAME.mol beside this script
    make_molfiles.py FOLDER    writes them there

A skeleton is a list of pairs of names, as in make_sheets.py, and its atoms have
the numbers of its bond sheet there. The hydrogens follow, in the order of the
atoms that they are bonded to; gonane has none, so that its molfile has the bonds
of its sheet. Atoms are carbons unless they are named otherwise.
The coordinates are those of a plain drawing: the skeleton around a circle, and
the hydrogens outside of it.
"""
import math
import os
import sys

sys.dont_write_bytecode = True
import make_sheets

VALENCE = {"C": 4, "N": 3, "O": 2}
LENGTH = 1.4  # between neighbours on the circle, and from an atom to its hydrogens


class Molecule:
    """Symbols and places of the atoms, and bonds as (atom, atom, order)."""

    def __init__(self, skeleton, elements=(), double=(), hydrogens=True):
        names, pairs = make_sheets.numbered(skeleton)
        number = {name: i for i, name in enumerate(names, 1)}
        twice = {tuple(sorted((number[a], number[b]))) for a, b in double}
        self.symbols = [dict(elements).get(name, "C") for name in names]
        self.bonds = [pair + (2 if pair in twice else 1,) for pair in pairs]
        self.radius = LENGTH / 2 / math.sin(math.pi / len(names))
        self.places = [on_circle(i / len(names), self.radius) for i in range(len(names))]
        if hydrogens:
            self.add_hydrogens(len(names))

    def add_hydrogens(self, count):
        """Gives each atom of the skeleton, `count` in all, the hydrogens that its valence leaves."""
        free = [VALENCE[symbol] for symbol in self.symbols]
        for a, b, order in self.bonds:
            free[a - 1] -= order
            free[b - 1] -= order
        for atom in range(count):
            for k in range(free[atom]):
                aside = (k - (free[atom] - 1) / 2) / 4
                self.symbols.append("H")
                self.bonds.append((atom + 1, len(self.symbols), 1))
                self.places.append(on_circle((atom + aside) / count, self.radius + LENGTH))


def on_circle(turn, radius):
    """The place at a part of a turn, to four decimals; adding 0.0 leaves no negative zero."""
    angle = 2 * math.pi * turn
    return tuple(round(radius * of(angle), 4) + 0.0 for of in (math.cos, math.sin))


def benzene():
    """A ring of six, in which every other bond is double."""
    bonds = make_sheets.ring(list(range(1, 7)))
    return Molecule(bonds, double=bonds[::2])


def caffeine():
    """The two rings of purine in its numbering, with O at 2 and 6, and CH3 at 1, 3 and 7."""
    rings = [[("ring", i) for i in atoms] for atoms in ([1, 2, 3, 4, 5, 6], [4, 5, 7, 8, 9])]
    side = [(("ring", i), ("side", i)) for i in (1, 2, 3, 6, 7)]
    nitrogens = {("ring", i): "N" for i in (1, 3, 7, 9)}
    oxygens = {("side", i): "O" for i in (2, 6)}
    double = [bond for bond in side if bond[1] in oxygens]
    double += [(("ring", 4), ("ring", 5)), (("ring", 8), ("ring", 9))]
    return Molecule(make_sheets.fused(rings) + side, {**nitrogens, **oxygens}, double)


MOLECULES = {
    "benzene": benzene(),
    "cubane": Molecule(make_sheets.MOLECULES["cubane"]),
    "adamantane": Molecule(make_sheets.MOLECULES["adamantane"]),
    "gonane": Molecule(make_sheets.MOLECULES["gonane"], hydrogens=False),
    "caffeine": caffeine(),
}


def molfile(name, molecule):
    """The text of a molfile. Line 2 names the program, and says that the places are in a plane."""
    lines = [name, "  ringlist          2D", "made by examples/make_molfiles.py"]
    lines.append("%3d%3d" % (len(molecule.symbols), len(molecule.bonds)) + "  0" * 8 + "999 V2000")
    for symbol, (x, y) in zip(molecule.symbols, molecule.places):
        lines.append("%10.4f%10.4f%10.4f %-3s 0" % (x, y, 0, symbol) + "  0" * 11)
    lines += ["%3d%3d%3d  0" % bond for bond in molecule.bonds]
    return "\n".join(lines + ["M  END", ""])


def main():
    folder = sys.argv[1] if len(sys.argv) > 1 else os.path.dirname(os.path.abspath(__file__))
    for name, molecule in MOLECULES.items():
        with open(os.path.join(folder, name + ".mol"), "w", newline="\n") as file:
            file.write(molfile(name, molecule))


if __name__ == "__main__":
    main()
