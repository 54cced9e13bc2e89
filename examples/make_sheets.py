#!/usr/bin/env python3
"""Writes the example bond sheets, each from the rule of its carbon skeleton.

    make_sheets.py           writes NAME.sheet beside this script
    make_sheets.py FOLDER    writes them there

A molecule is a list of pairs of names; any names that can be sorted will do.
Atoms are numbered in the order of their names, bonds are sorted.
"""
import itertools
import os
import sys


def ring(names):
    """Bonds around a ring."""
    return list(zip(names, names[1:] + names[:1]))


def prism(k):
    """Two rings of k atoms, one above the other."""
    top = [("a", i) for i in range(k)]
    bottom = [("b", i) for i in range(k)]
    return ring(top) + ring(bottom) + list(zip(top, bottom))


def adamantane():
    """Four CH, and a CH2 between any two of them."""
    corners = range(4)
    edges = itertools.combinations(corners, 2)
    return [(("CH", c), ("CH2",) + edge) for edge in edges for c in edge]


def fused(rings):
    """Rings that share bonds; each is the list of its atoms in order."""
    return [bond for atoms in rings for bond in ring(atoms)]


def gonane():
    """The steroid skeleton, in the steroid numbering: rings A, B, C, D."""
    return fused([
        [1, 2, 3, 4, 5, 10],
        [5, 6, 7, 8, 9, 10],
        [8, 9, 11, 12, 13, 14],
        [13, 14, 15, 16, 17],
    ])


def acene(k):
    """k six-rings in a row; neighbours share the bond between rows u and w."""
    def hexagon(i):
        left, right = 2 * i, 2 * i + 2
        return [(left, "u"), (left + 1, "u"), (right, "u"),
                (right, "w"), (left + 1, "w"), (left, "w")]
    return fused([hexagon(i) for i in range(k)])


def icosahedron():
    """The neighbours of each of 12 corners: 0 on top, 1 to 5, 6 to 10, 11."""
    near = {corner: set() for corner in range(12)}
    for i in range(5):
        j = (i + 1) % 5
        for u, v in [(0, 1 + i), (1 + i, 1 + j), (1 + i, 6 + i),
                     (1 + j, 6 + i), (6 + i, 6 + j), (6 + i, 11)]:
            near[u].add(v)
            near[v].add(u)
    return near


def dodecahedrane():
    """An atom in each face of an icosahedron; faces sharing an edge bonded."""
    near = icosahedron()
    faces = [face for face in itertools.combinations(range(12), 3)
             if all(v in near[u] for u, v in itertools.combinations(face, 2))]
    return [(f, g) for f, g in itertools.combinations(faces, 2)
            if len(set(f) & set(g)) == 2]


def buckminsterfullerene():
    """The truncated icosahedron. Atom (u, v) stands near corner u on its edge
    to v: bonded to (v, u), and to (u, w) where u, v, w are a face."""
    near = icosahedron()
    atoms = [(u, v) for u in near for v in near[u]]
    return [(a, b) for a, b in itertools.combinations(atoms, 2)
            if a == b[::-1] or (a[0] == b[0] and b[1] in near[a[1]])]


MOLECULES = {
    "prismane": prism(3),
    "cubane": prism(4),
    "adamantane": adamantane(),
    "gonane": gonane(),
    "dodecahedrane": dodecahedrane(),
    "buckminsterfullerene": buckminsterfullerene(),
    "acene30": acene(30),
}


def numbered(bonds):
    """The names of the atoms in the order of their numbers, and the sorted bonds as pairs of numbers."""
    names = sorted({name for bond in bonds for name in bond})
    number = {name: i for i, name in enumerate(names, 1)}
    return names, sorted({tuple(sorted((number[a], number[b]))) for a, b in bonds})


def sheet(bonds):
    """The text of a bond sheet."""
    names, pairs = numbered(bonds)
    lines = [(len(names), len(pairs))] + pairs
    return "".join("%4d%4d\n" % line for line in lines)


def main():
    folder = sys.argv[1] if len(sys.argv) > 1 else os.path.dirname(os.path.abspath(__file__))
    for name, bonds in MOLECULES.items():
        with open(os.path.join(folder, name + ".sheet"), "w", newline="\n") as file:
            file.write(sheet(bonds))


if __name__ == "__main__":
    main()
