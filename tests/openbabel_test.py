#!/usr/bin/env python3
"""molrings on molfiles that another program wrote: those of Open Babel (obabel).

    openbabel_test.py CRATES FOLDER

CRATES is the folder of the crates: molrings and ringlist stand in the out/ of
theirs. FOLDER takes the molfiles. Each SMILES is converted in four ways: with and
without explicit hydrogens, with and without coordinates. What molrings prints for
the molfile must be what ringlist prints for the bond sheet of its lines, or that
it is refused by rule 19 where it has an element that is not in the table; the same
with a carriage return before each line feed. Of an SD file, which has several
molecules, the first counts.

What obabel writes differs from version to version: what is expected is worked
out from the file itself. No molecule here breaks rule 20. Where there is no
obabel the test is skipped.
"""
import os
import shutil
import subprocess
import sys

sys.dont_write_bytecode = True
import molfile_sheet

MOLECULES = {
    "benzene": "c1ccccc1",
    "naphthalene": "c1ccc2ccccc2c1",
    "biphenyl": "c1ccccc1-c1ccccc1",
    "norbornane": "C1CC2CCC1C2",
    "cubane": "C12C3C4C1C5C2C3C45",
    "adamantane": "C1C2CC3CC1CC(C2)C3",
    "caffeine": "Cn1cnc2c1c(=O)n(C)c(=O)n2C",
    "glucose": "OC[C@H]1O[C@@H](O)[C@H](O)[C@@H](O)[C@@H]1O",
    "penam_acid": "CC1(C)S[C@@H]2CC(=O)N2[C@H]1C(=O)O",
    "testosterone": "C[C@]12CC[C@H]3[C@H]([C@@H]1CC[C@@H]2O)CCC4=CC(=O)CC[C@]34C",
    "triphenyl_phosphate": "O=P(Oc1ccccc1)(Oc1ccccc1)Oc1ccccc1",
    "fluorothiophene": "Fc1cccs1",
    "glycine_with_charges": "[NH3+]CC([O-])=O",
    "pyridine_oxide": "[O-][n+]1ccccc1",
    "toluene_with_isotopes": "[13CH3]c1ccc([2H])cc1",
    "benzene_and_water": "c1ccccc1.O",
    "chlorobenzene": "Clc1ccccc1",
    "sodium_benzoate": "[Na+].[O-]C(=O)c1ccccc1",
}
WAYS = [[], ["-h"], ["--gen2D"], ["-h", "--gen2D"]]
TABLE = {b"H", b"C", b"N", b"O", b"F", b"P", b"S"}
REFUSED = b"refused  19\n"


def fail(*words):
    sys.exit("openbabel_test.py: " + " ".join(words))


def converted(smiles, form, way):
    """What obabel writes for lines of SMILES; its exit code and its warnings do not count."""
    made = subprocess.run(["obabel", "-ismi", "-o" + form] + way, input=("\n".join(smiles) + "\n").encode(),
                          stdout=subprocess.PIPE, stderr=subprocess.DEVNULL)
    lines = made.stdout.splitlines()
    if len(lines) < 5 or lines[3][34:39] != b"V2000" or b"M  END" not in lines:
        fail("obabel", "-o" + form, *way, "writes no molfile for", *smiles)
    return made.stdout


def printed(crates, program, text):
    """What a program prints for its input."""
    made = subprocess.run([os.path.join(crates, program, "out", program)], input=text, stdout=subprocess.PIPE)
    if made.returncode != 0:
        fail(program, "ends with code", str(made.returncode))
    return made.stdout


def compare(crates, file, molfile):
    """Holds molrings to the molfile, and returns what it must print. The molfile is kept in a file."""
    with open(file, "wb") as out:
        out.write(molfile)
    known = TABLE.issuperset(molfile_sheet.symbols(molfile))
    expected = printed(crates, "ringlist", molfile_sheet.sheet(molfile)) if known else REFUSED
    if known and expected.startswith(b"refused"):
        fail(file + ": ringlist refuses its sheet")
    for text in (molfile, molfile.replace(b"\n", b"\r\n")):
        if printed(crates, "molrings", text) != expected:
            fail(file + ": molrings prints another text than is expected")
    return expected


def several(crates, folder):
    """SD files of two molecules: the first is listed or refused, whatever the second is. Returns their number."""
    names = ["cubane", "chlorobenzene", "norbornane"]
    for first, second in zip(names, names[1:]):
        both = converted([MOLECULES[first], MOLECULES[second]], "sdf", [])
        alone = converted([MOLECULES[first]], "mol", [])
        if both.count(b"$$$$") != 2:
            fail("obabel writes no SD file of two molecules")
        if compare(crates, os.path.join(folder, first + ".sdf"), both) != printed(crates, "molrings", alone):
            fail(first + ": molrings prints another text for the SD file than for the molfile")
    return len(names) - 1


def main():
    crates, folder = sys.argv[1:]
    if shutil.which("obabel") is None:
        print("openbabel_test.py: skipped, there is no obabel")
        return
    os.makedirs(folder, exist_ok=True)
    count = refused = properties = 0
    for name, smiles in MOLECULES.items():
        for way in WAYS:
            molfile = converted([smiles], "mol", way)
            count += 1
            properties += b"\nM  CHG" in molfile or b"\nM  ISO" in molfile
            refused += compare(crates, os.path.join(folder, name + "".join(way) + ".mol"), molfile) == REFUSED
    print("openbabel_test.py: %d molfiles, %d of them with charges or isotopes, %d refused by rule 19; %d SD files"
          % (count, properties, refused, several(crates, folder)))


if __name__ == "__main__":
    main()
