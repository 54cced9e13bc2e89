#!/usr/bin/env python3
"""Holds the C headers to the functions that the Rattle code exports.

    prototypes.py FOLDER

Of each header and crate: the header declares exactly the functions marked
#[unsafe(no_mangle)] pub extern "C" in the crate's sources, with parameters of the
same names in the same order; and a C file that declares each function again as the
code has it, and takes its address, compiles with the header, as C and as C++.
So a parameter or result of another type is an error of the compiler. A slice is
two parameters in C, its pointer NAME and its length NAME_len; a number that is
lent is its pointer NAME alone.

Last it shows that it finds faults: the headers with a wrong word each must fail.
FOLDER takes the C files.
"""
import glob
import os
import re
import subprocess
import sys

PAIRS = [("include/ringlist.h", "crates/host"), ("include/flat.h", "crates/flat")]
TYPES = {"u8": "uint8_t", "u16": "uint16_t", "u32": "uint32_t", "u64": "uint64_t", "usize": "size_t",
         "i8": "int8_t", "i16": "int16_t", "i32": "int32_t", "i64": "int64_t", "isize": "ptrdiff_t"}
EXPORTED = re.compile(r'#\[unsafe\(no_mangle\)\]\s*pub extern "C" fn (\w+)\((.*?)\)(?:\s*->\s*([^\s{]+))?', re.S)
DECLARED = re.compile(r"([\w\s*]+?)\s*\b(\w+)\s*\(([^()]*)\)\s*$")
COMPILERS = [["cc", "-std=c11", "-x", "c"], ["c++", "-std=c++11", "-x", "c++"]]

# Wrong headers: the text that is replaced (once), and by what.
WRONG = [
    ("include/ringlist.h", "uint8_t *rings, size_t", "const uint8_t *rings, size_t"),      # a const too many
    ("include/ringlist.h", "(const uint8_t *sheet,", "(uint8_t *sheet,"),                   # a const missing
    ("include/ringlist.h", "const uint8_t *mark, size_t mark_len,\n                         uint64_t budget,",
     "uint64_t budget,\n                         const uint8_t *mark, size_t mark_len,"),  # exchanged
    ("include/ringlist.h", "const uint8_t *sheet, size_t sheet_len,\n                         "
     "const uint8_t *mark, size_t mark_len", "const uint8_t *mark, size_t mark_len,\n"
     "                         const uint8_t *sheet, size_t sheet_len"),                    # of the same types
    ("include/ringlist.h", "uint64_t ringlist_listed(const uint8_t *mark, size_t mark_len);", ""),  # missing
    ("include/ringlist.h", "#ifdef __cplusplus\n}", "void ringlist_more(void);\n#ifdef __cplusplus\n}"),
    ("include/ringlist.h", "size_t sheet_len", "uint32_t sheet_len"),
    ("include/ringlist.h", "size_t ringlist_mark_length", "uint32_t ringlist_mark_length"),
    ("include/ringlist.h", "uint64_t budget", "int64_t budget"),
    ("include/ringlist.h", "uint64_t s, uint64_t t", "uint64_t t, uint64_t s"),             # of the same types
    ("include/ringlist.h", "uint64_t t, uint64_t *count", "uint64_t t, uint32_t *count"),
    ("include/ringlist.h", "uint64_t t, uint64_t *count", "uint64_t t, const uint64_t *count"),
    ("include/ringlist.h", "uint64_t t, uint64_t *count", "uint64_t t, uint64_t *count, size_t count_len"),
    ("include/ringlist.h", "uint8_t *mark, size_t mark_len, size_t *length", "uint8_t *mark, size_t mark_len, uint64_t length"),
    ("include/ringlist.h", "uint8_t *old_mark, size_t old_mark_len,\n                             size_t *length",
     "const uint8_t *old_mark, size_t old_mark_len,\n                             size_t *length"),
    ("include/ringlist.h", "(const uint8_t *molfile,", "(uint8_t *molfile,"),
    ("include/ringlist.h", "uint8_t *sheet, size_t sheet_len, size_t *length", "uint8_t *sheet, size_t *length"),
    ("include/ringlist.h", 'extern "C" {', 'extern "C++" {'),
    ("include/flat.h", "const uint64_t *numbers", "uint64_t *numbers"),
    ("include/flat.h", "uint64_t flat_read_field", "uint32_t flat_read_field"),
    ("include/flat.h", "uint64_t *count", "uint64_t count"),
    ("include/flat.h", "const uint8_t *molfile, size_t molfile_len", "const uint8_t *molfile, uint32_t molfile_len"),
]


class Fault(Exception):
    pass


def in_c(name, of):
    """The C parameters of a Rattle parameter: pairs of type and name."""
    slice_of = re.fullmatch(r"&(mut )?\[(\w+)\]", of)
    if slice_of:
        const = "" if slice_of.group(1) else "const "
        return [(const + TYPES[slice_of.group(2)] + " *", name), ("size_t ", name + "_len")]
    number = re.fullmatch(r"&(mut )?(\w+)", of)
    if number and number.group(2) in TYPES:
        return [(("" if number.group(1) else "const ") + TYPES[number.group(2)] + " *", name)]
    if of not in TYPES:
        raise Fault("%s: %s has no type in C" % (name, of))
    return [(TYPES[of] + " ", name)]


def exported(crate):
    """By name, the result and the parameters of each function that a crate exports."""
    found = {}
    for source in sorted(glob.glob(crate + "/src/**/*.rt", recursive=True)):
        with open(source, encoding="utf-8") as file:
            text = re.sub(r"//[^\n]*", "", file.read())
        functions = EXPORTED.findall(text)
        if not len(functions) == text.count("no_mangle") == text.count('extern "C"'):
            raise Fault(source + ': #[unsafe(no_mangle)] pub extern "C" fn is not written in that order')
        for name, parameters, result in functions:
            pairs = [re.split(r"\s*:\s*", word.strip(), maxsplit=1)
                     for word in parameters.split(",") if word.strip()]
            found[name] = (TYPES[result] if result else "void",
                           [c for pair in pairs for c in in_c(*pair)])
    return found


def declared(header):
    """By name, the names of the parameters of each function that a header declares."""
    text = re.sub(r"/\*.*?\*/|//[^\n]*|^#[^\n]*|extern \"[^\"]*\" \{", " ", header, flags=re.S | re.M)
    found = {}
    for statement in text.split(";")[:-1]:
        match = DECLARED.match(statement.strip())
        if not match:
            raise Fault("not the declaration of a function: " + statement.strip())
        parameters = match.group(3).strip()
        found[match.group(2)] = ([] if parameters in ("", "void") else
                                 [re.search(r"(\w*)\s*$", word).group(1) for word in parameters.split(",")])
    return found


def check(header, crate, folder):
    """Raises a Fault where the text of a header and a crate differ."""
    code, names = exported(crate), declared(header)
    if set(code) != set(names) or not code:
        raise Fault("not in header and code: " + ", ".join(sorted(set(code) ^ set(names))))
    lines = ['#include "header.h"', "#ifdef __cplusplus", 'extern "C" {', "#endif"]
    for name, (result, parameters) in code.items():
        if [parameter for _, parameter in parameters] != names[name]:
            raise Fault("%s: the header's parameters are %s" % (name, ", ".join(names[name])))
        words = ", ".join(of + parameter for of, parameter in parameters) or "void"
        lines += ["extern %s (*const at_%s)(%s);" % (result, name, words),
                  "%s (*const at_%s)(%s) = %s;" % (result, name, words, name),
                  "%s %s(%s);" % (result, name, words)]
    lines += ["#ifdef __cplusplus", "}", "#endif", ""]
    for file, text in [("header.h", header), ("again.c", "\n".join(lines))]:
        with open(os.path.join(folder, file), "w", encoding="utf-8") as out:
            out.write(text)
    for compiler in COMPILERS:
        made = subprocess.run(compiler + ["-Wall", "-Wextra", "-Werror", "-fsyntax-only", "-I", folder,
                                          os.path.join(folder, "again.c")],
                              stdout=subprocess.PIPE, stderr=subprocess.STDOUT)
        if made.returncode != 0:
            raise Fault("%s:\n%s" % (" ".join(compiler), made.stdout.decode(errors="replace")))
    return len(code)


def main():
    os.makedirs(sys.argv[1], exist_ok=True)
    texts = {}
    for header, crate in PAIRS:
        with open(header, encoding="utf-8") as file:
            texts[header] = file.read()
        try:
            print("%s: %d functions, as in %s" % (header, check(texts[header], crate, sys.argv[1]), crate))
        except Fault as fault:
            sys.exit("prototypes.py: %s and %s: %s" % (header, crate, fault))
    for header, old, new in WRONG:
        if texts[header].count(old) < 1:
            sys.exit("prototypes.py: %s has no %r to replace" % (header, old))
        try:
            check(texts[header].replace(old, new, 1), dict(PAIRS)[header], sys.argv[1])
        except Fault:
            continue
        sys.exit("prototypes.py: not found: %r for %r in %s" % (new, old, header))
    print("prototypes.py: each of %d wrong headers was found" % len(WRONG))


if __name__ == "__main__":
    main()
