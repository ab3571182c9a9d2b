#!/usr/bin/env python3
"""Brings the names of definitions and lemmas to snake case, in every crate: usage: tools/respell.py, once, at the top of the repository, behind the toolchain's port.py.

A name that begins in lower case (each part of it between dashes by itself) loses its inner capitals: rowOfName is row_of_name. Lemmas whose name would then be that of a
definition get `_lem` first. Types, modules, functions of src/, strings and data keep their names; of src/ only clauses, ghost lines and comments are read.
"""

import glob
import re
import sys

TOKEN = re.compile(r"[\w'·₀-₉-]+")
# Lemmas (and local facts) whose names would fall together with a definition's new name.
LEMMAS = ["by_answer", "found_in", "no_place", "not_root", "parts_from", "row_count", "rows_few", "text_in", "distinct_from", "take_out", "tables_after"]
LEMMA = re.compile(r"(?<![\w'·.₀-₉-])(" + "|".join(LEMMAS) + r")(?![\w'·₀-₉-])")


def part(p):
    if not p or not (p[0].islower() or p[0] == "_"):
        return p
    p = re.sub(r"([a-z0-9₀-₉'])([A-Z])", r"\1_\2", p)
    p = re.sub(r"([A-Z])([A-Z][a-z])", r"\1_\2", p)
    return p.lower()


def turn(t):
    return TOKEN.sub(lambda m: "-".join(part(p) for p in m[0].split("-")), t)


def outside_strings(t):
    """What stands between double quotes stays."""
    return "".join(s if i % 2 else turn(s) for i, s in enumerate(re.split(r'(b?"(?:\\.|[^"\\\n])*")', t)))


def main():
    n = 0
    for p in sorted(glob.glob("crates/*/specs/**/*.antt", recursive=True) + glob.glob("crates/*/proofs/**/*.antt", recursive=True) + glob.glob("crates/*/src/**/*.rt", recursive=True) + glob.glob("crates/*/must-fail/*.edit")):
        with open(p, encoding="utf-8") as f:
            old = f.read()
        new = old
        if p.endswith(".antt"):
            new = LEMMA.sub(r"\1_lem", new)
        new = outside_strings(new)
        if new != old:
            n += 1
            with open(p, "w", encoding="utf-8") as f:
                f.write(new)
    print(f"respell: {n} files")
    return 0


if __name__ == "__main__":
    sys.exit(main())
