#!/usr/bin/env python3
"""Writes the table of docs/notes/LEMMAS.md: which lemmas of the crates below the proofs of each crate use, file by file.

Usage: docs/lemmas.py            writes the table
       docs/lemmas.py --check    status 1 where the table isn't the one that would be written

A name that one crate hands on for another counts for the crate that it comes from.
"""

import re
import sys
from collections import defaultdict
from pathlib import Path

DOCS = Path(__file__).resolve().parent
CRATES = DOCS.parent / "crates"
PAGE = DOCS / "notes" / "LEMMAS.md"
HEADER = "| Proofs of | use lemmas of | in |\n|---|---|---|\n"
HANDED_ON = r"(?m)^pub use Rattle\.(\w+)\.proofs(?:\.(\w+))? as (\w+)$"


def handed_on():
    """Returns for each crate and each name that its proofs hand on, of which crate it is, and which name there; None is all."""
    found = {}
    for file in CRATES.glob("*/proofs/Lib.antt"):
        for crate, name, here in re.findall(HANDED_ON, file.read_text(encoding="utf-8")):
            found[file.parts[-3], here] = crate, name or None
    return found


def place(crate, names, handed):
    """Returns the crate and the file of proofs that a way to a lemma leads to."""
    while names and (crate, names[0]) in handed:
        crate, name = handed[crate, names[0]]
        names = [name] * (name is not None) + names[1:]
    return crate, names[0] if names else "Lib"


def uses():
    """Returns for each crate the files of proofs of others that it uses, by their crates."""
    handed, found = handed_on(), defaultdict(lambda: defaultdict(set))
    for file in CRATES.glob("*/*/**/*.*t"):
        here = file.relative_to(CRATES).parts[0]
        if file.suffix not in (".antt", ".rt") or "out" in file.parts:
            continue
        text = re.sub(HANDED_ON, "", file.read_text(encoding="utf-8"))
        for crate, way in re.findall(r"Rattle\.(\w+)\.proofs((?:\.\w+)+)", text):
            crate, name = place(crate, way[1:].split("."), handed)
            if crate != here and (CRATES / crate).is_dir():
                found[here][crate].add(name)
    return found


def table():
    found = uses()
    order = re.findall(r"(?m)^(\w+)", (DOCS.parent / "crates.txt").read_text(encoding="utf-8"))
    rows = [(above, below) for above in order for below in order if found[above].get(below)]
    return HEADER + "".join(f"| `{a}` | `{b}` | {', '.join(f'`{it}`' for it in sorted(found[a][b]))} |\n" for a, b in rows)


def main(words):
    if words not in ([], ["--check"]):
        sys.exit(__doc__)
    text = PAGE.read_text(encoding="utf-8")
    wanted = text[: text.index(HEADER)] + table()
    if not words:
        PAGE.write_text(wanted, encoding="utf-8")
    elif text != wanted:
        sys.exit("docs/lemmas.py: docs/notes/LEMMAS.md has other rows than docs/lemmas.py would write")


main(sys.argv[1:])
