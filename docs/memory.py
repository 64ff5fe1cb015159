#!/usr/bin/env python3
"""Compares docs/notes/MEMORY.md with the places where libraries make an out of memory that no callee has answered.

Usage: docs/memory.py          says which places the page lacks, and which of its rows are no place any longer; status 1 where there is one
       docs/memory.py --rows   writes the page's table anew: rows stay where their place does, and a new place has a row without a reason

A place is an `AllocError`, an `OutOfMemory` or the like, made under a condition of the code's own: `if`, an arm, `let .. else`, `ok_or`. It
has its conditions from the outermost in, what the names in them are, and the constants with their values. `NAME() is SUM` stands for the
body of a function that the condition calls. An arm that takes an out of memory, as `Err(AllocError) =>`, only hands it on, and is no place.
A request for memory is a place, too, where it is made under a condition, or its amount is computed by more than sums.
"""

import sys
from pathlib import Path

sys.dont_write_bytecode = True

from memory.page import all_places, differences, written

PAGE = Path(__file__).resolve().parent / "notes" / "MEMORY.md"
WHAT_TO_DO = """
An out of memory comes from an allocator: hand on what it answers. Where the code decides it, a row of docs/notes/MEMORY.md says why:
`docs/memory.py --rows` writes the rows anew, and those of new and changed places have an empty last column."""


def main(words):
    if words not in ([], ["--rows"]):
        sys.exit(__doc__)
    page = PAGE.read_text(encoding="utf-8")
    if words:
        PAGE.write_text(written(page, all_places()), encoding="utf-8")
    elif lines := differences(page, all_places()):
        sys.exit("\n".join(lines) + WHAT_TO_DO)


main(sys.argv[1:])
