#!/usr/bin/env python3
"""Writes the lists of docs/DIFFERENCES.md: each name of iceoryx2 in docs/differences.txt with its name here, or "left out".

Usage: docs/differences.py            writes the lists
       docs/differences.py --check    status 1 where the lists aren't those that would be written

Each name here must be that of a public item of crates/, or of a public member of one, as docs/api/ reads them. A member that is left out
must not be there, and each variant of an enum that is here must stand in the table. Otherwise it says what is wrong.
"""

import re
import sys
from dataclasses import dataclass, field
from pathlib import Path

sys.dont_write_bytecode = True

from api import reading
from api.library import Library

DOCS = Path(__file__).resolve().parent
TABLE = DOCS / "differences.txt"
PAGE = DOCS / "DIFFERENCES.md"
MARKS = "<!-- from differences.txt, by differences.py -->\n", "<!-- up to here -->\n"
# Its modules are those of iceoryx2.
FIRST = "iox_hub"


@dataclass
class Line:
    number: int
    names: list
    # Names here; none where it is left out.
    here: list
    note: str
    # Whether its names are the same here, and whether only here.
    is_same: bool = False
    is_own: bool = False
    # The items that the names stand for, by their crates.
    crates: list = field(default_factory=list)


@dataclass
class Entry:
    line: Line
    members: list


class Fault(Exception):
    """What a line of the table says wrongly."""


def fail(line, text):
    raise Fault(f"docs/differences.txt: line {line.number}: {text}")


def read_table(table):
    """The sections of a table by their headings, each with its entries."""
    found = {}
    for number, text in enumerate(table.splitlines(), 1):
        if text.startswith("## "):
            entries = found[text[3:]] = []
        elif text.strip() and not text.startswith("#"):
            names, here, note = [it.strip() for it in f"{text}|".split("|")][:3]
            line = Line(number, names.removeprefix("+ ").split(", "), here.split(", "), note, here == "=", names.startswith("+ "))
            if here in ("-", "="):
                line.here = line.names[:] if line.is_same else []
            if text.startswith(" "):
                entries[-1].members.append(line)
            else:
                entries.append(Entry(line, []))
    return found


def members_of(place):
    """The names of all public members of an item, and of the type that an alias stands for."""
    found = {it.name for _, impl in place.impls if not impl.trait for it in impl.members if it.is_public}
    found |= members_of(place.stands_for) if place.stands_for else set()
    if place.item.kind == "trait":
        found |= {it.name for it in place.item.members if it.kind in ("fn", "const")}
    if place.item.kind in ("enum", "struct"):
        found |= {it.name for it in reading.read_entries(place.item.inside) if place.item.kind == "enum" or it.is_public}
    return found


def variants_of(place):
    return {it.name for it in reading.read_entries(place.item.inside)} if place.item.kind == "enum" else set()


class Names:
    """What a name with some of its modules stands for."""

    def __init__(self):
        self.library = Library()
        self.places = {}
        for crate in self.library.crates.values():
            for it in crate.places:
                self.places.setdefault(it.name, []).append(it)

    def item(self, line, name):
        parts = name.split("::")
        place = self.library.place(self.library.crates[FIRST].root, parts)
        for module in self.library.crates[FIRST].modules.values() if place is None and len(parts) == 1 else ():
            place = place or (self.library.place(module, parts) if module.is_public else None)
        if place:
            return place
        if parts[0] in self.library.crates and (place := self.library.place(self.library.crates[parts[0]].root, parts[1:])):
            return place
        ends = lambda it: [it.crate, *it.module.path, it.name][-len(parts) :] == parts
        found = [it for it in self.places.get(parts[-1], []) if ends(it)]
        if len(found) > 1:
            fail(line, f"{name} may be that of {' or '.join(sorted(it.crate for it in found))}")
        return found[0] if found else None

    def find(self, line, name):
        """The item of a name, or the one that has it as a member, and whether it is the item itself; or a failure."""
        place = self.item(line, name)
        if place:
            return place, True
        owner, _, member = name.rpartition("::")
        place = self.item(line, owner) if owner else None
        if place is None or member not in members_of(place):
            fail(line, f"there is no public {name}")
        return place, False


def compare(names, entry):
    """Holds an entry against the sources."""
    line = entry.line
    found = [names.find(line, it) for it in line.here]
    line.crates = [it.crate for it, _ in found]
    places = [it for it, is_item in found if is_item]
    for it in entry.members:
        if it.is_same:
            for name in it.here:
                for place in places:
                    if name not in members_of(place):
                        fail(it, f"{place.name} has no public {name}")
        elif it.here:
            it.crates = [names.find(it, name)[0].crate for name in it.here]
        for name in it.names if not it.here else ():
            if any(name in members_of(place) for place in places):
                fail(it, f"{name} is there")
    named = {name.rpartition("::")[2] for it in entry.members for name in (*it.names, *it.here)}
    for place in places:
        if missing := sorted(variants_of(place) - named) if not line.is_own else ():
            fail(line, f"{place.name} has {', '.join(missing)} too")


def code(names):
    return ", ".join(f"`{it}`" if re.fullmatch(r"[\w:!]+", it) else it for it in names)


def here_of(line):
    if not line.here:
        return "left out"
    crates = f" ({code(dict.fromkeys(line.crates))})" if line.crates else ""
    shown = [it.partition("::")[2] if it.partition("::")[0] in line.crates else it for it in line.here]
    return "the same" + crates if line.is_same and not line.is_own else code(shown) + crates


def joined(members):
    """The members, where those of one kind with one note that follow each other are one line."""
    found = []
    for it in members:
        before = found[-1] if found else None
        if before and it.is_same and (before.is_same, before.is_own, before.note) == (True, it.is_own, it.note):
            before.names = before.names + it.names
        else:
            found.append(it)
    return found


def row_of_member(entry, it):
    owner = entry.line.names[0]
    if it.is_own:
        own = entry.line.here[0].rpartition("::")[2]
        here = code([f"{own}::{name}" for name in it.names]) if it.is_same else here_of(it)
        return "none", here, it.note
    return f"{code([owner])}: {code(it.names)}", here_of(it), it.note


def rows(entry):
    """The rows of an entry: members that are the same or left out like their item stand beside it."""
    line = entry.line
    beside = [it for it in entry.members if not it.note and not it.is_own and (it.is_same or not line.here and not it.here)]
    head = "none" if line.is_own else code(line.names)
    head += (f" with {code([name for it in beside for name in it.names])}" if beside else "")
    same = "; these are the same" if beside and line.here and not line.is_same else ""
    alone = joined([it for it in entry.members if it not in beside])
    return [(head, here_of(line) + same, line.note), *(row_of_member(entry, it) for it in alone)]


def lists(names, table):
    """The lists that a table makes, and what it says wrongly."""
    parts, faults = [], []
    for heading, entries in read_table(table).items():
        parts += [f"### {heading}\n", "| iceoryx2 | Kohepuri | note |", "|---|---|---|"]
        for entry in entries:
            try:
                compare(names, entry)
            except Fault as fault:
                faults.append(str(fault))
            parts += [f"| {' | '.join(cells)} |".replace("|  |", "| |") for cells in rows(entry)]
        parts.append("")
    return "\n".join(parts), faults


def main(words):
    if words not in ([], ["--check"]):
        sys.exit(__doc__)
    page = PAGE.read_text(encoding="utf-8")
    before, _, rest = page.partition(MARKS[0])
    _, mark, behind = rest.partition(MARKS[1])
    if not mark:
        sys.exit("docs/DIFFERENCES.md lacks the marks between which the lists stand")
    made, faults = lists(Names(), TABLE.read_text(encoding="utf-8"))
    if faults:
        sys.exit("\n".join(faults))
    written = f"{before}{MARKS[0]}\n{made}\n{mark}{behind}"
    if not words:
        PAGE.write_text(written, encoding="utf-8")
    elif written != page:
        sys.exit("docs/DIFFERENCES.md has other lists than docs/differences.txt: run docs/differences.py")


if __name__ == "__main__":
    main(sys.argv[1:])
