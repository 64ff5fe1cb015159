#!/usr/bin/env python3
"""Draws docs/crates.svg: the crates of crates.txt, each in the family that docs/CRATES.md gives it.

Usage: docs/crates.py            writes the picture
       docs/crates.py --check    status 1 where the picture isn't the one that would be written

Each crate has a row in the tables of docs/CRATES.md, just one, and names crates of its own family and of families
above it there; how many crates the program depends on stands there too. crates.txt has the same order, so each row
stands below those of the crates that it names. Otherwise it says what is wrong.
"""

import re
import sys
from html import escape
from pathlib import Path

DOCS = Path(__file__).resolve().parent
PAGE = DOCS / "CRATES.md"
PICTURE = DOCS / "crates.svg"
# From the top of the picture to its bottom, with the colour of each family.
FAMILIES = {
    "tests": "#f3f3f3",
    "examples": "#e8e8e8",
    "script": "#ffe9c7",
    "lanes": "#fff6cf",
    "hub": "#ffdfdf",
    "delivery": "#f3e3ff",
    "domain": "#e3ecff",
    "negotiation": "#dff3f7",
    "descriptions": "#e4f6e4",
    "index": "#eef3d8",
    "queues": "#f7ecd8",
    "containers": "#f1e6dc",
}
PROGRAM = "iox"
WIDTH, MARGIN, BOX, GAP = 1180, 110, 46, 8


def crates():
    """Each crate with those of ours that it names."""
    lines = (DOCS.parent / "crates.txt").read_text().splitlines()
    rows = [line.partition(":") for line in lines if line and not line.startswith("#")]
    below = {head.split()[0]: tail.split() for head, _, tail in rows}
    return {name: [it for it in named if it in below] for name, named in below.items()}


def families(below):
    """The family of each crate, by the tables of CRATES.md."""
    found, family = {}, None
    for line in PAGE.read_text().splitlines():
        if line.startswith("## "):
            family = line[3:].lower()
            if family.startswith("first calls"):
                break
        row = re.match(r"\| `((?:iox|example|lanes|script)\w*)` \|", line)
        if not row:
            continue
        name = row[1]
        if name in found or name not in below or family not in FAMILIES:
            sys.exit(f"docs/CRATES.md: {name} is there twice, not in crates.txt, or in no family")
        found[name] = family
    missing = sorted(set(below) - set(found))
    if missing:
        sys.exit(f"docs/CRATES.md lacks {', '.join(missing)}")
    if [*found] != [*below]:
        sys.exit("docs/CRATES.md: the order of its rows isn't that of crates.txt")
    order, lines = [*FAMILIES], [*below]
    for name, named in below.items():
        if any(lines.index(it) > lines.index(name) for it in named):
            sys.exit(f"crates.txt: {name} names a crate whose line stands below its own")
        for it in named:
            if order.index(found[name]) > order.index(found[it]):
                sys.exit(f"docs/CRATES.md: {name} names {it} of a family below its own")
    return found


def reached(below, name):
    """The crate and all of ours that it depends on."""
    return {name}.union(*(reached(below, it) for it in below[name]))


def nearest(below, name):
    """Those that the crate names and that no other one it names depends on."""
    named = below[name]
    return [it for it in named if not any(it in reached(below, other) for other in named if other != it)]


def short(name):
    return re.sub("^iox_", "", name)


def box(x, y, name, named, is_used):
    """A crate: its name, and below it the nearest ones that it depends on."""
    width = max(110, 8 * len(name) + 16)
    stands_on = ", ".join(short(it) for it in named)
    if 5.6 * len(stands_on) > width - 6:
        stands_on = f"{len(named)} of ours"
    lines = [
        f'<rect x="{x}" y="{y}" width="{width}" height="{BOX}" rx="4" fill="white" '
        f'stroke="{"#b03030" if is_used else "#777"}" stroke-width="{2 if is_used else 1}"/>',
        f'<text x="{x + width / 2:g}" y="{y + 19}" class="name">{escape(name)}</text>',
        f'<text x="{x + width / 2:g}" y="{y + 36}" class="below">{escape(stands_on)}</text>',
    ]
    return width, lines


def band(y, name, colour, of_it, below, used):
    """A family with its crates, in as many rows as they need; its height and lines."""
    x, top, lines = MARGIN + GAP, y + GAP, []
    for crate in of_it:
        width, drawn = box(x, top, crate, nearest(below, crate), crate in used)
        if x + width > WIDTH - GAP:
            x, top = MARGIN + GAP, top + BOX + GAP
            width, drawn = box(x, top, crate, nearest(below, crate), crate in used)
        lines += drawn
        x += width + GAP
    height = top + BOX + GAP - y
    ground = f'<rect x="0" y="{y}" width="{WIDTH}" height="{height}" fill="{colour}" stroke="#999"/>'
    label = f'<text x="14" y="{y + height / 2 + 5:g}" class="family">{name}</text>'
    return height, [ground, label, *lines]


def picture():
    below = crates()
    family, used = families(below), reached(below, PROGRAM)
    if f"depends on {len(used) - 1} crates" not in PAGE.read_text():
        sys.exit(f"docs/CRATES.md: the program depends on {len(used) - 1} crates")
    y, body = 0, []
    for name, colour in FAMILIES.items():
        height, lines = band(y, name, colour, [it for it in below if family[it] == name], below, used)
        y, body = y + height, body + lines
    note = f"Red: what the program `{PROGRAM}` depends on. Small: the nearest crates of ours that a crate depends on."
    body.append(f'<text x="14" y="{y + 20}" class="note">{escape(note)}</text>')
    style = (
        "text{font-family:sans-serif;fill:#222}.name{font-size:13px;text-anchor:middle;font-weight:bold}"
        ".below{font-size:10px;text-anchor:middle}.family{font-size:15px}.note{font-size:12px}"
    )
    head = f'<svg xmlns="http://www.w3.org/2000/svg" width="{WIDTH}" height="{y + 32}" viewBox="0 0 {WIDTH} {y + 32}">'
    return "\n".join([head, f"<style>{style}</style>", *body, "</svg>", ""])


def main(words):
    drawn = picture()
    if words == ["--check"]:
        if not PICTURE.is_file() or PICTURE.read_text() != drawn:
            sys.exit("docs/crates.svg isn't the picture of crates.txt: run docs/crates.py")
        return
    if words:
        sys.exit(__doc__)
    PICTURE.write_text(drawn)


if __name__ == "__main__":
    main(sys.argv[1:])
