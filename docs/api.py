#!/usr/bin/env python3
"""Writes the API pages: HTML made from the doc comments of all public items, with the contract below each.

Usage: docs/api.py [FOLDER]    writes the pages into a folder, `out/api` where none is named; `index.html` is the first
       docs/api.py --lacking   lists the public functions of ports, builders and hubs without an example, and counts them;
                               status 1 where an example calls what isn't there

It reads crates.txt, the sources and definitions of crates/, and docs/CRATES.md. The pages need no
network, and can be copied anywhere. A folder that has other files is left alone.
"""

import json
import shutil
import sys
from pathlib import Path

sys.dont_write_bytecode = True

from api.contracts import contracts_page
from api.examples import faults, lacking
from api.library import TOP, Library
from api.pages import CratePage, definitions_page, index_page
from api.words import Words

PARTS = Path(__file__).resolve().parent / "api"
# Copied first, so a folder with it has pages from here, and may be written anew.
MARK = "search.js"


def print_lacking():
    library = Library()
    count, found = lacking(library)
    for crate, name in found:
        print(f"{crate}: {name}")
    print(f"{len(found)} of {count} public functions have no example")
    wrong = [f"{crate}: {name}: {fault}" for crate, name, fault in faults(library)]
    if wrong:
        sys.exit("\n".join(wrong))


def write_names(folder, names):
    """What the search reads: by page each name with its kind and its place, where that isn't the name itself."""
    rows = [[page, [[name, kind] if name == at else [name, kind, at] for name, kind, at in of_page]] for page, of_page in names]
    (folder / "names.js").write_text(f"const NAMES={json.dumps(rows, ensure_ascii=False, separators=(',', ':'))};\n", encoding="utf-8")


def write_first(folder, library):
    """What the search puts first: by page the places of the items that programs name."""
    places = {}
    for it in library.places_of_users():
        places.setdefault(f"{it.crate}.html", set()).add(it.anchor)
    rows = {page: sorted(of_page) for page, of_page in places.items()}
    (folder / "first.js").write_text(f"const FIRST={json.dumps(rows, separators=(',', ':'))};\n", encoding="utf-8")


def write_pages(folder):
    for name in (MARK, "style.css"):
        shutil.copyfile(PARTS / name, folder / name)
    library = Library()
    words, names, counts = Words(library), [], {}
    for crate in library.crates.values():
        made = CratePage(library, words, crate)
        html = made.html()
        counts[crate.name] = html.count(" data-item=")
        names.append((f"{crate.name}.html", [(crate.name, "crate", "page-content"), *made.names]))
        (folder / f"{crate.name}.html").write_text(html, encoding="utf-8")
        html, of_words = definitions_page(words, crate)
        if of_words:
            names.append((f"{crate.name}.definitions.html", of_words))
            (folder / f"{crate.name}.definitions.html").write_text(html, encoding="utf-8")
    html, of_contracts = contracts_page(words)
    names.append(("contracts.html", [("Definitions that contracts name", "mod", "page-content")]))
    (folder / "contracts.html").write_text(html, encoding="utf-8")
    write_names(folder, names)
    write_first(folder, library)
    (folder / "index.html").write_text(index_page(library, counts), encoding="utf-8")
    of_names = sum(len(of_it) for _, of_it in names)
    print(f"{folder / 'index.html'}: {len(counts)} crates, {sum(counts.values())} items, {of_names} names, {of_contracts} definitions")


def main(words):
    if words == ["--lacking"]:
        return print_lacking()
    if len(words) > 1 or words and words[0].startswith("-"):
        sys.exit(__doc__)
    folder = Path(words[0]) if words else TOP / "out" / "api"
    if folder.exists() and (not folder.is_dir() or any(folder.iterdir()) and not (folder / MARK).exists()):
        sys.exit(f"docs/api.py: {folder} has other files")
    folder.mkdir(parents=True, exist_ok=True)
    for old in folder.glob("*.html"):
        old.unlink()
    write_pages(folder)


if __name__ == "__main__":
    main(sys.argv[1:])
