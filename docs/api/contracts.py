"""The page of all definitions that public contracts reach, beside those that docs/DEFINITIONS.md counts: a sentence each, by crate."""

from html import escape

import definitions
from api import text
from api.pages import page
from api.text import anchor
from api.words import path_of

TITLE = "Definitions that contracts name"
INTRO = (
    f"<h1>{TITLE}</h1><p>All definitions that public contracts reach, beside those of the headline, which are in docs/DEFINITIONS.md."
    " Each has the sentence of the comment above it.</p>"
)
HEAD = "<thead><tr><th>Definition</th><th>In plain words</th><th>File</th></tr></thead>"


def shown_plainly(said):
    return text.inline(said, lambda name: None)


def row(words, it):
    name = words.link(it, it[2]) if words.target(it) else f"<code>{escape(it[2])}</code>"
    return f"<tr><td>{name}</td><td>{shown_plainly(words.says(it))}</td><td>{escape(path_of(it))}</td></tr>"


def section(words, crate, of_crate):
    """The definitions of a crate, behind its name."""
    title = anchor(f"{crate}.html", escape(crate)) if crate in words.library.crates else escape(crate)
    rows = "".join(row(words, it) for it in of_crate)
    table = f'<div class="wide"><table>{HEAD}<tbody>{rows}</tbody></table></div>'
    return f'<section id="{crate}"><h2>{title}</h2>{table}</section>'


def contracts_page(words):
    """The page, and how many definitions it has."""
    wanted = definitions.reached(words.known) - definitions.counted(words.known)[0]
    wanted = [it for it in words.known if it in wanted and words.known[it][0] != definitions.HANDED_ON]
    by_crate = {crate: [it for it in wanted if it[0] == crate] for crate in definitions.crates_in_order()}
    sections = [section(words, crate, its) for crate, its in by_crate.items() if its]
    return page(TITLE, INTRO + "\n".join(sections)), sum(map(len, by_crate.values()))
