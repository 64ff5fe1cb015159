"""Which laws of a crate may refuse a changed definition: those whose statement reaches it, the likeliest first."""
from __future__ import annotations

import re
from collections.abc import Iterator
from dataclasses import dataclass
from functools import cache
from pathlib import Path

from planted.trying.edits import Edit
from planted.trying.functions import module_of

# How many laws are asked about before the whole crate is.
MOST_NEAR = 10
HEAD = re.compile(r"\s*(?:pub )?(?:abbrev |record |data )?(?:pub )?(?:abbrev |record |data )?([\w'-]+)(?: [({].*)? : ")
LAW = re.compile(r"(?ms)^((?: *//[^\n]*\n)*) *(?:pub(?:\([^)]*\))? )?(?:final )?fn (\w+)(.*?)\{\}?$")
WORD = re.compile(r"[A-Za-z_][\w']*")
SHORT = frozenset(
    "a an and as at be by for from has in is it its no not of on or that the their there they to was what where which who with".split()
)


@dataclass(frozen=True)
class Law:
    """A function whose contract states something, by the name that the prover gives it, and the words of its name and of its comment."""

    name: str
    cites: frozenset[str]
    words: frozenset[str]


def texts_of(file: Path) -> Iterator[tuple[str, str]]:
    """The definitions of a file, each with the lines from its head to the next one's."""
    name = ""
    lines: list[str] = []
    for line in file.read_text(encoding="utf-8").splitlines():
        found = HEAD.match(line)
        if found and not line.startswith("use ") and found[1] != name:
            yield name, "\n".join(lines)
            name, lines = found[1], []
        if not line.lstrip().startswith("--") and not line.startswith("use "):
            lines.append(line)
    yield name, "\n".join(lines)


@cache
def definitions(crate: Path) -> dict[str, frozenset[str]]:
    """What each definition of a crate names of the others; those of one name in several files count as one."""
    texts: dict[str, str] = {}
    for file in sorted((crate / "specs").rglob("*.antt")):
        for name, text in texts_of(file):
            texts[name] = f"{texts.get(name, '')}\n{text}"
    return {name: frozenset((texts.keys() - {name}) & set(WORD.findall(text))) for name, text in texts.items() if name}


@cache
def laws(crate: Path, names: tuple[str, ...]) -> tuple[Law, ...]:
    """The functions of a crate, of these names, whose contracts cite definitions of it."""
    found: list[Law] = []
    for file in sorted((crate / "src").rglob("*.rt")):
        module = "::".join(part for part in (crate.name, module_of(str(file.relative_to(crate)))) if part)
        for comment, name, contract in LAW.findall(file.read_text(encoding="utf-8")):
            cites = frozenset(definitions(crate).keys() & set(WORD.findall(contract)))
            words = words_of(f"{name.replace('_', ' ')} {comment}")
            paths = [it for it in names if it.startswith(f"{module}::") and it.endswith(f"::{name}")] if cites else []
            found += [Law(it, cites, words) for it in paths]
    return tuple(dict.fromkeys(found))


def words_of(text: str) -> frozenset[str]:
    """The words of a text that say something, without their endings."""
    return frozenset(re.sub(r"(?:ing|ed|es|s|e)$", "", it) for it in re.findall(r"[a-z]+", text.lower()) if it not in SHORT)


def ways_up(wanted: frozenset[str], crate: Path) -> dict[str, int]:
    """Over how many others each definition that rests on one of these reaches it."""
    names = definitions(crate)
    ways, front = dict.fromkeys(wanted, 0), set(wanted)
    while front:
        front = {name for name, cites in names.items() if cites & front and name not in ways}
        ways |= dict.fromkeys(front, max(ways.values()) + 1)
    return ways


def changed_in(edit: Edit, crate: Path) -> frozenset[str]:
    """The definitions that an edit changes."""
    found: set[str] = set()
    for change in edit.changes:
        if change.file.startswith("specs/"):
            found |= {name for name, text in texts_of(crate / change.file) if change.old.strip() in text}
    return frozenset(found)


def laws_near(edit: Edit, crate: Path, names: list[str]) -> tuple[str, ...]:
    """The functions that are likeliest to refuse an edit of definitions: those that it names, or else those that speak of the same, and
    among these the nearest."""
    if edit.laws:
        return tuple(name for name in names if name.rpartition("::")[2] in edit.laws)
    ways, words = ways_up(changed_in(edit, crate), crate), words_of(edit.name.replace("-", " "))
    reaching = [(law, min(ways[it] for it in law.cites & ways.keys())) for law in laws(crate, tuple(names)) if law.cites & ways.keys()]
    reaching.sort(key=lambda it: (-len(words & it[0].words), it[1], it[0].name))
    return tuple(dict.fromkeys(law.name for law, _ in reaching))[:MOST_NEAR]
