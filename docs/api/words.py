"""The definitions that contracts name: what each says, where it stands, and how a contract links to it."""

import re
from html import escape
from pathlib import Path

import definitions
from api.text import anchor

LONGEST = 300
NAME = definitions.NAME
# A name in a clause, with what stands behind its dots.
WORD = re.compile(rf"{NAME}(?:\.{NAME})*")
PATH = rf"{NAME}(?:\.{NAME})*?"
DECLARED = re.compile(
    rf"^\s*(?:pub |ghost )*use Rattle\.({PATH})\.declared\.({PATH})(?:\.\{{([^}}]*)\}})?(?: as ({NAME}))?;?$", re.M
)


class Words:
    """All definitions of all crates."""

    def __init__(self, library):
        self.library = library
        self.known = definitions.definitions()
        self.lines = {}
        for file in definitions.CRATES.glob("*/specs/*.antt"):
            self._find_lines(file)

    def _find_lines(self, file):
        lines = file.read_text(encoding="utf-8").splitlines()
        for number, line in enumerate(lines):
            found = re.match(rf" *(?:abbrev pub|unfoldable pub|pub record|pub data|pub) ({NAME})", line)
            place = (file.parent.parent.name, file.stem, found[1]) if found else None
            if place in self.known and place not in self.lines:
                self.lines[place] = (number + 1, end_of_definition(lines, number))

    def target(self, it):
        """The definition that a name is handed on for."""
        while it in self.known and self.known[it][0] == definitions.HANDED_ON:
            it = next(iter(self.known[it][1]))
        return it if it in self.known and it[0] in self.library.crates else None

    def says(self, it):
        """What a definition says: the comment above it."""
        return self.known[it][0]

    def says_plainly(self, it):
        said = self.says(it).replace("`", "")
        said = said if len(said) <= LONGEST else f"{said[:LONGEST].rsplit(' ', 1)[0]} …"
        number = self.lines[it][0] if it in self.lines else 1
        return f"{it[2]}: {said or 'no sentence'} ({path_of(it)}:{number})"

    def of_file(self, text, module, own=()):
        """What links a name in a clause of a file: a function from the name to a link, or nothing."""
        uses, types = definitions.Uses(text), declared(text)

        def link(name):
            parts = name.split(".")
            at_one = uses.names.get(parts[0])
            at_two = (*uses.modules[parts[0]], parts[1]) if parts[0] in uses.modules and len(parts) > 1 else None
            for it, shown in ((at_one, parts[0]), (at_two, ".".join(parts[:2]))):
                if it and self.target(it):
                    return self.link(self.target(it), shown) + escape(name[len(shown) :])
            if parts[0] in own:
                return anchor(own[parts[0]], escape(parts[0])) + escape(name[len(parts[0]) :])
            place = self.declared_place(types[parts[0]]) if parts[0] in types else None
            place = place or (self.library.place(module, [parts[0]]) if module and re.match("[A-Z]", name) else None)
            return anchor(place.href, escape(parts[0])) + escape(name[len(parts[0]) :]) if place else None

        return link

    def declared_place(self, path):
        """The page of a type that a `use` brings in by its declaration."""
        crate, parts = path
        crate = self.library.crates.get(crate)
        for count in range(len(parts), 0, -1) if crate else ():
            item = crate.modules.get(tuple(parts[: count - 1]))
            place = self.library.place(item, [parts[count - 1]]) if item else None
            if place:
                return place
        return None

    def link(self, it, shown):
        return anchor(href_of(it), escape(shown), self.says_plainly(it), "word")


def declared(text):
    """The types and variants that a file brings in by their declarations: the crate, and the path in it."""
    found = {}
    for crate, path, names, alias in DECLARED.findall(text):
        way = crate.split(".")
        crate = definitions.PASSED_ON.get(way[2], way[0]) if len(way) > 2 else way[0]
        parts = [it for it in path.split(".") if it != "TheVariants"]
        for it in [alias or parts[-1]] if alias or not names else names.split(","):
            there, _, here = it.strip().partition(" as ")
            found[here or there] = (crate, parts)
    return found


def path_of(it):
    return f"crates/{it[0]}/specs/{it[1]}.antt"


def href_of(it):
    return f"{it[0]}.definitions.html#{it[1]}.{it[2]}"


def end_of_definition(lines, at):
    """The number of the line behind a definition: before the next one and its comment."""
    start = re.compile(r" *(?:abbrev |unfoldable |pub record|pub data|pub mod|pub use|use |--)")
    indent = len(lines[at]) - len(lines[at].lstrip())
    for number in range(at + 1, len(lines)):
        own = len(lines[number]) - len(lines[number].lstrip()) <= indent and lines[number].strip()
        if own and start.match(lines[number]) and not re.match(r" *pub \S+ :", lines[number]):
            return number
    return len(lines)


def clause_html(text, link):
    """A clause, with links at the names of definitions."""
    found, at = [], 0
    for it in WORD.finditer(text):
        shown = link(it[0])
        found += [escape(text[at : it.start()]), shown or escape(it[0])]
        at = it.end()
    return "".join([*found, escape(text[at:])])


def file_text(it):
    return Path(definitions.CRATES, it[0], "specs", f"{it[1]}.antt").read_text(encoding="utf-8")
