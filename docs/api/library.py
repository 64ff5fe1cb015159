"""All crates that the pages are of: their families, their modules, where each public item has its place, and what a name stands for."""

import re
from dataclasses import dataclass, field
from pathlib import Path

from api import reading

DOCS = Path(__file__).resolve().parent.parent
TOP = DOCS.parent
# Families of docs/CRATES.md whose crates have no page.
LEFT_OUT = {"Tests", "Examples"}
ITEMS = ("struct", "enum", "trait", "fn", "const", "type")


@dataclass
class Module:
    crate: str
    # Names from the root on; the root has none.
    path: tuple
    is_public: bool
    doc: str
    text: str
    file: str
    items: list
    # What a name stands for here, by `use`; and of these what is handed on.
    uses: dict = field(default_factory=dict)
    handed_on: dict = field(default_factory=dict)

    @property
    def name(self):
        return "::".join(self.path) or self.crate

    def item(self, name):
        return next((it for it in self.items if it.name == name and it.kind in ITEMS), None)


@dataclass
class Place:
    """A public item where the pages show it."""

    crate: str
    module: Module
    # Where it is written.
    written: Module
    item: reading.Item
    name: str
    # Its implementations, each with the module that it is written in.
    impls: list = field(default_factory=list)
    # Of a trait: the implementations of it.
    implementors: list = field(default_factory=list)
    # Of an alias: where the type is that it stands for.
    stands_for: "Place | None" = None

    @property
    def anchor(self):
        return ".".join([*self.module.path, self.name])

    @property
    def href(self):
        return f"{self.crate}.html#{self.anchor}"


@dataclass
class Crate:
    name: str
    family: str
    summary: str
    # By their paths, in the order in which they are declared.
    modules: dict = field(default_factory=dict)
    places: list = field(default_factory=list)

    @property
    def root(self):
        return self.modules[()]


def families():
    """Each family of docs/CRATES.md with its crates and what the page says of them, and the first calls that stand on that page alone."""
    found, calls, family = {}, {}, None
    for line in (DOCS / "CRATES.md").read_text(encoding="utf-8").splitlines():
        family = line[3:] if line.startswith("## ") else family
        row = re.match(r"\| `(\w+)` \| (.*) \|$", line)
        if row and family.startswith("First calls"):
            calls[row[1]] = row[2]
        elif row and family not in LEFT_OUT:
            found.setdefault(family, {})[row[1]] = row[2]
    return found, calls


def read_modules(name):
    """The modules of a crate by their paths, from the root down."""
    src = TOP / "crates" / name / "src"
    root = src / "lib.rt" if (src / "lib.rt").exists() else src / "main.rt"
    found = {}

    def go(path, file, is_public):
        text = file.read_text(encoding="utf-8")
        items = reading.read_items(text.splitlines())
        found[path] = module = Module(name, path, is_public, reading.head_comment(text), text, str(file.relative_to(TOP)), items)
        for it in items:
            if it.kind == "use":
                named = {here: parts for here, parts in reading.paths_of_use(it.head)}
                module.uses.update(named)
                module.handed_on.update(named if it.is_public else {})
            if it.kind == "mod":
                inner = src.joinpath(*path, f"{it.name}.rt")
                if inner.exists():
                    go((*path, it.name), inner, is_public and it.is_public)

    go((), root, True)
    return found


class Library:
    # The crate that programs depend on.
    FIRST = "iox_hub"

    def __init__(self):
        self.families, self.first_calls = families()
        self.crates = {}
        for family, of_it in self.families.items():
            for name, summary in of_it.items():
                self.crates[name] = Crate(name, family, summary, read_modules(name))
        self._place_by_item = {}
        for crate in self.crates.values():
            self._find_places(crate)
        for crate in self.crates.values():
            self._find_aliases(crate)
            self._find_impls(crate)

    # ---- names

    def resolve(self, module, path, seen=()):
        """What a path stands for in a module: a module, or the module and the item; or None."""
        crate = self.crates[module.crate]
        first, rest = path[0], path[1:]
        if (module.file, first) in seen:
            return None
        seen = (*seen, (module.file, first))
        if first in ("crate", "self", "super"):
            target = {"crate": (), "self": module.path, "super": module.path[:-1]}[first]
            return self._within(crate.modules.get(target), rest, seen)
        if (*module.path, first) in crate.modules:
            return self._within(crate.modules[(*module.path, first)], rest, seen)
        if first in self.crates and first not in module.uses:
            return self._within(self.crates[first].root, rest, seen)
        if item := module.item(first):
            return module, item
        if first in module.uses:
            used = module.uses[first]
            # A crate is named by its own name.
            if used[0] in self.crates and used[0] != first or used[0] not in self.crates:
                return self.resolve(module, [*used, *rest], seen) if used != [first] else None
            return self._within(self.crates[used[0]].root, [*used[1:], *rest], seen)
        return None

    def _within(self, module, rest, seen):
        if module is None or not rest:
            return module
        return self.resolve(module, rest, seen)

    def place(self, module, path):
        """Where the pages show what a path stands for, if it is public; of `Type::call` the type."""
        found = self.resolve(module, path)
        return self._place_by_item.get(id(found[1])) if isinstance(found, tuple) else None

    def places_of_users(self):
        """The items that programs name: those of the first crate, and those that it hands on."""
        crate = self.crates[self.FIRST]
        handed_on = [self.place(it, path) for it in crate.modules.values() if it.is_public for path in it.handed_on.values()]
        return [*crate.places, *(it for it in handed_on if it and it.crate != crate.name)]

    # ---- places

    def _find_places(self, crate):
        for module in crate.modules.values():
            if not module.is_public:
                continue
            for item in module.items:
                if item.kind in ITEMS and item.is_public:
                    self._put(crate, module, module, item, item.name)
        for module in crate.modules.values():
            for name, path in module.handed_on.items() if module.is_public else ():
                found = self.resolve(module, path)
                if isinstance(found, tuple) and found[0].crate == crate.name and id(found[1]) not in self._place_by_item:
                    self._put(crate, module, found[0], found[1], name)

    def _put(self, crate, module, written, item, name):
        place = Place(crate.name, module, written, item, name)
        self._place_by_item[id(item)] = place
        crate.places.append(place)

    def _find_aliases(self, crate):
        for place in crate.places:
            if place.item.kind == "type":
                of_it = re.search(r"= ([\w:]+)", reading.without_arguments(place.item.head))
                place.stands_for = self.place(place.written, of_it[1].split("::")) if of_it else None

    def _find_impls(self, crate):
        for module in crate.modules.values():
            for item in module.items:
                if item.kind != "impl":
                    continue
                owner = self.place(module, [item.owner])
                if owner and owner.crate == crate.name:
                    owner.impls.append((module, item))
                trait = self.place(module, [item.trait]) if item.trait else None
                if trait:
                    trait.implementors.append((owner, item))
