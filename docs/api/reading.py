"""One source file as its items, each with its comment, its signature and its contract.

It reads text that `rt fmt` has laid out: an item begins at its place in the line, and what is in it stands four columns further in.
"""

import re
from dataclasses import dataclass, field

STEP = 4
START = re.compile(
    r"(?P<visibility>pub(?:\([a-z ]+\))? )?(?P<modifiers>(?:const (?=fn|unsafe)|final |unsafe )*)"
    r"(?P<kind>fn|struct|enum|trait|impl|mod|use|type|const|static|ghost)\b(?P<rest>.*)"
)
CLAUSE = re.compile(r"(requires|ensures)\*?(?:\s|$)")
BRACES = re.compile(r"[{}]")
TEXTS = re.compile(r"\"(?:[^\"\\]|\\.)*\"|'(?:[^'\\]|\\[^']+)'|//.*")


@dataclass
class Clause:
    word: str
    label: str
    text: str


@dataclass
class Item:
    kind: str
    name: str
    visibility: str
    # Without the contract and what stands in braces.
    head: str
    doc: str
    # The comment above it that is no doc comment.
    note: str
    attributes: list
    contract: list = field(default_factory=list)
    # What stands in its braces, line by line.
    inside: list = field(default_factory=list)
    members: list = field(default_factory=list)
    # Of an implementation: the trait, where there is one, and the type.
    trait: str = ""
    owner: str = ""

    @property
    def is_public(self):
        return self.visibility == "pub"


def bare(line):
    """A line without its literals and comments, so that its brackets can be counted."""
    return TEXTS.sub("", line).rstrip() if '"' in line or "'" in line or "//" in line else line.rstrip()


def depth_of(text):
    return sum(map(text.count, "([{")) - sum(map(text.count, ")]}"))


def balanced(text, at):
    """What stands in the braces that open at a place, and the place behind them."""
    depth = 0
    for it in BRACES.finditer(text, at):
        depth += 1 if it[0] == "{" else -1
        if not depth:
            return text[at + 1 : it.start()], it.end()
    return text[at + 1 :], len(text)


def indentation(line):
    return len(line) - len(line.lstrip(" "))


def end_of_item(lines, at, indent):
    """The number of the line behind the item that begins at a line."""
    depth, in_contract = 0, False
    for number in range(at, len(lines)):
        text = bare(lines[number])
        begins_clause = not depth and CLAUSE.match(text.strip())
        opens_body = not depth and text.startswith(" " * indent + "{")
        in_contract = bool(begins_clause) or in_contract and not opens_body
        depth += depth_of(text)
        if not depth and (text.endswith(";") or text.endswith("}") and not in_contract):
            return number + 1
    return len(lines)


def end_of_attribute(lines, at):
    depth = 0
    for number in range(at, len(lines)):
        depth += depth_of(bare(lines[number]))
        if not depth:
            return number + 1
    return len(lines)


def clauses(text):
    found, at = [], 0
    while it := re.compile(r"(?m)^\s*((?:requires|ensures)\*?)(?:\s+(\w+))?\s*\{").search(text, at):
        inner, at = balanced(text, it.end() - 1)
        found.append(Clause(it[1], it[2] or "", re.sub(r"\s*\n\s*", " ", inner).strip()))
    return found


def split(lines, indent):
    """The signature of an item, its contract, and what stands in its braces."""
    if START.match(lines[0].strip())["kind"] in ("use", "const", "type", "static", "ghost"):
        return lines, [], []
    clause = next((at for at, it in enumerate(lines) if CLAUSE.match(it.strip())), None)
    opens = next((at for at, it in enumerate(lines) if bare(it).endswith("{")), None)
    has_contract = clause is not None and (opens is None or clause <= opens) and START.match(lines[0].strip())["kind"] == "fn"
    if has_contract:
        body = next((at for at, it in enumerate(lines) if at > clause and it.startswith(" " * indent + "{")), len(lines))
        return lines[:clause], clauses("\n".join(lines[clause:body])), lines[body + 1 : -1]
    if opens is None:
        return lines, [], []
    return [*lines[:opens], bare(lines[opens])[:-1]], [], lines[opens + 1 : -1]


def without_arguments(text):
    """A type without its type arguments, at any depth."""
    text, before = text.replace("->", ""), None
    while text != before:
        before, text = text, re.sub(r"<[^<>]*>", "", text)
    return text


def name_of(kind, rest):
    if kind == "ghost":
        rest = re.sub(r"^\s*(use|type|const)\b", "", rest)
    found = re.match(r"\s*(\w+)", rest)
    return found[1] if found else ""


def parts_of_impl(head):
    """The trait and the type of an implementation."""
    plain = without_arguments(head.partition(" where")[0]).replace("impl", "", 1).strip()
    trait, _, owner = plain.rpartition(" for ")
    word = re.search(r"(\w+)\W*$", re.sub(r"[&'\[\]()]|\bmut\b|; *\w+", " ", owner).strip())
    return re.split(r"::", trait)[-1].strip(), word[1] if word else owner.strip()


def read_item(lines, indent, doc, note, attributes):
    start = START.match(lines[0].strip())
    head, contract, inside = split(lines, indent)
    shown = "\n".join(it[indent:] for it in head).strip()
    shown = re.sub(r"\s*(\{\s*\}|;)$", "", shown) if start["kind"] in ("fn", "impl") else shown.removesuffix(";").rstrip()
    visibility = (start["visibility"] or "").strip()
    item = Item(start["kind"], name_of(start["kind"], start["rest"]), visibility, shown, doc, note, attributes, contract, inside)
    if item.kind == "impl":
        item.trait, item.owner = parts_of_impl(" ".join(it.strip() for it in head))
    if item.kind in ("impl", "trait"):
        item.members = read_items(inside, indent + STEP)
    return item


def read_items(lines, indent=0):
    """The items that begin at a column, in their order. What is for tests alone is left out."""
    found, docs, notes, attributes, at = [], [], [], [], 0
    while at < len(lines):
        line, text = lines[at], lines[at].strip()
        behind = at + 1
        if text.startswith("///"):
            docs.append(text[3:].removeprefix(" "))
        elif text.startswith("//!") or not text:
            notes = []
        elif text.startswith("//"):
            notes.append(text[2:].strip())
        elif text.startswith("#"):
            behind = end_of_attribute(lines, at)
            attributes.append(" ".join(it.strip() for it in lines[at:behind]))
        else:
            if indentation(line) == indent and START.match(text):
                behind = end_of_item(lines, at, indent)
                if "#[cfg(test)]" not in attributes and "#[test]" not in attributes:
                    found.append(read_item(lines[at:behind], indent, "\n".join(docs), " ".join(notes), attributes))
            docs, notes, attributes = [], [], []
        at = behind
    return found


@dataclass
class Entry:
    """A field of a struct, or a variant of an enum."""

    name: str
    text: str
    doc: str
    is_public: bool


def read_entries(lines, indent=STEP):
    """The fields or variants that a block has."""
    found, docs, at = [], [], 0
    while at < len(lines):
        text = lines[at].strip()
        behind = at + 1
        if text.startswith("///"):
            docs.append(text[3:].removeprefix(" "))
        elif text.startswith("#"):
            behind = end_of_attribute(lines, at)
        elif text and not text.startswith("//"):
            depth = depth_of(bare(lines[at]))
            while behind < len(lines) and (depth or not bare(lines[behind - 1]).endswith(",")):
                depth += depth_of(bare(lines[behind]))
                behind += 1
            whole = "\n".join(it[indent:] for it in lines[at:behind]).removesuffix(",")
            found.append(Entry(re.match(r"(?:pub(?:\([a-z ]+\))? )?(\w+)", text)[1], whole, "\n".join(docs), text.startswith("pub ")))
            docs = []
        at = behind
    return found


def paths_of_use(text):
    """What a `use` brings in: the name here, and the path that it stands for."""
    text = re.sub(r"^.*?\buse\s+", "", " ".join(text.split())).rstrip(";")
    found = []

    def go(prefix, tree):
        tree = tree.strip()
        opens = tree.find("{")
        if opens < 0:
            path, _, alias = tree.partition(" as ")
            parts = prefix + [it for it in path.strip().split("::") if it]
            if parts and parts[-1] == "self":
                parts.pop()
            found.append((alias.strip() or parts[-1], parts))
            return
        before = prefix + [it for it in tree[:opens].split("::") if it.strip()]
        inner, depth, start = tree[opens + 1 : tree.rindex("}")], 0, 0
        for at, it in enumerate(f"{inner},"):
            depth += {"{": 1, "}": -1}.get(it, 0)
            if it == "," and not depth:
                if inner[start:at].strip():
                    go(before, inner[start:at])
                start = at + 1

    go([], text)
    return found


def head_comment(text):
    """The text of the `//!` lines of a file."""
    return "\n".join(re.findall(r"(?m)^//! ?(.*)$", text))
