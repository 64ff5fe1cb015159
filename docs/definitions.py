#!/usr/bin/env python3
"""Compares docs/DEFINITIONS.md with the definitions that the clauses of public functions reach.

Usage: docs/definitions.py             says which definition has no sentence, and whether the page has the rows that are counted
       docs/definitions.py --counted   prints the rows of the definitions that are counted, in reading order

Each definition that such a clause reaches has a sentence: the comment above it. `docs/api.py` writes a page of them.

The clauses are those of `requires` and `ensures`, and the ghost members of traits and of their implementations. Views,
invariants and functions that aren't public don't count. A clause reaches what it names by its `ghost use` lines, and a
definition what it names by its `use` lines. Both are read as text: a name counts as used wherever it occurs.

The page also lists the types of the code that the counted definitions and these clauses name: a reader needs them, too.

Counted is what a reader of the machine's promises must read: all that is reached by the clauses of the headline, of typed calls,
and of lanes whose calls don't overlap. Of a typed call and of one of lanes each clause counts, `requires` too. Of `run` and
`serve` those count that are in the machine's words (`HEADLINE`). Their further clauses speak of the code's own relation, numbers,
capacity and places: they are the way of the proof, and promise what the machine doesn't know. DEFINITIONS.md has the counted ones,
and only these.
The status is 1 where a sentence is missing, where the page differs, or where the counted ones are more than `MOST`.
"""

import re
import sys
from pathlib import Path

DOCS = Path(__file__).resolve().parent
CRATES = DOCS.parent / "crates"
PAGE = DOCS / "DEFINITIONS.md"
NAME = r"[^\s:(){}\[\],;.`]+"
USE = re.compile(rf"^\s*(?:pub |ghost )*use (Rattle(?:\.{NAME})+?)(?:\.\{{([^}}]*)\}})?(?: as ({NAME}))?;?$", re.M)
DEFINITION = re.compile(rf"^ *(?:abbrev pub|unfoldable pub|pub record|pub data|@mutual) ({NAME})", re.M)
# Definitions that name each other are indented below this line.
MUTUAL = re.compile(r"^abbrev mutual\n((?:(?:  .*)?\n)*)", re.M)
VISIBLE = r"(?:pub(?:\(crate\))? )?"
# In place of a comment: such a name has its sentence where it is defined.
HANDED_ON = "handed on"
# What ties a type to its model: no caller's clause names it.
OF_MODELS = {"view", "invariant"}
# The clauses by which the program and a run of commands answer as the plain machine: of each crate's function, by their names.
HEADLINE = {("iox_hub", "run"): ("answers",), ("iox_script", "serve"): ("answered", "begun")}
# The types of typed calls, and of lanes whose calls don't overlap, each with its crate: all clauses of their public methods count.
TYPED = [("iox_hub", "RecordedHub")]
IN_TURN = [("iox_lanes_service", "LanesInTurn")]
# How many definitions these clauses may reach in all.
MOST = 220
# The counted definitions in reading order: under each heading the crates that have them.
READING = [
    ("The machine", ["iox_machine"]),
    (
        "Words of commands, settings and types that the machine names",
        ["iox_command", "iox_domain_values", "iox_describe_base", "iox_describe_settings"],
    ),
    ("What a script says, and is answered", ["iox_line", "iox_conversation", "iox_script"]),
    ("On what the machine's answers stand", ["iox_negotiate_machine", "iox_hub_machine", "iox_hub_commands"]),
    ("A hub's runs and typed calls", ["iox_container", "iox_domain", "iox_hub"]),
    ("Lanes whose calls don't overlap", ["iox_queues_steps", "iox_lanes_machine", "iox_lanes_service"]),
]
COUNTED = "## The counted definitions"
HEADER = "| Definition | In plain words | File |\n|---|---|---|"
TYPES = "## The types of the code beside them"
TYPES_HEADER = "| Type | What it is | File |\n|---|---|---|"


def without_comments(text, mark):
    return re.sub(rf"(?m)(^|\s){mark}(\s.*)?$", "", text)


def names_of(text):
    """Returns the names in a text, each alone and with what stands behind its dot."""
    found = set()
    for word in re.findall(rf"{NAME}(?:\.{NAME})*", text):
        parts = word.split(".")
        found.add(parts[0])
        found.update(zip(parts, parts[1:]))
    return found


# The name under which each crate's definitions are handed on: `DomainSlots` for `iox_domain_slots`.
PASSED_ON = {"".join(word.capitalize() for word in it.name.removeprefix("iox_").split("_")): it.name for it in CRATES.iterdir()}


def without_way(path):
    """Returns a path to a definition by its own crate, where others hand the definitions of that crate on."""
    way = re.fullmatch(r"Rattle\.\w+\.specs\.(\w+)(\.\w.*)", path)
    return without_way(f"Rattle.{PASSED_ON[way[1]]}.specs{way[2]}") if way and way[1] in PASSED_ON else path


class Uses:
    """What the `use` lines of a file bring in: definitions by their names, and modules of definitions by theirs."""

    def __init__(self, text):
        self.names, self.modules, self.types = {}, {}, {}
        for path, names, alias in USE.findall(re.sub(r"\bas\s+", "as ", text)):
            path = without_way(path)
            declared = re.fullmatch(r"Rattle\.((?:iox|example)\w*)\.specs\.declared\.(.+?)\.(\w+)(?:\.TheVariants)?", path)
            if declared:
                for it in [alias] if alias else names.split(","):
                    self.types[it.strip().partition(" as ")[2] or it.strip()] = declared.groups()
            module = re.fullmatch(r"Rattle\.((?:iox|example)\w*)\.specs\.(\w+)", path)
            if not module or module[2] == "declared":
                continue
            if alias or not names:
                self.modules[alias or module[2]] = module.groups()
            for it in names.split(","):
                there, _, here = it.strip().partition(" as ")
                self.names[here or there] = (*module.groups(), there)

    def types_in(self, text):
        """Returns the types of the code that a text names: crate, module and name of each."""
        return {self.types[it] for it in names_of(text) if it in self.types}

    def reached(self, text, own=()):
        """Returns the definitions that a text names, where the file's own ones are these."""
        found = set()
        for it in names_of(text):
            if isinstance(it, tuple):
                if it[0] in self.modules:
                    found.add((*self.modules[it[0]], it[1]))
            elif it in self.names:
                found.add(self.names[it])
            elif it in own:
                found.add(own[it])
        return found


def comment_above(text, at):
    """Returns the lines of the comment that ends just above the line that begins at a place."""
    found = []
    while at:
        start = text.rfind("\n", 0, at - 1) + 1
        if not text[start:at].lstrip(" ").startswith("--"):
            break
        found.insert(0, text[start : at - 1])
        at = start
    return found


def definitions():
    """Returns each definition, (crate, file, name), with its comment and the definitions that it names; in their order."""
    found = {}
    for file in sorted(CRATES.glob("*/specs/*.antt")):
        text, crate = file.read_text(), file.parent.parent.name
        text = MUTUAL.sub(lambda it: "\n".join(re.sub(r"^  pub (?=\S+ :)", "@mutual ", line) for line in it[1].split("\n")), text)
        starts = list(DEFINITION.finditer(text))
        own = {it[1]: (crate, file.stem, it[1]) for it in starts}
        uses = Uses(text)
        for it, behind in zip(starts, [*(it.start() for it in starts[1:]), len(text)]):
            comment = " ".join(line.lstrip("- ") for line in comment_above(text, it.start()))
            body = without_comments(text[it.start() : behind], "--")
            found[own[it[1]]] = (comment, uses.reached(body, own) - {own[it[1]]})
    # A name that a file brings in and hands on stands for the definition itself.
    for file in CRATES.glob("*/specs/*.antt"):
        for path, names, _ in re.findall(rf"^pub use (Rattle(?:\.{NAME})+?)\.\{{([^}}]*)\}}()$", file.read_text(), re.M):
            for here, target in Uses(f"use {path}.{{{names}}}").names.items():
                found.setdefault((file.parent.parent.name, file.stem, here), (HANDED_ON, {target}))
    return found


# ---- clauses


def balanced(text, at):
    """Returns what stands in the braces that open at a place."""
    depth = 0
    for end in range(at, len(text)):
        depth += {"{": 1, "}": -1}.get(text[end], 0)
        if not depth:
            return text[at + 1 : end]
    return text[at + 1 :]


def sources(crate):
    """Returns the text of each module of a crate, by its path."""
    src = CRATES / crate / "src"
    return {str(it.relative_to(src).with_suffix("")): it.read_text() for it in src.rglob("*.rt")}


def exported(texts):
    """Returns what the `pub use` lines of a crate name, and which of its modules are public: of a program all that its root names."""
    lines = [it for text in texts.values() for it in re.findall(r"^pub use ([^;]*);", text, re.M)]
    public, asked = set(), ["lib", "main"]
    while asked:
        module = asked.pop()
        public.add(module)
        inner = re.findall(r"^mod (\w+)" if module == "main" else r"^pub mod (\w+)", texts.get(module, ""), re.M)
        asked += inner if module in ("lib", "main") else [f"{module}/{it}" for it in inner]
    return {it for line in lines for it in re.findall(r"\w+", line)}, public


def items(text):
    """Gives each item at the margin of a file: its trait and its type, where it has them, else its name; its head and its text."""
    for item in re.split(r"(?m)^(?=(?:pub |pub\(crate\) |unsafe )*(?:impl|trait|fn|struct|enum|mod)\b)", text):
        head = item.split("{", 1)[0]
        # Without type arguments, as far as they go into each other.
        plain = re.sub(r"<[^<>]*(?:<[^<>]*(?:<[^<>]*>)?[^<>]*>)?[^<>]*>", "", head)
        found = re.match(rf"{VISIBLE}(?:impl|trait|fn|struct|enum)\s+(?:(\w+)\s+for\s+&?(?:'\w+ )?)?(\w+)", plain)
        if found:
            yield *found.groups(), head, item


def clauses(crate):
    """Gives each clause that a caller of the crate reads, with what its file brings in."""
    texts = sources(crate)
    names, public = exported(texts)
    private = {it for text in texts.values() for it in re.findall(r"^(?:pub\(crate\) )?(?:trait|struct|enum) (\w+)", text, re.M)}
    for module, text in texts.items():
        uses, text = Uses(text), without_comments(text, "//+!?")
        made_here = set(re.findall(r"\b(?:struct|enum|trait|fn) (\w+)", text))
        for trait, owner, head, item in items(text):
            is_public = module in public or owner in names or owner not in made_here
            is_public = is_public and head.startswith(("pub ", "impl")) and not {owner, trait} & private
            if not is_public:
                continue
            for part in re.split(rf"(?m)^(?=\s*{VISIBLE}(?:final |const )*fn\b)", item):
                is_private = re.match(r"\s*(?:pub\(crate\) |final |const )*fn\b", part)
                if is_private and not trait and not head.startswith("pub trait"):
                    continue
                for it in re.finditer(r"\b(?:requires|ensures)\b\*?(?:\s+\w+)?\s*\{", part):
                    yield uses, balanced(part, it.end() - 1)
            for it in re.finditer(r"(?m)^ {4}ghost (\w+)\s*[:=]\s*\{", item):
                if it[1] not in OF_MODELS:
                    yield uses, balanced(item, it.end() - 1)


def of_headline(crate, function, names):
    """Gives these clauses of a function at the margin of a file, with what its file brings in."""
    for text in sources(crate).values():
        for head in re.finditer(rf"(?m)^pub fn {function}\b", text):
            part = text[head.start() : text.index("\n{", head.start())]
            for it in re.finditer(rf"\bensures (?:{'|'.join(names)}) \{{", part):
                yield Uses(text), balanced(part, it.end() - 1)


def of_methods(crate, owner):
    """Gives each clause of a type's public methods, with what its file brings in."""
    for text in sources(crate).values():
        uses, text = Uses(text), without_comments(text, "//+!?")
        for trait, name, head, item in items(text):
            if name != owner or trait or not head.startswith("impl"):
                continue
            for part in re.split(r"(?m)^(?=    (?:pub(?:\(crate\))? )?(?:final |const )*fn )", item):
                if re.match(r"    pub (?:final |const )*fn ", part):
                    for it in re.finditer(r"\b(?:requires|ensures)\b\*?(?:\s+\w+)?\s*\{", part):
                        yield uses, balanced(part, it.end() - 1)


def headline(known):
    """Returns what the clauses of the headline name, and the sentence that says how many definitions they reach."""
    asked = {it for at, names in HEADLINE.items() for uses, text in of_headline(*at, names) for it in uses.reached(text)}
    found = closure(known, asked)
    crates = [it[0] for it in found]
    machine, line = crates.count("iox_machine"), crates.count("iox_line")
    others = len(found) - machine - line
    return asked, f"They reach {len(found)} definitions: {machine} of `iox_machine`, {line} of `iox_line`, and {others} of other crates."


def methods_named(asked, types):
    """Returns the names of those of these types that there are, and what is asked for with what their methods' clauses name."""
    methods = {it: list(of_methods(*it)) for it in types}
    more = {it for found in methods.values() for uses, text in found for it in uses.reached(text)}
    return ", ".join(f"`{owner}`" for (_, owner), found in methods.items() if found), asked | more


def counted(known):
    """Returns the counted definitions, and the sentences that say how many there are."""
    asked, sentence = headline(known)
    names, asked = methods_named(asked, TYPED)
    typed = names and f"With the clauses of typed calls, the methods of {names}, they reach {len(closure(known, asked))} definitions."
    names, asked = methods_named(asked, IN_TURN)
    head = f"With those of lanes whose calls don't overlap, the methods of {names}, they reach"
    turns = names and f"{head} {len(closure(known, asked))} definitions."
    found = {it for it in closure(known, asked) if known[it][0] != HANDED_ON}
    return found, [it for it in (sentence, typed, turns) if it]


def crates_in_order():
    """Returns the crates in the order of crates.txt."""
    return re.findall(r"(?m)^(\w+)[^:\n]*:", (DOCS.parent / "crates.txt").read_text(encoding="utf-8"))


def modules(crate):
    """Returns the spec files of a crate in the order in which it names them."""
    return re.findall(r"(?m)^pub mod (\w+)", (CRATES / crate / "specs" / "Lib.antt").read_text())


def row(known, it):
    return f"| `{it[2]}` | {known[it][0]} | `{it[0]}/specs/{it[1]}.antt` |"


def in_reading_order(known, found):
    """Returns the section of the page that has these definitions."""
    lines, named = [COUNTED], {crate for _, crates in READING for crate in crates}
    for heading, crates in [*READING, ("Others", sorted({it[0] for it in found} - named))]:
        order = {crate: modules(crate) for crate in crates if crate in {it[0] for it in found}}
        here = [it for it in known if it in found and it[0] in order]
        here.sort(key=lambda it: (crates.index(it[0]), order[it[0]].index(it[1])))
        if here:
            lines += ["", f"### {heading}", "", HEADER, *(row(known, it) for it in here)]
    return "\n".join(lines) + "\n"


def reached(known):
    """Returns the definitions that the public clauses of all crates reach."""
    crates = [it.name for it in CRATES.iterdir() if not it.name.endswith("_rows")]
    return closure(known, {it for crate in crates for uses, text in clauses(crate) for it in uses.reached(text)})


def closure(known, asked):
    """Returns these definitions and all that they reach."""
    found, asked = set(), set(asked)
    while asked:
        it = asked.pop()
        if it in known and it not in found:
            found.add(it)
            asked |= known[it][1]
    return found


# ---- types of the code


def types_named(read):
    """Returns the types of the code that these definitions name, and those that the counted clauses name."""
    found = set()
    for file in CRATES.glob("*/specs/*.antt"):
        text, crate = file.read_text(), file.parent.parent.name
        text = MUTUAL.sub(lambda it: "\n".join(re.sub(r"^  pub (?=\S+ :)", "@mutual ", line) for line in it[1].split("\n")), text)
        starts, uses = list(DEFINITION.finditer(text)), Uses(text)
        for it, behind in zip(starts, [*(it.start() for it in starts[1:]), len(text)]):
            if (crate, file.stem, it[1]) in read:
                found |= uses.types_in(without_comments(text[it.start() : behind], "--"))
    named = [it for at, names in HEADLINE.items() for it in of_headline(*at, names)]
    named += [it for at in [*TYPED, *IN_TURN] for it in of_methods(*at)]
    return found.union(*(uses.types_in(text) for uses, text in named))


def source_of(crate, module):
    """Returns the file of a module, below the folder of crates."""
    path = CRATES / crate / "src" / module.replace(".", "/")
    return path.with_suffix(".rt") if path.with_suffix(".rt").exists() else path / "mod.rt"


def first_words(text, name):
    """Returns the first paragraph of the comment above a type, without the marks."""
    lines = text.splitlines()
    at = next((number for number, line in enumerate(lines) if re.match(rf"pub (?:struct|enum) {name}\b", line)), 0)
    while at and not lines[at - 1].startswith("///") and lines[at - 1].strip():
        at -= 1
    end = at
    while at and lines[at - 1].startswith("///"):
        at -= 1
    words = [it.removeprefix("///").strip() for it in lines[at:end]]
    return " ".join(words[: words.index("")] if "" in words else words)


def type_rows(types):
    """Returns the section of the page that has these types, and those that have no comment."""
    lines, silent = [TYPES, "", TYPES_HEADER], []
    for crate, module, name in sorted(types):
        file = source_of(crate, module)
        words = first_words(file.read_text(), name)
        silent += [] if words else [f"without a sentence: {name} of {file.relative_to(CRATES)}"]
        lines.append(f"| `{name}` | {words} | `{file.relative_to(CRATES)}` |")
    return "\n".join(lines) + "\n", silent


# ---- the page


def main(words):
    if words not in ([], ["--counted"]):
        sys.exit(__doc__)
    known = definitions()
    read, counts = counted(known)
    types = types_named(read)
    rows, silent = type_rows(types)
    first = in_reading_order(known, read) + "\n" + rows
    counts.append(f"Beside them they name {len(types)} types of the code.")
    if words == ["--counted"]:
        print(first, end="")
        return 0
    wanted = reached(known)
    missing = [it for it in known if it in wanted and not known[it][0]]
    faults = list(silent)
    for it in missing:
        print(f"without a sentence: {it[2]} of {it[0]}/specs/{it[1]}.antt")
    page = PAGE.read_text()
    faults += [f"not on {PAGE.name}: {it}" for it in counts if it not in page]
    if not page.endswith(f"\n{first}"):
        faults.append(f"{PAGE.name} doesn't end with what --counted prints")
    if len(read) > MOST:
        faults.append(f"{len(read)} definitions are counted, and may be {MOST} at most")
    for it in faults:
        print(it)
    print(f"{len(wanted)} definitions reached, {len(missing)} of them without a sentence; {len(read)} counted, and {len(types)} types")
    return 1 if missing or faults else 0


if __name__ == "__main__":
    sys.exit(main(sys.argv[1:]))
