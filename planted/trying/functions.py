"""Which functions an edit changes, by the names that the prover gives them."""
from __future__ import annotations

import re
from dataclasses import dataclass
from pathlib import Path

from planted.trying.edits import Change, Edit

FUNCTION = re.compile(r"(\s*)(?:pub(?:\([^)]*\))? )?(?:final |const |unsafe )*fn (\w+)")
HEAD = re.compile(r"(?:unsafe )?impl\b(?P<rest>.*)|(?:pub(?:\([^)]*\))? )?trait (?P<trait>\w+)")


@dataclass(frozen=True)
class Place:
    """Where a text stands: the module, the impl or trait round it, the function. What isn't there is empty."""

    module: str
    head: str
    function: str


def module_of(file: str) -> str:
    """The path of a file's module below the crate."""
    parts = Path(file).with_suffix("").parts[1:]
    return "::".join(part for part in parts if part not in ("lib", "main"))


def place_of(text: str, change: Change) -> Place:
    """Where a change's old text stands in a source, as `rt fmt` lays it out."""
    lines, module = text.splitlines(), module_of(change.file)
    at = next(number for number, line in enumerate(lines) if change.old in line)
    # What the text stands in begins at the margin: behind it come only closing brackets of its own head.
    top = next((number for number in range(at, -1, -1) if re.match(r"(?!where\b)[a-z}]", lines[number])), at)
    found = FUNCTION.match(lines[top])
    if found:
        return Place(module, "", found[2])
    if not HEAD.match(lines[top]):
        return Place(module, "", "")
    end = next((number for number in range(top, at + 1) if lines[number].endswith("{")), top)
    head = " ".join(line.strip() for line in lines[top : end + 1])
    for number in range(at, end, -1):
        found = FUNCTION.match(lines[number])
        if found and (number == at or not lines[number].endswith("}")):
            return Place(module, head, found[2])
        if number < at and lines[number].startswith("    }"):
            break
    return Place(module, head, "")


def name_of_type(text: str) -> str:
    """The first word of a type as the prover writes it: `Ref` for a reference, `Array`, `Slice`, `Unit`, `U8`."""
    text = text.strip()
    if text.startswith("&"):
        return "Ref"
    if text.startswith("["):
        return "Array" if ";" in text else "Slice"
    if text.startswith("("):
        return "Unit" if text.startswith("()") else "Tuple"
    word = re.match(r"(?:\w+::)*(\w+)", text)
    return word[1][0].upper() + word[1][1:] if word else ""


def without_parameters(text: str) -> str:
    """What stands behind the `<..>` at the start of a text."""
    if not text.startswith("<"):
        return text
    depth = 0
    for at, letter in enumerate(text):
        depth += (letter == "<") - (letter == ">" and text[at - 1] != "-")
        if depth == 0:
            return text[at + 1 :]
    return ""


def fits_head(segment: str, head: str) -> bool:
    """Whether a type's part of a name may be of this impl or trait."""
    found = HEAD.match(head)
    if not found:
        return False
    if found["trait"]:
        return segment == found["trait"]
    rest = without_parameters(found["rest"].strip() if found["rest"].startswith(" ") else found["rest"])
    trait, is_of_trait, kind = rest.partition(" for ")
    if not is_of_trait:
        word = name_of_type(rest)
        arguments = segment.split("+")[1:]
        return segment.split("+")[0] == word and all(it in rest for it in arguments)
    return segment.startswith(name_of_type(kind)) and name_of_type(trait) in segment


def named_at(place: Place, crate: str, names: list[str]) -> list[str]:
    """Of a crate's functions those that may stand at a place. A method goes by the module of its type, which may be another file's."""
    prefix = "::".join(part for part in (crate, place.module) if part) + "::"
    near = [name for name in names if name.endswith(f"::{place.function}")]
    if not place.head:
        return [name for name in near if name == f"{prefix}{place.function}"]
    of_head = [name for name in near if name.count("::") > 1 and fits_head(name.split("::")[-2], place.head)]
    here = [name for name in of_head if name.startswith(prefix)] or of_head
    of_arguments = [name for name in here if "+" in name.split("::")[-2]]
    return of_arguments or here


def guessed_at(place: Place) -> str:
    """The end of a function's name, where the names aren't known."""
    found = HEAD.match(place.head)
    kind = ""
    if found:
        kind = found["trait"] or name_of_type(without_parameters(found["rest"].strip()).rpartition(" for ")[2])
    return "::".join(part for part in (kind or place.module.rpartition("::")[2], place.function) if part)


@dataclass(frozen=True)
class Asked:
    """The paths that `--only` takes for what an edit changes; none for the whole crate."""

    paths: tuple[str, ...] = ()
    # Whether only bodies of functions change, which leaves the other functions as they are.
    is_bodies: bool = False


def asked_about(edit: Edit, folder: Path, names: list[str]) -> Asked:
    """What to ask about an edit. A text of an impl that is in no function asks about the type."""
    paths: list[str] = []
    is_bodies = True
    for change in edit.changes:
        if not change.file.startswith("src/"):
            return Asked()
        place = place_of((folder / change.file).read_text(encoding="utf-8"), change)
        found = named_at(place, edit.crate, names) if place.function else types_at(place, names)
        is_bodies = is_bodies and bool(place.function)
        if not found and place.function:
            found = [guessed_at(place)]
        if not found:
            return Asked()
        paths += found
    return Asked(tuple(dict.fromkeys(paths)), is_bodies)


def types_at(place: Place, names: list[str]) -> list[str]:
    """The types, as names have them, of the impl or trait at a place."""
    return sorted({name.rpartition("::")[0] for name in names if "::" in name and fits_head(name.split("::")[-2], place.head)})


def functions_of(library: Path) -> list[str]:
    """The functions of a built library."""
    text = (library / "toolchain" / "mir.json").read_text(encoding="utf-8", errors="replace")
    return sorted(set(re.findall(r'\["([\w:+]+)",\{"lifetimes"', text)))
