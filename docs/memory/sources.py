"""The sources of libraries, and the places of docs/memory.py in them."""

import functools
import hashlib
import re
from collections import defaultdict
from pathlib import Path

from api.reading import read_items
from memory.places import WORDS, Body, Place
from memory.tokens import leaves, tree

TOP = Path(__file__).resolve().parent.parent.parent
MACRO = re.compile(r"(?ms)^macro_rules! (\w+) \{\n(.*?)^\}\n")
# What an out of memory is called in a file that brings it in under another name.
OTHER_NAME = re.compile(rf"\b(?:{'|'.join(sorted(WORDS))})\s+as\s+(\w+)")
CALL = re.compile(r"\b([a-z_]\w*)(?=\()")
# So many functions of a name at most are told by a sum: a name that more of them have says nothing.
MOST_ALIKE = 3
# Functions that answer out of memory whatever they are asked: who calls one makes it.
MAKERS = {"create_lacking", "open_lacking", "either_lacking", "lacking", "lacking_create", "lacking_either", "lack"}
# A parameter that carries the errors of out of memory.
CARRIER = re.compile(r"(\w+): Lacking<")
# What a call answers that found no memory, where that is no error: an error type of its own, and what it was given.
IS_ERROR = re.compile(r"(Error|Failure|Refusal|Fail)\b|^(u64|usize|E|AttributeKey)$")
OTHER_ANSWERS = {"Attempt", "NotClosed", "DomainIsForeign", "PortCommand", "BlockedSend", "Named", "SampleMut", "StillLanes", "Refused"}


def libraries():
    """The crates in the order of crates.txt that are libraries, without those of tests alone."""
    names = re.findall(r"(?m)^(\w+)[^:\n]*:", (TOP / "crates.txt").read_text(encoding="utf-8"))
    return [it for it in names if (TOP / "crates" / it / "src" / "lib.rt").exists() and not it.endswith("_rows")]


def functions(items, owner=""):
    """The functions of items and of what is in these, each with the name of its type before its own."""
    for it in items:
        if it.kind == "fn":
            yield f"{owner}{it.name}", it
        yield from functions(it.members, f"{it.owner or it.name}::")


def constants(items):
    """The constants of items, as (NAME, `NAME = VALUE`)."""
    for it in items:
        if it.kind in ("const", "static"):
            yield it.name, f"{it.name} = {' '.join(it.head.partition('=')[2].split()).rstrip(';')}"
        yield from constants(it.members)


def result_of(head):
    return re.sub(r"\s+", " ", head.rpartition("->")[2]).strip()


def error_of(result):
    """The error of a `Result`, as it is written; empty where the result is another type."""
    found = re.fullmatch(r"Result<(.*)>(?: where .*)?", result)
    if not found:
        return ""
    depth, last = 0, 0
    for at, it in enumerate(found[1]):
        depth += (it in "<(") - (it in ">)")
        last = at + 1 if it == "," and not depth else last
    return found[1][last:].strip()


def gives_back(head):
    """Whether a function answers what it was given, or the like, where it finds no memory."""
    error = error_of(result_of(head))
    name = re.sub(r"<.*|.*::", "", error)
    is_other = not error or IS_ERROR.search(error) or name in OTHER_ANSWERS or name == "AllocError"
    return "alloc: " in head and not is_other


class Crate:
    """The files of a crate: their functions, macros and constants."""

    def __init__(self, texts):
        self.functions, self.macros, self.constants, self.words = {}, {}, defaultdict(list), {}
        for file, text in texts.items():
            self.words[file] = {*OTHER_NAME.findall(text)}
            items = read_items(MACRO.sub("", text).splitlines())
            self.functions[file] = [*functions(items)]
            self.macros[file] = MACRO.findall(text)
            for name, line in constants(items):
                self.constants[name].append(line)

    @functools.cached_property
    def lacking(self):
        """The constants that have an out of memory."""
        return {name for name, lines in self.constants.items() if not WORDS.isdisjoint(re.findall(r"\w+", " ".join(lines)))}

    @functools.cached_property
    def deciding(self):
        """The bodies of the functions by which conditions may be decided, by their names: those that answer no `Result`."""
        found = defaultdict(list)
        for of_file in self.functions.values():
            for name, it in of_file:
                if it.inside and "->" in it.head and not error_of(result_of(it.head)):
                    found[name.rpartition("::")[2]].append("\n".join(it.inside))
        return found

    def decided(self, place):
        """What the functions are that the conditions of a place call, as `NAME() is SUM` of their bodies."""
        text = " ".join([*place.under, *place.names, place.made * (not place.under)])
        for name in dict.fromkeys(CALL.findall(text)):
            bodies = self.deciding.get(name, [])
            if name != "new" and 0 < len(bodies) <= MOST_ALIKE:
                code = "\n".join(" ".join(leaves(tree(it).inside)) for it in bodies)
                yield f"{name}() is {hashlib.sha256(code.encode()).hexdigest()[:6]}"

    def places(self, file):
        """The places of a file: for each the function's name, and what is made under which conditions."""
        for name, it in self.functions[file]:
            if re.search(r"::from$", name) and "AllocError" in it.head:
                continue
            makers = MAKERS | {"Err"} if gives_back(it.head) else MAKERS
            words = self.lacking | self.words[file] | {*CARRIER.findall(it.head)}
            for place in Body("\n".join(it.inside), makers, words).places(self.constants):
                yield name, Place(place.made, place.under, (*place.names, *self.decided(place)))
        for name, text in self.macros[file]:
            for place in Body(text, words=self.lacking | self.words[file]).places(self.constants):
                yield f"{name}!", place


def texts_of(crate):
    src = TOP / "crates" / crate / "src"
    return {it.relative_to(TOP / "crates").as_posix(): it.read_text(encoding="utf-8") for it in sorted(src.rglob("*.rt"))}


def places(texts):
    """All places of a crate's files, as (file, function, text)."""
    crate = Crate(texts)
    return [(file, name, it.text) for file in texts for name, it in crate.places(file)]

