"""Examples of the public functions of ports, builders and hubs: which function has none, and which example calls what isn't there.

An example is code in the function's own comment, in a block or behind `Example: `, or in a `//!` of its crate. The functions of modules
of laws do nothing, and need none. An example in a function's own comment calls that function, with as many arguments as it has, each lent
or handed on as it is taken; `?` stands only behind what may fail. Of all other calls in examples some public function must have the name
and the number of arguments.
"""

import re
from dataclasses import dataclass

from api import reading, text

CRATES = re.compile(r"iox_negotiate|iox_delivery\w*|iox_hub(?:_base|_run)?")
# What stands before a bracket and calls nothing.
WORDS = {"if", "match", "while", "for", "in", "return"}
# Calls of the standard library.
STANDARD = {"ok", "err", "map_err", "unwrap", "get", "len", "to_le_bytes"}
# Modules of laws.
LAWS = {"laws", "whole_calls"}
CALL = re.compile(r"(?P<way>\.|(?:\w+(?:::<(?:[^()]|\(\))*?>)?::)+)?(?<!\w)(?P<name>[a-z]\w*)(?:::<(?:[^()]|\(\))*?>)?\(")


@dataclass
class Call:
    way: str
    name: str
    arguments: list
    # What stands behind it.
    behind: str


@dataclass
class Signature:
    has_self: bool
    # The types of all other parameters.
    parameters: list
    may_fail: bool


def public_functions(crate, with_laws=False):
    """Gives each public function of a crate, by the name of its type, with its item."""
    for place in crate.places:
        if LAWS & set(place.module.path) and not with_laws:
            continue
        if place.item.kind == "fn":
            yield place.name, place.item
        for module, it in place.impls:
            for member in it.members if not it.trait else ():
                if member.kind == "fn" and member.is_public:
                    yield f"{place.name}::{member.name}", member
        for member in place.item.members if place.item.kind == "trait" else ():
            if member.kind == "fn":
                yield f"{place.name}::{member.name}", member


def asked(library):
    """The crates whose functions are to have examples."""
    return [it for it in library.crates.values() if CRATES.fullmatch(it.name)]


def parts_of(inner):
    """What commas separate, outside of brackets."""
    found, depth, start = [], 0, 0
    for at, it in enumerate(f"{inner},"):
        depth += (it in "([{<") - (it in ")]}" or it == ">" and inner[at - 1] not in "-=")
        if it == "," and not depth:
            found += [inner[start:at].strip()] if inner[start:at].strip() else []
            start = at + 1
    return found


def end_of_brackets(code, opens):
    depth = 0
    for at in range(opens, len(code)):
        depth += (code[at] in "([{") - (code[at] in ")]}")
        if not depth:
            return at
    return len(code)


def calls(code):
    for it in CALL.finditer(code):
        ends = end_of_brackets(code, it.end() - 1)
        if it["name"] not in WORDS:
            yield Call(it["way"] or "", it["name"], parts_of(code[it.end() : ends]), code[ends + 1 :].lstrip())


def signature(item):
    head = " ".join(item.head.split())
    opens = re.search(rf"\bfn {item.name}\b", head).end()
    if head[opens] == "<":
        depth = 0
        for at in range(opens, len(head)):
            depth += (head[at] == "<") - (head[at] == ">" and head[at - 1] != "-")
            if not depth:
                opens = at + 1
                break
    ends = end_of_brackets(head, opens)
    parameters = parts_of(head[opens + 1 : ends])
    has_self = bool(parameters) and bool(re.fullmatch(r"(?:&(?:'\w+ )?)?(?:mut )?self", parameters[0]))
    types = [it.partition(": ")[2] for it in parameters[has_self:]]
    return Signature(has_self, types, bool(re.match(r" -> (?:Result|Option)<", head[ends + 1 :])))


def is_lent_well(argument, of_type):
    """Whether an argument is lent or handed on as its type says, as far as it shows: a plain name may stand for either."""
    if re.match(r"&(?:'\w+ )?mut ", of_type):
        return not argument.startswith("&") or argument.startswith("&mut ")
    if of_type.startswith("&"):
        return not argument.startswith("&mut ")
    return not argument.startswith("&")


def fits(call, it):
    count = len(it.parameters) + (it.has_self and call.way != ".")
    if len(call.arguments) != count or call.way == "." and not it.has_self:
        return False
    of_others = call.arguments[count - len(it.parameters) :]
    return all(map(is_lent_well, of_others, it.parameters)) and (it.may_fail or not re.match(r"\?|\.(?:ok|unwrap)\(\)", call.behind))


def own_faults(function, item):
    """What an example in a function's own comment says wrongly of that function."""
    code = text.code_of(item.doc)
    own = [it for it in calls(code) if it.name == item.name]
    owner = function.rpartition("::")[0]
    named = [it for it in own if it.way == "." or not owner or it.way]
    if code and not any(fits(it, signature(item)) for it in named):
        yield f"its example doesn't call it as `{' '.join(item.head.split())}`"


def faults(library):
    """Each example that calls something otherwise than it is, with its crate and function."""
    known = {}
    for crate in library.crates.values():
        for _, item in public_functions(crate, with_laws=True):
            known.setdefault(item.name, []).append(signature(item))
    for crate in asked(library):
        shown = [("its first calls", "\n".join(text.code_of(it.doc) for it in crate.modules.values()))]
        for function, item in public_functions(crate):
            yield from ((crate.name, function, it) for it in own_faults(function, item))
            shown.append((function, text.code_of(item.doc)))
        for function, code in shown:
            for it in calls(code):
                if it.name not in STANDARD and not any(fits(it, other) for other in known.get(it.name, [])):
                    yield crate.name, function, f"no public function is called as `{it.name}({', '.join(it.arguments)})`"


def lacking(library):
    """How many public functions there are, and those without an example: each with its crate."""
    count, found = 0, []
    for crate in asked(library):
        shown = {it.name for module in crate.modules.values() for it in calls(text.code_of(module.doc))}
        shown |= {it.name for it in calls(library.first_calls.get(crate.name, ""))}
        for function, item in public_functions(crate):
            count += 1
            if item.name not in shown and not text.code_of(item.doc):
                found.append((crate.name, function))
    return count, found
