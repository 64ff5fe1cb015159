"""Rattle code as tokens, and its brackets as a tree."""

import re
from dataclasses import dataclass, field

TOKEN = re.compile(
    r"""(?P<comment>//[^\n]*|/\*(?:[^*]|\*(?!/))*\*/)
    |(?P<text>b?r(?P<marks>\#*)".*?"(?P=marks)|[bc]?"(?:[^"\\]|\\.)*")
    |(?P<char>b?'(?:[^'\\]|\\[^'\n]+|\\')')
    |(?P<lifetime>'[A-Za-z_]\w*)
    |(?P<word>[A-Za-z_]\w*!?(?=[({\[ ])|[A-Za-z_]\w*)
    |(?P<number>\d\w*(?:\.\d\w*)?)
    |(?P<sign>\.\.=|<<=|>>=|=>|->|::|&&|\|\||==|!=|<=|>=|[-+*/%|&^]=|\.\.|<<|[^\s\w])""",
    re.X | re.S,
)
OPENS, CLOSES = {"(": ")", "[": "]", "{": "}"}, ")]}"
# Words behind which a bracket is no call's.
WORDS_ALONE = ("if", "match", "in", "return", "while", "let", "=")
# What stands without a space before or behind it, as a page shows code.
TIGHT_BEFORE = {",", ";", ")", "]", ".", "?", "::", ":", ".."}
TIGHT_BEHIND = {"(", "[", ".", "::", "!", "&", "$", ".."}


@dataclass
class Node:
    """A token, or what stands between two brackets with them."""

    text: str
    inside: list = field(default_factory=list)
    parent: "Node | None" = None

    @property
    def is_group(self):
        return self.text in OPENS


class Unbalanced(Exception):
    """Brackets that don't match."""


def tree(text):
    """The code as a tree: a node without a bracket of its own, whose `inside` has all. Comments are left out."""
    top = Node("")
    here = top
    for it in TOKEN.finditer(text):
        if it.lastgroup == "comment" or it["comment"]:
            continue
        node = Node(it[0], parent=here)
        if it[0] in CLOSES:
            if OPENS.get(here.text) != it[0]:
                raise Unbalanced(f"{it[0]} closes {here.text or 'nothing'} at {text.count(chr(10), 0, it.start()) + 1}")
            here = here.parent
            continue
        here.inside.append(node)
        if it[0] in OPENS:
            here = node
    if here is not top:
        raise Unbalanced(f"{here.text} isn't closed")
    return top


def leaves(nodes):
    """The tokens of nodes in their order, with their brackets."""
    for it in nodes:
        yield it.text
        if it.is_group:
            yield from leaves(it.inside)
            yield OPENS[it.text]


def shown(nodes):
    """Code in one line."""
    out, before = "", ""
    for it in leaves(nodes):
        is_tight = it in TIGHT_BEFORE or before in TIGHT_BEHIND or not out
        is_call = it in "([" and re.fullmatch(r"[\w!]+|[)\]>?]", before) and before not in WORDS_ALONE
        out += it if is_tight or is_call else f" {it}"
        before = it
    return out

