"""The places where a library's source makes an out of memory that no callee has answered, each with what it is made under; and those where
it asks for an amount of memory that isn't plainly what is there."""

import re
from dataclasses import dataclass

from memory.tokens import leaves, shown, tree

# What means out of memory: the library's error, and the variants of errors, answers and steps.
WORDS = {"AllocError", "OutOfMemory", "NoMemory", "AllocFailed", "NoRoom", "RanOut"}
CONSTANT = re.compile(r"\b[A-Z][A-Z0-9_]+\b")
LOCAL = re.compile(r"(?<![.:\w])[a-z_]\w*\b(?![(!:])")
# What asks an allocator for an amount, by its name; what an amount has that isn't plainly what is there; and how much is a few.
REQUESTS = {"with_capacity", "reserve", "reserve_exact", "resize", "vec!"}
COMPUTED, FEW = re.compile(r"\b(?:if|match)\b|MAX\b|<<|(?<=[\w)\]]) \* |\bpow\b"), 64
# The calls that an amount may have: their contracts say what they answer.
AMOUNTS = set("acts allocator as_slice capacity checked_add checked_mul clone ended_pops ended_pushes ends idle len ok_or".split())
AMOUNTS |= set("publishers resting room saturating_sub subscribers value_of words words_ending".split())
CALL = re.compile(r"\b[a-z_]\w*(?=\()")
NUMBER = re.compile(r"(?<![\w.])0x[\da-f_]+|(?<![\w.])\d[\d_]*")
# What goes on with a statement behind a block of it, and what says that braces are a pattern's.
GOES_ON = set("else . ? , ; ) => as && || == != = | + - in".split())
IN_PATTERN = {"=", "|", "in"}
# How much of a definition a row shows.
MOST = 160


@dataclass(frozen=True)
class Place:
    """What is made, the conditions that lead there from the outermost in, and what the names in these are."""

    made: str
    under: tuple
    names: tuple = ()

    @property
    def text(self):
        return " → ".join([*self.under, self.made]) + "".join(f"; {it}" for it in self.names)


def behind(nodes, at):
    """The place behind a node; of a name's type arguments, that behind their end."""
    depth = nodes[at].text == "<" and at > 0 and nodes[at - 1].text == "::"
    at += 1
    while depth and at < len(nodes):
        depth += {"<": 1, ">": -1}.get(nodes[at].text, 0)
        at += 1
    return at


def upto(nodes, at, signs):
    """The place of the next of these signs, or the end."""
    while at < len(nodes) and nodes[at].text not in signs:
        at = behind(nodes, at)
    return at


class Body:
    """The body of a function, gone over from its first statement to its last."""

    def __init__(self, text, makers=(), words=frozenset()):
        # What means out of memory, what stands for it here, and what does so where it is called.
        self.meanings, self.words, self.makers = WORDS | words, WORDS | words, makers
        self.found, self.asked, self.lets = [], [], {}
        self.block(tree(text).inside, ())

    def block(self, nodes, under, ends=(";",)):
        """Goes over statements, or over fields or arguments, under these conditions."""
        at = 0
        while at < len(nodes):
            at = self.statement(nodes, at, under, ends)

    def statement(self, nodes, start, under, ends):
        """Goes over one statement, and returns where the next one begins."""
        at = head = start
        denied, makes = [], False
        while at < len(nodes) and nodes[at].text not in ends:
            node = nodes[at]
            if node.text == "let":
                at = upto(nodes, at, ("=", ";"))
                continue
            if node.text == "{" and nodes[at + 1 : at + 2] and nodes[at + 1].text in IN_PATTERN:
                at += 1
                continue
            if node.text == "{":
                self.braces(node, nodes[head:at], denied, nodes[start : at - 1], under)
                head = at + 1
                if at + 1 == len(nodes) or nodes[at + 1].text not in GOES_ON:
                    at += 1
                    break
            elif node.is_group:
                makes = self.group(nodes, at, under) or makes
            else:
                makes = self.is_made(nodes, at) or makes
            at = behind(nodes, at)
        whole = nodes[start:at]
        if makes:
            self.found.append(Place(shown(whole), under))
        self.note(whole, makes)
        return at + (at < len(nodes) and nodes[at].text in ends)

    def braces(self, group, head, denied, before, under):
        """Goes over what stands in braces, with what they are under."""
        place = next((i for i in range(len(head) - 1, -1, -1) if head[i].text in ("if", "while", "for", "match", "else")), None)
        word = head[place].text if place is not None else ""
        asked = shown(head[place + 1 :]) if word else ""
        refused = " and ".join(f"not {it}" for it in denied)
        if word == "match":
            return self.arms(group.inside, (*under, f"match {asked}"))
        if word == "if":
            denied.append(asked)
            condition = f"if {refused} and {asked}" if refused else f"if {asked}"
            pattern = head[place + 2 : upto(head, place, ("=",))] if head[place + 1].text == "let" else []
            return None if self.is_answered(pattern) else self.block(group.inside, (*under, condition))
        if word == "else":
            return self.block(group.inside, (*under, f"if {refused}" if denied else f"{shown(before)} else"))
        is_value = not word and head and re.match(r"[A-Z>]", head[-1].text)
        return self.block(group.inside, (*under, f"{word} {asked}") if word else under, (",",) if is_value else (";",))

    def arms(self, nodes, under):
        at = 0
        while at < len(nodes):
            begins = upto(nodes, at, ("=>",)) + 1
            pattern = nodes[at : begins - 1]
            ends = begins + 1 if nodes[begins : begins + 1] and nodes[begins].text == "{" else upto(nodes, begins, (",",))
            if ends < len(nodes) and nodes[begins].text == "{" and nodes[ends].text in (".", "?"):
                ends = upto(nodes, begins, (",",))
            if not self.is_answered(pattern):
                self.block(nodes[begins:ends], (*under, shown(pattern)))
            at = ends + (ends < len(nodes) and nodes[ends].text == ",")

    def group(self, nodes, at, under):
        """Goes over what stands in brackets, and returns whether out of memory is made there, outside of braces."""
        inside = nodes[at].inside
        self.request(nodes, at, under)
        if at and nodes[at - 1].text == "matches!":
            inside = inside[: upto(inside, 0, (",",))]
        before, self.found = self.found, []
        self.block(inside, under, (";", ","))
        inner, self.found = self.found, before
        # What stands in braces has its own conditions; the rest is the statement's.
        self.found += [it for it in inner if it.under != under]
        return any(it.under == under for it in inner)

    def request(self, nodes, at, under):
        """Notes a call that asks for an amount of memory, or that hands one on beside the allocator."""
        name = nodes[at - 1].text if at else ""
        if name in REQUESTS or re.match(r"\w", name) and any(it.text == "alloc" for it in nodes[at].inside):
            self.asked.append(Place(shown(nodes[at - 1 : at + 1]), under))

    def is_made(self, nodes, at):
        """Whether a node is an out of memory as a value: no type's argument, and not what is compared with."""
        following = nodes[at + 1].text if at + 1 < len(nodes) else ""
        if nodes[at].text in self.makers and following in ("(", "::"):
            return True
        if nodes[at].text not in self.words or following in (">", "|"):
            return False
        first = at
        while first > 1 and nodes[first - 1].text == "::":
            first -= 2
        return not first or nodes[first - 1].text not in ("==", "!=")

    def is_answered(self, pattern):
        """Whether all that a pattern takes is an out of memory that was answered."""
        texts = list(leaves(pattern))
        texts = texts[: texts.index("if")] if "if" in texts else texts
        return "|" not in texts and not self.meanings.isdisjoint(texts)

    def note(self, statement, makes):
        """Notes what a `let`, an assignment or a constant says of a name. A name of out of memory as a value stands for it from here on."""
        texts = [it.text for it in statement[:2]]
        if texts[:1] == ["let"]:
            equal = upto(statement, 0, ("=",))
            for it in leaves(statement[1:equal]):
                self.lets.setdefault(it, []).append(shown(statement))
                if makes and statement[-1].text != "?" and LOCAL.fullmatch(it):
                    self.words.add(it)
        elif texts[:1] in (["const"], ["static"], ["use"]):
            for it in {*filter(CONSTANT.fullmatch, leaves(statement))}:
                self.lets.setdefault(it, []).append(shown(statement))
        elif texts[1:] in (["="], ["|="], ["+="]) and LOCAL.fullmatch(texts[0]):
            self.lets.setdefault(texts[0], []).append(shown(statement))

    def places(self, constants):
        """The places with what the names of their conditions are: those of locals, and those of constants with what these name."""
        made = [Place(it.made, it.under, self.names(it, constants)) for it in self.found]
        return made + [Place(it.made, it.under, self.names(it, constants)) for it in self.asked if not self.is_plain(it)]

    def is_plain(self, place):
        """Whether a request is made on each way through the function, for no more than what is there, or a few."""
        lines, names = [place.made], LOCAL.findall(place.made)
        is_by_name = re.match(r"[\w!]+", place.made)[0] in REQUESTS
        while names and is_by_name:
            more = [it for it in self.lets.get(names.pop(0), []) if it not in lines]
            lines += more
            names += [name for it in more for name in LOCAL.findall(it)]
        if is_by_name and (any(re.match("if|match", it) for it in place.under) or {*CALL.findall(" ".join(lines))} - AMOUNTS - REQUESTS):
            return False
        return not any(COMPUTED.search(it) or any(int(number, 0) > FEW for number in NUMBER.findall(it)) for it in lines)

    def names(self, place, constants):
        is_told = place in self.asked or not place.under and place.made.endswith("?")
        text = " ".join([*place.under, place.made * is_told])
        lines = [line for name in LOCAL.findall(text) for line in self.lets.get(name, []) if line.partition(" else {")[0] not in text]
        asked = CONSTANT.findall(" ".join([text, *lines]))
        while asked:
            name = asked.pop(0)
            for line in [*constants.get(name, []), *self.lets.get(name, [])]:
                if line not in lines:
                    lines.append(line)
                    asked += CONSTANT.findall(line.partition("=")[2])
        return tuple(dict.fromkeys(it if len(it) <= MOST else f"{it[:MOST]} .." for it in lines))
