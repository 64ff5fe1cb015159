"""Where a line that spells no command is at fault, and what is wrong there. The formats' rules, by the table of the grammar."""
from __future__ import annotations

import difflib
import re
from dataclasses import dataclass

from script_lines import LARGEST, NUMBER, PATTERNS, PERHAPS, SWITCH
from script_model import LONGEST_LINE

from tool.grammar import PORT_OPTIONS, PUBLISHING, STEP_VERBS, VERBS, Kind, Verb, kind_in_words, least_of, options_of, settings_of
from tool.notes import readable

BOM = b"\xef\xbb\xbf"
SHOWN = 40
MOST_ATTRIBUTES, LONGEST_KEY, LONGEST_VALUE, LONGEST_NAME = 8, 64, 256, 255


@dataclass
class Fault(Exception):
    """What is wrong, and in which column, counted in bytes from 1."""

    column: int
    text: str


def refuse(holds, column: int, text: str):
    if holds:
        raise Fault(column, text)


@dataclass
class Word:
    text: bytes
    column: int

    @property
    def shown(self) -> str:
        """The word as text that is safe to print, cut where it is long."""
        return readable(self.text, SHOWN)

    def after(self, count: int) -> Word:
        """What stands behind so many bytes of the word."""
        return Word(self.text[count:], self.column + count)

    def parts(self, mark: bytes) -> list[Word]:
        """The word's parts between marks of one byte."""
        parts = re.finditer(rb"(?:^|(?<=%b))[^%b]*" % (mark, mark), self.text)
        return [Word(it[0], self.column + it.start()) for it in parts]


def meant(word: bytes, known) -> str:
    """`, did you mean ..`, where one of the known words is near."""
    near = difflib.get_close_matches(word.decode("latin-1").lower(), list(known), 1, 0.6)
    return f'; did you mean "{near[0]}"?' if near else ""


def check_number(word: Word):
    if re.fullmatch(rb"0|[1-9][0-9]*", word.text):
        refuse(int(word.text[:40]) > LARGEST, word.column, f"{word.shown} is above {LARGEST}, the largest number")
        return
    refuse(re.fullmatch(rb"0[0-9]+", word.text), word.column, f"{word.shown} has a leading zero")
    refuse(not word.text, word.column, "a number is missing")
    why = ": numbers are decimal, with no sign and no point" if re.match(rb"[-+.0-9]", word.text) else ""
    raise Fault(word.column, f'"{word.shown}" isn\'t a number{why}')


def check_made(kind: Kind, word: Word):
    letter = word.text[:1].decode("latin-1")
    if not letter or letter not in kind.letters or not word.text[1:2].isdigit():
        raise Fault(word.column, f'expected {kind.words} such as {kind.example}, not "{word.shown}"')
    check_number(word.after(1))


def check_visible(word: Word, what: str):
    hidden = re.search(rb"[^!-~]", word.text)
    if hidden:
        byte = f"{what} has the byte {hidden[0][0]:#04x}; it may have 0x21 to 0x7e, which is ASCII without space"
        raise Fault(word.column + hidden.start(), byte)


def check_name(word: Word):
    refuse(not word.text, word.column, "the name is empty")
    if len(word.text) > LONGEST_NAME:
        raise Fault(word.column + LONGEST_NAME, f"the name has {len(word.text)} bytes, and {LONGEST_NAME} are the most")
    check_visible(word, "the name")


def check_pattern(word: Word):
    if word.text.decode("latin-1") not in PATTERNS:
        raise Fault(word.column, f'"{word.shown}" isn\'t a pattern: ps, ev or rr{meant(word.text, PATTERNS)}')


def check_value(key: str, kind, word: Word):
    value = word.text.decode("latin-1")
    refuse(not value, word.column, f"{key}= needs {kind_in_words(kind)}")
    refuse(kind == SWITCH and value not in ("0", "1"), word.column, f'{key} is 0 or 1, and "{word.shown}" is neither')
    if isinstance(kind, tuple) and value not in kind:
        raise Fault(word.column, f'{key} is {kind_in_words(kind)}, not "{word.shown}"{meant(word.text, kind)}')
    if kind == NUMBER or (kind == PERHAPS and value != "off"):
        check_number(word)


def elsewhere(key: str) -> str:
    """Which services or ports have an option of this key, if any."""
    places = [f"{it} services" for it in PATTERNS if key in settings_of(it)]
    places += [f"a {verb}" for verb, options in PORT_OPTIONS.items() if key in options]
    return f": it is one of {' and of '.join(places)}" if places else ""


def check_options(words: list[Word], kinds: dict, of: str):
    seen = set()
    for word in words:
        key, equals, _ = word.text.partition(b"=")
        name = key.decode("latin-1")
        if not equals:
            hint = f"; did you mean {name}=..?" if name in kinds else meant(key, kinds)
            raise Fault(word.column, f'expected an option KEY=VALUE of {of}, not "{word.shown}"{hint}')
        refuse(name not in kinds, word.column, f'"{Word(key, 0).shown}" isn\'t an option of {of}{elsewhere(name) or meant(key, kinds)}')
        if name in seen:
            is_same = sum(it.text == word.text for it in words) > 1
            raise Fault(word.column, f"{word.shown if is_same else f'{name}='} is given twice")
        seen.add(name)
        check_value(name, kinds[name], word.after(len(key) + 1))


def check_attribute(verb: str, word: Word):
    key, equals, value = word.text[1:].partition(b"=")
    refuse(not key, word.column + 1, "the key of an attribute is empty")
    if len(key) > LONGEST_KEY:
        raise Fault(word.column + 1 + LONGEST_KEY, f"the key of an attribute has {len(key)} bytes, and {LONGEST_KEY} are the most")
    if len(value) > LONGEST_VALUE:
        at = word.column + 2 + len(key) + LONGEST_VALUE
        raise Fault(at, f"the value of an attribute has {len(value)} bytes, and {LONGEST_VALUE} are the most")
    check_visible(word, "an attribute")
    if not equals and verb == "create":
        raise Fault(word.column, f"{word.shown} requires a key, and create defines attributes: write {word.shown}=VALUE")


def check_attributes(verb: str, words: list[Word]):
    counts = {True: 0, False: 0}
    for word in words:
        if word.text[:1] != b"@":
            what = "an option" if b"=" in word.text else f'"{word.shown}"'
            raise Fault(word.column, f"{what} after an attribute: options come first, then attributes, then lists of steps")
        check_attribute(verb, word)
        is_pair = b"=" in word.text
        counts[is_pair] += 1
        told = f"a ninth attribute {'@KEY=VALUE' if is_pair else '@KEY'}: {MOST_ATTRIBUTES} are the most"
        refuse(counts[is_pair] > MOST_ATTRIBUTES, word.column, told)


def check_step(pattern: str, word: Word):
    what, *parts = word.parts(b":")
    if what.text.decode("latin-1") not in STEP_VERBS:
        raise Fault(word.column, f'"{what.shown}" isn\'t a step: {kind_in_words(STEP_VERBS)}{meant(what.text, STEP_VERBS)}')
    verb = what.text.decode()
    refuse(not parts, word.column + len(word.text), f"the step needs a foreign node: {verb}:x1")
    refuse(len(parts) > (2 if verb in PUBLISHING else 1), parts[-1].column, f"one colon too many in the step {verb}")
    node = parts[0]
    refuse(node.text[:1] != b"x" or not node.text[1:2].isdigit(), node.column, f'expected a foreign node such as x1, not "{node.shown}"')
    check_number(node.after(1))
    if len(parts) == 2:
        options = parts[1].parts(b",")
        empty = next((it for it in options if not it.text), None)
        if empty:
            raise Fault(empty.column, f"an option is missing: {verb}:x1:KEY=VALUE,..")
        check_options(options, settings_of(pattern), f"{pattern} services")


def check_lists(pattern: str, words: list[Word]):
    last, empty = 0, None
    for word in words:
        if word.text[:1] != b"|":
            check_step(pattern, word)
            empty = None
            continue
        if empty:
            break
        check_number(word.after(1))
        at = int(word.text[1:])
        refuse(at == 0, word.column, "storage operations are counted from 1, not from 0")
        refuse(at <= last, word.column, f"the list |{at} comes after |{last}: lists are in rising order")
        last, empty = at, word
    if empty:
        raise Fault(empty.column, f"the list {empty.shown} has no step")


def check_service(verb: str, pattern: str, words: list[Word]):
    """What stands behind the name of a service: options, attributes, lists."""
    first_list = next((at for at, it in enumerate(words) if it.text[:1] == b"|"), len(words))
    first_attribute = next((at for at, it in enumerate(words[:first_list]) if it.text[:1] == b"@"), first_list)
    check_options(words[:first_attribute], options_of(verb, pattern), f"{pattern} services")
    check_attributes(verb, words[first_attribute:first_list])
    check_lists(pattern, words[first_list:])


def check_operands(verb: Verb, words: list[Word], end: int):
    pattern = ""
    for at, kind in enumerate(verb.operands):
        rest = words[at:]
        if kind is Kind.SETTINGS:
            return check_service(verb.name, pattern, rest)
        if verb.name in PORT_OPTIONS and at:
            return check_options(rest, options_of(verb.name, None), f"a {verb.name}")
        refuse(not rest and kind is not Kind.VALUES, end, f"{kind.words} such as {kind.example} is missing: {verb.form}")
        if kind is Kind.VALUES or kind is Kind.STEPS:
            for it in rest:
                check_number(it) if kind is Kind.VALUES else check_step(pattern, it)
            return None
        if kind.letters:
            check_made(kind, words[at])
        elif kind is Kind.PATTERN:
            check_pattern(words[at])
            pattern = words[at].text.decode()
        else:
            (check_name if kind is Kind.NAME else check_number)(words[at])
    if len(words) > len(verb.operands):
        extra = words[len(verb.operands)]
        hint = ": a comment has a line of its own" if extra.text[:1] in (b"#", b"/") else f": {verb.form}"
        raise Fault(extra.column, f'"{extra.shown}" is one word too many{hint}')


def check_spaces(line: bytes, number: int):
    """What goes wrong before any word is looked at."""
    if line.startswith(BOM):
        where = "the file begins with" if number == 1 else "the line begins with"
        raise Fault(1, f"{where} a byte order mark (EF BB BF): save it as UTF-8 without BOM")
    refuse(line.startswith((b"\xff\xfe", b"\xfe\xff")), 1, "the file is in UTF-16: save it as UTF-8 without BOM")
    if line.endswith(b"\r"):
        hint = "the file has Windows line ends (CRLF); `sed 's/\\r$//' FILE` makes them plain"
        raise Fault(len(line), f"a carriage return ends the line: {hint}")
    refuse(not line, 1, "the line is empty (`--comments` ignores such lines)")
    refuse(b"\t" in line, line.find(b"\t") + 1, "a tab: words are separated by one space")
    refuse(line.startswith((b"#", b"//")), 1, "scripts have no comments (`--comments` ignores lines that begin with #)")
    refuse(line.startswith(b" "), 1, "a space before the first word")
    refuse(b"  " in line, line.find(b"  ") + 2, "two spaces: words are separated by one")
    refuse(line.endswith(b" "), len(line), "a space after the last word")


def check_line(line: bytes, size: int, number: int):
    """A longer line may be handed in cut, with its size."""
    refuse(size > LONGEST_LINE, LONGEST_LINE + 1, f"the line has {size} bytes, and {LONGEST_LINE} are the most")
    check_spaces(line, number)
    verb, *words = Word(line, 1).parts(b" ")
    name = verb.text.decode("latin-1")
    refuse(name not in VERBS, 1, f'"{verb.shown}" isn\'t a command{meant(verb.text, VERBS)}')
    check_operands(VERBS[name], words, len(line) + 1)


def fault_of(line: bytes, size: int | None = None, number: int = 1) -> Fault | None:
    """What is wrong with a line, or None where it spells a command."""
    try:
        check_line(line, len(line) if size is None else size, number)
    except Fault as fault:
        return fault
    return None


def remarks_on(line: bytes) -> list[str]:
    """What a line that spells a command asks otherwise than it may seem: numbers that count as larger ones."""
    if b"=0" not in line:
        return []
    verb, *words = line.decode("latin-1").split(" ")
    if verb in ("create", "open_or_create"):
        settings = [it for it in words[3:] if it.endswith("=0") and it[0] not in "@|" and ":" not in it]
        return [f"{it} counts as {least_of(words[1], it[:-2])}" for it in settings if least_of(words[1], it[:-2]) not in (None, 0)]
    if verb == "subscriber" and "buffer=0" in words:
        return ["buffer=0 counts as 1"]
    return ["slots=0 counts as 1"] if verb == "publisher" and "slots=0" in words else []
