"""What is said of a line on standard error, beside its reply: where it is faulty, why it was skipped, what still uses a factory."""
from __future__ import annotations

import re
import sys
from argparse import Namespace
from collections import namedtuple
from functools import cache
from typing import Any

from tool import TOP
from tool.converse import Line, Output

# What is kept of a line to show it: longer lines are faulty anyway.
SHOWN = 80
# After so many lines the reason why a line was skipped isn't looked up any more.
FOLLOWED = 200_000
# An error's meaning, and what to do, is read from the page of errors, so that both say the same.
PAGE = TOP / "docs" / "ERRORS.md"
# The headings under which the errors of builders are, by how the name of their type ends; the longest first.
HEADINGS = (("OpenOrCreateError", "Opening or creating"), ("CreateError", "Creating"), ("OpenError", "Opening:"))
Meaning = namedtuple("Meaning", "heading errors when what_to_do")


def readable(text: bytes, most: int = SHOWN) -> str:
    """Returns a line or a word as text that is safe to print, cut where it is long."""
    shown = text[:most].decode(errors="backslashreplace")
    shown = "".join(it if it.isprintable() else repr(it)[1:-1] for it in shown)
    return shown + " .." * (len(text) > most)


# What is said of a line: `skip` or `StillInUse` if that is why, the text, and the column if the line is faulty there.
Told = namedtuple("Told", "kind text column")


def place_of(file: str | None, number: int, told: Told | None = None) -> str:
    """Where a line of the script is, as compilers say it, or its number alone if no FILE was named."""
    kind, column = (told.kind, told.column) if told else ("", None)
    if file is None:
        return f"line {number}" + (f", column {column}" if column else f", {kind}" * bool(kind))
    return f"{file}:{number}" + (f":{column}" if column else f": {kind}" * bool(kind))


def about(line: Line, reply: bytes, follower: Follower | None) -> list[Told]:
    """What is said of a line that got this reply."""
    is_faulty = reply.startswith((b"err faulty line", b"err line too long"))
    has_reason = reply.startswith((b"skip", b"err CloseError::StillInUse"))
    if not is_faulty and not has_reason and b"=0" not in line.text:
        return []
    from tool.explain import fault_of, remarks_on

    if is_faulty:
        fault = fault_of(line.text, line.size, line.number)
        return [Told("", fault.text, fault.column)] if fault else []
    told = [Told("", it, None) for it in remarks_on(line.text)]
    why = follower.reason(reply) if follower and has_reason else None
    return told + ([Told("skip" if reply.startswith(b"skip") else "StillInUse", why, None)] if why else [])


@cache
def meanings() -> list[Meaning]:
    """The rows of the page. Where a table has a column for the pattern, it says what the service has in the place of when."""
    heading, found = "", []
    for line in PAGE.read_text(encoding="utf-8").splitlines():
        cells = [it.strip() for it in line.strip("|").split("|")]
        if line.startswith("#"):
            heading = line.lstrip("# ")
        elif line.startswith("| ") and len(cells) == 3 and heading == "Opening: what was asked for and isn't met":
            wanted = "the same" if cells[2].startswith("another") else "less"
            found.append(Meaning(heading, cells[1], f"the service has {cells[2]}", f"ask for {wanted}, or open another service"))
        elif line.startswith("| ") and len(cells) == 3:
            found.append(Meaning(heading, *cells))
    return found


def fits(it: Meaning, error: str) -> list[bool]:
    """How well a row fits an error: by its whole name, by the type and the word inside, by the word under the heading of the type."""
    *outer, word = re.findall(r"\w+", error)
    kind = outer[-1] if outer else ""
    heading = next((heading for end, heading in HEADINGS if kind.endswith(end)), None)
    has_word = re.search(rf"\b{word}`", it.errors) is not None
    is_below = heading is not None and it.heading.startswith(heading)
    return [f"`err {error}`" in it.errors, f"{kind}::{word}`" in it.errors, has_word and is_below, has_word]


def plain(text: str) -> str:
    """The text without marks of code and links."""
    return re.sub(r"\[([^]]*)\]\([^)]*\)", r"\1", text).replace("`", "")


def meaning_of(reply: str) -> Meaning | None:
    """When the error of a reply comes and what to do, by the row that fits it best."""
    error = reply.partition(" ")[2]
    best = max(meanings(), key=lambda it: fits(it, error))
    if not any(fits(best, error)):
        return None
    return best._replace(when=plain(best.when), what_to_do=plain(best.what_to_do))


def meaning_behind(reply: bytes, told: list[Told]):
    """The row of the page of errors for an error, unless its line is faulty."""
    if not reply.startswith(b"err ") or any(it.column for it in told):
        return None
    return meaning_of(reply.decode("latin-1").rstrip("\n"))


def known(line: Line, reply: bytes, follower: Follower | None):
    """What is said of a line, the row of its error, and both in words: when the error comes, unless a reason of its own is known."""
    told = about(line, reply, follower)
    meaning = meaning_behind(reply, told)
    return told, meaning, [it.text for it in told] + ([meaning.when] if meaning and not any(it.kind or it.column for it in told) else [])


class Follower:
    """The Python model, which runs the same lines, up to the last one of which something is said."""

    def __init__(self):
        self.watched, self.ahead, self.last, self.count = None, [], "", 0

    def take(self, line: Line, _reply: bytes):
        self.count += 1
        if self.count <= FOLLOWED:
            self.ahead.append(line.text)

    def catch_up(self):
        """Returns the model after the last line that was taken."""
        if self.watched is None:
            from tool.state import Watched

            self.watched = Watched()
        for it in self.ahead:
            self.last = self.watched.answer(it)
        self.ahead = []
        return self.watched

    def reason(self, reply: bytes) -> str | None:
        """Why the last line that was taken was skipped or refused, in words, if the model answers the same."""
        if self.count > FOLLOWED:
            return f"the reason isn't looked up after line {FOLLOWED}"
        machine = self.catch_up().machine
        if self.last.encode("latin-1") != reply.rstrip(b"\n"):
            return f"the Python model answers {self.last!r} here, so the program or the model is at fault"
        return machine.reason


class Notes:
    """Writes what is said of a line after its reply."""

    def __init__(self, out: Output, follower: Follower, options: Namespace, prompts: bool, who: str = ""):
        self.out, self.follower, self.is_verbose, self.who = out, follower, options.verbose, who
        self.file, self.shows_lines = options.file, options.numbers or options.verbose
        self.is_silent = options.quiet and not self.shows_lines
        self.prompts, self.is_asked = prompts, prompts or not self.is_silent
        # What the replies are held against, if they are: of a reply that is expected nothing is said.
        self.expected: Any = None
        # What was said last, for who asks again, and hints that are given once.
        self.last, self.hints = "", set[str]()

    def without_known_hint(self, text: str) -> str:
        """The text, and its hint after a colon only the first time: the lines of one file mostly end alike."""
        said, _, hint = text.partition(": the file has ")
        if hint in self.hints:
            return said
        self.hints.update({hint} - {""})
        return text

    def take(self, line: Line, reply: bytes):
        if not self.is_asked or (self.expected and self.expected.is_met and not self.shows_lines):
            return
        told = about(line, reply, self.follower)
        at, *places = [self.who + place_of(self.file, line.number, it) for it in (None, *told)]
        shown = [f"{place}: {self.without_known_hint(it.text)}" for place, it in zip(places, told)]
        if self.shows_lines and reply.startswith((b"err", b"skip")):
            shown.insert(0, f"{at}: {readable(line.text)}")
        is_open = self.prompts and not shown
        meaning = meaning_behind(reply, told) if self.is_verbose or is_open else None
        means = [f"{at}: {': '.join(filter(None, (meaning.when, meaning.what_to_do)))}"] if meaning else []
        shown += means * self.is_verbose
        self.last = "\n".join(shown or means) or self.last
        if shown and not self.is_silent:
            self.out.flush()
            print("\n".join(shown), file=sys.stderr, flush=True)
