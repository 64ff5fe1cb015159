"""The tables of what lines may cost, read: scripts with lines that are counted, and what is asked of these."""
import re
from dataclasses import dataclass, field
from pathlib import Path

HERE = Path(__file__).resolve().parent
# A number in a line: of the time, or of all times, how many times that, and how many more.
NUMBER = re.compile(r"\{(\d*)([nN])(?:\+(\d+))?\}")

# How often what was there before, where a script doesn't say it.
TIMES = (10, 1_000, 10_000)


class Faulty(Exception):
    """A line of a table that says nothing."""


@dataclass
class Line:
    text: str
    is_counted: bool
    # What stands behind the bar: the word before the colon, and what is behind it.
    mark: str = ""
    why: str = ""


@dataclass
class Script:
    name: str
    once: list = field(default_factory=list)
    # As often as `each`, and before it.
    many: list = field(default_factory=list)
    each: list = field(default_factory=list)
    lines: list = field(default_factory=list)
    # How often, and what the script says of itself: `asks`, `keeps`, `takes`.
    times: tuple = TIMES
    said: dict = field(default_factory=dict)

    def before(self, times):
        """What is before the times."""
        return [at(it, times, times) for it in self.once] + [at(it, number, times) for number in range(1, times + 1) for it in self.many]

    def all_times(self, times):
        return [at(it, number, times) for number in range(1, times + 1) for it in self.each]

    def counted(self):
        return [it for it in self.lines if it.is_counted]


def at(text, number, times):
    """A line as it is at a time."""
    if "{" not in text:
        return text
    return NUMBER.sub(lambda it: str(int(it[1] or 1) * (number if it[2] == "n" else times) + int(it[3] or 0)), text)


def read(name):
    """The scripts of a table."""
    found = []
    for number, line in enumerate((HERE / name).read_text(encoding="utf-8").splitlines(), 1):
        if not line or line.startswith("#"):
            continue
        word, _, rest = line.partition(" ")
        text, _, mark = rest.strip().partition(" | ")
        if word == "==":
            found.append(Script(rest))
        elif word in ("once", "many", "each") and not mark:
            getattr(found[-1], word).append(text.strip())
        elif word in ("line", "then"):
            kind, _, why = mark.partition(": ")
            found[-1].lines.append(Line(text.strip(), word == "line", kind, why))
        elif word in ("asks", "keeps", "takes"):
            found[-1].said[word] = rest.strip()
        elif word == "times":
            found[-1].times = tuple(int(it.replace(",", "")) for it in rest.split())
        else:
            raise Faulty(f"{name}, line {number}: {line!r}")
    return found
