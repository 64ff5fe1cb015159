#!/usr/bin/env python3
"""Joins scripts of which the replies are known into one script for one hub: `model/join.py [--without NAME].. OUT [SCRIPT or FOLDER ..]`.

The scripts of examples/rows come first, then those that are named. A script counts what it makes from 1; joined, all go on
counting, and each has names of its own. Behind each script come lines that end what it left alive, also of foreign nodes;
only its nodes stay, which nothing ends. A script without a NAME.replies beside it gets the model's replies.

OUT/stdin and OUT/stdout are written if the model answers the joined script with just those replies; else the first
difference is printed, and the status is 1. NAME is a script's file name without its ending.
"""
import sys
from itertools import count, product
from pathlib import Path

sys.dont_write_bytecode = True
TOP = Path(__file__).resolve().parent.parent
sys.path.insert(0, str(TOP / "model"))
from script_lines import LARGEST, Faulty, read_command
from script_model import LONGEST_LINE, Life, Machine, lines_of, replies

LONGEST_NAME = 255
MADE = b"nfpslm"
SERVICE_VERBS = (b"create", b"open", b"open_or_create")


class CantBeJoined(Exception):
    """Why a script can't be joined to the others."""


def is_command(line):
    """Whether a line spells a command; what doesn't is joined as it stands."""
    try:
        return len(line) <= LONGEST_LINE and read_command(line) is not None
    except Faulty:
        return False


def place_of_name(words):
    """At which word of a command its name stands, or None."""
    return 3 if words[0] in SERVICE_VERBS else 2 if words[0] == b"foreign" else None


def place_of_number(words):
    """At which word of a command the number of something made stands, or None."""
    return None if words[0] in (b"node", b"foreign") else 1


def later(number, made):
    """A number that is so many further on; one that can never be given stays as it is."""
    return number if number == 0 or number + made > LARGEST else number + made


def renumbered_word(word, made):
    letter = word[:1].decode()
    return word[:1] + b"%d" % later(int(word[1:]), made[letter])


def renumbered(line, made):
    """The words of a command, behind so many things made of each kind."""
    words = line.split(b" ")
    at = place_of_number(words)
    return words if at is None else words[:at] + [renumbered_word(words[at], made)] + words[at + 1 :]


def renumbered_reply(reply, made):
    """A reply where so many things were made before; only `ok nK` and the like have a number of that kind."""
    words = reply.split(b" ")
    if words[0] == b"ok" and len(words) > 1 and words[1][:1] in [b"%c" % it for it in MADE] and words[1][1:].isdigit():
        words[1] = renumbered_word(words[1], made)
    return b" ".join(words)


def spellings(name, mark, room):
    """Names of at most so many bytes that may stand for this one, the best first."""
    for more in count():
        end = mark + (b".%d" % more if more else b"")
        if len(end) >= room:
            break
        yield name[: room - len(end)] + end
    yield name[:room]
    for letters in product(range(0x21, 0x7F), repeat=room):
        yield bytes(letters)


def rooms(lines, made):
    """How long each name of a script may become: no line may grow too long by it."""
    found = {}
    for at, line in enumerate(lines):
        if not is_command(line):
            continue
        words = renumbered(line, made)
        place, left = place_of_name(words), LONGEST_LINE - len(b" ".join(words))
        if place is None and left < 0:
            raise CantBeJoined(f"line {at + 1} is too long with its new number")
        if place is not None:
            name = words[place]
            found[name] = min(found.get(name, LONGEST_NAME), len(name) + left)
            if found[name] < 1:
                raise CantBeJoined(f"line {at + 1} is too long with its new number")
    return found


def new_names(lines, made, mark, taken):
    """For each name of a script one that no script has; the taken ones grow by them."""
    names = {}
    for name, room in rooms(lines, made).items():
        free = next((it for it in spellings(name, mark, room) if it not in taken), None)
        if free is None:
            raise CantBeJoined(f"there is no name of {room} bytes left for {name.decode()}")
        names[name] = free
        taken.add(free)
    return names


def rewritten(line, made, names):
    if not is_command(line):
        return line
    words = renumbered(line, made)
    place = place_of_name(words)
    if place is not None:
        words[place] = names[words[place]]
    return b" ".join(words)


def ends_of_own(machine):
    """Lines that end all that is alive but nodes, each with its reply."""
    alive = {letter: [i + 1 for i, it in enumerate(machine.made[letter]) if it is not None] for letter in "pmlsf"}
    for i in alive["p"]:
        blocked = machine.made["p"][i - 1].blocked
        if blocked is not None:
            yield f"giveup p{i}", f"ok {blocked.taken}"
    for verb, letter in [("release", "m"), ("drop", "l"), ("leave", "p"), ("leave", "s"), ("close", "f")]:
        for i in alive[letter]:
            yield f"{verb} {letter}{i}", "ok"


def ends_of_foreign(machine):
    """Lines that end what foreign nodes have under a name, each with its reply."""
    for (pattern, name), phase in machine.names.phases.items():
        if not isinstance(phase, Life):
            steps = [("giveup", phase)]
        elif phase.emptied_by is not None:
            steps = [("remove", phase.emptied_by)]
        else:
            nodes = [node for node, _ in phase.nodes]
            steps = [("leave", it) for it in nodes] + [("remove", nodes[-1])]
        for what, (letter, number) in steps:
            yield f"foreign {pattern} {name.decode()} {what}:{letter}{number}", "ok"


class Joined:
    """The joined script so far with its replies, where each line is from, and the machine that it leaves."""

    def __init__(self):
        self.machine, self.lines, self.replies, self.origins = Machine(), [], [], []
        self.taken, self.scripts, self.added = set(), 0, 0

    def line(self, line, reply, origin):
        self.lines.append(line)
        self.replies.append(reply)
        self.origins.append(origin)
        self.machine.answer(line)

    def script(self, path):
        """Appends a script, and the lines that end what it leaves."""
        script, typed = path.read_bytes(), path.with_suffix(".replies")
        lines = lines_of(script)
        wanted = typed.read_bytes().split(b"\n")[:-1] if typed.exists() else [it.encode("latin-1") for it in replies(script)]
        if len(lines) != len(wanted):
            raise CantBeJoined(f"{len(lines)} lines, and {len(wanted)} replies")
        self.scripts += 1
        made = {letter: len(values) for letter, values in self.machine.made.items()}
        names = new_names(lines, made, b".%d" % self.scripts, self.taken)
        for at, (line, reply) in enumerate(zip(lines, wanted)):
            self.line(rewritten(line, made, names), renumbered_reply(reply, made), f"{path.stem}, line {at + 1}")
        for ends in (ends_of_own, ends_of_foreign):
            for line, reply in list(ends(self.machine)):
                self.line(line.encode(), reply.encode(), f"after {path.stem}")
                self.added += 1
        if self.machine.names.phases or any(self.machine.living(letter) for letter in "fpslm"):
            raise CantBeJoined("something stays alive behind it")

    def script_bytes(self):
        return b"".join(it + b"\n" for it in self.lines)

    def reply_bytes(self):
        return b"".join(it + b"\n" for it in self.replies)

    def difference(self):
        """The first line that the model answers in another way, or None."""
        found = [it.encode("latin-1") for it in replies(self.script_bytes())]
        for i in range(max(len(found), len(self.replies))):
            got, want = [it[i] if i < len(it) else b"(nothing)" for it in (found, self.replies)]
            if got != want:
                origin, line = (self.origins[i], self.lines[i]) if i < len(self.lines) else ("the end", b"")
                return f"line {i + 1} ({origin}): {str(line)[:80]}: {got!r}, and not {want!r}"
        return None


def scripts_of(places):
    """The scripts that are named, and those in the folders that are named and below."""
    found = []
    for place in places:
        path = Path(place)
        found += sorted(path.rglob("*.iox")) if path.is_dir() else [path]
    return found


def main(words):
    without = []
    while "--without" in words[:-1]:
        at = words.index("--without")
        without.append(words[at + 1])
        del words[at : at + 2]
    paths = scripts_of([TOP / "examples" / "rows"] + words[1:])
    unknown = [it for it in without if it not in [path.stem for path in paths]] + [str(it) for it in paths if not it.is_file()]
    if not words or words[0].startswith("-") or unknown:
        print(f"no script {unknown[0]}" if unknown else __doc__.split("\n")[0], file=sys.stderr)
        return 64
    joined = Joined()
    for path in paths:
        if path.stem in without:
            continue
        try:
            joined.script(path)
        except CantBeJoined as why:
            print(f"{path}: {why}")
            return 1
    wrong = joined.difference()
    if wrong is not None:
        print(wrong)
        return 1
    out = Path(words[0])
    out.mkdir(parents=True, exist_ok=True)
    (out / "stdin").write_bytes(joined.script_bytes())
    (out / "stdout").write_bytes(joined.reply_bytes())
    print(f"{joined.scripts} scripts in {len(joined.lines)} lines, {joined.added} of them added to end what was left")
    return 0


if __name__ == "__main__":
    sys.exit(main(sys.argv[1:]))
