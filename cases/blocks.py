"""The blocks of script lines of `crates/script_cases` beside the Python model: their replies are typed, and both follow the formats."""
import re
import sys
from unittest import mock

from cases.kit import TOP, case, expect

sys.path.insert(0, str(TOP / "model"))
import script_model

STORED = TOP / "crates" / "script_cases" / "stdout"


def spoken(line):
    """The lines that a line of a block stands for, each time of it."""
    counted = re.fullmatch(r"(\d+) times (.*)", line)
    times, once = (int(counted[1]), counted[2]) if counted else (1, line)
    return [once.replace("#", str(time)).split("; ") for time in range(1, times + 1)]


def told(machine, line):
    """What the model tells a line of a block: the first time's replies, and the last one's where any differ."""
    replies = ["; ".join(machine.answer(it.encode()) for it in lines) for lines in spoken(line)]
    return replies[0] if all(it == replies[0] for it in replies) else f"{replies[0]} .. {replies[-1]}"


def answered_by_the_model(title, lines):
    """A block of script lines as the model answers it. How many reads and writes may fail isn't the model's to say."""
    room = re.match(r"expired (\d+):", title)
    with mock.patch.object(script_model, "EXPIRED_ROOM", int(room[1]) if room else script_model.EXPIRED_ROOM):
        machine = script_model.Machine()
        return [line if line == "faults" else f"{line} -> {told(machine, line)}" for line in lines]


def script_blocks():
    """The title and the answered lines of each block that has lines of a script."""
    for block in STORED.read_text(encoding="ascii").rstrip("\n").split("\n\n"):
        title, *lines = block.split("\n")
        if not title.startswith("storage") and not lines[0].startswith(("lanes ", "steps ")) and lines[0] != "hub":
            yield title, lines


@case
def the_model_answers_the_blocks_of_script_lines():
    for title, lines in script_blocks():
        typed = ["faults" if it.startswith("faults -> ") else it for it in lines]
        asked = [it.partition(" -> ")[0] for it in typed]
        expect((title, answered_by_the_model(title, asked)), (title, typed))
