"""Machines that go a step at a time: schedules as lines of `crates/script_cases`, beside the Python models of `model/step_machines.py`.

What calls take is counted too: it doesn't grow with the capacity.
"""
import sys

from cases.kit import TOP, asks_what_others_build, case, expect
from cases.programs import answered

sys.path.insert(0, str(TOP / "model"))
from step_machines import KINDS, answers, schedules

STORED = TOP / "crates" / "script_cases" / "stdout"
# Each kind of machine has so many schedules of chance, of so many lines each.
SEED, LINES = 82, 300


def stored():
    """The first line and the answered lines of each stored block of steps."""
    for block in STORED.read_text(encoding="ascii").rstrip("\n").split("\n\n"):
        _, head, *lines = block.split("\n")
        if head.startswith("steps "):
            yield head, lines


@case
def the_models_answer_the_stored_schedules_of_steps():
    for head, lines in stored():
        expect((head, answers(head, [it.partition(" -> ")[0] for it in lines])), (head, lines))
    expect({head.split(" ")[1] for head, _ in stored()}, {*KINDS})


@case
@asks_what_others_build
def schedules_of_chance_are_answered_as_the_models_answer_them():
    blocks = schedules(SEED, LINES)
    given = "\n\n".join("\n".join(it.partition(" -> ")[0] for it in block) for block in blocks)
    told = answered(f"{given}\n".encode()).decode().strip("\n").split("\n\n")
    for block, lines in zip(blocks, told):
        expect(lines.split("\n"), block)
