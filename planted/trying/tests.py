"""What else must notice a body that the prover lets through: a test, a line of a program of cases, or a case of ./check."""
from __future__ import annotations

import re
import shutil
import subprocess
import sys
import tempfile
from dataclasses import dataclass
from functools import cache
from pathlib import Path

from planted.trying import prover
from planted.trying.edits import TOP, Edit, changed, write

# How many crates of tests are asked about a body that the prover lets through.
MOST_ASKED = 3
LEFT_OUT = shutil.ignore_patterns("out", "must-fail", "__pycache__")
# The cases of ./check that look at the libraries' text, and those that count what a program takes, in the order in which they are asked.
TEXT = "each_place_of_out_of_memory_stands_in_the_table_with_its_reason"
CASES = (
    TEXT,
    "calls_that_take_no_memory_ask_for_none_and_what_ends_keeps_none",
    "a_line_takes_no_more_once_much_has_been",
    "a_line_of_each_verb_takes_what_the_table_says",
    "a_message_in_threads_asks_for_no_memory",
    "a_call_takes_no_more_at_a_larger_capacity",
    "a_call_of_a_port_in_threads_takes_no_more_at_a_larger_capacity",
    "a_call_of_a_port_in_threads_asks_for_no_memory",
)
# For each case that counts the program that it takes from the environment, with the library that names all of its own.
COUNTED = {case: ("COSTS_OF", "iox", "iox_script") for case in CASES[1:4]}
COUNTED[CASES[4]] = ("COSTS_OF_example_threads", "example_threads", "iox_lanes")
# (the libraries that a program names are those of its line in crates.txt)
COUNTED[CASES[5]] = ("COSTS_OF_script_cases", "script_cases", "")
COUNTED |= {case: ("COSTS_OF_iox_lanes_rows", "iox_lanes_rows", "iox_lanes") for case in CASES[6:]}
# The test that these two count: here it is a program of its own.
COUNTED_TEST = "crates/iox_lanes_rows/src/measured.rt"


@dataclass(frozen=True)
class Fallen:
    """What fell, by its kind (`test` or `case`), and the processor time until it did."""

    kind: str
    where: str
    what: str
    seconds: float


def is_of_tests(crate: str) -> bool:
    """Whether a crate has tests, or is a program of cases."""
    folder = TOP / "crates" / crate
    return crate.endswith("_cases") or any("#[test]" in file.read_text(encoding="utf-8") for file in folder.glob("src/**/*.rt"))


def asked_about(crate: str) -> list[str]:
    """The crates of tests that stand on a crate, the nearest first: a test that names a crate knows it best."""
    below, ways, front = prover.below_each(), {crate: 0}, [crate]
    while front:
        front = [it for it in below if it not in ways and any(one in front for one in below[it])]
        ways.update(dict.fromkeys(front, max(ways.values()) + 1))
    return sorted((it for it in ways if is_of_tests(it)), key=lambda it: ways[it])[:MOST_ASKED]


def copied(scratch: Path, crates: list[str]) -> None:
    """Copies these crates and those below them into a repository of their own."""
    below = prover.below_each()
    wanted, ends = set(), list(crates)
    while ends:
        name = ends.pop()
        if name in below and name not in wanted:
            wanted.add(name)
            ends += below[name]
    for name in sorted(wanted):
        shutil.copytree(TOP / "crates" / name, scratch / "crates" / name, ignore=LEFT_OUT)
    lines = (TOP / "crates.txt").read_text(encoding="utf-8").splitlines()
    kept = [line for line in lines if re.split(r"\W", line)[0] in wanted]
    (scratch / "crates.txt").write_text("\n".join(kept) + "\n", encoding="utf-8")
    shutil.copy(TOP / "HANDLES", scratch)
    subprocess.run(["git", "init", "-q", scratch], check=True)


def keep_one(crate: Path, *tests: str) -> None:
    """Leaves these tests of a crate alone. What is no test is not handed a runtime with all handles, so the others go as a whole."""
    names = "|".join(re.escape(test.rpartition("::")[2]) for test in tests)
    for file in crate.glob("src/**/*.rt"):
        text = file.read_text(encoding="utf-8")
        kept = re.sub(rf"(?ms)^#\[test\]\nfn (?!(?:{names})\b).*?^}}\n", "", text)
        if kept != text:
            file.write_text(kept, encoding="utf-8")


def fallen_in(crate: Path) -> tuple[str, float]:
    """The first test, or the first line of a program of cases, that is answered otherwise than it should be; and the processor time."""
    if (crate / "src" / "main.rt").exists():
        wanted = (crate / "stdout").read_text(encoding="utf-8").splitlines()
        ran = prover.timed(["rt", "try"], crate, given=crate / "stdin")
        answers = ran.said.splitlines()
        # The toolchain's own lines stand behind the program's.
        ended = "run=ended" in ran.said or len(answers) >= len(wanted)
        found = next((line for line, answer in zip(wanted, answers) if line != answer), "") if ended else ""
        return found, ran.seconds
    ran = prover.timed(["rt", "try", "--test"], crate)
    # What the prover let through needs no second proof. A test that gave no answer in its time tells nothing.
    found_test = re.search(r"^test (\S+) \.\.\. FAILED\n(?!.*no-answer)", ran.said, re.M)
    return found_test[1] if found_test else "", ran.seconds


def fall(edit: Edit, asked: list[str], test: str = "") -> Fallen:
    """The first test of these crates that falls with an edit; its kind is empty where none does."""
    seconds = 0.0
    with tempfile.TemporaryDirectory(prefix="planted-") as folder:
        scratch = Path(folder)
        copied(scratch, [edit.crate, *asked])
        write(changed(edit, scratch / "crates" / edit.crate), scratch / "crates" / edit.crate)
        for name in asked:
            crate = scratch / "crates" / name
            if test and not (crate / "src" / "main.rt").exists():
                keep_one(crate, test)
            found, took = fallen_in(crate)
            seconds += took
            if found:
                return Fallen("test", name, found, seconds)
    return Fallen("", "", "", seconds)


def is_there(case: str) -> bool:
    """Whether `./check` has a case."""
    return any(f"def {case}(" in file.read_text(encoding="utf-8") for file in [TOP / "check", *(TOP / "cases").rglob("*.py")])


def root_of(top: Path, crate: str) -> Path:
    """The root file of a program; of a crate of tests the one that is counted, with a `main` in place of the test."""
    root = top / "crates" / crate / "src" / "main.rt"
    if not root.exists():
        root.parent.with_name("counted").mkdir(exist_ok=True)
        root = root.parent.with_name("counted") / "main.rt"
        root.write_text(re.sub(r"#\[test\]\nfn \w+", "fn main", (top / COUNTED_TEST).read_text(encoding="utf-8")), encoding="utf-8")
    return root


def counted_program(top: Path, case: str) -> tuple[dict[str, str], float]:
    """The environment that names a case the program of a copy, built without proof and without checks; and what the build took."""
    variable, crate, library = COUNTED[case]
    program = top.parent / crate
    named = [library] if library else prover.below_each()[crate]
    words = ["bench/split.py", "build", crate, str(root_of(top, crate)), str(program), *named]
    took = 0.0 if program.exists() else prover.timed([sys.executable, *words], top).seconds
    return {variable: str(program)}, took


def fall_in_text(edit: Edit) -> Fallen:
    """The case on the libraries' text, if it tells of a place with an edit that it doesn't tell of without."""
    before, _ = told_of_text(edit.crate)
    after, seconds = told_of_text(edit.crate, edit)
    return Fallen("case", "check", TEXT, seconds) if after - before else Fallen("", "", "", seconds)


@cache
def told_of_text(crate: str, edit: Edit | None = None) -> tuple[frozenset[str], float]:
    """What that case tells of places, where this crate alone is there, with an edit or without; and what it took."""
    with tempfile.TemporaryDirectory(prefix="planted-") as folder:
        top = Path(folder)
        shutil.copytree(TOP / "docs", top / "docs", ignore=unread)
        shutil.copy(TOP / "crates.txt", top)
        shutil.copytree(TOP / "crates" / crate, top / "crates" / crate, ignore=LEFT_OUT)
        if edit:
            write(changed(edit, top / "crates" / crate), top / "crates" / crate)
        ran = prover.timed([sys.executable, "docs/memory.py"], top)
    return frozenset(re.findall("(?m)^(?:a new or changed place of out of memory|no place any longer): .*$", ran.said)), ran.seconds


def unread(folder: str, names: list[str]) -> list[str]:
    """What docs/memory.py doesn't read of a folder."""
    return [it for it in names if not (Path(folder) / it).is_dir() and it != "MEMORY.md" and not it.endswith(".py")]


def fall_in_cases(edit: Edit, cases: tuple[str, ...]) -> Fallen:
    """The first of these cases of ./check that fails with an edit, in a copy of the work tree."""
    seconds = 0.0
    if TEXT in cases:
        fallen = fall_in_text(edit)
        if fallen.kind:
            return fallen
        seconds, cases = fallen.seconds, tuple(it for it in cases if it != TEXT)
    if not cases:
        return Fallen("", "", "", seconds)
    with tempfile.TemporaryDirectory(prefix="planted-") as folder:
        top = Path(folder) / "top"
        shutil.copytree(TOP, top, ignore=shutil.ignore_patterns("out", "__pycache__", ".git"), symlinks=True)
        write(changed(edit, top / "crates" / edit.crate), top / "crates" / edit.crate)
        for case in filter(is_there, cases):
            if case in COUNTED and edit.crate not in prover.Libraries().reached(COUNTED[case][1]):
                # The program doesn't stand on what is changed.
                continue
            environment, took = counted_program(top, case) if case in COUNTED else ({}, 0.0)
            if not all(Path(it).exists() for it in environment.values()):
                # What isn't built can't be counted, which says nothing of the body.
                seconds += took
                continue
            ran = prover.timed(["./check", "--without-proofs", case], top, environment=environment)
            seconds += took + ran.seconds
            if re.search(rf"(?m)^FAILED {case}\b", ran.said):
                return Fallen("case", "check", case, seconds)
    return Fallen("", "", "", seconds)
