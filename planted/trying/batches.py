"""Tries many edits of a crate at once: each changes functions of its own, and the prover says of each function whether it is proved.

A caller rests on what a function ensures and never on its body, so one edit changes nothing for the others. What the prover's answer
leaves open is asked again in a smaller batch, in the end alone.
"""
from __future__ import annotations

import os
import re
import shutil
import tempfile
from collections.abc import Iterator
from dataclasses import dataclass, replace
from pathlib import Path

from planted.trying import callees, prover
from planted.trying.definitions import laws_near
from planted.trying.edits import TOP, Edit, changed, fault_of, write
from planted.trying.functions import asked_about
from planted.trying.prover import Answer, Libraries, Verdict

# As many edits at once at most: each leaves open goals, which take memory. What the prover reads first takes some 20 seconds a run.
MOST_AT_ONCE = 32
PARTS = ("src", "specs", "proofs")


@dataclass(frozen=True)
class Found:
    """What came of an edit: `refused`, `weakly`, `through`, `untold`, `broken` (it doesn't compile) or `unfit`."""

    edit: Edit
    kind: str
    asked: tuple[str, ...] = ()
    function: str = ""
    goals: tuple[str, ...] = ()
    why: str = ""
    seconds: float = 0.0


@dataclass
class Wanted:
    """An edit, and the functions to ask about: None for the whole crate."""

    edit: Edit
    asked: tuple[str, ...] | None
    is_alone: bool = False


def wanted_of(edits: list[Edit], crate: str, libraries: Libraries, known: dict[str, tuple[str, ...]]) -> Iterator[Wanted | Found]:
    """What to ask about each edit; `known` has the functions that refused some before."""
    folder, names = TOP / "crates" / crate, libraries.functions(crate)
    for edit in edits:
        fault = fault_of(edit, folder)
        if fault:
            yield Found(edit, "unfit", why=fault)
            continue
        asked = asked_about(edit, folder, names)
        before = known.get(edit.key, ())
        # An edit that was written anew may change another function than the one that refused it.
        is_of_edit = not asked.paths or overlaps(before, set(asked.paths))
        yield Wanted(edit, (before if is_of_edit else ()) or asked.paths or None, not asked.is_bodies)


def batches(wanted: list[Wanted]) -> Iterator[list[Wanted]]:
    """Splits what is wanted so that no function is changed twice in a batch."""
    alone = [it for it in wanted if it.is_alone]
    left = [it for it in wanted if not it.is_alone]
    while left:
        batch: list[Wanted] = []
        taken: set[str] = set()
        later = []
        for it in left:
            if len(batch) < MOST_AT_ONCE and not overlaps(it.asked or (), taken):
                batch.append(it)
                taken.update(it.asked or ())
            else:
                later.append(it)
        yield batch
        left = later
    for it in alone:
        yield [it]


def overlaps(asked: tuple[str, ...], taken: set[str]) -> bool:
    """Whether a function is asked about twice, by its own name or by that of its type or module."""
    return any(one == it or one.startswith(f"{it}::") or it.startswith(f"{one}::") for one in asked for it in taken)


def copied(crate: str, scratch: Path) -> Path:
    """A copy of what the prover reads of a crate."""
    folder = scratch / crate
    for part in PARTS:
        if (TOP / "crates" / crate / part).is_dir():
            shutil.copytree(TOP / "crates" / crate / part, folder / part)
    return folder


def applied(batch: list[Wanted], folder: Path) -> tuple[list[Wanted], list[Wanted]]:
    """Changes a copy by each edit that still fits behind those before it: those, and the others."""
    fitting, others = [], []
    for it in batch:
        try:
            write(changed(it.edit, folder), folder)
            fitting.append(it)
        except ValueError:
            others.append(it)
    return fitting, others


def try_batch(crate: str, batch: list[Wanted], libraries: Libraries) -> Iterator[Found]:
    """What came of each edit of a batch."""
    with tempfile.TemporaryDirectory(prefix="planted-") as scratch:
        folder = copied(crate, Path(scratch))
        batch, later = applied(batch, folder)
        asked = None if any(it.asked is None for it in batch) else [name for it in batch for name in it.asked or ()]
        answer = ask_alone(crate, folder, libraries, asked)
        note(crate, batch, answer)
        culprits = blamed(batch, folder, answer) if not prover.verdicts(answer.said) else []
    yield from told(crate, batch, answer, culprits, libraries)
    if later:
        yield from try_batch(crate, later, libraries)


def ask_alone(crate: str, folder: Path, libraries: Libraries, asked: list[str] | None) -> Answer:
    """Asks about functions, but not about what they call in their crate, where that is known."""
    code = callees.bodies(libraries.place(crate)) if asked and libraries.is_built(crate) else {}
    if not asked or not all(it in code for it in asked):
        return prover.ask(crate, folder, libraries, asked)
    whole = folder.with_name(f"{crate}-whole")
    shutil.copytree(folder, whole)
    callees.lay_aside(crate, folder, callees.called_by(crate, asked, code))
    answer = prover.ask(crate, folder, libraries, asked, has_holes=True)
    if prover.verdicts(answer.said) or "/Proof.antt: error: " not in answer.said:
        return answer
    # Functions that call one another have a proof in common, which no hole stands for.
    again = prover.ask(crate, whole, libraries, asked)
    return Answer(again.status, again.said, answer.seconds + again.seconds)


def note(crate: str, batch: list[Wanted], answer: Answer) -> None:
    """Keeps what the prover said, where PLANTED_SAID names a folder for it."""
    kept = os.environ.get("PLANTED_SAID")
    if kept:
        names = "\n".join(f"edit: {it.edit.key} {it.asked}" for it in batch)
        file = Path(kept) / f"{crate}-{batch[0].edit.name}-{len(batch)}.txt"
        file.write_text(f"{names}\nstatus {answer.status}, {answer.seconds:.1f} s\n{answer.said}", encoding="utf-8")


def told(crate: str, batch: list[Wanted], answer: Answer, culprits: list[Wanted], libraries: Libraries) -> Iterator[Found]:
    """Reads an answer, and asks again about what it leaves open."""
    found = prover.verdicts(answer.said)
    if not found and len(batch) > 1:
        parts = [[it] for it in culprits] or [batch[: len(batch) // 2], batch[len(batch) // 2 :]]
        if culprits:
            parts.append([it for it in batch if it not in culprits])
        for part in parts:
            if part:
                yield from try_batch(crate, part, libraries)
        return
    again, share = [], answer.seconds / len(batch)
    for it in batch:
        one = result(it, found, answer, share)
        if one.kind == "open" and len(batch) > 1:
            again.append(it)
        else:
            yield one if one.kind != "open" else Found(it.edit, "untold", it.asked or (), why=one.why, seconds=share)
    for part in [again] if again and len(again) < len(batch) else [[it] for it in again]:
        yield from try_batch(crate, part, libraries)


def blamed(batch: list[Wanted], folder: Path, answer: Answer) -> list[Wanted]:
    """The edits on whose lines the compiler found a fault."""
    places = {(file, int(line)) for file, line in re.findall(r"(src/[\w/]+\.rt):(\d+):\d+", answer.said)}
    return [it for it in batch if any(stands_at(change.file, change.new, folder, places) for change in it.edit.changes)]


def stands_at(file: str, new: str, folder: Path, places: set[tuple[str, int]]) -> bool:
    if not new:
        return False
    lines = (folder / file).read_text(encoding="utf-8").splitlines() if (folder / file).is_file() else []
    return any(new in line and (file, number) in places for number, line in enumerate(lines, 1))


def result(it: Wanted, found: dict[str, Verdict], answer: Answer, share: float) -> Found:
    """What an answer says of an edit; kind `open` where it doesn't tell."""
    mine = {name: one for name, one in found.items() if it.asked is None or overlaps((name,), set(it.asked))}
    asked = it.asked or ()
    for name, one in mine.items():
        if one.kind == "refused" and not one.is_weak:
            return Found(it.edit, "refused", asked, name, one.goals, one.why, share)
    for name, one in mine.items():
        if one.kind == "refused":
            return Found(it.edit, "weakly", asked, name, one.goals, one.why, share)
    if not found:
        why = next((line for line in answer.said.splitlines() if "error" in line), answer.said[-200:])
        return Found(it.edit, "broken" if answer.status >= 0 else "untold", asked, why=why, seconds=share)
    if mine and all(one.kind == "proved" for one in mine.values()):
        is_whole = it.asked is None and answer.status != 0
        return Found(it.edit, "weakly" if is_whole else "through", asked, why=first_error(answer) if is_whole else "", seconds=share)
    return Found(it.edit, "open", asked, why=next((one.why for one in mine.values() if one.why), "no answer"), seconds=share)


def first_error(answer: Answer) -> str:
    """The first line on what isn't accepted."""
    lines = [line for line in answer.said.splitlines() if "error" in line or line.startswith("note: proofs/")]
    return lines[0] if lines else ""


def try_crate(crate: str, edits: list[Edit], libraries: Libraries, known: dict[str, tuple[str, ...]]) -> Iterator[Found]:
    """What came of each of these edits of a crate."""
    wanted = []
    for it in wanted_of(edits, crate, libraries, known):
        if isinstance(it, Found):
            yield it
        else:
            wanted.append(it)
    for batch in batches([it for it in wanted if not is_for_above(it)]):
        for found in try_near(crate, batch[0], libraries) if batch[0].asked is None else try_batch(crate, batch, libraries):
            if found.kind in ("through", "weakly") and found.edit.above:
                yield try_above(found.edit, libraries, None, found.seconds)
            else:
                yield found
    for it in wanted:
        if is_for_above(it):
            yield try_above(it.edit, libraries, it.asked, 0.0)


def try_near(crate: str, it: Wanted, libraries: Libraries) -> Iterator[Found]:
    """What came of an edit that the whole crate must judge: the functions that are likeliest to refuse it are asked before."""
    spent = 0.0
    near = laws_near(it.edit, TOP / "crates" / crate, libraries.functions(crate))
    if near:
        found = next(try_batch(crate, [Wanted(it.edit, near, is_alone=True)], libraries))
        if found.kind in ("refused", "unfit"):
            yield found
            return
        spent = found.seconds
    for found in try_batch(crate, [it], libraries):
        yield replace(found, seconds=found.seconds + spent)


def is_for_above(it: Wanted) -> bool:
    """Whether it was a function of the crate above that refused an edit before."""
    return bool(it.edit.above and it.asked and it.asked[0].startswith(f"{it.edit.above}::"))


def try_above(edit: Edit, libraries: Libraries, asked: tuple[str, ...] | None, spent: float) -> Found:
    """What comes of an edit in the crate above, which then stands on the changed text."""
    with tempfile.TemporaryDirectory(prefix="planted-") as scratch:
        folder = copied(edit.crate, Path(scratch))
        write(changed(edit, folder), folder)
        over = Libraries(libraries.over, changed={edit.crate: folder})
        answer = prover.ask(edit.above, TOP / "crates" / edit.above, over, list(asked) if asked else None)
    it = Wanted(edit, asked, is_alone=True)
    note(edit.above, [it], answer)
    found = result(it, prover.verdicts(answer.said), answer, answer.seconds + spent)
    return found if found.kind != "open" else Found(edit, "untold", asked or (), why=found.why, seconds=found.seconds)
