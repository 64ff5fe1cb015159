"""Judges bodies: asks the prover, and where it doesn't refuse at a goal, the tests and cases that may notice."""
from __future__ import annotations

import subprocess
from collections.abc import Callable
from concurrent.futures import ThreadPoolExecutor
from dataclasses import dataclass
from itertools import groupby

from planted.trying import batches, tests
from planted.trying.batches import Found
from planted.trying.choosing import promised
from planted.trying.edits import TOP, Edit
from planted.trying.prover import Libraries
from planted.trying.table import Row, row_of


def by_commit() -> str:
    """The commit that rows name: the last one that changed a crate; with a + where crates differ from it. Nothing without git."""

    def git(*words: str) -> str:
        return subprocess.run(["git", *words, "--", "crates"], cwd=TOP, capture_output=True, text=True).stdout.strip()

    return git("log", "-1", "--format=%h", "--abbrev=10") + ("+" if git("status", "--porcelain") else "")


def asked_before(rows: dict[str, Row]) -> dict[str, tuple[str, ...]]:
    """The functions at which bodies were refused, so that no others are asked about."""
    return {row.key: (row.where,) for row in rows.values() if row.how == "clause" and row.where}


@dataclass
class Judge:
    """Judges bodies over built libraries, and hands on a row for each."""

    libraries: Libraries
    rows: dict[str, Row]
    take: Callable[[Row], None]
    has_tests: bool = True
    # Whether the test or case that a row names is run at once, and the prover isn't asked if that falls; or all that may notice a body.
    is_by_rows: bool = False
    are_tests_first: bool = False

    def judge(self, edits: list[Edit], jobs: int) -> None:
        """Each job has a crate at a time."""
        in_order = sorted(edits, key=lambda it: it.key)
        with ThreadPoolExecutor(jobs) as pool:
            list(pool.map(self.judge_crate, [list(mine) for _, mine in groupby(in_order, key=lambda it: it.crate)]))

    def judge_crate(self, edits: list[Edit]) -> None:
        known, by, left = asked_before(self.rows), by_commit(), []
        for edit in edits:
            fallen = self.fall_at_once(edit)
            if fallen and fallen.kind:
                self.take(Row(edit.crate, edit.name, fallen.kind, fallen.where, fallen.what, f"{fallen.seconds:.0f}", by))
            else:
                left.append(edit)
        for found in batches.try_crate(edits[0].crate, left, self.libraries, known):
            has_more = self.has_tests and not self.are_tests_first
            self.take(noticed(found, self.rows.get(found.edit.key), by) if has_more else row_of(found, by))

    def fall_at_once(self, edit: Edit) -> tests.Fallen | None:
        """What falls before the prover is asked."""
        if self.are_tests_first:
            return fall_as_before(edit, self.rows.get(edit.key)) or fall_anywhere(edit)
        return fall_as_before(edit, self.rows.get(edit.key)) if self.is_by_rows else None


def noticed(found: Found, before: Row | None, by: str) -> Row:
    """The row of a body, with what notices it where the prover refuses it at no goal."""
    row = row_of(found, by)
    if found.kind not in ("through", "weakly", "untold"):
        return row
    fallen = fall_as_before(found.edit, before) or fall_anywhere(found.edit)
    seconds = f"{found.seconds + fallen.seconds:.0f}"
    if not fallen.kind:
        return Row(row.crate, row.body, row.how, row.where, row.what, seconds, by)
    return Row(row.crate, row.body, fallen.kind, fallen.where, fallen.what, seconds, by)


def fall_as_before(edit: Edit, before: Row | None) -> tests.Fallen | None:
    """What fell before, where it falls again."""
    if before is None or before.how not in ("test", "case"):
        return None
    is_test = before.how == "test"
    fallen = tests.fall(edit, [before.where], before.what) if is_test else tests.fall_in_cases(edit, (before.what,))
    return fallen if fallen.kind else None


def fall_anywhere(edit: Edit) -> tests.Fallen:
    """What falls first: of the case on the libraries' text, which costs nothing, of the nearest tests, and of the cases that count.

    A body of each gate must fall for a test, if one notices it: a text that differs tells less of it.
    """
    if edit.case:
        return tests.fall_in_cases(edit, (edit.case,))
    if edit.test:
        return tests.fall(edit, [edit.test[0]], edit.test[1])
    spent, text, counting = 0.0, tests.CASES[:1], tests.CASES[1:]
    is_of_gate = any(edit.key in keys for keys in promised().values())
    for cases in (text, None, counting) if not is_of_gate else (None, text, counting):
        fallen = tests.fall(edit, tests.asked_about(edit.crate)) if cases is None else tests.fall_in_cases(edit, cases)
        spent += fallen.seconds
        if fallen.kind:
            break
    return tests.Fallen(fallen.kind, fallen.where, fallen.what, spent)
