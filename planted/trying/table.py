"""The table of what came of each body: docs/notes/plants.tsv, a row a body, written by `planted/try --all` alone."""
from __future__ import annotations

import fcntl
import os
from collections.abc import Iterable, Iterator
from contextlib import contextmanager
from dataclasses import astuple, dataclass, fields
from pathlib import Path

from planted.trying.batches import Found
from planted.trying.edits import TOP

TABLE = TOP / "docs" / "notes" / "plants.tsv"
# How a body falls: at a clause or another goal of a function, by a test, by a case of ./check.
HELD = ("clause", "test", "case")


@dataclass(frozen=True)
class Row:
    """What came of a body."""

    crate: str
    body: str
    # One of HELD, or else `weakly` (where a proof by hand no longer fits), `through`, `untold` or `broken`.
    how: str
    # The function that is refused, or the crate of tests.
    where: str
    # The goals of the function that aren't proved, the test or the case.
    what: str
    seconds: str
    commit: str

    @property
    def key(self) -> str:
        return f"{self.crate}/{self.body}"

    @property
    def goals(self) -> frozenset[str]:
        return frozenset(self.what.split()) if self.how == "clause" else frozenset([self.what])

    def is_met_by(self, other: Row) -> bool:
        """Whether what came of the body is what this row expects: no less is refused, at the same place.

        Of a program of cases it may be any of its lines.
        """
        is_at_any_line = self.how == "test" and (TOP / "crates" / self.where / "src" / "main.rt").exists()
        return (self.how, self.where) == (other.how, other.where) and (is_at_any_line or self.goals <= other.goals)


HEADS = tuple(field.name for field in fields(Row))


def row_of(found: Found, commit: str) -> Row:
    """The row of a body that the prover judged."""
    how = {"refused": "clause"}.get(found.kind, found.kind)
    what = " ".join(sorted(found.goals)) or " ".join(found.why.split())[:160]
    return Row(found.edit.crate, found.edit.name, how, found.function, what, f"{found.seconds:.0f}", commit)


def read(file: Path = TABLE) -> dict[str, Row]:
    """The rows of a table, by crate and body."""
    if not file.exists():
        return {}
    lines = file.read_text(encoding="utf-8").splitlines()[1:]
    return {row.key: row for row in (Row(*line.split("\t")) for line in lines)}


def write(rows: Iterable[Row], file: Path = TABLE) -> None:
    lines = ["\t".join(HEADS)] + ["\t".join(astuple(row)) for row in sorted(rows, key=lambda row: row.key)]
    file.write_text("\n".join(lines) + "\n", encoding="utf-8")


@contextmanager
def locked(file: Path) -> Iterator[dict[str, Row]]:
    """The rows of a table that other processes write, too: what is done to them is written."""
    lock = os.open(file.parent, os.O_RDONLY)
    try:
        fcntl.flock(lock, fcntl.LOCK_EX)
        rows = read(file)
        yield rows
        write(rows.values(), file)
    finally:
        os.close(lock)


def keep(row: Row, file: Path = TABLE) -> None:
    """Puts a row into a table."""
    with locked(file) as rows:
        rows[row.key] = row


def keep_only(keys: set[str], file: Path = TABLE) -> None:
    """Takes the rows of other bodies out of a table."""
    with locked(file) as rows:
        for key in rows.keys() - keys:
            del rows[key]
