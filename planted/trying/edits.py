"""Planted edits: what each changes, and whether it fits the text."""
from __future__ import annotations

from dataclasses import dataclass
from pathlib import Path

TOP = Path(__file__).resolve().parents[2]
PLANTED = TOP / "planted"


@dataclass(frozen=True)
class Change:
    """A text of a file, and what stands there in its place."""

    file: str
    old: str
    new: str


@dataclass(frozen=True)
class Edit:
    """A wrong body of a crate."""

    crate: str
    name: str
    path: Path
    changes: tuple[Change, ...]
    # A crate above, whose laws must refuse what the edit's own crate lets through.
    above: str = ""
    # The functions that are to refuse a changed definition, where the edit names them.
    laws: tuple[str, ...] = ()
    # The case of ./check that must notice the edit, where no clause and no test can: what it changes is a cost.
    case: str = ""
    # The crate and the test that must notice it, where no clause can, so that no others are run.
    test: tuple[str, ...] = ()

    @property
    def key(self) -> str:
        return f"{self.crate}/{self.name}"


def said_of(path: Path, key: str) -> str:
    """What an edit's line of this key says, as `above: CRATE`, `laws: FUNCTION..`, `case: NAME` and `test: CRATE NAME`."""
    lines = path.read_text(encoding="utf-8").splitlines()
    return next((line.partition(": ")[2] for line in lines if line.startswith(f"{key}: ")), "")


def changes(path: Path) -> tuple[Change, ...]:
    """The changes that an edit's file names, in its order."""
    found, file, old = [], "", ""
    for line in path.read_text(encoding="utf-8").splitlines():
        key, _, text = line.partition(": ")
        if key == "file":
            file = text
        elif key == "old":
            old = text
        elif key in ("new", "new:"):
            found.append(Change(file, old, text))
    return tuple(found)


def edit_of(path: Path) -> Edit:
    """The edit of a file: it lies in planted/CRATE or in crates/CRATE/must-fail."""
    folder = path.parent if path.parent.name != "must-fail" else path.parent.parent
    laws, test = (tuple(said_of(path, key).split()) for key in ("laws", "test"))
    return Edit(folder.name, path.stem, path, changes(path), said_of(path, "above"), laws, said_of(path, "case"), test)


def every_edit() -> list[Edit]:
    """All edits of planted/, by crate and name."""
    return [edit_of(path) for path in sorted(PLANTED.glob("*/*.edit"))]


def changed(edit: Edit, folder: Path) -> dict[str, str]:
    """The texts of a crate's files with this edit. ValueError says where it doesn't fit."""
    texts: dict[str, str] = {}
    for change in edit.changes:
        path = folder / change.file
        if change.file not in texts:
            texts[change.file] = path.read_text(encoding="utf-8") if path.is_file() else ""
        times = texts[change.file].count(change.old)
        if times != 1:
            raise ValueError(f"{times} times in {change.file}: {change.old}")
        texts[change.file] = texts[change.file].replace(change.old, change.new)
    if not texts:
        raise ValueError("it changes nothing")
    return texts


def fault_of(edit: Edit, folder: Path) -> str:
    """Why an edit can't be tried on a crate, or nothing."""
    try:
        changed(edit, folder)
    except ValueError as error:
        return str(error)
    return ""


def write(texts: dict[str, str], folder: Path) -> None:
    for file, text in texts.items():
        (folder / file).write_text(text, encoding="utf-8")
