"""What the program is made of, and where a program that was built of it is."""
from __future__ import annotations

import contextlib
import hashlib
import os
import re
import shutil
import time
from pathlib import Path

from tool import TOP

OUT = TOP / "crates" / "iox" / "out"
# A file that changed so shortly before may change again and look the same, in nanoseconds.
TOO_FRESH = 2_000_000_000


def cache() -> Path:
    """The folder of the user's for what is built if the repository can't be written."""
    home = Path(os.environ.get("XDG_CACHE_HOME", ""))
    # By the rules of XDG a relative path isn't taken.
    home = home if home.is_absolute() else Path.home() / ".cache"
    return home / "kohepuri" / hashlib.sha256(os.fsencode(TOP)).hexdigest()[:16]


def can_make(folder: Path) -> bool:
    """Makes a folder if it isn't there, and returns whether files can be written in it."""
    with contextlib.suppress(OSError):
        folder.mkdir(parents=True, exist_ok=True)
        return os.access(folder, os.W_OK)
    return False


def place() -> Path | None:
    """The folder for what is built without proofs; None if neither can be written."""
    return next((it for it in (OUT, cache()) if can_make(it)), None)


def libraries_of_crates() -> tuple[dict, dict]:
    """Returns what crates.txt says: the line of each crate, and the crates of the repository that it names."""
    rows = [re.findall(r"[^\s,:]+", row.partition("#")[0]) for row in (TOP / "crates.txt").read_text(encoding="utf-8").splitlines()]
    lines = {row[0]: row for row in rows if row}
    return lines, {name: [it for it in row[1:] if it in lines] for name, row in lines.items()}


def crates_of_program(libraries, name="iox"):
    """Returns the crates that the program depends on, and itself, lowest first."""
    found = {}

    def visit(crate):
        if crate not in found:
            for library in libraries[crate]:
                visit(library)
            found[crate] = None

    visit(name)
    return list(found)


def sources(crate) -> list[str]:
    """Returns the paths of the files that the crate is proved and built from. Tests lie in files named `tests.rt`."""
    walked = (it for part in ("src", "specs", "proofs") for it in os.walk(f"{TOP}/crates/{crate}/{part}"))
    found = (f"{folder}/{name}" for folder, _, names in walked for name in names if name != "tests.rt")
    return sorted(it for it in found if it.endswith((".rt", ".antt")))


def toolchain() -> str | None:
    """Returns a sum of the file that says which toolchain is on the path, or None if there is none."""
    rt = shutil.which("rt")
    if rt is None:
        return None
    made_of = hashlib.sha256()
    with contextlib.suppress(OSError):
        made_of.update((Path(rt).resolve().parent.parent / "WHAT").read_bytes())
    return made_of.hexdigest()[:8]


def looks(crates, found) -> tuple[str, int]:
    """Returns how all files look from outside, in one sum, and when the last of them changed."""
    paths = [*(path for crate in crates for path in found[crate]), str(TOP / "crates.txt")]
    seen = [(path, os.stat(path)) for path in paths if os.path.exists(path)]
    shown = [f"{path} {it.st_size} {it.st_mtime_ns} {it.st_ctime_ns} {it.st_ino}" for path, it in seen]
    changed = max(max(it.st_mtime_ns, it.st_ctime_ns) for _, it in seen)
    return hashlib.sha256("\n".join(shown).encode(errors="surrogateescape")).hexdigest(), changed


def sum_of_texts(crates, found, lines) -> str:
    """Returns a sum of all sources: those of the program's crates, and their lines of crates.txt."""
    made_of = hashlib.sha256()
    for file in [Path(it) for crate in crates for it in found[crate]]:
        with contextlib.suppress(FileNotFoundError):
            made_of.update(f"{file.name} {hashlib.sha256(file.read_bytes()).hexdigest()}\n".encode())
    made_of.update(repr([lines[it] for it in crates]).encode())
    return made_of.hexdigest()[:16]


def fingerprint(crates, lines) -> str:
    """Returns that sum. The texts are read only if a file's size, times or inode differ from when the sum was taken."""
    found = {it: sources(it) for it in crates}
    now, kept = time.time_ns(), place()
    look, changed = looks(crates, found)
    if kept is None:
        return sum_of_texts(crates, found, lines)
    with contextlib.suppress(OSError, ValueError):
        old, total = (kept / "sum").read_text(encoding="ascii").split()
        if old == look:
            return total
    total = sum_of_texts(crates, found, lines)
    if changed < now - TOO_FRESH:
        with contextlib.suppress(OSError):
            fresh = kept / f"sum-{os.getpid()}"
            fresh.write_text(f"{look} {total}\n", encoding="ascii")
            fresh.replace(kept / "sum")
    return total


class Wanted:
    """The program that the present sources make: its crates, what each depends on, and its files, which exist once they are built."""

    def __init__(self):
        lines, self.libraries = libraries_of_crates()
        self.crates = crates_of_program(self.libraries)
        self.total, self.toolchain = fingerprint(self.crates, lines), toolchain()
        self.proved, self.unproved = self.file("served", OUT), self.file("unproved", place() or OUT)

    def file(self, kind: str, to: Path) -> Path:
        """The newest build of this kind, or the file that will be it. No other sources or toolchain make a program of its name.

        Without a toolchain on the path any build of these sources is as good.
        """
        name = f"{kind}-{self.total}-{self.toolchain}"
        found = [it for folder in (OUT, cache()) for it in folder.glob(name if self.toolchain else f"{kind}-{self.total}-*")]
        return max((it for it in found if not it.suffix), key=lambda it: it.stat().st_mtime, default=to / name)
