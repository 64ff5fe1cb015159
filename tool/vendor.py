"""Copies crates, with those that they depend on, into a repository of your own: `./vendor FOLDER NAME..`.

What is copied is each crate's code, definitions and proofs, with the licence and a record of what was taken. Nothing is written unless
all of it can be.
"""
from __future__ import annotations

import argparse
import contextlib
import hashlib
import json
import os
import re
import subprocess
import sys
import tempfile
from dataclasses import asdict, dataclass
from pathlib import Path
from typing import NoReturn

from tool import TOP, VERSION
from tool.files import put

MISUSED, NO_FOLDER = 64, 66
# No part of a library: what rt makes, and the planted faults.
LEFT_OUT = ("out", "must-fail", "BUILD.bazel")
# In the user's repository: our licence under its own names, and what was taken.
BESIDE = Path("third_party", "kohepuri")
RECORD = BESIDE / "vendored.json"
LICENCE_FILES = ("LICENSE", "NOTICE")
LICENCE = "LICENSE and NOTICE"

ABOUT = """\
Copies the crates NAME.. of this repository, and those that they depend on,
into FOLDER/crates, and appends their lines to FOLDER/crates.txt. LICENSE,
NOTICE and a record of what was taken go into FOLDER/third_party/kohepuri.
Crates of tests alone (.._rows), planted faults and built files aren't copied."""
RULES = """\
FOLDER is the top of your repository and must exist. A crate that exists there
with the same text is kept. If its text differs, it is refused and nothing is
written. If a crate needs the file HANDLES, one line says what to write there.

status: 0 everything was copied; 3 Python is older than 3.9; 64 wrong arguments,
  an unknown crate, one that differs from ours, or a struct that isn't
  supported; 66 a file or FOLDER can't be read or written
A program of your own, step by step: docs/USING.md"""


def stop(status: int, why: str) -> NoReturn:
    print(f"vendor: {why}", file=sys.stderr)
    sys.exit(status)


def text_of(file: Path) -> str:
    try:
        return file.read_text(encoding="utf-8")
    except UnicodeError:
        stop(NO_FOLDER, f"{file} has bytes that aren't UTF-8")


def lines_of(file: Path) -> dict[str, str]:
    """Returns the line of each crate that a crates.txt names, as the file has it."""
    lines = text_of(file).splitlines() if file.exists() else []
    named = [(re.match(r"\s*([\w/-]+)", it), it) for it in lines]
    return {name[1]: it for name, it in named if name}


def words_of(line: str | None) -> list[str]:
    """Returns what a line of crates.txt says, without its layout and its comment."""
    return re.findall(r"[^\s,:]+|:", (line or "").partition("#")[0])


def has_tests_alone(crate: str) -> bool:
    return crate.endswith("_rows")


def with_those_below(names: list[str], lines: dict[str, str]) -> list[str]:
    """Returns the crates and all that they depend on, in the order of our crates.txt."""
    wanted, asked = set(), list(names)
    while asked:
        crate = asked.pop()
        if crate not in wanted:
            wanted.add(crate)
            asked += [it for it in words_of(lines[crate])[1:] if it in lines]
    return [it for it in lines if it in wanted]


def texts_of(crate: Path) -> dict[str, bytes] | None:
    """Returns the files of a crate's folder that belong to it as a library, by their paths, or None where there is no folder."""
    if not crate.exists():
        return None
    parts = [it for it in crate.iterdir() if it.name not in LEFT_OUT]
    files = [it for part in parts for it in (part, *part.rglob("*")) if it.is_file()]
    return {it.relative_to(crate).as_posix(): it.read_bytes() for it in files}


@dataclass(frozen=True)
class Part:
    """A crate, or the licence with its notice, as it is here or in the user's repository."""

    folder: Path
    files: dict[str, bytes] | None
    line: str | None = None

    def sum(self) -> str:
        """Returns a sum of all that can be edited: each file, and what the crate's line says."""
        files = {path: hashlib.sha256(data).hexdigest() for path, data in (self.files or {}).items()}
        return hashlib.sha256(json.dumps([words_of(self.line), files], sort_keys=True).encode()).hexdigest()


@dataclass(frozen=True)
class Repository:
    """This repository, or the user's."""

    top: Path
    licence: Path
    lines: dict[str, str]

    def part(self, name: str) -> Part:
        if name == LICENCE:
            files = {it: (self.licence / it).read_bytes() for it in LICENCE_FILES if (self.licence / it).exists()}
            return Part(self.licence, files or None)
        crate = self.top / "crates" / name
        return Part(crate, texts_of(crate), self.lines.get(name))


@dataclass(frozen=True)
class Record:
    """What was taken when, as the file in the user's repository has it: `copied` has the sum of each part."""

    project: str
    version: str
    commit: str | None
    source: str
    copied: dict[str, str]

    def of_commit(self) -> str:
        return f"commit {self.commit}, {self.source}" if self.commit else self.source


@dataclass(frozen=True)
class Step:
    """One part: ours, what is there, and the sum of what was copied before, if it was."""

    name: str
    ours: Part
    there: Part
    copied: str | None

    def has_other_line(self) -> bool:
        return self.there.line is not None and words_of(self.there.line) != words_of(self.ours.line)

    def differs(self) -> bool:
        return self.has_other_line() or self.there.files not in (None, self.ours.files)

    def is_edited(self) -> bool:
        return self.differs() and self.there.sum() != self.copied


def ask_git(*words: str) -> str | None:
    """Returns what git says of this checkout, or None where it says nothing."""
    # A hook of the user's repository that calls this names that repository to git.
    environment = {it: os.environ[it] for it in os.environ if it not in ("GIT_DIR", "GIT_WORK_TREE", "GIT_INDEX_FILE")}
    asked = ["git", "--no-optional-locks", "-C", str(TOP), *words]
    with contextlib.suppress(OSError):
        ran = subprocess.run(asked, capture_output=True, text=True, env=environment)
        return ran.stdout.strip() if not ran.returncode else None
    return None


def source() -> tuple[str | None, str]:
    """Returns the commit that is copied from, and what is to be known of it."""
    if not (TOP / ".git").exists():
        return None, "no git checkout"
    commit, changes = ask_git("rev-parse", "HEAD"), ask_git("status", "--porcelain", "--untracked-files=normal")
    if commit is None or changes is None:
        return None, "a git checkout whose commit git doesn't tell"
    return commit, "a git checkout with local changes" if changes else "a git checkout"


def read_record(file: Path) -> Record | None:
    if not file.exists():
        return None
    with contextlib.suppress(TypeError, ValueError):
        record = Record(**json.loads(file.read_text(encoding="utf-8")))
        if isinstance(record.copied, dict):
            return record
    stop(NO_FOLDER, f"{file}: not as ./vendor wrote it")


def refuse_other_commit(folder: Path, ours: Repository, record: Record | None) -> None:
    """Crates of two commits may not fit one another."""
    if record is None:
        return
    for name, copied in record.copied.items():
        if name not in (LICENCE, *ours.lines) or ours.part(name).sum() != copied:
            differs = f"this repository's text of {name} differs from the one that ./vendor copied into {folder} ({record.of_commit()})"
            stop(MISUSED, f"{differs}: call ./vendor --update {folder} first")


def refuse_what_differs(folder: Path, steps: list[Step], is_forced: bool) -> None:
    for it in steps:
        if it.copied is None and it.has_other_line():
            told = f"`{it.there.line}`, and ours is `{it.ours.line}`"
            stop(MISUSED, f"{folder / 'crates.txt'} has another line for {it.name}: {told}")
        if it.copied is None and it.differs():
            stop(MISUSED, f"{it.there.folder} exists already, and its files differ from ours: move it away or rename it")
    edited = [it.name for it in steps if it.is_edited()]
    if edited and not is_forced:
        told = f"in {folder} these differ from what ./vendor copied there: {', '.join(edited)}"
        stop(MISUSED, f"{told}; ./vendor --update --force {folder} replaces them with ours")


def refuse_files_in_the_way(folder: Path) -> None:
    for it in (folder / "crates", folder / BESIDE.parent, folder / BESIDE):
        if it.exists() and not it.is_dir():
            stop(NO_FOLDER, f"{it}: not a directory")


def write_files(to: Path, files: dict[str, bytes]) -> None:
    """Writes files into a folder, all of them beside it first. A new folder gets its name when it is whole."""
    to.parent.mkdir(parents=True, exist_ok=True)
    with tempfile.TemporaryDirectory(prefix=".vendor-", dir=to.parent) as kept:
        fresh = Path(kept) / to.name
        for path, data in files.items():
            (fresh / path).parent.mkdir(parents=True, exist_ok=True)
            (fresh / path).write_bytes(data)
        if not to.exists():
            fresh.rename(to)
            return
        for path in files:
            (to / path).parent.mkdir(parents=True, exist_ok=True)
            (fresh / path).replace(to / path)


def remove_files(folder: Path, paths: list[str]) -> None:
    """Removes files, and the folders that are empty then."""
    for path in paths:
        (folder / path).unlink()
        with contextlib.suppress(OSError):
            for it in list(Path(path).parents)[:-1]:
                (folder / it).rmdir()


def put_files(step: Step) -> str:
    """Writes what is other in ours, and returns what changed. What was edited may have files of the user's, which stay."""
    ours, there = step.ours.files or {}, step.there.files
    if there == ours:
        return "kept"
    fresh = {path: data for path, data in ours.items() if (there or {}).get(path) != data}
    write_files(step.there.folder, fresh)
    if there is None:
        return "added"
    others = sorted(there.keys() - ours.keys())
    new = len(fresh.keys() - there.keys())
    counts = [(len(fresh) - new, "changed"), (new, "new")]
    if step.is_edited():
        said = f"updated over what was edited{''.join(f', {it} left' for it in others)}"
    else:
        remove_files(step.there.folder, others)
        counts.append((len(others), "removed"))
        said = "updated"
    return f"{said}, files: {', '.join(f'{number} {what}' for number, what in counts if number)}"


def put_line(listed: Path, step: Step) -> str:
    """Gives a crate its line in crates.txt, with the comment that the user has there, and returns what changed."""
    ours, there = step.ours.line, step.there.line
    if ours is None or words_of(there) == words_of(ours):
        return ""
    lines = text_of(listed).splitlines() if listed.exists() else []
    if there is None:
        lines.append(ours)
    else:
        said = there.partition("#")[0].rstrip()
        lines = [ours + there[len(said) :] if it == there else it for it in lines]
    put(listed.resolve(), "".join(f"{it}\n" for it in lines).encode())
    return f", its line {'added to' if there is None else 'changed in'} crates.txt"


def words_of_handles(file: Path) -> set[str]:
    text = file.read_text(encoding="utf-8", errors="replace") if file.exists() else ""
    return set(re.findall(r"\w+", text.partition(":")[2]))


def tell_of_handles(folder: Path, steps: list[Step]) -> None:
    """Says which line the user's HANDLES needs: which handles a repository allows is its owner's to say."""
    crates = [it.name for it in steps if any(word.startswith(("may_wait=", "tests_may=")) for word in words_of(it.ours.line))]
    if crates and not words_of_handles(TOP / "HANDLES") <= words_of_handles(folder / "HANDLES"):
        line = (TOP / "HANDLES").read_text(encoding="utf-8").strip()
        print(f"{folder / 'HANDLES'}: write the line '{line}' into it, since {', '.join(crates)} may wait or start threads")


def refuse_names(names: list[str], lines: dict[str, str]) -> None:
    for name in names:
        if name not in lines:
            stop(MISUSED, f"there is no crate {name}: ./vendor --list names them")
        if has_tests_alone(name):
            stop(MISUSED, f"{name} has tests alone, and nothing to use")


def names_to_update(folder: Path, record: Record | None, ours: Repository) -> list[str]:
    if record is None:
        stop(MISUSED, f"{folder / RECORD} isn't there, so nothing says what to update: name crates, ./vendor {folder} NAME..")
    return [it for it in record.copied if it in ours.lines]


def write_record(folder: Path, before: Record | None, copied: dict[str, str]) -> str:
    record = Record("Kohepuri", VERSION, *source(), copied)
    put((folder / RECORD).resolve(), (json.dumps(asdict(record), indent=2) + "\n").encode())
    was = f"; before: {before.of_commit()}" if before and before.of_commit() != record.of_commit() else ""
    return f"{RECORD}: {record.of_commit()}{was}"


def vendor(folder: Path, names: list[str], is_update: bool, is_forced: bool) -> None:
    """Copies what is missing in the folder, or what is other, and says of each part what became of it."""
    refuse_files_in_the_way(folder)
    ours = Repository(TOP, TOP, lines_of(TOP / "crates.txt"))
    theirs = Repository(folder, folder / BESIDE, lines_of(folder / "crates.txt"))
    record = read_record(folder / RECORD)
    copied = record.copied if record else {}
    if is_update:
        names = names_to_update(folder, record, ours)
    else:
        refuse_names(names, ours.lines)
        refuse_other_commit(folder, ours, record)
    wanted = [LICENCE, *with_those_below(names, ours.lines)]
    steps = [Step(it, ours.part(it), theirs.part(it), copied.get(it)) for it in wanted]
    refuse_what_differs(folder, steps, is_forced)
    told = [f"{it.name}: {put_files(it)}{put_line(folder / 'crates.txt', it)}" for it in steps]
    still = {**({} if is_update else copied), **{it.name: it.ours.sum() for it in steps}}
    told += [f"{name}: left, as this repository no longer has it" for name in copied if name not in still]
    told.append(write_record(folder, record, still))
    # All is written by now, whoever reads this or not.
    print("\n".join(told))
    tell_of_handles(folder, steps)


class Parser(argparse.ArgumentParser):
    def error(self, message: str) -> NoReturn:
        stop(MISUSED, f"{message}: see ./vendor --help")


def arguments() -> Parser:
    made = Parser(
        prog="./vendor",
        usage="./vendor FOLDER NAME..  |  --update [--force] FOLDER  |  --list  |  --struct FILE",
        description=ABOUT,
        epilog=RULES,
        allow_abbrev=False,
        formatter_class=lambda prog: argparse.RawDescriptionHelpFormatter(prog, max_help_position=14, width=80),
    )
    made.add_argument("folder", metavar="FOLDER", nargs="?", help=argparse.SUPPRESS)
    made.add_argument("names", metavar="NAME", nargs="*", help=argparse.SUPPRESS)
    made.add_argument("--update", action="store_true", help="copies again what the record names")
    made.add_argument("--force", action="store_true", help="with --update: also replaces what you edited")
    made.add_argument("--list", action="store_true", help="lists the crates")
    made.add_argument("--struct", metavar="FILE", help="writes what the structs of FILE.rt need to be sent, into FILE_words.rt")
    return made


def refuse_misuse(given: argparse.Namespace, parser: Parser) -> None:
    if (given.list or given.struct) and (given.folder or given.update or given.force or given.list and given.struct):
        parser.error(f"--{'list' if given.list else 'struct'} is used alone")
    if given.force and not given.update:
        parser.error("--force is for --update")
    if given.update and (given.names or not given.folder):
        parser.error("--update takes a folder and no names")
    if not given.list and not given.struct and not given.update and not given.names:
        parser.error("a folder and at least one crate are wanted: ./vendor FOLDER NAME..")
    if given.folder and Path(given.folder).resolve() == TOP:
        parser.error(f"{given.folder} is this repository itself")


def write_structs(source: Path) -> None:
    """Writes what the structs of a file need, and says which lines the module's parent needs."""
    # Only this asks for it, so that a copy of this script does without.
    from tool import structs

    try:
        made = structs.write_for(source, text_of(source))
    except structs.NotTaken as why:
        stop(MISUSED, f"{source}{f':{why.line}' if why.line else ''}: {why}")
    except OSError as error:
        stop(NO_FOLDER, f"{error.filename or source}: {error.strerror}")
    print(f"wrote {made}: name it beside `mod {source.stem};` by `mod {made.stem};`")


def run(given: argparse.Namespace) -> None:
    if given.struct:
        return write_structs(Path(given.struct))
    if given.list:
        return print("\n".join(it for it in lines_of(TOP / "crates.txt") if not has_tests_alone(it)))
    folder = Path(given.folder)
    if not folder.is_dir():
        stop(NO_FOLDER, f"{folder}: {'not a directory' if folder.exists() else 'no such directory'}")
    try:
        vendor(folder, given.names, given.update, given.force)
    except BrokenPipeError:
        raise
    except OSError as error:
        stop(NO_FOLDER, f"{error.filename or folder}: {error.strerror}")


def main() -> int:
    try:
        try:
            parser = arguments()
            given = parser.parse_args()
            refuse_misuse(given, parser)
            run(given)
        finally:
            sys.stdout.flush()
    except OSError as error:
        # All is done by now. If nobody reads what was done, that is no failure.
        os.dup2(os.open(os.devnull, os.O_WRONLY), 1)
        if not isinstance(error, BrokenPipeError):
            stop(NO_FOLDER, f"standard output: {error.strerror}")
    return 0
