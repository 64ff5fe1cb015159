"""Asks the prover about some functions of a crate, over the libraries that are built."""
from __future__ import annotations

import atexit
import os
import re
import shutil
import signal
import subprocess
import tempfile
import time
from dataclasses import dataclass, field
from functools import cache
from pathlib import Path

from planted.trying.edits import TOP
from planted.trying.functions import functions_of

# A check that takes more processor time than this, in seconds, so many times that time, or more memory than this, in bytes, has no answer.
LIMIT, MOST_TIMES, MOST_MEMORY = 2400, 6, 4 << 30


@cache
def kit() -> Path:
    """The toolchain's folder."""
    page = subprocess.run(["rt", "doc"], capture_output=True, text=True, check=True).stdout
    return Path(page.strip().splitlines()[-1]).parent


def below_each(top: Path = TOP) -> dict[str, list[str]]:
    """What each crate stands on, by crates.txt."""
    lines = [line.partition("#")[0] for line in (top / "crates.txt").read_text(encoding="utf-8").splitlines()]
    return {line.split()[0].rstrip(":"): line.split(":", 1)[1].split() for line in lines if ":" in line}


def sources(crate: Path) -> dict[str, bytes]:
    """What a library is made of."""
    files = [file for part in ("src", "specs", "proofs") for file in (crate / part).rglob("*") if file.is_file()]
    return {str(file.relative_to(crate)): file.read_bytes() for file in files}


@dataclass
class Libraries:
    """The libraries that `rt ci` built in a checkout of the same text.

    A crate that changed since, or that stands on one, is read from its source.
    """

    over: Path = TOP
    below: dict[str, list[str]] = field(default_factory=below_each)
    # The crates that are read from another folder, as their changed copies.
    changed: dict[str, Path] = field(default_factory=dict)
    known: dict[str, bool] = field(default_factory=dict)

    def place(self, crate: str) -> Path:
        return self.over / "crates" / crate / "out" / "rlib" / f"{crate}.rlib"

    def is_built(self, crate: str) -> bool:
        """Whether a crate's library is there, and is of its text and of those below it."""
        if crate not in self.known:
            is_below = all(self.is_built(it) for it in self.below[crate] if it in self.below)
            self.known[crate] = crate not in self.changed and is_below and self.is_of_text(crate)
        return self.known[crate]

    def is_of_text(self, crate: str) -> bool:
        library, folder = self.place(crate), self.over / "crates" / crate
        if not (library / "toolchain" / "checked.json").is_file():
            return False
        files = [file for part in ("src", "specs", "proofs") for file in (folder / part).rglob("*")]
        # What rt kept of an earlier run is linked into the checkout: its own times are older than the sources.
        if max(file.stat().st_mtime for file in files) > library.stat().st_ctime:
            return False
        return self.over == TOP or sources(folder) == sources(TOP / "crates" / crate)

    def functions(self, crate: str) -> list[str]:
        """The names of a crate's functions, or none where its library isn't built."""
        return functions_of(self.place(crate)) if self.is_built(crate) else []

    def reached(self, crate: str) -> list[str]:
        """The crates of the repository below a crate, each behind those that it stands on."""
        found: list[str] = []
        for it in self.below[crate]:
            if it in self.below:
                found += [one for one in [*self.reached(it), it] if one not in found]
        return found

    def flags(self, crate: str) -> list[str]:
        """What tells the prover where the libraries below a crate lie."""
        home, reached = kit(), self.reached(crate)
        read = [it for it in reached if not self.is_built(it)]
        named = {it for name in [crate, *read] for it in self.below[name] if it not in read}
        flags = ["--extern", f"std={home}/rlibs/std.rlib"]
        for it in sorted(named):
            flags += ["--extern", f"{it}={self.place(it) if it in self.below else home / 'rlibs' / (it + '.rlib')}"]
        for it in read:
            folder = self.changed.get(it, TOP / "crates" / it)
            flags += ["--lib", f"{it}:{','.join(['std', *self.below[it]])}={folder}/src/lib.rt"]
        flags += ["-L", f"dependency={home}/rlibs"]
        for it in reached:
            flags += [] if it in read else ["-L", f"dependency={self.place(it).parent}"]
        return flags


@cache
def kept_by_all() -> Path:
    """Where the prover keeps what it checked of each crate for the next run: for this process, or for good where PLANTED_KEPT names it."""
    if "PLANTED_KEPT" in os.environ:
        return Path(os.environ["PLANTED_KEPT"]).resolve()
    place = Path(tempfile.mkdtemp(prefix="planted-kept-"))
    atexit.register(shutil.rmtree, place, ignore_errors=True)
    return place


def kept(crate: str) -> Path:
    """The same of a crate."""
    place = kept_by_all() / crate
    place.mkdir(parents=True, exist_ok=True)
    return place


@dataclass
class Answer:
    """What the prover said, and how much processor time it took."""

    status: int
    said: str
    seconds: float


def ask(crate: str, folder: Path, libraries: Libraries, only: list[str] | None, has_holes: bool = False) -> Answer:
    """Asks about these functions of a crate that lies in a folder, or about the whole crate; past holes, where some were laid there."""
    home = kit()
    root = "src/main.rt" if (folder / "src" / "main.rt").exists() else "src/lib.rt"
    command = [str(home / "bin" / "rattle"), "check", "--crate-name", crate, root, *libraries.flags(crate)]
    command += ["--antt-project", str(home / "rattle" / "logic" / "antt-project.json"), "--logic-built", str(home / "logic_built")]
    command += ["--jobs", "1", "--incremental", str(kept(crate)), *["--allow-holes"] * has_holes]
    for name in only or []:
        command += ["--only", name.removeprefix(f"{crate}::")]
    return timed(command, folder)


def timed(command: list[str], folder: Path, given: Path = Path(os.devnull), environment: dict[str, str] | None = None) -> Answer:
    """Runs a command on what a file gives, and counts its processor time and that of those that it starts."""
    with tempfile.TemporaryFile("w+", encoding="utf-8", errors="replace") as said, given.open("rb") as file:
        how = {"stdin": file, "stdout": said, "stderr": subprocess.STDOUT, "preexec_fn": os.setpgrp}
        started = subprocess.Popen(command, cwd=folder, env={**os.environ, **(environment or {})}, **how)  # type: ignore[call-overload]
        began, ended = time.monotonic(), 0
        while not ended:
            ended, status, used = os.wait4(started.pid, os.WNOHANG)
            if not ended and (spent(started.pid, began) > LIMIT or memory_of(started.pid) > MOST_MEMORY):
                os.killpg(started.pid, signal.SIGKILL)
                ended, status, used = os.wait4(started.pid, 0)
            time.sleep(0 if ended else 0.1)
        started.returncode = os.waitstatus_to_exitcode(status)
        said.seek(0)
        return Answer(started.returncode, said.read(), used.ru_utime + used.ru_stime)


def spent(process: int, began: float) -> float:
    """How much processor time a process took, in seconds. Of the time that went by since it began a share counts, too."""
    try:
        words = Path(f"/proc/{process}/stat").read_text(encoding="ascii", errors="replace").rpartition(")")[2].split()
        took = sum(map(int, words[11:15])) / os.sysconf("SC_CLK_TCK")
    except (OSError, ValueError):
        took = 0.0
    return max(took, (time.monotonic() - began) / MOST_TIMES)


def memory_of(process: int) -> int:
    """How many bytes a process has in memory."""
    try:
        return int(Path(f"/proc/{process}/statm").read_text(encoding="ascii").split()[1]) * os.sysconf("SC_PAGE_SIZE")
    except (OSError, IndexError):
        return 0


@dataclass
class Verdict:
    """What is said of a function: `proved`; `refused`, with the goals that aren't proved; `calls` one that isn't proved; else `untold`."""

    kind: str
    goals: tuple[str, ...] = ()
    # Whether it may fall only for a name that a proof by hand cites, and that is gone.
    is_weak: bool = False
    why: str = ""


# A goal that nothing proves, by the search that the prover makes; and one that has values at which it is false.
OPEN = re.compile(r"note: src/\S+: it is not proved that .*\(`([\w.+-]+)`\)")
FALSE = "allow values at which this goal is false"
# A proof by hand that isn't accepted: its file, the goal or the lemma, and why.
WRITTEN = re.compile(r"(?m)^\./proofs/(\S+)\.antt:\d+:\d+: error: `([^`]+)`: (.*)$")
OWN_FILES = ("Answers", "Invariants", "Proof")
GONE = re.compile(r"has no |no `[^`]*` that can be named|no such name|is not a name|unknown name")


def verdicts(said: str) -> dict[str, Verdict]:
    """What the prover said of each function. What it says of a goal stands above the line of its function."""
    found: dict[str, Verdict] = {}
    above: list[str] = []
    written: dict[str, list[tuple[str, str]]] = {}
    lemmas: list[tuple[str, str]] = []
    for file, goal, why in re.findall(WRITTEN, said):
        folder, _, name = file.rpartition("/")
        if name in OWN_FILES:
            written.setdefault(folder, []).append((goal, why))
        else:
            lemmas.append((f"{file.replace('/', '.')}.{goal}", why))
    for line in said.splitlines():
        told = re.match(r"fn (\S+): (.*)", line)
        if told:
            rests = [(name, why) for name, why in lemmas if f".{name}`" in told[2]]
            found[told[1]] = verdict(told[2], above, written.get("/".join(told[1].split("::")[1:]), []) + rests)
            above = []
        elif OPEN.match(line):
            above.append(line)
    return found


def verdict(told: str, above: list[str], written: list[tuple[str, str]]) -> Verdict:
    """What is said of a function by its line, by those above it and by the faults of its proof by hand."""
    if told.startswith(("proved", "assumed", "no holes", "depends on a hole")):
        return Verdict("proved")
    if "could not tell" in told:
        return Verdict("untold", why=told)
    open_goals = [match[1] for line in above for match in [OPEN.match(line)] if match]
    unfit = [goal for goal, why in written if not GONE.search(why)]
    if open_goals or written:
        is_gone = len(unfit) < len(written) and not any(FALSE in line for line in above)
        return Verdict("refused", tuple(sorted({*open_goals, *unfit})), is_gone, told)
    if "it calls `" in told:
        return Verdict("calls", why=told)
    return Verdict("refused", is_weak=True, why=told)
