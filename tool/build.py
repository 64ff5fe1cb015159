"""The proved program: proves and builds it if that wasn't done yet, and shows how far it is."""
from __future__ import annotations

import contextlib
import fcntl
import os
import re
import shutil
import subprocess
import time
from pathlib import Path

from tool import TOP
from tool.progress import NOT_BUILT, Progress, say, stop
from tool.sources import OUT, Wanted, can_make, sources

# How many lines of code, definitions and proofs the toolchain checks in a minute, as measured on four cores with other work.
LINES_A_MINUTE = 1200
# What a check of a crate takes at most, in bytes.
A_CHECK = 3_500_000_000


def need_toolchain():
    if not shutil.which("rt"):
        stop(
            NOT_BUILT,
            "the program isn't built from these sources yet, and that needs the Rattle toolchain: there is no rt on the path"
            " (`./iox --model FILE` answers without it)",
        )


def first_error(log: Path) -> str:
    """The first error that a log of the toolchain has, or what it ends with."""
    lines = [it.strip() for it in log.read_text(encoding="utf-8", errors="replace").splitlines() if it.strip()]
    return next((it for it in lines if re.search(r"\berror\b", it)), lines[-1] if lines else "the log is empty")


def run_rt(words, crate, log, tell=lambda line: None):
    """Runs rt in the crate's folder, writes what it says to the log, and returns its status."""
    how = {"stdin": subprocess.DEVNULL, "stdout": subprocess.PIPE, "stderr": subprocess.STDOUT, "errors": "replace"}
    with subprocess.Popen(["rt", *words], cwd=TOP / "crates" / crate, **how) as rt:
        try:
            for line in rt.stdout:
                print(line, end="", file=log, flush=True)
                tell(line)
        except BaseException:
            rt.terminate()
            raise
    return rt.returncode


def is_old(crate):
    """Returns whether a file of the crate is newer than its library. That is for the forecast: rt decides by the files' sums."""
    with contextlib.suppress(FileNotFoundError):
        made = (TOP / "crates" / crate / "out" / "rlib" / "stamp").stat().st_mtime
        return any(os.path.getmtime(it) > made for it in sources(crate))
    return True


def forecast(wanted):
    old = []
    for crate in wanted.crates:
        if is_old(crate) or any(it in old for it in wanted.libraries[crate]):
            old.append(crate)
    lines = sum(Path(it).read_bytes().count(b"\n") for crate in old for it in sources(crate))
    minutes = max(1, round(lines / LINES_A_MINUTE))
    say(
        f"proving and building the program: {len(old)} of {len(wanted.crates)} crates, about {minutes} min on four idle cores"
        " (`./iox FILE` answers within two minutes, unproved)"
    )


def how_many_at_once():
    """Returns how many checks there are processors and memory for."""
    memory = os.sysconf("SC_PHYS_PAGES") * os.sysconf("SC_PAGE_SIZE")
    return max(1, min(len(os.sched_getaffinity(0)), memory // A_CHECK))


def prove(crates, progress, log):
    """Proves the crates that don't need each other beside each other, as far as memory allows, and builds the program."""
    ended, jobs = set(), str(how_many_at_once())
    progress.tell(f"crate 1 of {len(crates)}", is_new=True)

    def tell(line):
        crate = re.match(r"== (\w+)$", line)
        if crate and crate[1] in crates:
            ended.add(crate[1])
            progress.tell(f"{len(ended)} of {len(crates)} crates done, last {crate[1]}", is_new=True)

    return run_rt(["all", "check", "--jobs", jobs], "iox", log, tell) or run_rt(["run"], "iox", log, tell)


def build(wanted):
    """Proves the crates without their tests, and again only what changed, and builds the program into out/iox."""
    forecast(wanted)
    progress, started, log = Progress(), time.monotonic(), OUT / "build.log"
    try:
        with open(log, "w", encoding="utf-8") as file:
            status = prove(wanted.crates, progress, file)
    finally:
        progress.end()
    if status:
        stop(NOT_BUILT, f"the program is not proved or not built: {first_error(log)} ({log} has all of it)")
    say(f"proved and built in {round(time.monotonic() - started)} s")


def put_in_place(built: Path, program: Path):
    """Gives a built program its name at one stroke. A program that runs meanwhile stays as it is."""
    fresh = program.with_suffix(".new")
    shutil.copy2(built, fresh)
    for old in program.parent.glob(f"{program.name.partition('-')[0]}-*"):
        if old != fresh:
            old.unlink()
    fresh.rename(program)


def take_built(wanted):
    """Serves what `rt ci` left in out/iox, where the sources are still those of the wanted program. Returns whether it does."""
    OUT.mkdir(exist_ok=True)
    with open(OUT / "lock", "w", encoding="utf-8") as lock:
        fcntl.flock(lock, fcntl.LOCK_EX)
        if Wanted().total != wanted.total or not (OUT / "iox").exists():
            return False
        put_in_place(OUT / "iox", wanted.proved)
    return True


@contextlib.contextmanager
def alone(lock_file: Path, what: str):
    """Waits until no other launcher builds the same, and lets none begin."""
    with open(lock_file, "w", encoding="utf-8") as lock:
        try:
            fcntl.flock(lock, fcntl.LOCK_EX | fcntl.LOCK_NB)
        except BlockingIOError:
            say(f"another ./iox is building {what}: waiting for it")
            fcntl.flock(lock, fcntl.LOCK_EX)
        yield


def proved_program(wanted: Wanted) -> Path:
    """Returns the proved program of the wanted sources. Its name has their sum, so that no other is taken for it."""
    if not wanted.proved.exists():
        need_toolchain()
        if not can_make(OUT):
            why = "the toolchain proves only where it can write (`./iox FILE` answers unproved, `./iox --model FILE` without a build)"
            stop(NOT_BUILT, f"{OUT} can't be written: {why}")
    while not wanted.proved.exists():
        with alone(OUT / "lock", "the program"):
            if not wanted.proved.exists():
                build(wanted)
                # An edit during the build may or may not be in what was built, so that is built again.
                if Wanted().total == wanted.total:
                    put_in_place(OUT / "iox", wanted.proved)
        wanted = Wanted()
    return wanted.proved
