"""The unproved program: one build of the same sources, which the toolchain makes in about a minute and deletes, and which is kept here.

`rt try` runs what it built below its TMPDIR. While the program runs there on a script of ours, its file gets a second name.
If the toolchain has its files elsewhere, each script is answered by a run of `rt try` itself.
"""
from __future__ import annotations

import contextlib
import os
import re
import shutil
import subprocess
import sys
import tempfile
import time
from itertools import zip_longest
from pathlib import Path

from tool import TOP
from tool.build import alone, first_error, need_toolchain, put_in_place
from tool.progress import NOT_BUILT, Progress, say, stop
from tool.sources import OUT, Wanted, cache, place

FIRST = TOP / "examples" / "first.iox"
# So many lines after the first ones keep the program at work for a second.
KEPT_AT_WORK = 20_000
A_LOOK = 0.02
# The status of `rt try` if the toolchain refuses a crate.
REFUSED = 1
LOG = "unproved.log"
# What `rt try` does, in this order, with the files that it has then.
STAGES: tuple = (("reading its crates", set()), ("compiling", {"module"}), ("linking", {"program", "input"}))


def case_to_try(folder: str) -> Path:
    """Writes a script that keeps the program at work for a second, and the replies that it has to give."""
    cases = Path(folder) / "cases"
    cases.mkdir()
    (cases / "first").write_bytes(FIRST.read_bytes() + b"has s1\n" * KEPT_AT_WORK)
    (cases / "first.stdout").write_bytes(FIRST.with_suffix(".replies").read_bytes() + b"ok false\n" * KEPT_AT_WORK)
    return cases


def programs_at_work(folder: str) -> list[Path]:
    """Returns the programs that `rt try` runs at the moment: it writes their output beside them."""
    return [it for it in Path(folder).glob("*/*/program") if (it.parent / "stdout").exists() and os.access(it, os.X_OK)]


def stage(folder: str) -> int:
    """Returns how far `rt try` is, by the files that it has at the moment."""
    with contextlib.suppress(OSError):
        names = {re.split("[-.]", it.name)[0] for it in Path(folder).glob("*/*/*")}
        return max(at for at, (_, files) in enumerate(STAGES) if not at or names & files)
    return 0


def difference_at_first(program: Path) -> str | None:
    """Says in which line of the first script a program replies otherwise than the file beside it has, if it does."""
    wanted = FIRST.with_suffix(".replies").read_text(encoding="latin-1").splitlines()
    name = FIRST.relative_to(TOP)
    try:
        ran = subprocess.run([program], input=FIRST.read_bytes(), capture_output=True, timeout=60, cwd=program.parent)
    except (OSError, subprocess.TimeoutExpired) as error:
        return f"{name} isn't answered by this build: {error}"
    replies = ran.stdout.decode("latin-1").splitlines()
    for at, (found, given) in enumerate(zip_longest(replies, wanted), 1):
        if found != given:
            replied = f'replies "{found}"' if found is not None else f"ends with status {ran.returncode}"
            return f'{name}:{at}: this build {replied}, and first.replies has "{given}"'
    return f"{name}: this build ends with status {ran.returncode}" if ran.returncode else None


def end(tried: subprocess.Popen):
    """Ends a run of `rt try`, which removes its folder."""
    tried.terminate()
    with contextlib.suppress(subprocess.TimeoutExpired):
        tried.wait(10)
    tried.kill()
    tried.wait()


def give_second_name(at_work: Path, to: Path) -> bool:
    """Takes a program that is at work; a copy is made where a file can't have two names. Returns whether it is taken."""
    to.unlink(missing_ok=True)
    with contextlib.suppress(OSError):
        try:
            os.link(at_work, to)
        except PermissionError:
            shutil.copy2(at_work, to)
    return to.exists()


def try_once(folder: str, log_file: Path) -> tuple[Path | None, int | None]:
    """Has `rt try` build the program. Returns the program, taken while it was at work, or else None, and the status of the run."""
    caught = Path(folder) / "caught"
    words = ["rt", "try", "--steps", "1", "--cases", str(case_to_try(folder))]
    progress, started, last = Progress(), time.monotonic(), (-1, 0)
    how: dict = {"stdin": subprocess.DEVNULL, "stdout": subprocess.DEVNULL, "env": {**os.environ, "TMPDIR": folder}}
    with open(log_file, "wb") as log, subprocess.Popen(words, cwd=TOP / "crates" / "iox", stderr=log, **how) as tried:
        try:
            while tried.poll() is None:
                if any(give_second_name(it, caught) for it in programs_at_work(folder)):
                    return caught, 0
                now = max(stage(folder), last[0]), round(time.monotonic() - started)
                if now != last:
                    progress.tell(f"one build without proofs: {STAGES[now[0]][0]}, {now[1]} s", is_new=now[0] != last[0])
                    last = now
                time.sleep(A_LOOK)
        finally:
            end(tried)
            progress.end()
    return None, tried.returncode


def build_and_keep(wanted: Wanted) -> bool:
    """Builds the unproved program and keeps it. Returns whether there was one to keep."""
    started, log = time.monotonic(), wanted.unproved.with_name(LOG)
    say("the program isn't built yet: one build without proofs takes a minute on idle cores, and is kept (`./iox --model` answers at once)")
    # Those that a build left when it was killed go, too.
    for old in wanted.unproved.parent.glob("trying-*"):
        shutil.rmtree(old, ignore_errors=True)
    with tempfile.TemporaryDirectory(prefix="trying-", dir=wanted.unproved.parent) as folder:
        caught, status = try_once(folder, log)
        if caught is None and status == REFUSED:
            stop(NOT_BUILT, f"the program can't be built: {first_error(log)} ({log} has all of it)")
        # What was edited during the build may or may not be in it, so that is built again.
        if caught is not None and Wanted().total == wanted.total:
            put_in_place(caught, wanted.unproved)
            say(f"built without proofs in {round(time.monotonic() - started)} s")
            differs = difference_at_first(wanted.unproved)
            if differs:
                say(differs)
    if caught is None:
        say(f"the program couldn't be kept ({log} has the run), so this script is answered by a run of its own, in a minute or two")
    return caught is not None


def unproved_program(wanted: Wanted) -> Path | None:
    """Returns the unproved program of the wanted sources, built if needed, or None where it can't be kept."""
    if not wanted.unproved.exists():
        need_toolchain()
        if place() is None:
            stop(NOT_BUILT, f"neither {OUT} nor {cache()} can be written (`./iox --model FILE` answers without a build)")
    while not wanted.unproved.exists():
        with alone(wanted.unproved.with_name("lock-unproved"), "the program without proofs"):
            if not wanted.unproved.exists() and not build_and_keep(wanted):
                return None
        wanted = Wanted()
    return wanted.unproved


def one_run() -> tuple[int, bytes, bytes]:
    """Answers the whole of standard input by a run of `rt try` of its own. Returns the program's status, the replies and the script."""
    if os.isatty(0):
        say("type the script, then Ctrl-D")
    script = sys.stdin.buffer.read()
    ran = subprocess.run(["rt", "try", "--steps", "1"], cwd=TOP / "crates" / "iox", input=script, capture_output=True)
    ended = re.search(rb"^run=ended status=(\d+) ", ran.stderr, re.M)
    if not ended:
        log = (place() or OUT) / LOG
        log.write_bytes(ran.stderr)
        stop(NOT_BUILT, f"the unproved run came to no end: {first_error(log)} ({log} has all of it)")
    return int(ended[1]), ran.stdout, script
