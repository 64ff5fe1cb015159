"""Counts what lines take of a program, in instructions and in requests for memory: by bench/counting.rs, which is laid before it."""
import ctypes
import functools
import os
import re
import subprocess
import tempfile
import threading
from collections import namedtuple
from pathlib import Path

from cases.kit import LONG, TOP, Differs, NotHere
from tool.sources import Wanted

LOCK = threading.Lock()
# What begins a line that is counted; and a faulty one, which takes no memory and marks a place.
COUNT = "count "
MARK = f"{COUNT}here"
# Memory lies at the same places in each run.
WITHOUT_CHANCE = 0x0040000
# An instruction that repeats itself over bytes would count once a byte, so the C library is told to clear and copy without it.
WITHOUT_REPEATS = "glibc.cpu.x86_rep_stosb_threshold=1000000000:glibc.cpu.x86_rep_movsb_threshold=1000000000"
# Faulty lines, whose replies are longer than others to as many bytes: behind them no block of lines wants more room for its replies.
WARM = ["x"] * 16_384
# What was counted up to the reply of a line.
Counted = namedtuple("Counted", "steps requests in_use most")


def program():
    """The proved program, or the one that COSTS_OF names."""
    named = os.environ.get("COSTS_OF")
    if named:
        return Path(named).resolve()
    proved = Wanted().proved
    if not proved.exists():
        raise NotHere("an unproved program takes some three hundred times as many instructions, and its own memory")
    return proved


def built(crate, of_tests=False):
    """A program of this repository that `rt ci` built, or that of a crate's tests, or the one that COSTS_OF_ and its name names."""
    made = TOP / "crates" / crate / "out" / (f"{crate}_tests" if of_tests else crate)
    named = os.environ.get(f"COSTS_OF_{crate}")
    youngest = max(it.stat().st_mtime for it in (TOP / "crates" / crate / "src").iterdir())
    if not named and (not made.exists() or made.stat().st_mtime < youngest):
        raise NotHere(f"{crate} isn't built: rt ci builds it")
    return Path(named).resolve() if named else made


@functools.cache
def compiled():
    """The folder with the library that counts."""
    folder = tempfile.TemporaryDirectory(prefix="iox-check-")
    how = "--edition 2024 -O --crate-type cdylib -C panic=abort -o counting.so".split()
    words = ["rustc", *how, TOP / "bench" / "counting.rs"]
    try:
        made = subprocess.run(words, cwd=folder.name, capture_output=True, timeout=LONG)
    except OSError as error:
        raise NotHere(f"no Rust compiler: {error}") from error
    if made.returncode:
        raise NotHere(f"the Rust compiler makes no library: {made.stderr.decode(errors='replace')[-200:]}")
    return folder


def library():
    # Scripts are counted several at a time.
    with LOCK:
        return Path(compiled().name) / "counting.so"


def lie_still():
    ctypes.CDLL(None).personality(WITHOUT_CHANCE)


def run(of, what, given="", words=()):
    """Runs a program on lines and words, and counts `steps` or `memory`. Returns what it writes, and what was counted at each place."""
    with tempfile.TemporaryDirectory(prefix="iox-check-") as name:
        script, notes = Path(name) / "script", Path(name) / "notes"
        script.write_text(given, encoding="ascii")
        env = {"LD_PRELOAD": str(library()), "GLIBC_TUNABLES": WITHOUT_REPEATS, "COUNT_OF": what, "COUNTS": "notes"}
        with open(script, "rb") as lines:
            ran = subprocess.run([of, *words], stdin=lines, env=env, cwd=name, capture_output=True, timeout=LONG, preexec_fn=lie_still)
        if ran.returncode or not notes.exists():
            raise NotHere(f"nothing is counted here: status {ran.returncode} {ran.stderr[-200:]!r}")
        return ran.stdout.decode(), [Counted(*map(int, it.split())) for it in notes.read_text().splitlines()]


def of_lines(of, what, lines):
    """What was counted at each counted line. None may be skipped or refused but where it says so: another would be measured."""
    out, counted = run(of, what, "\n".join([*lines, ""]))
    replies = out.splitlines()
    if len(replies) != len(lines):
        raise Differs(f"{len(replies)} replies to {len(lines)} lines")
    for line, reply in zip(lines, replies):
        if line.startswith(COUNT) and line != MARK and not re.match("ok|none|blocked|err .*AlreadyExists", reply):
            raise Differs(f"{line.removeprefix(COUNT)!r} is answered {reply!r}")
    return counted[: sum(it.startswith(COUNT) for it in lines)]


def instructions(of, lines):
    """How many instructions each counted line takes."""
    return [it.steps for it in of_lines(of, "steps", lines)]


def memory(of, lines):
    found = of_lines(of, "memory", lines)
    if found and not found[-1].requests:
        raise NotHere("this program asks something else than the C library for memory")
    return found


def resident(of, lines):
    """How many kilobytes of a program's own memory are resident once all these lines are answered."""
    lines = [*WARM, *lines]
    with subprocess.Popen([of], stdin=subprocess.PIPE, stdout=subprocess.PIPE) as ran:

        def give():
            ran.stdin.write("\n".join([*lines, ""]).encode())
            ran.stdin.flush()

        given = threading.Thread(target=give)
        given.start()
        left = len(lines)
        while left and (read := ran.stdout.read1()):
            left -= read.count(b"\n")
        given.join()
        status = Path(f"/proc/{ran.pid}/status").read_text()
        ran.stdin.close()
    if left or ran.returncode:
        raise Differs(f"{left} lines have no reply, and the status is {ran.returncode}")
    return int(re.search(r"^RssAnon:\s*(\d+)", status, re.M)[1])
