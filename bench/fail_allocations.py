#!/usr/bin/env python3
"""Runs a built program on scripts once for each request for memory, and has that one request refused.

`bench/fail_allocations.py [--program PROGRAM] [SCRIPT ..]`: the program that `./iox` built, and all scripts below examples/, where
none are named. The line at which the request was made is known from the requests of all beginnings of the script; the lines before it are
answered as with ample memory, always. A run is as it may be if all lines are; or if it ends with status 2, `out of memory` on standard
error and a beginning of those replies; or if that line is answered by a refusal that tells want of memory, and all lines behind it as the
model in model/ answers them where that line does nothing, unless nodes of others stepped there: what they did before stays done, and the
lines behind aren't held against anything; nor are they if that line is one of a port, and answered as ever: then a connection wasn't made,
which a handler passes over where nobody says otherwise. Prints a line a script, and each run that is none of these.
"""
import os
import re
import subprocess
import sys
import tempfile
from bisect import bisect_left
from collections import Counter
from pathlib import Path

sys.dont_write_bytecode = True
TOP = Path(__file__).resolve().parent.parent
sys.path.insert(0, str(TOP / "model"))
from script_model import lines_of, replies

LACKING = re.compile(r"err .*(OutOfMemory|UnableToCreateDataSegment|FailedToEstablishConnection)\)*")
NOTHING = b"."
# The lines that bring connections up to date.
CONNECTING = {b"publisher", b"subscriber", b"update", b"put", b"send", b"receive", b"has", b"retry"}


def built_program():
    """The program of these sources, as `./iox` put it in place."""
    found = sorted((TOP / "crates" / "iox" / "out").glob("served-*"))
    if not found:
        sys.exit("fail_allocations: the program isn't built: ./iox builds it")
    return found[-1]


class Runs:
    """Runs of a program on one script, with one request refused."""

    def __init__(self, program, refuser, script):
        self.program, self.refuser, self.script = program, refuser, script
        self.lines, self.whole = lines_of(script), replies(script)
        self.seen = Counter()
        self.requests = [self.run(0, lines)[3] for lines in range(len(self.lines) + 1)]

    def line_of(self, refused):
        """The line at which a request was made, counted from 0; before the first line it is that one."""
        return max(0, bisect_left(self.requests, refused) - 1)

    def run(self, refused, lines=None):
        """The status, the replies, standard error, and how many requests were made, of so many lines."""
        given = b"".join(bytes(it) + b"\n" for it in self.lines[:lines]) if lines is not None else self.script
        env = {**os.environ, "LD_PRELOAD": str(self.refuser), "REFUSE": str(refused)}
        ran = subprocess.run([self.program], input=given, env=env, capture_output=True, timeout=60)
        said, _, requests = ran.stderr.decode().rpartition("requests: ")
        return ran.returncode, ran.stdout.decode("latin-1").split("\n")[:-1], said, int(requests)

    def judge(self, refused):
        """What came of a run, and why it isn't as it may be, or None."""
        status, got, said, _ = self.run(refused)
        if status == 2:
            is_well = said == "out of memory\n" and got == self.whole[: len(got)]
            return "ended", None if is_well else f"status 2, {said!r}, {got}"
        if status != 0 or len(got) != len(self.whole):
            return "wrong", f"status {status}, {said!r}, {len(got)} replies"
        differing = [i for i, (found, wanted) in enumerate(zip(got, self.whole)) if found != wanted]
        if not differing:
            return "as with ample memory", None
        at = self.line_of(refused)
        if differing[0] > at and bytes(self.lines[at]).split()[0] in CONNECTING:
            return "without a connection", None
        if differing[0] != at:
            at = differing[0]
            told = f"line {at + 1}, {self.lines[at]!r}: {got[at]!r}, and not {self.whole[at]!r}"
            return "wrong", f"made at line {self.line_of(refused) + 1}; {told}"
        if not LACKING.fullmatch(got[at]):
            return "wrong", f"line {at + 1}, {self.lines[at]!r}: {got[at]!r}, and not {self.whole[at]!r}"
        if bytes(self.lines[at]).startswith(b"foreign") or b"|" in bytes(self.lines[at]):
            return "refused, with steps of others done so far", None
        without = replies(b"".join((NOTHING if i == at else line) + b"\n" for i, line in enumerate(map(bytes, self.lines))))
        for i in range(at + 1, len(got)):
            if got[i] != without[i]:
                return "wrong", f"line {at + 1} refused ({got[at]}), line {i + 1}, {self.lines[i]!r}: {got[i]!r}, and not {without[i]!r}"
        self.seen[f"{bytes(self.lines[at]).split()[0].decode()}: {got[at]}"] += 1
        return "refused", None


def main(words):
    program = Path(words.pop(1)) if words[:1] == ["--program"] and words[1:] else None
    scripts = [Path(it) for it in (words[1:] if program else words)] or sorted((TOP / "examples").rglob("*.iox"))
    program, seen, wrong, runs = (program or built_program()).resolve(), Counter(), 0, 0
    with tempfile.TemporaryDirectory() as room:
        refuser = Path(room) / "librefuse.so"
        source = Path(__file__).parent / "queues" / "refuse.rs"
        subprocess.run(["rustc", "-O", "--edition", "2024", "--crate-type", "cdylib", "-o", refuser, source], check=True)
        for path in scripts:
            script = Runs(program, refuser, path.read_bytes())
            requests, came = script.run(0)[3], Counter()
            for refused in range(1, requests + 1):
                what, why = script.judge(refused)
                came[what] += 1
                if why:
                    wrong += 1
                    print(f"  request {refused}: {why}")
            runs, seen = runs + requests, seen + script.seen
            print(f"{path.name}: {requests} requests; " + ", ".join(f"{count} {what}" for what, count in came.most_common()), flush=True)
    for what, count in sorted(seen.items()):
        print(f"{count:6} {what}")
    print(f"{runs} runs, {wrong} wrong")
    return 1 if wrong else 0


if __name__ == "__main__":
    sys.exit(main(sys.argv[1:]))
