#!/usr/bin/env python3
"""Lines of the program beside those of a plain hub in Rust (bench/peers), in one run.

Usage: bench/lines.py [--kinds] [PROGRAM]     (PROGRAM is crates/iox/out/iox if not named; `rt run` in crates/iox builds it)

Inputs are triples (`put`, `receive`, `release`), two mixes of lines by chance, and with `--kinds` 64 more lines of each kind. Both programs
give the same replies. Where valgrind is there their instructions are counted, which don't depend on what else runs, without those of the
start. On idle cores both are timed, too, in turn: of several rounds the fastest counts. Nothing here is a test: it only prints.
"""
import os
import shutil
import subprocess
import sys
import tempfile
import time
from pathlib import Path

# What is imported leaves nothing in the work tree.
sys.dont_write_bytecode = True
from callgrind import counted
from mixes import KINDS, MORE, OTHERS, TRAFFIC, mix, more, triples

HERE = Path(__file__).resolve().parent
SIZES = (10**4, 10**5, 10**6)
MIXED = 24_000
# Above this load other work is timed, too.
IDLE = 1.5


def is_idle() -> bool:
    return os.getloadavg()[0] <= IDLE


def replies(program: Path, text: str) -> bytes:
    return subprocess.run([program], input=text.encode(), stdout=subprocess.PIPE, check=True).stdout


def seconds(program: Path, path: Path) -> float:
    """One run from a file to a pipe that is read to its end."""
    with open(path, "rb") as source:
        start = time.perf_counter()
        run = subprocess.Popen([program], stdin=source, stdout=subprocess.PIPE)
        drain = subprocess.Popen(["cat"], stdin=run.stdout, stdout=subprocess.DEVNULL)
        assert run.stdout
        run.stdout.close()
        status = run.wait()
        drain.wait()
    if status:
        sys.exit(f"{program} ended with status {status}")
    return time.perf_counter() - start


def kilobytes(program: Path, path: Path) -> int:
    """The most memory that a run had resident. By a small program between, whose own memory would count otherwise."""
    with open(path, "rb") as source:
        words = ["/usr/bin/time", "-f", "%M", str(program)]
        run = subprocess.run(words, stdin=source, stdout=subprocess.DEVNULL, stderr=subprocess.PIPE)
    return int(run.stderr.split()[-1])


class Beside:
    """The two programs, and a folder for their inputs."""

    def __init__(self, program: Path, folder: Path) -> None:
        self.folder, plain = folder, folder / "plain"
        words = ["rustc", "--edition", "2024", "-O", "-C", "codegen-units=1", "-o", str(plain), str(HERE / "peers" / "main.rs")]
        subprocess.run(words, check=True)
        self.sides = {"program": program, "plain hub": plain}

    def check(self, what: str, text: str) -> None:
        if len({replies(it, text) for it in self.sides.values()}) != 1:
            sys.exit(f"{what}: the program and the plain hub don't reply the same")

    def counts(self, text: str) -> list[int]:
        """The instructions of both."""
        return [counted([it], text.encode())[0] for it in self.sides.values()]

    def time(self, start: str, rest: str, units: int, rounds: int) -> list[float]:
        """The nanoseconds of both that the rest takes more, a unit."""
        paths = [self.folder / "start", self.folder / "whole"]
        for path, text in zip(paths, (start, start + rest)):
            path.write_text(text)
        best = dict.fromkeys(((side, path) for side in self.sides for path in paths), float("inf"))
        for _ in range(rounds):
            for side, path in best:
                best[side, path] = min(best[side, path], seconds(self.sides[side], path))
        return [(best[side, paths[1]] - best[side, paths[0]]) / units * 1e9 for side in self.sides]

    def compare(self, what: str, start: str, rest: str) -> None:
        """Prints what a line of the rest takes of both."""
        self.check(what, start + rest)
        units = rest.count("\n")
        if shutil.which("valgrind"):
            ours, theirs = ((b - a) / units for a, b in zip(self.counts(start), self.counts(start + rest)))
            print(f"{what}: {ours:,.0f} instructions a line over {theirs:,.0f}: {ours / theirs:.2f}", flush=True)
        if is_idle():
            ours, theirs = self.time(start, rest, units, 15)
            print(f"{what}: {ours:.1f} ns a line over {theirs:.1f}: {ours / theirs:.2f}", flush=True)

    def kinds(self) -> None:
        """Prints what a line of each kind takes of both."""
        for start, kinds in KINDS:
            self.check(", ".join(what for what, _ in kinds), start + "".join(more(lines) for _, lines in kinds))
            before = self.counts(start)
            for what, lines in kinds:
                start += more(lines)
                after = self.counts(start)
                ours, theirs = ((b - a) / MORE for a, b in zip(before, after))
                print(f"64 more of {what}: {ours:,.0f} instructions over {theirs:,.0f}: {ours / theirs:.2f}", flush=True)
                before = after


def flat(beside: Beside) -> None:
    """Prints what the program takes of inputs of each size."""
    program, costs = beside.sides["program"], []
    for lines in SIZES:
        path = beside.folder / "sized"
        path.write_text(triples(lines))
        if is_idle():
            costs.append(beside.time("", triples(lines), lines, 15 if lines < 10**6 else 5)[0])
            print(f"program: {lines:,} lines, {costs[-1]:.1f} ns a line")
        print(f"program: {lines:,} lines, at most {kilobytes(program, path)} kB")
    if len(costs) == len(SIZES):
        print(f"program: a line of 10^6 costs {costs[2] / costs[0]:.2f} times a line of 10^4, by the clock")
    if shutil.which("valgrind"):
        counts = [counted([program], triples(lines).encode())[0] / lines for lines in SIZES[:2]]
        print(f"program: a line of 10^5 costs {counts[1] / counts[0]:.3f} times a line of 10^4, in instructions")


def main(words: list[str]) -> int:
    of_kinds = "--kinds" in words
    named = [it for it in words if it != "--kinds"]
    program = Path(named[0] if named else HERE.parent / "crates" / "iox" / "out" / "iox").resolve()
    if len(named) > 1 or not program.exists():
        print(f"{__doc__}\n{program} is not there" if len(named) < 2 else __doc__, file=sys.stderr)
        return 64
    print(f"load average {os.getloadavg()[0]:.1f}{'' if is_idle() else ': too much for times'}")
    with tempfile.TemporaryDirectory() as folder:
        beside = Beside(program, Path(folder))
        beside.compare("triples", triples(9_999), triples(99_999)[len(triples(9_999)) :])
        for what, weights in (("a mix of traffic", TRAFFIC), ("the same with 3 in 100 that open, close, come and leave", TRAFFIC | OTHERS)):
            lines = [f"{it}\n" for it in mix(beside.sides["plain hub"], MIXED, weights)]
            beside.compare(what, "".join(lines[: MIXED // 3]), "".join(lines[MIXED // 3 :]))
        if of_kinds and shutil.which("valgrind"):
            beside.kinds()
        flat(beside)
    return 0


if __name__ == "__main__":
    sys.exit(main(sys.argv[1:]))
