"""A conversation: lines come in, each gets one reply, by a built program or by the Python model, and both go on together."""
from __future__ import annotations

import contextlib
import os
import subprocess
import time
from argparse import Namespace
from collections import namedtuple
from collections.abc import Callable, Iterator
from itertools import chain, islice
from pathlib import Path

from script_model import LONGEST_LINE, Machine

from tool.progress import say

STANDARD_INPUT = "standard input"
# A piece of input fits into an empty pipe, with a line that began before it.
PIECE = 16384
# A line as it came: its number, its text up to one byte past the longest, and its whole size.
Line = namedtuple("Line", "number text size")


class Lines:
    """Cuts pieces of input into lines, and keeps no more of a line than is looked at."""

    def __init__(self):
        self.number, self.rest, self.size = 0, b"", 0

    def next(self, text: bytes) -> Line:
        self.number += 1
        line = Line(self.number, (self.rest + text)[: LONGEST_LINE + 1], self.size + len(text))
        self.rest, self.size = b"", 0
        return line

    def cut(self, piece: bytes) -> list[Line]:
        """The lines that a piece of input ends. No piece is the end of the input, which ends the last line if it isn't empty."""
        if not piece:
            return [self.next(b"")] if self.size else []
        *whole, rest = piece.split(b"\n")
        lines = [self.next(it) for it in whole]
        self.rest, self.size = (self.rest + rest)[: LONGEST_LINE + 1], self.size + len(rest)
        return lines


def is_comment(line: Line) -> bool:
    return line.text.strip()[:1] in (b"", b"#")


def lines_of(pieces: Iterator[bytes], skips_comments: bool = False) -> Iterator[list[Line]]:
    """Yields the lines that each piece of input ends, and at last the one that the end of the input ends."""
    cut = Lines().cut
    for piece in chain(pieces, [b""]):
        yield [it for it in cut(piece) if not (skips_comments and is_comment(it))]


class Model:
    """The Python model as who answers."""

    status = 0

    def __init__(self):
        self.machine = Machine()

    def replies(self, lines: list[Line]) -> Iterator[bytes]:
        return (self.machine.answer(it.text).encode("latin-1") + b"\n" for it in lines)

    def end(self):
        pass

    close = kill = end


class Said(Model):
    """Replies of a run that is over."""

    def __init__(self, status: int, replies: bytes):
        self.status, self.left = status, iter(replies.splitlines(True))

    def replies(self, lines: list[Line]) -> Iterator[bytes]:
        return islice(self.left, len(lines))


class Program:
    """A built program as who answers.

    It answers all lines that it was given before it reads again, so neither side waits for the other.
    """

    def __init__(self, program: Path):
        # Control keys are the prompt's; the program sees the end of its input.
        self.child = subprocess.Popen([program], stdin=subprocess.PIPE, stdout=subprocess.PIPE, start_new_session=True)
        assert self.child.stdin and self.child.stdout
        self.given, self.taken = self.child.stdin, self.child.stdout

    def replies(self, lines: list[Line]) -> Iterator[bytes]:
        with contextlib.suppress(BrokenPipeError):
            self.given.write(b"".join(it.text + b"\n" for it in lines))
            self.given.flush()
        yield from islice(iter(self.taken.readline, b""), len(lines))

    def end(self):
        with contextlib.suppress(BrokenPipeError):
            self.given.close()

    def kill(self):
        """Ends the program, so that nothing waits for a reply of it."""
        if self.child.poll() is None:
            self.child.kill()

    def close(self):
        """Ends the program, where it hasn't ended by itself, before it finds that nobody reads its replies."""
        self.kill()
        self.end()
        self.taken.close()
        self.child.wait()

    @property
    def status(self) -> int:
        code = self.child.wait()
        return code if code >= 0 else 128 - code


class Fault(Exception):
    """The script can't be read, or standard output takes nothing more."""


def pieces_read(name: str) -> Iterator[bytes]:
    """What standard input gives, as it comes; a failure has the name of the script."""
    try:
        yield from iter(lambda: os.read(0, PIECE), b"")
    except OSError as error:
        raise Fault(f"read fault: {name}: {error.strerror}") from None


def pieces_of(script: bytes) -> Iterator[bytes]:
    return (script[at : at + PIECE] for at in range(0, len(script), PIECE))


class Output:
    """Standard output, to which what is held goes at once."""

    def __init__(self):
        self.held = bytearray()

    def write(self, text: bytes):
        self.held += text

    def flush(self):
        while self.held:
            try:
                del self.held[: os.write(1, self.held)]
            except BrokenPipeError:
                raise
            except OSError as error:
                raise Fault(f"write fault: standard output: {error.strerror}") from None


def writer_of(options: Namespace, out: Output, follower) -> Callable[[Line, bytes], None]:
    """What writes each reply: as it came, or as a record."""
    if not options.json:
        return lambda _, reply: out.write(reply)
    from tool.records import record_of

    return lambda line, reply: out.write(record_of(line, reply, follower, options.json == "strings"))


def tell(asked: list[Line], replies: Iterator[bytes], takers: list) -> bool:
    """Hands each line with its reply to who takes them. Returns whether each line got one."""
    count = 0
    for count, (line, reply) in enumerate(zip(asked, replies), 1):
        for take in takers:
            take(line, reply)
    return count == len(asked)


def converse(answers, asked: Iterator[list[Line]], takers: list, out: Output) -> int:
    """Hands lines to who answers, and each with its reply to who takes them. Returns the status."""
    try:
        for lines in asked:
            goes_on = tell(lines, answers.replies(lines), takers)
            out.flush()
            if not goes_on:
                return answers.status
        answers.end()
        return answers.status
    except Fault as fault:
        say(str(fault))
        return 1
    finally:
        answers.close()


class Clock:
    """Says at the end how long it took."""

    def __init__(self, begun: float):
        self.begun, self.first, self.count = begun, 0.0, 0

    def take(self, _line: Line, _reply: bytes):
        self.count += 1
        self.first = self.first or time.monotonic()

    def tell(self):
        now = time.monotonic()
        first = f", the first reply after {self.first - self.begun:.3f} s" if self.first else ""
        each = f", {(now - self.first) / self.count * 1e6:.0f} µs a line after that" if self.count > 1 else ""
        lines = f"{self.count} line{'s' * (self.count != 1)}"
        say(f"{lines} in {now - self.begun:.3f} s{first}{each}")
