"""What the launcher says on standard error, beside replies: its own lines, and how far a build is."""
from __future__ import annotations

import contextlib
import io
import sys
import time
from typing import NoReturn

# The statuses of the launcher; those of the program are 0, 1 and 2.
NOT_BUILT, NOT_STRICT, DIFFERS, MISUSED, NO_INPUT = 3, 4, 5, 64, 66
# What is said if the program was built without its proofs.
UNPROVED = "unproved: the program that answers was built without its proofs (`./iox --proved` proves it first, in an hour or more)"


class Messages(io.FileIO):
    """Standard error: what can't be written there is dropped, and the replies go on."""

    def write(self, text) -> int:
        with contextlib.suppress(OSError):
            super().write(text)
        return len(text)


def say(text: str):
    print(f"iox: {text}", file=sys.stderr, flush=True)


def stop(status: int, why: str) -> NoReturn:
    say(why)
    sys.exit(status)


class Progress:
    """One line on standard error: written over itself on a terminal, else a line a crate and one each half minute."""

    def __init__(self):
        self.is_terminal, self.said = sys.stderr.isatty(), 0.0

    def tell(self, text: str, is_new: bool = False):
        if self.is_terminal:
            print(f"\r\033[Kiox: {text}", end="", file=sys.stderr, flush=True)
        elif is_new or time.monotonic() - self.said > 30:
            say(text)
            self.said = time.monotonic()

    def end(self):
        if self.is_terminal:
            print("\r\033[K", end="", file=sys.stderr, flush=True)
