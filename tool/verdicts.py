"""What a run is held against, for tests: the replies that are expected, and that none is an error."""
from __future__ import annotations

import os
import sys

from tool.converse import Line
from tool.notes import Follower, known, place_of, readable
from tool.progress import DIFFERS, NOT_STRICT, say

# So many bytes of what two replies have in common is shown before their difference.
IN_COMMON = 40


class Expect:
    """Compares the replies with the lines of a file, and says where the first difference is."""

    status = DIFFERS

    def __init__(self, script: str | None, file: str, follower: Follower):
        self.script, self.file, self.follower = script, file, follower
        self.count, self.failed, self.is_met = 0, False, False
        with open(file, "rb") as it:
            self.wanted = it.read().splitlines()

    def take(self, line: Line, reply: bytes):
        self.count += 1
        self.is_met = self.wanted[self.count - 1 : self.count] == [reply.rstrip(b"\n")]
        if not self.failed and not self.is_met:
            self.failed = True
            why = "; ".join(known(line, reply, self.follower)[2])
            at = place_of(self.script, line.number)
            print(f"{at}: {self.difference(reply.rstrip())}{f': {why}' * bool(why)}", file=sys.stderr, flush=True)

    def difference(self, reply: bytes) -> str:
        if self.count > len(self.wanted):
            return f'{self.file} ends before this reply, "{readable(reply)}"'
        both = self.wanted[self.count - 1], reply
        first = max(0, len(os.path.commonprefix(both)) - IN_COMMON)
        wanted, found = (".. " * (first > 0) + readable(it[first:]) for it in both)
        return f'"{wanted}" is expected ({self.file}:{self.count}), and the reply is "{found}"'

    def end(self):
        missing = len(self.wanted) - self.count
        if missing > 0 and not self.failed:
            self.failed = True
            more = f"{missing} more {'reply' if missing == 1 else 'replies'}"
            say(f"{self.file} has {more} from line {self.count + 1} on, and the script has no more lines")


class Strict:
    """Counts the replies that are errors, or skipped."""

    status = NOT_STRICT

    def __init__(self, script: str | None):
        self.script, self.count, self.failed, self.first = script, 0, 0, 0

    def take(self, line: Line, reply: bytes):
        self.count += 1
        if reply.startswith((b"err", b"skip")):
            self.first = self.first or line.number
            self.failed += 1

    def end(self):
        if self.failed:
            say(f"{self.failed} of {self.count} replies are err or skip; the first is at {place_of(self.script, self.first)}")
