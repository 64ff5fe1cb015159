"""Runs cases beside each other. One that doesn't end is told by name and place, and nobody waits for it."""
import atexit
import contextlib
import os
import signal
import sys
import threading
import time
from collections import deque
from pathlib import Path

from cases.kit import TOP

# In seconds: how long a case may take.
LIMIT = float(os.environ.get("CHECK_LIMIT", 1800))


def place_of(thread):
    """The innermost line of these sources at which a thread is."""
    frame = sys._current_frames().get(thread)
    while frame and not Path(frame.f_code.co_filename).is_relative_to(TOP):
        frame = frame.f_back
    return f"{Path(frame.f_code.co_filename).relative_to(TOP)}:{frame.f_lineno}" if frame else "no line of these sources"


def print_line(text):
    print(f"{text}\n", end="", flush=True)


class Running:
    """Threads that try one case after the other."""

    def __init__(self, cases, try_case):
        self.left, self.try_case, self.results = deque(cases), try_case, []
        # The thread of each case that was begun and not ended, with its name and when it was begun.
        self.begun, self.changed, self.has_late = {}, threading.Condition(), False

    def work(self):
        me = threading.get_ident()
        while True:
            with self.changed:
                if not self.left:
                    return
                function = self.left.popleft()
                self.begun[me] = function.__name__, time.monotonic()
            line, result = self.try_case(function)
            with self.changed:
                # What was told as not ended isn't told once more.
                if not self.begun.pop(me, None):
                    return
                print_line(line)
                self.results.append(result)
                self.changed.notify()

    def tell_late(self):
        """Tells each case that takes too long, and has another thread try those that are left."""
        for thread, (name, begun) in [*self.begun.items()]:
            if time.monotonic() - begun > LIMIT:
                del self.begun[thread]
                print_line(f"FAILED {name}: not ended after {LIMIT / 60:.1f} minutes, it is at {place_of(thread)}")
                self.results.append(False)
                self.has_late = True
                self.start()

    def start(self):
        threading.Thread(target=self.work, daemon=True).start()

    def all(self, at_once):
        """Tries all cases, so many at once, and returns their results."""
        for _ in range(at_once):
            self.start()
        with self.changed:
            while self.left or self.begun:
                self.changed.wait(1)
                self.tell_late()
        return self.results


def descendants(process):
    """The processes that one has started, and those that they have, where the system tells them."""
    found = []
    for file in Path(f"/proc/{process}/task").glob("*/children"):
        with contextlib.suppress(OSError):
            for it in map(int, file.read_text(encoding="ascii").split()):
                found += [it, *descendants(it)]
    return found


def leave(status):
    """Ends the process though threads hang: what they have started is ended, and what lies in temporary folders removed."""
    for it in descendants(os.getpid()):
        with contextlib.suppress(OSError):
            os.kill(it, signal.SIGKILL)
    atexit._run_exitfuncs()
    sys.stdout.flush()
    os._exit(status)
