"""The signals that end the launcher. Each ends it, whatever Python does at the moment at which it comes."""
from __future__ import annotations

import _thread
import contextlib
import os
import signal
import sys
import time
from collections.abc import Callable

# In seconds: so long after a signal its end is raised once more, if it wasn't raised yet.
AGAIN = 0.1


class Stops:
    """Raises the end in the main thread, or hands the signal to an event loop, which ends itself.

    Python drops an exception that a signal raises as an object is deleted, and sees a signal only later that comes just before it waits
    in the kernel. So a thread gets each signal too, and repeats it for the main thread until the end was raised where it isn't dropped.
    """

    def __init__(self):
        self.ending, self.is_raised, self.loop = set[int](), False, None

    def begin(self):
        """Hears the signals that nobody has had ignored."""
        self.ending = {it for it in (signal.SIGTERM, signal.SIGHUP, signal.SIGQUIT) if signal.getsignal(it) == signal.SIG_DFL}
        told, tells = os.pipe()
        os.set_blocking(tells, False)
        signal.set_wakeup_fd(tells, warn_on_full_buffer=False)
        sys.unraisablehook = self.dropped
        for it in self.ending:
            signal.signal(it, self.end)
        _thread.start_new_thread(self.repeat, (told, _thread.get_ident()))

    def end(self, number: int, _frame):
        if self.loop is None:
            self.is_raised = True
            sys.exit(128 + number)

    def dropped(self, what):
        if what.exc_type is SystemExit:
            self.is_raised = False
        else:
            sys.__unraisablehook__(what)

    def repeat(self, told: int, main: int):
        number = 0
        while number not in self.ending:
            number = os.read(told, 1)[0]
        while True:
            if self.loop is not None:
                self.loop(number)
                return
            time.sleep(AGAIN)
            if not self.is_raised and self.loop is None:
                signal.pthread_kill(main, number)

    @contextlib.contextmanager
    def told_to(self, loop: Callable[[int], None]):
        """Meanwhile nothing is raised: the loop is told, from the thread of this. Ctrl-C ends it likewise."""
        self.loop, before = loop, signal.getsignal(signal.SIGINT)
        if before == signal.default_int_handler:
            self.ending.add(signal.SIGINT)
            signal.signal(signal.SIGINT, self.end)
        try:
            yield
        finally:
            self.loop = None
            signal.signal(signal.SIGINT, before)


STOPS = Stops()
