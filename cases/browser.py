"""Chromium, asked over a pipe: what a page shows at a width of the screen, light or dark, and a picture of it."""
import base64
import contextlib
import fcntl
import json
import os
import select
import shutil
import signal
import subprocess
import tempfile
import time
from itertools import count

from cases.kit import LONG, Differs, NotHere

# By so many pixels a screen is high.
HEIGHT = 800
# The file descriptors over which Chromium is asked, and over which it answers.
ASKED, ANSWERS = 3, 4


class Browser:
    """A running browser. Each request has a number, and each reply ends with a byte 0."""

    def __init__(self, program, folder):
        (its_given, self.given), (self.taken, its_taken) = os.pipe(), os.pipe()

        def lay_pipes():
            given, taken = (fcntl.fcntl(it, fcntl.F_DUPFD, 10) for it in (its_given, its_taken))
            os.dup2(given, ASKED)
            os.dup2(taken, ANSWERS)

        words = [program, "--headless", "--no-sandbox", "--disable-gpu", f"--user-data-dir={folder}", "--remote-debugging-pipe"]
        quiet = {"stdin": subprocess.DEVNULL, "stdout": subprocess.DEVNULL, "stderr": subprocess.DEVNULL}
        how = {"preexec_fn": lay_pipes, "pass_fds": (ASKED, ANSWERS), "start_new_session": True}
        self.child = subprocess.Popen([*words, "about:blank"], **how, **quiet)
        for it in (its_given, its_taken):
            os.close(it)
        self.numbers, self.rest, self.session = count(1), b"", None

    def end(self):
        for it in (self.given, self.taken):
            os.close(it)
        # Its own processes are in its session.
        with contextlib.suppress(ProcessLookupError):
            os.killpg(self.child.pid, signal.SIGKILL)
        self.child.wait()

    def next(self):
        """The next reply or event."""
        until = time.monotonic() + LONG
        while b"\0" not in self.rest:
            if not select.select([self.taken], [], [], max(0.0, until - time.monotonic()))[0]:
                raise Differs("the browser doesn't answer")
            piece = os.read(self.taken, 1 << 20)
            if not piece:
                raise NotHere("Chromium doesn't start on this machine")
            self.rest += piece
        reply, _, self.rest = self.rest.partition(b"\0")
        return json.loads(reply)

    def ask(self, method, **parameters):
        number = next(self.numbers)
        session = {"sessionId": self.session} if self.session else {}
        with contextlib.suppress(BrokenPipeError):
            os.write(self.given, json.dumps({"id": number, "method": method, "params": parameters, **session}).encode() + b"\0")
        while (reply := self.next()).get("id") != number:
            pass
        if "error" in reply:
            raise Differs(f"{method}: {reply['error']}")
        return reply["result"]

    def open(self, address, width, is_dark):
        """Shows a page in a tab of its own."""
        self.session = None
        target = self.ask("Target.createTarget", url="about:blank")["targetId"]
        self.session = self.ask("Target.attachToTarget", targetId=target, flatten=True)["sessionId"]
        self.ask("Emulation.setDeviceMetricsOverride", width=width, height=HEIGHT, deviceScaleFactor=1, mobile=False)
        scheme = {"name": "prefers-color-scheme", "value": "dark" if is_dark else "light"}
        self.ask("Emulation.setEmulatedMedia", features=[scheme])
        self.ask("Page.enable")
        self.ask("Page.navigate", url=address)
        while self.next().get("method") != "Page.loadEventFired":
            pass

    def value(self, script):
        """What an expression of the page is, or what it promises."""
        told = self.ask("Runtime.evaluate", expression=script, awaitPromise=True, returnByValue=True)
        if "exceptionDetails" in told:
            raise Differs(told["exceptionDetails"]["exception"]["description"])
        return told["result"].get("value")

    def picture(self, file):
        """Writes the screen as it is seen."""
        file.write_bytes(base64.b64decode(self.ask("Page.captureScreenshot", captureBeyondViewport=False)["data"]))


@contextlib.contextmanager
def browser():
    program = next(filter(None, map(shutil.which, ("chromium", "chromium-browser", "google-chrome"))), None)
    if program is None:
        raise NotHere("no Chromium: Debian's package has it")
    folder = tempfile.mkdtemp(prefix="iox-check-")
    begun = Browser(program, folder)
    try:
        yield begun
    finally:
        begun.end()
        # (It may still be writing there.)
        shutil.rmtree(folder, ignore_errors=True)
