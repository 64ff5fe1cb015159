"""The launcher: finds who answers, hands the script over, and says what is to be said beside the replies."""
from __future__ import annotations

import contextlib
import errno
import io
import os
import signal
import stat
import sys
import time
from argparse import Namespace
from importlib import import_module
from pathlib import Path
from typing import Any

from tool.arguments import read_arguments
from tool.converse import STANDARD_INPUT, Fault
from tool.progress import MISUSED, NO_INPUT, NOT_BUILT, UNPROVED, Messages, say, stop
from tool.stops import STOPS

# The options that have a way of their own to run: the module with its `run(options)`, which returns the status.
OWN_WAYS = {"listen": "tool.listen", "against": "tool.against", "random": "tool.against"}


def open_file(file: str):
    """Makes a file standard input."""
    given = os.open(file, os.O_RDONLY)
    if os.path.isdir(file):
        raise IsADirectoryError(errno.EISDIR, os.strerror(errno.EISDIR), file)
    os.dup2(given, 0)


def refuse_own_words(options: Namespace):
    """Ends if replies or messages go into the script, which then has no end, or into the expected replies."""
    read = [(options.file or STANDARD_INPUT, "the script", os.fstat(0))]
    with contextlib.suppress(OSError):
        read += [(options.expect, "what is expected", os.stat(options.expect))] if options.expect else []
    for name, what, found in read:
        goes = [stat.S_ISREG(found.st_mode) and os.path.samestat(found, os.fstat(it)) for it in (1, 2)]
        if any(goes):
            if goes[1]:
                # (No message goes into this file.)
                os.dup2(os.open(os.devnull, os.O_WRONLY) if goes[0] else 1, 2)
            stop(MISUSED, f"{name} is {what}, and {'the replies' if goes[0] else 'messages'} go there too, so nothing is run")


def find_program(options: Namespace) -> Path | None:
    """Returns the program that answers, built if needed: the proved one if it exists or is asked for, else the other.

    None is returned if the toolchain's files are such that an unproved build can't be kept.
    """
    from tool.sources import Wanted

    wanted = Wanted()
    if options.proved:
        from tool.build import proved_program

        return proved_program(wanted)
    if not wanted.toolchain and not options.quiet and (wanted.proved.exists() or wanted.unproved.exists()):
        say("there is no rt on the path: the program that answers was built from these sources; which toolchain built it can't be checked")
    if wanted.proved.exists() and not options.unproved:
        return wanted.proved
    from tool.unproved import unproved_program

    program = unproved_program(wanted)
    if not options.quiet:
        say(UNPROVED)
    return program


def who_answers(options: Namespace):
    """Returns who answers, and the whole script if the program can't be kept."""
    from tool.converse import Model, Program, Said

    program = None if options.model else find_program(options)
    if program or options.model:
        return (Program(program) if program else Model()), None
    from tool.unproved import one_run

    status, replies, script = one_run()
    return Said(status, replies), script


def needs_no_pairs(options: Namespace, prompts: bool) -> bool:
    """Whether nothing is made of a line and its reply except handing both on."""
    asks = ("json", "svg", "html", "expect", "strict", "comments", "time", "numbers", "verbose", "model")
    return options.quiet and not prompts and not any(getattr(options, it) for it in asks)


def serve(options: Namespace, begun: float) -> int:
    """Hands the script over, and the replies on to who takes them."""
    prompts = options.file is None and os.isatty(0) and os.isatty(2)
    program = find_program(options) if needs_no_pairs(options, prompts) else None
    if program:
        # Becomes the program. Python ignores this signal, and the program gets it as the shell hands it on.
        signal.signal(signal.SIGPIPE, signal.SIG_DFL)
        os.execv(program, ["iox"])
    from tool.converse import Clock, Output, converse, lines_of, pieces_of, pieces_read, writer_of
    from tool.notes import Follower, Notes

    out, follower, clock = Output(), Follower(), Clock(begun)
    notes, held = Notes(out, follower, options, prompts), list[Any]()
    if options.expect or options.strict:
        from tool.verdicts import Expect, Strict

        notes.expected = Expect(options.file, options.expect, follower) if options.expect else None
        held = [it for it in (notes.expected, Strict(options.file) if options.strict else None) if it]
    if options.svg or options.html:
        from tool.trace import Trace

        held.insert(0, Trace(options))
    # No reply is written if a picture goes to standard output.
    written = [] if "-" in (options.svg, options.html) else [writer_of(options, out, follower)]
    answers, script = who_answers(options)
    pieces = pieces_read(options.file or STANDARD_INPUT) if script is None else pieces_of(script)
    if prompts and script is None:
        from tool.prompt import Prompt

        pieces = Prompt(follower, notes).lines()
    takes = [follower.take, *written, *(it.take for it in held), notes.take, clock.take]
    try:
        status = converse(answers, lines_of(pieces, options.comments), takes, out)
    except BrokenPipeError:
        if options.svg or options.html:
            say("nothing is drawn, since nobody reads the replies any more")
        raise
    if options.time:
        clock.tell()
    for it in held:
        it.end()
    return status or next((it.status for it in held if it.failed), 0)


def main() -> int:
    begun = time.monotonic()
    options = read_arguments()
    for name, module in OWN_WAYS.items():
        if getattr(options, name) is not None:
            return import_module(module).run(options)
    if options.file is not None:
        open_file(options.file)
    refuse_own_words(options)
    if options.svg is not None or options.html is not None:
        from tool.outputs import choose_outputs

        choose_outputs(options)
    if options.path:
        program = None if options.model else find_program(options)
        if program is None:
            stop(NOT_BUILT, "the Python model is model/script_model.py" if options.model else "the program couldn't be kept")
        print(program)
        return 0
    return serve(options, begun)


def run() -> int:
    # Where a stream is closed another file would get its number: what can't be read or can't be written stands there instead.
    for number, how in enumerate((os.O_WRONLY, os.O_RDONLY, os.O_WRONLY)):
        if not os.path.exists(f"/dev/fd/{number}"):
            os.open(os.devnull, how)
    stream, encoding = io.BufferedWriter(Messages(2, "w", closefd=False)), sys.stderr.encoding if sys.stderr else "utf-8"
    sys.stderr = io.TextIOWrapper(stream, encoding, "backslashreplace", line_buffering=True)
    STOPS.begin()
    try:
        return main()
    except KeyboardInterrupt:
        return 128 + signal.SIGINT
    except BrokenPipeError:
        # Nobody reads the replies any more.
        os.dup2(os.open(os.devnull, os.O_WRONLY), 1)
        return 1
    except Fault as fault:
        say(str(fault))
        return 1
    except OSError as error:
        # The folder of what is built can't be written, or a file of the user's can't be read or written.
        from tool.sources import OUT, cache

        is_built = str(error.filename).startswith((str(OUT), str(cache())))
        stop(NOT_BUILT if is_built else NO_INPUT, f"{error.filename or 'standard output'}: {error.strerror}")
