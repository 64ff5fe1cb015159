"""The files that the launcher writes, so that no other file of the user's is lost by them."""
from __future__ import annotations

import contextlib
import hashlib
import os
import re
import stat
from argparse import Namespace
from pathlib import Path

from tool.converse import STANDARD_INPUT, Output
from tool.files import put
from tool.progress import MISUSED, NO_INPUT, say, stop

# The options that write a file, with the suffix of its name if none is given, the line that marks such a file, and what it is.
KINDS = {
    "svg": (".svg", "<metadata>Kohepuri ./iox --svg</metadata>", "picture"),
    "html": (".html", '<meta name="generator" content="Kohepuri ./iox --html">', "page"),
}
# How such a file begins, perhaps with a sum of its text in its mark. A mark elsewhere says nothing: a file of the user's may quote it.
OURS = re.compile(
    rb"<svg [^>\n]*>\n<metadata>Kohepuri \./iox --svg((?: [0-9a-f]{16})?)</metadata>\n"
    rb'|<!DOCTYPE html>\n<html lang="en">\n<head>\n(?:<meta [^>\n]*>\n)*'
    rb'<meta name="generator" content="Kohepuri \./iox --html((?: [0-9a-f]{16})?)">\n'
)
STANDARD_OUTPUT = "-"


def is_at(number: int, found: os.stat_result) -> bool:
    """Whether a stream of the launcher is this file; a closed one is none."""
    with contextlib.suppress(OSError):
        return os.path.samestat(found, os.fstat(number))
    return False


def is_nameless(file: str | None) -> bool:
    """Whether the script, which is standard input by now, has no name of its own, as from a pipe."""
    return file is None or not stat.S_ISREG(os.fstat(0).st_mode) or os.path.abspath(file).startswith(("/dev/", "/proc/"))


def script_of(options: Namespace, out: str) -> str:
    """What a picture or page is of: the script, by its place beside OUT."""
    if is_nameless(options.file):
        return STANDARD_INPUT
    if out == STANDARD_OUTPUT:
        return os.path.basename(options.file)
    return os.path.relpath(os.path.realpath(options.file), os.path.dirname(os.path.realpath(out)))


def split(text: bytes) -> tuple[bytes, bytes, bytes] | None:
    """A picture or page as what is before its sum, the sum or nothing, and what is behind it; None for any other file."""
    begins = OURS.match(text)
    if not begins or begins.lastindex is None:
        return None
    at, end = begins.span(begins.lastindex)
    return text[:at], text[at:end], text[end:]


def sum_of(text: bytes, script: str) -> bytes:
    return b" " + hashlib.sha256(os.fsencode(script) + b"\0" + text).hexdigest()[:16].encode()


def with_sum(text: bytes, script: str) -> bytes:
    """A picture or page that was drawn, with the sum of its script and text in its mark."""
    parts = split(text)
    assert parts
    before, _, behind = parts
    return before + sum_of(text, script) + behind


def why_not_ours(path: str, found: os.stat_result, script: str) -> str | None:
    """Why something is lost with this file, unless it is no file on a disk, or what was written here of the same script."""
    if not stat.S_ISREG(found.st_mode):
        return None
    text = b""
    with contextlib.suppress(PermissionError), open(path, "rb") as file:
        text = file.read()
    before, told, behind = split(text) or (b"", b"", b"")
    if not told:
        return "exists, and ./iox didn't write it"
    return None if told == sum_of(before + behind, script) else "was changed since ./iox wrote it, or shows another script"


def refuse_loss(name: str, out: str, options: Namespace):
    """Ends if writing OUT would lose a file of the user's. The script is standard input by now."""
    try:
        found = os.stat(out)
    except FileNotFoundError:
        return
    is_plain, replies = stat.S_ISREG(found.st_mode), options.expect
    # (The file that `--expect` compares with is missing perhaps.)
    has_replies = bool(replies) and os.path.exists(replies) and os.path.samestat(found, os.stat(replies))
    for holds, why in (
        (is_plain and is_at(0, found), "is the script itself, so nothing is written there"),
        (has_replies, "has the expected replies, so nothing is written there"),
        (is_at(1, found) and os.path.realpath(out) != os.devnull, f"is where the replies go: `--{name} -` writes to standard output"),
        (is_plain and is_at(2, found), "is where the messages go, so nothing is written there"),
    ):
        if holds:
            stop(MISUSED, f"{out} {why}")
    lost = why_not_ours(out, found, script_of(options, out))
    if lost and not (options.force and options.names_script):
        meant = f"`./iox {out} --{name}` draws it if it is a script, `./iox - --{name} {out} --force` replaces it"
        stop(MISUSED, f"{out} {lost}: {'--force replaces it' if options.names_script else meant}")


def refuse_names(options: Namespace):
    """Ends if an OUT is a script by its name, or a page has the name of a picture."""
    given = {name: getattr(options, name) for name in KINDS if getattr(options, name) is not None}
    for name, out in given.items():
        for it in (out, os.path.realpath(out)):
            if it.lower().endswith(".iox"):
                words = [f"--{other}" + (f" {place}" if place and place != out else "") for other, place in given.items()]
                made = [place if place and place != out else str(Path(it).with_suffix(KINDS[other][0])) for other, place in given.items()]
                meant = f"`./iox {it} {' '.join(words)}` writes {' and '.join(made)}"
                stop(MISUSED, f"{out} is a script, so nothing is written there: {meant}")
        for suffix, _, what in KINDS.values():
            if out.lower().endswith(suffix) and suffix != KINDS[name][0]:
                own = Path(out).with_suffix(KINDS[name][0])
                stop(MISUSED, f"{out} is a name for a {what}, and --{name} writes a {KINDS[name][2]}: `--{name} {own}`")


def refuse_unwritable(out: str):
    folder = os.path.dirname(os.path.realpath(out))
    if os.path.isdir(out) or out.endswith("/"):
        stop(NO_INPUT, f"{out}: Is a directory")
    if not os.path.isdir(folder):
        stop(NO_INPUT, f"{out}: No such file or directory")
    if not os.access(out if os.path.exists(out) else folder, os.W_OK):
        stop(NO_INPUT, f"{out}: Permission denied")


def default_output(name: str, file: str | None) -> str:
    """The name of the script with the suffix of what is written."""
    if file is None or is_nameless(file):
        stop(MISUSED, f"--{name} needs OUT, since the script isn't read from a file with a name: see ./iox --help")
    return str(Path(file).with_suffix(KINDS[name][0]))


def choose_outputs(options: Namespace):
    """Gives each option that writes its OUT, and ends if one of them can't be written, or not without a loss."""
    refuse_names(options)
    chosen = {STANDARD_OUTPUT: "--json"} if options.json else {}
    for name in KINDS:
        out = getattr(options, name)
        if out is None:
            continue
        out = out or default_output(name, options.file)
        setattr(options, name, out)
        if out != STANDARD_OUTPUT:
            refuse_loss(name, out, options)
            refuse_unwritable(out)
        place, shown = (out, "standard output") if out == STANDARD_OUTPUT else (os.path.realpath(out), out)
        if place in chosen:
            stop(MISUSED, f"{chosen[place]} and --{name} can't both be written to {shown}")
        chosen[place] = f"--{name}"


def write_output(name: str, text: str, options: Namespace):
    """Writes what an option asks for. OUT is looked at again, since it may have been made meanwhile."""
    out = getattr(options, name)
    made = with_sum(text.encode(), script_of(options, out))
    if out == STANDARD_OUTPUT:
        output = Output()
        output.write(made)
        return output.flush()
    refuse_loss(name, out, options)
    put(Path(os.path.realpath(out)), made, out)
    if not options.quiet:
        say(f"wrote {out}")
