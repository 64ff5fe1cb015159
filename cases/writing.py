"""What the launcher writes into files, and that nothing of the user's is lost by it; what a run is held against. By the Python model."""
import contextlib
import json
import os
import shutil
import signal
import subprocess
import sys
import tempfile
from contextlib import ExitStack, contextmanager
from functools import cache
from itertools import product
from pathlib import Path

from cases.kit import PATIENCE, REPLIES, SCRIPT, TOP, NotHere, Ran, await_that, case, case_of_program, expect, expect_in, takes_long

# The options that write a file, with its suffix if none is named, and what such a file begins with.
WRITING = (("svg", ".svg", b"<svg "), ("html", ".html", b"<!DOCTYPE html>"))
MINE = b"a text of mine\n"
# How pictures and pages of the launcher begin. There a sum of the text is behind the name of the option.
PICTURE = b"""<svg xmlns="http://www.w3.org/2000/svg" width="728" height="460" viewBox="0 0 728 460" role="img">
<metadata>Kohepuri ./iox --svg</metadata>
<title>first.iox</title>
"""
PAGE = b"""<!DOCTYPE html>
<html lang="en">
<head>
<meta charset="utf-8">
<meta http-equiv="Content-Security-Policy" content="default-src 'none'; style-src 'unsafe-inline'; script-src 'unsafe-inline'">
<meta name="generator" content="Kohepuri ./iox --html">
"""
OURS = {".svg": PICTURE, ".html": PAGE}
# Files of the user's in which such a beginning, or its mark, is further on; and the page before its parts are put in.
MARKED = {
    "pasted": b"<!DOCTYPE html>\n<html lang=\"en\">\n<head>\n<title>Mine</title>\n</head>\n<body>\n" + PICTURE + b"</svg></body></html>\n",
    "framed": b'<svg xmlns="http://www.w3.org/2000/svg">\n<g>\n' + PICTURE + b"</svg></g></svg>\n",
    "quoting": b"Pages of ./iox have this line:\n" + PAGE + b"Pictures have this one:\n" + PICTURE,
    "template": (TOP / "tool" / "page.html").read_bytes(),
}
# What such an option is asked in a folder of the user's: the words, the status, what is said in one line, and the file that is written.
# `--it` is the option and `.end` its suffix. Streams are as in a shell: `<F`, `>F`, `2>F`, and `<-` is a pipe with the line `node`.
OUTCOMES = [
    # The script is kept, whoever names it as OUT.
    ("--it own.iox", 64, "own.iox is a script, so nothing is written there: `./iox own.iox --it` writes own.end", ""),
    ("--it own.iox own.iox", 64, "own.iox is a script, so", ""),
    ("--it=own.iox own.iox", 64, "own.iox is a script, so", ""),
    ("own.iox --it own.iox", 64, "own.iox is a script, so", ""),
    ("--force --it=./own.iox own.iox", 64, "own.iox is a script, so", ""),
    ("--it new.iox own.iox", 64, "new.iox is a script, so", ""),
    ("--it NEW.IOX own.iox --force", 64, "NEW.IOX is a script, so", ""),
    ("--it link own.iox", 64, "link is a script, so", ""),
    ("--it other.txt --force own.iox", 64, "other.txt is the script itself", ""),
    ("--it=other.txt --force <other.txt", 64, "other.txt is the script itself", ""),
    ("--expect own.replies --it own.replies --force own.iox", 64, "own.replies has the expected replies", ""),
    ("--force --it own.replies --expect own.replies own.iox", 64, "own.replies has the expected replies", ""),
    # A file that the launcher didn't write is replaced by `--force` alone, and by this only if FILE is named.
    ("--it mine.end own.iox", 64, "mine.end exists, and ./iox didn't write it: --force replaces it", ""),
    ("mine.iox --it", 64, "mine.end exists, and ./iox didn't write it: --force replaces it", ""),
    ("--it mine.end", 64, "`./iox mine.end --it` draws it if it is a script, `./iox - --it mine.end --force` replaces it", ""),
    ("--it mine.end <-", 64, "mine.end exists, and ./iox didn't write it: `./iox mine.end --it` draws it", ""),
    ("--force --it=mine.end <-", 64, "mine.end exists, and ./iox didn't write it: `./iox mine.end --it` draws it", ""),
    ("--it mine.end --force own.iox", 0, "iox: wrote mine.end", "mine.end"),
    ("mine.iox --it --force", 0, "iox: wrote mine.end", "mine.end"),
    ("- --it mine.end --force <-", 0, "iox: wrote mine.end", "mine.end"),
    ("--it to-mine --force own.iox", 0, "iox: wrote to-mine", "mine.end"),
    ("--it ours.end own.iox", 0, "iox: wrote ours.end", "ours.end"),
    ("-q --it ours.end own.iox", 0, "", "ours.end"),
    ("--it ours.end ./own.iox", 0, "iox: wrote ours.end", "ours.end"),
    ("- --it piped.end <own.iox", 0, "iox: wrote piped.end", "piped.end"),
    # What the launcher wrote, too, once it was changed, or for another script.
    ("--it edited.end own.iox", 64, "edited.end was changed since ./iox wrote it, or shows another script: --force replaces it", ""),
    ("--it longer.end own.iox", 64, "longer.end was changed since", ""),
    ("--it edited.end --force own.iox", 0, "iox: wrote edited.end", "edited.end"),
    ("--it headed.end own.iox", 64, "headed.end exists, and ./iox didn't write it: --force replaces it", ""),
    ("--it ours.end mine.iox", 64, "ours.end was changed since ./iox wrote it, or shows another script: --force replaces it", ""),
    ("--it ours.end <-", 64, "ours.end was changed since ./iox wrote it, or shows another script: `./iox ours.end --it` draws it", ""),
    ("--it piped.end own.iox", 64, "piped.end was changed since ./iox wrote it, or shows another script", ""),
    ("--it ours.end mine.iox --force", 0, "iox: wrote ours.end", "ours.end"),
    ("--it pasted own.iox", 64, "pasted exists, and ./iox didn't write it: --force replaces it", ""),
    ("--it framed own.iox", 64, "framed exists, and ./iox didn't write it: --force replaces it", ""),
    ("--it quoting own.iox", 64, "quoting exists, and ./iox didn't write it: --force replaces it", ""),
    ("--it template own.iox", 64, "template exists, and ./iox didn't write it: --force replaces it", ""),
    ("--it empty own.iox", 64, "empty exists, and ./iox didn't write it: --force replaces it", ""),
    ("--it empty --force own.iox", 0, "iox: wrote empty", "empty"),
    ("--it new own.iox", 0, "iox: wrote new", "new"),
    # The name of FILE is the default, where it has one.
    ("own.iox --it", 0, "iox: wrote own.end", "own.end"),
    # An empty name, as of a variable that isn't set, is none.
    ("--it= own.iox", 64, "iox: --it got an empty name for OUT: see ./iox --help", ""),
    ("--it  own.iox", 64, "iox: --it got an empty name for OUT: see ./iox --help", ""),
    ("--it  --force own.iox", 64, "iox: --it got an empty name for OUT", ""),
    ("--it own.end --it= own.iox", 64, "iox: --it got an empty name for OUT", ""),
    # Without an OUT there is nothing to replace.
    ("--force own.iox", 64, "iox: --force replaces an OUT, so it needs --svg or --html: see ./iox --help", ""),
    ("--json --force own.iox", 64, "iox: --force replaces an OUT, so it needs --svg or --html", ""),
    ("--force --expect own.replies own.iox", 64, "iox: --force replaces an OUT, so it needs", ""),
    ("--force --listen 0", 64, "iox: --force replaces an OUT, so it needs", ""),
    ("--force --path", 64, "iox: --force replaces an OUT, so it needs", ""),
    ("--it <-", 64, "--it needs OUT, since the script isn't read from a file with a name", ""),
    ("- --it <own.iox", 64, "--it needs OUT", ""),
    ("/dev/stdin --it <-", 64, "--it needs OUT", ""),
    ("/dev/stdin --it <own.iox", 64, "--it needs OUT", ""),
    # Standard output has the picture or page, or the replies.
    ("--it - own.iox", 0, "", "-"),
    ("own.iox --it -", 0, "", "-"),
    ("--json --it - own.iox", 64, "--json and --it can't both be written to standard output", ""),
    ("--svg - --html - own.iox", 64, "--svg and --html can't both be written to standard output", ""),
    ("--svg --html own.iox", 64, "own.iox is a script, so nothing is written there: `./iox own.iox --svg --html` writes own.svg and", ""),
    ("--svg other.svg --html own.iox", 64, "`./iox own.iox --svg other.svg --html` writes other.svg and own.html", ""),
    ("--html own.svg own.iox", 64, "own.svg is a name for a picture, and --html writes a page: `--html own.html`", ""),
    ("--svg OWN.HTML --force own.iox", 64, "OWN.HTML is a name for a page, and --svg writes a picture: `--svg OWN.svg`", ""),
    ("--svg it --html ./it own.iox", 64, "--svg and --html can't both be written to ./it", ""),
    ("--it /dev/stdout own.iox", 64, "/dev/stdout is where the replies go: `--it -` writes to standard output", ""),
    ("--it replies own.iox >replies", 64, "replies is where the replies go", ""),
    ("--it messages own.iox 2>messages", 64, "messages is where the messages go", ""),
    ("--it - own.iox >/dev/full", 1, "iox: write fault: standard output: No space left on device", ""),
    ("--it /dev/null own.iox", 0, "iox: wrote /dev/null", ""),
    # What can't be written is said before anything runs.
    ("--it folder own.iox", 66, "folder: Is a directory", ""),
    ("--it folder/ own.iox", 66, "folder/: Is a directory", ""),
    ("--it missing/out own.iox", 66, "missing/out: No such file or directory", ""),
    ("--it new/ own.iox", 66, "new/: Is a directory", ""),
    ("--it own.iox/out own.iox", 66, "own.iox/out: Not a directory", ""),
    ("--it loop own.iox", 66, "loop: Too many levels of symbolic links", ""),
]
# The same for somebody who may write neither of these.
CLOSED = [
    ("--it closed/out own.iox", 66, "closed/out: Permission denied", ""),
    ("--it locked.end own.iox", 66, "locked.end: Permission denied", ""),
]
# The same where the disk is full.
FULL = [
    ("--it new own.iox", 66, "iox: new: File too large", ""),
    ("--it ours.end own.iox", 66, "iox: ours.end: File too large", ""),
    ("own.iox --it", 66, "iox: own.end: File too large", ""),
]


@contextmanager
def own_script():
    """A folder with a script of the user's."""
    with tempfile.TemporaryDirectory(prefix="iox-check-") as folder:
        script = Path(folder) / "own.iox"
        shutil.copy(SCRIPT, script)
        yield script


@cache
def written(suffix):
    """What the launcher wrote of one line: as the script `own.iox` beside it, and from a pipe."""
    with own_script() as script:
        script.write_bytes(b"node\n")
        for name, words in (("ours", ["own.iox"]), ("piped", [])):
            expect(ran("-q", f"--{suffix[1:]}", f"{name}{suffix}", *words, given=b"node\n", cwd=script.parent).status, 0)
        return [script.with_name(f"{name}{suffix}").read_bytes() for name in ("ours", "piped")]


@contextmanager
def own_folder(suffix):
    """A folder with scripts, replies and texts of the user's, and with pictures or pages that the launcher wrote, some of them edited."""
    with own_script() as script:
        folder, (ours, piped) = script.parent, written(suffix)
        texts = {"mine.iox": SCRIPT.read_bytes(), f"mine{suffix}": MINE, "own.replies": REPLIES, "empty": b"", **MARKED}
        of_ours = {"ours": ours, "locked": ours, "piped": piped, "edited": ours.replace(b"own", b"Own", 1), "longer": ours + b"\n"}
        of_ours["headed"] = OURS[suffix] + MINE
        for name, text in {**texts, **{f"{it}{suffix}": text for it, text in of_ours.items()}}.items():
            (folder / name).write_bytes(text)
        (folder / f"mine{suffix}").chmod(0o640)
        (folder / f"locked{suffix}").chmod(0o444)
        for name, target in (("link", "own.iox"), ("loop", "loop"), ("to-mine", f"mine{suffix}")):
            (folder / name).symlink_to(target)
        os.link(script, folder / "other.txt")
        (folder / "folder").mkdir()
        (folder / "closed").mkdir(mode=0o555)
        folder.chmod(0o755)
        yield folder


def contents(folder):
    """What a folder has, with the texts of its files, and where its links lead."""
    return {it.name: os.readlink(it) if it.is_symlink() else it.read_bytes() if it.is_file() else None for it in folder.iterdir()}


def expect_outcome(row, option, **how):
    """Runs the words of a row, and expects its status, its message, and that nothing else in the folder changed."""
    name, suffix, begins = option
    words, *rest = [it.replace("--it", f"--{name}").replace(".end", suffix) if isinstance(it, str) else it for it in row]
    status, said, written = rest
    streams = {mark: [it[len(mark) :] for it in words.split(" ") if it.startswith(mark)] for mark in ("<", "2>", ">")}
    with own_folder(suffix) as folder, ExitStack() as opened:
        how = {"given": b"node\n", "cwd": folder, **how}
        for mark, key, mode in (("<", "given", "rb"), (">", "stdout", "wb"), ("2>", "stderr", "wb")):
            for it in streams[mark]:
                if it != "-":
                    how[key] = opened.enter_context(open(folder / it, mode))
        before = contents(folder)
        ran = Ran("--model", *(it for it in words.split(" ") if not it.startswith(("<", ">", "2>"))), **how)
        after = contents(folder)
        # (Messages that go to a file of this folder.)
        for it in streams["2>"]:
            ran.err, after[it] = after[it], before[it]
    changed = sorted(it for it in {*before, *after} if before.get(it) != after.get(it))
    expect((words, ran.status, ran.err.count(b"\n"), changed), (words, status, bool(said), [written] * (written not in ("", "-"))))
    expect_in(said.encode(), ran.err)
    made = after.get(written, ran.out if written == "-" else begins)
    replies = (REPLIES if "own.iox" in words or "mine.iox" in words else b"ok n1\n") * (written != "-")
    expect((words, made.startswith(begins)), (words, True))
    if not status and ran.out is not None and written != "-":
        expect((words, ran.out), (words, replies))


def ran(*words, **how):
    return Ran("--model", *words, **how)


@case
@takes_long
def each_output_is_written_or_refused_as_the_table_says():
    for row in OUTCOMES:
        if "/dev/full" in row[0] and not os.path.exists("/dev/full"):
            continue
        # (a row that names the options itself is the same for both)
        for option in WRITING if "--it" in row[0] else WRITING[:1]:
            expect_outcome(row, option)


def nobody():
    """How a process is begun that may write less than root, who may write everything."""
    if os.geteuid():
        return {}
    with contextlib.suppress(OSError):
        if not subprocess.run([sys.executable, TOP / "iox", "--commands"], capture_output=True, user=65534).returncode:
            return {"user": 65534}
    raise NotHere("root alone can read this repository or its Python")


@case
def an_output_that_may_not_be_written_is_refused_before_anything_runs():
    how = nobody()
    for option in WRITING:
        for row in CLOSED:
            expect_outcome(row, option, **how)


def files_of(count):
    """How a process is begun whose files may have so many bytes."""
    if not shutil.which("prlimit"):
        raise NotHere("no prlimit: util-linux has it")
    return ["prlimit", f"--fsize={count}:{count}"]


@case
def a_full_disk_leaves_what_was_there_and_nothing_half_written():
    for option in WRITING:
        for row in FULL:
            expect_outcome(row, option, under=files_of(100))


@case
def a_comparison_that_cannot_write_what_it_found_leaves_nothing_half_written():
    words, reply = ("--against", "sh -c 'while read line; do echo no; done'", "own.iox"), b"node  no\n"
    limit = {"under": files_of(4)}
    for how, told in ((limit, "iox: against-1.iox: File too large"), ({}, "iox: 3 of 3 runs of these 1 lines show it: against-1.iox")):
        with own_folder(".svg") as folder:
            before = contents(folder)
            one = Ran(*words, cwd=folder, **how)
            expect_in(told.encode(), one.err)
            expect((one.status, one.out.startswith(reply)), (66 if how else 5, True))
            made = sorted({*contents(folder)} - {*before})
            expect((made, {it: contents(folder)[it] for it in before}), ([] if how else ["against-1.iox", "against-1.svg"], before))


@case
def what_one_run_wrote_the_next_replaces():
    for name, suffix, _ in WRITING:
        with own_script() as script:
            for _ in range(2):
                ran("-q", script, f"--{name}").expect(0, REPLIES)


@case
def a_replaced_file_keeps_its_rights_and_a_new_one_has_the_users():
    with own_folder(".svg") as folder:
        ran("--svg", "mine.svg", "--force", "own.iox", cwd=folder, umask=0o027)
        ran("--svg", "new.svg", "own.iox", cwd=folder, umask=0o027)
        expect([(folder / it).stat().st_mode & 0o777 for it in ("mine.svg", "new.svg")], [0o640, 0o640])


# What is to be written where a run is stopped: the words, and the line or the file by which it is seen that the run is in its midst.
STOPPED: list = [(("--model", f"--{name}", f"piped{suffix}"), b"ok n1\n") for name, suffix, _ in WRITING]
STOPPED.append((("--against", "sh -c 'exec cat >begun'", "own.iox"), None))
SIGNALS = (signal.SIGINT, signal.SIGTERM, signal.SIGHUP, signal.SIGQUIT)


@case
def a_stopped_run_leaves_what_was_there_and_nothing_half_written():
    how = {"stdin": subprocess.PIPE, "stdout": subprocess.PIPE, "stderr": subprocess.PIPE}
    for (words, reply), number in product(STOPPED, SIGNALS):
        with own_folder(".html" if "--html" in words else ".svg") as folder:
            before, begun = contents(folder), folder / "begun"
            with subprocess.Popen([sys.executable, TOP / "iox", *words], cwd=folder, **how) as stopped:
                if reply:
                    stopped.stdin.write(b"node\n")
                    stopped.stdin.flush()
                    expect(stopped.stdout.readline(), reply)
                else:
                    await_that(lambda it=begun: it.exists() and it.stat().st_size, "the other program reads a line")
                    begun.unlink()
                stopped.send_signal(number)
                expect((words, stopped.wait(PATIENCE), stopped.stderr.read()), (words, 128 + number, b""))
            expect((words, contents(folder)), (words, before))


# A process of its own, in which a call fails or a signal comes at each place of the writing of a file.
STOPS = """
import os, sys
from pathlib import Path
from unittest import mock
sys.path.insert(0, sys.argv[1])
from tool.files import put
for call in ("os.replace", "os.chmod", "os.umask", "builtins.open"):
    for stopped in (KeyboardInterrupt, SystemExit, OSError(28, "No space left on device")):
        for name in ("ours.svg", "new"):
            try:
                with mock.patch(call, side_effect=stopped):
                    put(Path(name), b"other")
                print("no stop at", call)
            except (KeyboardInterrupt, SystemExit, OSError) as told:
                said = str(told) in ("", f"[Errno 28] No space left on device: '{name}'")
                if not said or os.listdir() != ["ours.svg"] or Path("ours.svg").read_bytes() != b"mine":
                    print(call, stopped, told.args, os.listdir())
"""


@case
def a_stop_while_a_file_is_written_leaves_what_was_there():
    with tempfile.TemporaryDirectory(prefix="iox-check-") as folder:
        (Path(folder) / "ours.svg").write_bytes(b"mine")
        stopped = subprocess.run([sys.executable, "-c", STOPS, TOP], cwd=folder, capture_output=True, text=True)
    expect((stopped.returncode, stopped.stdout, stopped.stderr), (0, "", ""))


@case
def a_script_whose_name_is_no_text_is_drawn():
    for name, suffix, begins in WRITING:
        with own_script() as script:
            odd = script.with_name(os.fsdecode(b"\xff<b>.iox"))
            script.rename(odd)
            ran("-q", odd, f"--{name}").expect(0, REPLIES)
            written = odd.with_suffix(suffix).read_bytes()
            expect((written.startswith(begins), written.count(b"\\xff&lt;b&gt;.iox") > 0), (True, True))


@case
def a_long_line_is_drawn_too():
    values = " ".join(str(10**15 + at) for at in range(40))
    given = f"node\ncreate n1 ps A\npublisher f1 slice=40\nput p1 {values}\nsubscriber f1\nput p1 {values}\nreceive s1\n".encode()
    for name, _, begins in WRITING:
        one = ran("-q", f"--{name}", "-", given=given)
        expect((one.status, one.out.startswith(begins), one.err), (0, True, b""))


@case
def replies_are_compared_with_those_that_are_expected():
    second = " is expected (own.replies:2), and the reply is "
    with own_script() as script:
        wanted = script.with_suffix(".replies")
        wanted.write_bytes(REPLIES)
        ran("--expect", wanted, script).expect(0, REPLIES)
        ran("--expect", wanted, "--json", script, stdout=subprocess.DEVNULL).expect(0, None)
        for given, lines, told in (
            (b"node\nput p1 1\nnode\n", b"ok n1\nok 1\nok n3\n", f'line 2: "ok 1"{second}"skip": p1 doesn\'t exist'),
            (b"node\nnod\n", b"ok n1\nok n2", f'line 2: "ok n2"{second}"err faulty line": "nod" isn\'t a command'),
            (b"node\nnode\n", b"ok n1\n", 'line 2: own.replies ends before this reply, "ok n2"'),
            (b"node\n", b"ok n1\nok n2\nok n3\n", "iox: own.replies has 2 more replies from line 2 on, and the script has no more lines"),
        ):
            wanted.write_bytes(lines)
            # (Where the script is a file, its lines are named as compilers name them.)
            script.write_bytes(given)
            for quiet, named in product(([], ["-q"]), (False, True)):
                one = ran("--expect", "own.replies", *quiet, *["own.iox"] * named, given=given, cwd=script.parent)
                expect((one.status, one.out.count(b"\n"), one.err.count(b"own.replies")), (5, given.count(b"\n"), 1))
                expect_in(told.replace("line 2: ", "own.iox:2: " if named else "line 2: "), one.err.decode())
        script.write_bytes(SCRIPT.read_bytes())
        # Of a reply that is expected nothing is said, unless that is asked for.
        wanted.write_bytes(b"skip\nok n1\n")
        told = b"line 1, skip: p1 doesn't exist\n"
        for words, said in (([], b""), (["--numbers"], b"line 1: put p1 1\n" + told)):
            ran("--expect", "own.replies", *words, given=b"put p1 1\nnode\n", cwd=script.parent).expect(0, b"skip\nok n1\n", said)
        wanted.write_bytes(b"skip\nok n2\n")
        one = ran("--expect", "own.replies", given=b"put p1 1\nput p1 1\n", cwd=script.parent)
        expect((one.status, one.err.count(b"line 1"), one.err.count(b"line 2, skip: p1 doesn't exist\n")), (5, 0, 1))
        wanted.write_bytes(b"ok f1\n")
        one = ran("--expect", "own.replies", given=b"open n1 ps A\n", cwd=script.parent)
        expect_in("n1 doesn't exist", one.err.decode())
        refused = {"missing": (66, "No such file or directory"), ".": (66, "Is a directory"), "": (64, "the name of a file")}
        for name, (status, told) in refused.items():
            ran("--expect", name, "-q", script, cwd=script.parent).expect_one_line(status, told)


@case
def far_differences_of_replies_are_shown_where_they_are():
    values = [str(10**18 + at) for at in range(30)]
    with own_script() as script:
        wanted = script.with_suffix(".replies")
        wanted.write_text(f"ok n1\nok f1\nok p1\nok s1\nok 1\nok m1 {' '.join(values[:-1])} 7\n")
        given = f"node\ncreate n1 ps A\npublisher f1 slice=30\nsubscriber f1\nput p1 {' '.join(values)}\nreceive s1\n".encode()
        one = ran("--expect", wanted, given=given)
        expect(one.status, 5)
        for it in (f' 7" is expected ({wanted}:6)', f' {values[-1]}"\n'):
            expect_in(it, one.err.decode())


# Streams that are closed, and the status, the replies and the messages then.
CLOSED_STREAMS = {
    "<&-": (1, b"", b"iox: read fault: standard input: Bad file descriptor\n"),
    f"{SCRIPT} >&-": (1, b"", b"iox: write fault: standard output: Bad file descriptor\n"),
    f"-q {SCRIPT} --svg - >&-": (1, b"", b"iox: write fault: standard output: Bad file descriptor\n"),
    "2>&-": (0, b"err faulty line\n", b""),
    "-v 2>&-": (0, b"err faulty line\n", b""),
}


@case
def no_file_is_taken_for_a_stream_that_is_closed():
    for words, wanted in CLOSED_STREAMS.items():
        asked = ["sh", "-c", f'exec "$0" "$1" --model {words}', sys.executable, TOP / "iox"]
        closed = subprocess.run(asked, input=b"nod\n", capture_output=True)
        expect((words, closed.returncode, closed.stdout, closed.stderr), (words, *wanted))


# Where replies or messages would go into a file that is read, and what is said then; nothing, where it would go there, too.
INTO_WHAT_IS_READ = {
    "own.iox >>own.iox": "iox: own.iox is the script, and the replies go there too, so nothing is run\n",
    "<own.iox >>own.iox": "iox: standard input is the script, and the replies go there too, so nothing is run\n",
    "-q link >>other.txt": "iox: link is the script, and the replies go there too, so nothing is run\n",
    "own.iox 2>>own.iox": "iox: own.iox is the script, and messages go there too, so nothing is run\n",
    "own.iox >>own.iox 2>&1": "",
    "--expect own.replies own.iox >>own.replies": "iox: own.replies is what is expected, and the replies go there too, so nothing is run\n",
}


@case
def no_reply_and_no_message_goes_into_a_file_that_is_read():
    for words, told in INTO_WHAT_IS_READ.items():
        with own_folder(".svg") as folder:
            before = contents(folder)
            asked = ["sh", "-c", f'exec "$0" "$1" --model {words}', sys.executable, TOP / "iox"]
            one = subprocess.run(asked, cwd=folder, capture_output=True, text=True, timeout=PATIENCE)
            expect((words, one.returncode, one.stdout + one.stderr), (words, 64, told))
            expect((words, contents(folder)), (words, before))


@contextmanager
def nobody_reads():
    """The end of a pipe that nobody reads."""
    reads, nobody = os.pipe()
    os.close(reads)
    with open(nobody, "wb") as end:
        yield end


@case_of_program
def a_message_that_cannot_be_written_holds_no_reply_up():
    replies = b"ok n1\nskip\nerr faulty line\n"
    for words in ([], ["--model"], ["--model", "--time"], ["--model", "--svg", "drawn.svg"]):
        for stream in (nobody_reads, lambda: open(os.devnull, "rb")):
            with own_script() as script, stream() as messages:
                one = Ran(*words, given=b"node\nput p9 1\nnod\n", stderr=messages, cwd=script.parent)
                expect((words, one.status, one.out), (words, 0, replies))
                expect((words, script.with_name("drawn.svg").exists()), (words, "--svg" in words))


@case
def nothing_is_drawn_where_nobody_reads_the_replies_and_that_is_told():
    with own_script() as script, nobody_reads() as nobody:
        one = ran(script, "--svg", stdout=nobody)
        expect((one.status, one.err), (1, b"iox: nothing is drawn, since nobody reads the replies any more\n"))
        expect([it.name for it in script.parent.iterdir()], [script.name])


@case_of_program
def the_first_script_is_as_expected():
    Ran("--expect", SCRIPT.with_suffix(".replies"), "--strict", SCRIPT).expect(0, REPLIES)


@case
def a_strict_run_fails_at_any_err_or_skip():
    ran("--strict", SCRIPT).expect(0, REPLIES)
    told = b"iox: 2 of 4 replies are err or skip; the first is at "
    with own_script() as script:
        script.write_bytes(b"node\nput p1 1\nnode\nnod\n")
        for words, given, at in ((["-q"], script.read_bytes(), b"line 2\n"), (["-q", "own.iox"], b"", b"own.iox:2\n")):
            one = ran("--strict", *words, given=given, cwd=script.parent)
            one.expect(4, b"ok n1\nskip\nok n2\nerr faulty line\n", told + at)
    with tempfile.NamedTemporaryFile() as wanted:
        expect(ran("--strict", "--expect", wanted.name, given=b"nod\n").status, 5)


@case
def comments_and_blank_lines_are_left_out_and_counted():
    given = b"# a node\nnode\n\n   \n\t# two\r\n\r\nput p1 1\n#" + b"x" * 3000 + b"\nnode\n# the end"
    ran("--comments", given=given).expect(0, b"ok n1\nskip\nok n2\n", b"line 7, skip: p1 doesn't exist\n")
    lines = [json.loads(it)["line"] for it in ran("--comments", "--json", "-q", given=given).out.splitlines()]
    expect(lines, [2, 7, 9])
    # A comment behind a command isn't one, and without the option no line is left out.
    expect(ran("--comments", "-q", given=b"node # one\n").out, b"err faulty line\n")
    expect(ran("-q", given=b"# a node\n\nnode").out, b"err faulty line\n" * 2 + b"ok n1\n")


@case_of_program
def comments_are_left_out_before_the_program_too():
    Ran("--comments", "-q", given=b"# a node\n\nnode\n#\nnode").expect(0, b"ok n1\nok n2\n")


@case_of_program
def the_explained_examples_are_the_examples():
    explained = sorted((TOP / "examples" / "explained").glob("*.iox"))
    expect([it.name for it in explained], sorted(it.name for it in (TOP / "examples").glob("*.iox")))
    for script in explained:
        plain = TOP / "examples" / script.name
        lines = script.read_text(encoding="ascii").splitlines()
        expect([it for it in lines if it and it[0] != "#"], plain.read_text(encoding="ascii").splitlines())
        expect(sum(it.startswith("#") for it in lines) >= 4, True)
        replies = plain.with_suffix(".replies")
        expect(Ran("--comments", "--expect", replies, script).status, 0)


@case_of_program
def a_run_that_is_stopped_tells_of_no_fault():
    for number in (signal.SIGTERM, signal.SIGINT):
        how = {"stdin": subprocess.PIPE, "stdout": subprocess.PIPE, "stderr": subprocess.PIPE}
        with subprocess.Popen([sys.executable, TOP / "iox", "--json", "-q"], **how) as stopped:
            # Its replies are read by nobody, so it is stopped while the program answers.
            stopped.stdin.write(b"node\n" * 3000)
            stopped.stdin.flush()
            expect_in(b'"ok n1"', stopped.stdout.readline())
            stopped.send_signal(number)
            stopped.stdin.close()
            expect((stopped.wait(PATIENCE), stopped.stderr.read()), (128 + number, b""))


@case
def numbers_are_strings_in_json_where_that_is_asked_for():
    most = 2**64 - 1
    begun = "node\ncreate n1 ps A sequence=1\nsubscriber f1\npublisher f1\n"
    given = f"{begun}put p1 {most}\nreceive s1\nread m1\nsequence m1\nsequence m2\n".encode()
    for word, number, first in (("--json", most, 1), ("--json=strings", str(most), "1")):
        records = [json.loads(it) for it in ran(word, "-q", given=given).out.splitlines()]
        expect([it.get("values") for it in records[5:7]], [[number]] * 2)
        expect((records[7]["sequence"], records[4]["took"], records[4]["line"]), (first, 1, 5))
    ran("--json=numbers", given=given).expect_one_line(64, "--json")
    ran("--json", "--json=strings", given=given).expect_one_line(64, "--json")


@case
def an_error_in_json_has_its_reason_and_advice():
    given = b"node\nopen n1 ps A\ncreate n1 ps A buffer=0\nsubscriber f1 buffer=9\nloan p1 1\n"
    records = [json.loads(it) for it in ran("--json", "-q", given=given).out.splitlines()]
    from tool.notes import meaning_of

    too_large = "SubscriberCreateError::BufferSizeExceedsMaxSupportedBufferSizeOfService"
    for at, error in ((1, "PublishSubscribeOpenError::DoesNotExist"), (3, too_large)):
        meaning = meaning_of(f"err {error}")
        wanted = {"error": error, "why": [meaning.when], "advice": meaning.what_to_do}
        expect({key: records[at].get(key) for key in wanted}, wanted)
        expect([len(it) > 10 for it in (meaning.when, meaning.what_to_do)], [True, True])
    expect((records[2]["why"], "advice" in records[2]), (["buffer=0 counts as 1"], False))
    expect((records[4]["why"], "advice" in records[4]), (["p1 doesn't exist"], False))


@case
def an_older_python_is_told_in_one_line():
    import ast

    for script, words in (("iox", ["--model", SCRIPT]), ("vendor", ["--list"])):
        text = (TOP / script).read_text(encoding="ascii")
        # Such a Python reads the whole file before it runs a line, so nothing in it may be newer: no annotation, no value within a string.
        newer = (ast.JoinedStr, ast.AnnAssign, ast.arg, ast.NamedExpr)
        expect([it for it in ast.walk(ast.parse(text, feature_version=(3, 0))) if isinstance(it, newer)], [])
        expect("from __future__" in text, False)
        asked = f"import sys; sys.version_info = (3, 8, 20, 'final', 0); sys.argv = [{script!r}]; exec({text!r})"
        old = subprocess.run([sys.executable, "-c", asked], capture_output=True, text=True)
        expect((old.returncode, old.stdout, old.stderr), (3, "", f"{script}: Python 3.9 or later is needed, and this is 3.8\n"))
        for name in ("python3.8", "python3.7", "python3.6", "python2.7", "python2"):
            if shutil.which(name) and not subprocess.run([name, "--version"], capture_output=True).returncode:
                old = subprocess.run([name, TOP / script, *words], capture_output=True, text=True)
                expect((old.returncode, old.stdout, old.stderr.count("\n")), (3, "", 1))
    expect_in("Python 3.9", (TOP / "README.md").read_text(encoding="utf-8") + (TOP / "docs" / "TOOL.md").read_text(encoding="utf-8"))


@case
def each_script_with_a_first_line_of_its_own_can_be_run():
    if not (TOP / ".git").exists():
        raise NotHere("no history of git")
    listed = subprocess.run(["git", "ls-files"], cwd=TOP, capture_output=True, text=True, check=True).stdout.splitlines()
    files = [TOP / it for it in listed if (TOP / it).is_file() and not it.startswith("crates/")]
    expect([it for it in files if it.read_bytes()[:2] == b"#!" and not os.access(it, os.X_OK)], [])
