"""What the launcher answers and says, on the program that is there and on the Python model."""
import os
import shutil
import subprocess
import sys
import tempfile
from pathlib import Path

from cases.kit import (
    COMMANDS,
    LONG,
    REPLIES,
    SCRIPT,
    TOP,
    NotHere,
    Ran,
    asks_what_others_build,
    built,
    case,
    case_of_program,
    expect,
    expect_in,
    on_terminal,
    takes_long,
    tries_unproved,
)
from cases.programs import answered

STORED = TOP / "crates" / "iox"


@case
def help_fits_a_screen_and_names_each_option():
    ran = Ran("--help")
    expect(Ran("-h").out, ran.out)
    expect((ran.status, ran.err), (0, b""))
    lines = ran.out.decode().splitlines()
    expect((len(lines) <= 38, max(map(len, lines)) <= 80), (True, True))
    from tool.arguments import parser

    names = [name for option in parser()._actions for name in option.option_strings]
    for it in (*names, "status: 0 ", "; 1 ", "; 2 ", "; 3 ", "; 4 ", "; 5 ", "; 64 ", "; 66 ", "; 128+N "):
        expect_in(it, ran.out.decode())
    expect(len(names) > 20, True)


@case
def the_commands_fit_a_screen():
    ran = Ran("--commands")
    expect((ran.status, ran.err), (0, b""))
    lines = ran.out.decode().splitlines()
    expect((len(lines), max(map(len, lines)) <= 80), (1 + len(COMMANDS), True))
    expect(sorted(it.split()[0] for it in lines[1:]), sorted(COMMANDS))


@case
def version_has_ours_and_the_toolchains():
    toolchain = subprocess.run(["rt", "version"], stdout=subprocess.PIPE, check=True).stdout
    Ran("--version").expect(0, b"Kohepuri 0.1.0\n" + toolchain)


@case_of_program
def each_line_gets_one_reply():
    ran = Ran(given=b"node\nnode\n")
    expect((ran.status, ran.out.count(b"\n"), ran.err), (0, 2, b""))


@case_of_program
def a_file_is_served_with_no_word_beside():
    Ran(SCRIPT).expect(0, REPLIES)


@case_of_program
def standard_input_is_served():
    Ran(given=SCRIPT.read_bytes()).expect(0, REPLIES)
    with open(SCRIPT, "rb") as it:
        Ran(given=it).expect(0, REPLIES)


@case_of_program
def a_dash_is_standard_input():
    Ran("-", given=SCRIPT.read_bytes()).expect(0, REPLIES)


@case_of_program
def it_works_by_a_link_and_from_any_folder():
    with tempfile.TemporaryDirectory(prefix="iox-check-") as folder:
        link = Path(folder) / "linked"
        link.symlink_to(TOP / "iox")
        shutil.copy(SCRIPT, folder)
        Ran("first.iox", at=link, cwd=folder).expect(0, REPLIES)
        Ran("first.iox", cwd=folder).expect(0, REPLIES)


@case_of_program
def numbers_show_the_lines_at_fault_before_what_is_wrong():
    long = b"x" * 2000
    given = b"node\n\nput p9 1\nnode \n" + long + b"\n\x1b[2J\nrelease m1"
    replies = b"ok n1\nerr faulty line\nskip\nerr faulty line\nerr line too long\nerr faulty line\nskip\n"
    notes = """\
line 2: 
line 2, column 1: the line is empty (`--comments` ignores such lines)
line 3: put p9 1
line 3, skip: p9 doesn't exist
line 4: node 
line 4, column 5: a space after the last word
line 5: xxxxxxxxxxxxxxxxxxxxxxxxxxxxxxxxxxxxxxxxxxxxxxxxxxxxxxxxxxxxxxxxxxxxxxxxxxxxxxxx ..
line 5, column 1025: the line has 2000 bytes, and 1024 are the most
line 6: \\x1b[2J
line 6, column 1: "\\x1b[2J" isn't a command
line 7: release m1
line 7, skip: m1 doesn't exist
"""
    for words in (["--numbers"], ["--numbers", "--model"]):
        Ran(*words, given=given).expect(0, replies, notes.encode())


@case_of_program
def quiet_says_nothing_of_lines():
    for words in (["-q"], ["-q", "--model"]):
        Ran(*words, given=b"node\n\nput p9 1\n").expect(0, b"ok n1\nerr faulty line\nskip\n")


@case_of_program
def numbers_keep_pace_with_a_long_script():
    given = b"node\n" * 100_000 + b"put p1 1\n"
    ran = Ran("--numbers", given=given)
    notes = b"line 100001: put p1 1\nline 100001, skip: p1 doesn't exist\n"
    expect((ran.status, ran.out.count(b"\n"), ran.err), (0, 100_001, notes))


@case
def a_terminal_is_greeted_and_prompted():
    status, out, screen = on_terminal([TOP / "iox", "--model"], b"node\nput p1 1\n\x04")
    expect((status, out), (0, b"ok n1\nskip\n"))
    greeting, _, rest = screen.partition(b"\n")
    expect_in(b"Kohepuri 0.1.0", greeting)
    expect(rest, b"iox> node\niox> put p1 1\nline 2, skip: p1 doesn't exist\niox> \n")


@case_of_program
def a_write_fault_ends_with_status_1():
    if not os.path.exists("/dev/full"):
        raise NotHere("no /dev/full")
    with open("/dev/full", "wb") as full:
        ran = Ran(SCRIPT, stdout=full)
    expect((ran.status, ran.err), (1, b"iox: write fault: standard output: No space left on device\n"))


@case_of_program
def a_read_fault_ends_with_status_1():
    with open(os.devnull, "wb") as not_for_reading:
        for words in ([], ["--numbers"], ["--json"]):
            Ran(*words, given=not_for_reading).expect(1, b"", b"iox: read fault: standard input: Bad file descriptor\n")
        # The program that reads by itself has no prefix.
        Ran("-q", given=not_for_reading).expect(1, b"", b"read fault\n")
    if not os.path.exists("/proc/self/mem"):
        raise NotHere("no /proc")
    # (A file that can be opened, and not read.)
    Ran("/proc/self/mem").expect(1, b"", b"iox: read fault: /proc/self/mem: Input/output error\n")


@case
@asks_what_others_build
def each_read_or_write_of_an_example_that_fails_leaves_the_replies_before_it():
    told = []
    for script in sorted((TOP / "examples").rglob("*.iox")):
        lines, replies = script.read_text(encoding="latin-1"), script.with_suffix(".replies")
        # A block of cases has neither empty lines nor other bytes than those of a text, and ends in a newline.
        if not replies.exists() or not lines.isascii() or not lines.endswith("\n") or "\n\n" in f"\n{lines}":
            continue
        told.append((script.stem, lines, replies.read_text(encoding="ascii").splitlines()))
    expect(len(told) > 90, True)
    if not built("script_cases"):
        # An unproved program takes some three hundred times as many instructions: it gets the shortest few of them.
        told = sorted(told, key=lambda it: len(it[1]))[:8]
    given, wanted = [], []
    for stem, lines, replies in told:
        answers = [f"{line} -> {reply}" for line, reply in zip(lines.splitlines(), replies)]
        given.append(f"{stem}\n{lines}faults")
        wanted.append("\n".join([stem, *answers, f"faults -> {len(answers) + 1} reads, {len(answers)} writes", "", ""]))
    expect(answered("\n\n".join(given).encode()).decode(), "".join(wanted))


@case
@tries_unproved
def the_unproved_program_answers_the_stored_run_as_the_proved_one_has_to():
    # Where it isn't built yet, the first call builds it, and says so.
    expect(Ran("--unproved", "-q", SCRIPT, timeout=LONG).out, REPLIES)
    Ran("--unproved", "-q", STORED / "stdin", timeout=LONG).expect(0, (STORED / "stdout").read_bytes())


@case
def the_model_answers_the_stored_run_as_the_proved_program_has_to():
    Ran("--model", "-q", STORED / "stdin").expect(0, (STORED / "stdout").read_bytes())


@case_of_program
def a_random_script_gets_the_models_replies():
    with tempfile.TemporaryDirectory(prefix="iox-check-") as folder:
        out = Path(folder) / "random"
        subprocess.run([sys.executable, TOP / "model" / "random_scripts.py", "48", "400", out], stdout=subprocess.DEVNULL, check=True)
        replies = out.with_suffix(".replies").read_bytes()
        Ran("-q", out.with_suffix(".iox")).expect(0, replies)
        # By the launcher in the middle, too, which pairs each line with its reply.
        ran = Ran(out.with_suffix(".iox"))
        expect((ran.status, ran.out, ran.err.count(b"so the program or the model is at fault")), (0, replies, 0))


@case_of_program
@takes_long
def scripts_with_foreign_steps_before_each_access_get_the_models_replies():
    with tempfile.TemporaryDirectory(prefix="iox-check-") as folder:
        made = [TOP / "model" / "hostile_scripts.py", "54", "200", Path(folder) / "hostile"]
        subprocess.run([sys.executable, *made], stdout=subprocess.DEVNULL, check=True)
        # The first line that differs is told; the number in its service's name says which script it is of.
        asked = [TOP / "model" / "rows.py", "--program", TOP / "iox", folder]
        compared = subprocess.run([sys.executable, *asked], capture_output=True, text=True)
        expect((compared.returncode, compared.stdout), (0, "1 passed, 0 failed\n"))


@case
def the_model_answers_within_a_second_of_processor_time():
    # (other cases run beside this one, so only the time of this child counts)
    with subprocess.Popen([sys.executable, TOP / "iox", "--model", SCRIPT], stdout=subprocess.PIPE) as ran:
        replies = ran.stdout.read()
        _, status, used = os.wait4(ran.pid, 0)
        ran.returncode = os.waitstatus_to_exitcode(status)
    expect((ran.returncode, replies), (0, REPLIES))
    expect(used.ru_utime + used.ru_stime < 1, True)
