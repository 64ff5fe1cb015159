"""`./iox --against`: faults planted in an adapter are found, and an adapter without one passes."""
import re
import subprocess
import sys
import tempfile
from pathlib import Path

from cases.kit import SCRIPT, TOP, Ran, case, case_of_program, expect, expect_in

ADAPTER = f"{sys.executable} -S {TOP / 'cases' / 'adapter.py'}"
# Each planted fault, and the scripts within which it is found. Eight loans have to be lost before the sixth is seen.
FAULTS = {it: "10" for it in ("newest-first", "holds-one-more", "drops-the-newest", "history-of-one-less", "numbers-received")}
FAULTS["keeps-loans"] = "10,loans"
LONGEST = 15


def expect_allowed(*words, taken_back=False):
    """Expects that each reply is allowed, and says how many there were."""
    ran = Ran("--against", *words)
    told = re.fullmatch(rb"iox: (\d+) replies in (\d+) scripts? are allowed(; \d+ lines were taken back as unsupported)?\n", ran.err)
    expect((ran.status, ran.out, bool(told) and bool(told[3])), (0, b"", taken_back) if told else (0, b"", ran.err))
    return int(told[1])


@case
def each_fault_planted_in_an_adapter_is_found_and_shown_by_a_short_script():
    for fault, scripts in FAULTS.items():
        with tempfile.TemporaryDirectory(prefix="iox-check-") as folder:
            ran = Ran("--against", f"{ADAPTER} {fault}", "--random", scripts, cwd=folder)
            expect((fault, ran.status), (fault, 5))
            script, drawn = Path(folder) / "against-1.iox", Path(folder) / "against-1.svg"
            lines = script.read_text(encoding="latin-1").splitlines()
            expect((fault, len(lines) <= LONGEST, len(ran.out.splitlines())), (fault, True, len(lines) + 1))
            expect_in(f"iox: 3 of 3 runs of these {len(lines)} lines show it: {script.name}, drawn in {drawn.name}\n".encode(), ran.err)
            reply = ran.out.decode().splitlines()[-2][len(max(lines, key=len)) + 2 :]
            expect_in(f">{reply}, and not ", drawn.read_text(encoding="utf-8"))
            # The script alone shows it again, and no file that is there is written.
            again = Ran("--against", f"{ADAPTER} {fault}", script, cwd=folder)
            expect((again.status, again.out), (5, ran.out))
            expect(sorted(it.name for it in Path(folder).iterdir()), [f"against-{at}.{end}" for at in (1, 2) for end in ("iox", "svg")])


@case
def an_adapter_without_a_fault_passes():
    for name in ("none", "last-first", "tells-little"):
        told = expect_allowed(f"{ADAPTER} {name}", "--random", "10", taken_back=name == "tells-little")
        expect(told > 300, True)
    expect(expect_allowed(f"{ADAPTER} none", SCRIPT), len(SCRIPT.read_bytes().splitlines()))


@case
def a_program_that_knows_no_reset_is_started_anew():
    expect(expect_allowed(f"{sys.executable} {TOP / 'model' / 'script_model.py'}", "--random", "3,tight,7") > 60, True)


@case_of_program
def the_program_passes():
    program = subprocess.run([sys.executable, TOP / "iox", "--path"], stdout=subprocess.PIPE, check=True).stdout.decode().strip()
    for profile in ("standard", "blocking", "late"):
        expect(expect_allowed(program, "--random", f"5,{profile}") > 100, True)


@case
def messages_of_the_same_values_leave_each_state_that_fits():
    with tempfile.TemporaryDirectory(prefix="iox-check-") as folder:
        head = "node\ncreate n1 ps A buffer=4 borrowed=9\npublisher f1\npublisher f1\nsubscriber f1\n"
        head += "put p1 7\nput p2 7\nput p1 8\nput p2 9\n"
        for received, is_wrong in (("7 9 7 8", False), ("7 8 9", True), ("7 9 9", True), ("9", True)):
            replies = ["ok n1", "ok f1", "ok p1", "ok p2", "ok s1", *["ok _"] * 4]
            replies += [f"ok m{at} {it}" for at, it in enumerate(received.split(" "), 1)]
            script, told = Path(folder) / "same.iox", Path(folder) / "told"
            script.write_text(head + "receive s1\n" * len(received.split(" ")))
            told.write_text("".join(f"{it}\n" for it in replies))
            ran = Ran("--against", f"sh -c 'exec cat {told}'", script, cwd=folder)
            last = f"{script}:{len(replies)}: the reply {replies[-1]!r} to 'receive s1' isn't allowed\n"
            expect((received, ran.status, ran.err.startswith(last.encode())), (received, 5, True) if is_wrong else (received, 0, False))


@case
def a_program_that_ends_or_is_missing_is_told():
    with tempfile.TemporaryDirectory(prefix="iox-check-") as folder:
        # No file that is there already is written.
        (Path(folder) / "against-1.svg").write_bytes(b"mine")
        ran = Ran("--against", "sh -c 'read line; exit 3'", SCRIPT, cwd=folder)
        expect((ran.status, ran.out), (5, b"node  (the program ended, status 3)\n      allowed: ok n1\n"))
        told = "the reply '(the program ended, status 3)' to 'node' isn't allowed\niox: 3 of 3 runs of these 1 lines show it"
        expect_in(f"{SCRIPT}:1: {told}".encode(), ran.err)
        # A script that has no name is called by its lines, and a random one by what makes it again.
        for words, name in (([], ""), (["--random", "2,late,5"], "script 1 of 2, late, seed 5, ")):
            ran = Ran("--against", "sh -c 'read line; exit 3'", *words, given=SCRIPT.read_bytes(), cwd=folder)
            expect_in(f"{name}line 1: {told}".encode(), b"\n" + ran.err)
        ran = Ran("--against", "cat /dev/zero", SCRIPT, cwd=folder)
        expect((ran.status, ran.out), (5, b"node  (a reply of more than 65536 bytes)\n      allowed: ok n1\n"))
        names = sorted(it.name for it in Path(folder).iterdir())
        expect(names, ["against-1.svg", *(f"against-{at}.{end}" for at in range(2, 6) for end in ("iox", "svg"))])
        expect((Path(folder) / "against-1.svg").read_bytes(), b"mine")
    Ran("--against", "./no-such-program", SCRIPT).expect_one_line(66, "./no-such-program: No such file or directory")
    Ran("--against", ADAPTER, "./no-such.iox").expect_one_line(66, "./no-such.iox: No such file or directory")


@case
def wrong_arguments_of_a_comparison_are_told():
    for words in (("--random", "3"), ("--against", " "), ("--against", ADAPTER, "--json")):
        Ran(*words).expect_one_line(64, "see ./iox --help")
    for asked in ("0", "x", "3,no", "3,late,x"):
        Ran("--against", ADAPTER, "--random", asked).expect_one_line(64, "see ./iox --help")
    Ran("--against", ADAPTER, "--random", "3", SCRIPT).expect_one_line(64, "see ./iox --help")
    Ran("--against", "./it's", SCRIPT).expect_one_line(64, "./it's: No closing quotation")
    Ran("--against", ADAPTER, "--listen", "0").expect_one_line(64, "--listen can't be given with --against")
