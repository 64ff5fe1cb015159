"""What the launcher builds, when, and what it keeps: in a copy with a toolchain that only notes its calls."""
import contextlib
import os
import pty
import shutil
import signal
import subprocess
import sys
import tempfile
import time

from tool.progress import UNPROVED

from cases.kit import (
    BUILD,
    CASES,
    PATIENCE,
    PROGRAM,
    REPLIES,
    SCRIPT,
    TOP,
    Copy,
    Ran,
    await_that,
    case,
    expect,
    expect_in,
    on_terminal,
    talk,
)


@case
def wrong_arguments_end_before_a_build():
    with Copy() as copy:
        copy.run("--fast").expect_one_line(64, "--fast")
        copy.run("-n").expect_one_line(64, "-n")
        copy.run("--json=x").expect_one_line(64, "argument --json: takes no such value: 'x'")
        copy.run(SCRIPT, "second").expect_one_line(64, "second")
        copy.run("--model", "--proved").expect_one_line(64, "--proved")
        copy.run("--svg").expect_one_line(64, "--svg")
        copy.run("-", "-").expect_one_line(64)
        expect(copy.calls(), [])


@case
def an_unreadable_file_ends_before_a_build():
    with Copy() as copy:
        ring, closed = copy.top / "ring", copy.top / "closed"
        ring.symlink_to(ring)
        closed.touch(mode=0o000)
        for it in ("missing.iox", str(copy.top), str(ring), *[str(closed)] * (os.geteuid() != 0)):
            copy.run(it).expect_one_line(66, it)
            copy.run("--unproved", it).expect_one_line(66, it)
        expect(copy.calls(), [])


@case
def the_crates_of_the_program_are_proved_side_by_side_and_only_once():
    with Copy() as copy:
        copy.expect_built(BUILD)
        copy.expect_built([])


@case
def each_source_of_the_program_calls_for_a_build():
    with Copy() as copy:
        copy.expect_built(BUILD)
        for it in ("crates/iox_container/src/lib.rt", "crates/iox_line/specs/Lib.antt"):
            copy.edit(it)
            copy.expect_built(BUILD)
        (copy.top / "crates" / "iox_line" / "specs" / "New.antt").touch()
        copy.expect_built(BUILD)
        listed = copy.top / "crates.txt"
        listed.write_text(listed.read_text(encoding="utf-8").replace("iox_line: ", "iox_line: itoa "))
        copy.expect_built(BUILD)


@case
def nothing_else_calls_for_a_build():
    with Copy() as copy:
        copy.expect_built(BUILD)
        for it in ("crates/iox_values_rows/src/lib.rt", "crates/iox_queues/src/lib.rt"):
            copy.edit(it)
        (copy.top / "crates" / "iox_line" / "src" / "tests.rt").write_text("// no test\n")
        copy.edit("crates.txt", "# x\n")
        (copy.top / "crates" / "iox_container" / "src" / "lib.rt").touch()
        copy.expect_built([])


@case
def what_was_edited_during_a_build_is_not_taken_for_built():
    with Copy() as copy:
        main = copy.top / "crates" / "iox" / "src" / "main.rt"
        before = main.read_text(encoding="utf-8")
        (copy.top / "edit").touch()
        # The edit comes at the end of the first build, and the second one fails.
        expect((copy.run("--proved").status, copy.calls()), (3, BUILD + BUILD[:1]))
        (copy.top / "fail").unlink()
        main.write_text(before)
        copy.expect_built(BUILD)


@case
def a_failed_build_names_its_first_error_and_its_log():
    with Copy() as copy:
        (copy.top / "fail").touch()
        ran = copy.run("--proved", given=b"node\n")
        expect((ran.status, ran.out), (3, b""))
        log = copy.top / "crates" / "iox" / "out" / "build.log"
        expect_in(f"the program is not proved or not built: error: no proof ({log} has all of it)".encode(), ran.err)
        expect_in("error: no proof", log.read_text(encoding="utf-8"))
        (copy.top / "fail").unlink()
        copy.calls()
        copy.expect_built(BUILD)


@case
def two_at_once_build_once():
    with Copy() as copy:
        (copy.top / "wait").touch()
        said = [copy.top / it for it in ("first.err", "second.err")]

        def start(err):
            with open(err, "wb") as it:
                words = [sys.executable, copy.top / "iox", "--proved"]
                return subprocess.Popen(words, stdin=subprocess.DEVNULL, stderr=it, **copy.how)

        first = start(said[0])
        copy.await_call()
        second = start(said[1])
        await_that(lambda: b"another ./iox is building" in said[1].read_bytes(), "the second one waits")
        (copy.top / "wait").unlink()
        expect([it.wait(PATIENCE) for it in (first, second)], [0, 0])
        expect((copy.calls(), b"another" in said[0].read_bytes()), (BUILD, False))


@case
def a_stopped_launcher_stops_the_build():
    with Copy() as copy:
        (copy.top / "wait").touch()
        with subprocess.Popen([sys.executable, copy.top / "iox", "--proved"], stderr=subprocess.DEVNULL, **copy.how) as ran:
            copy.await_call()
            time.sleep(0.5)
            ran.terminate()
        (copy.top / "wait").unlink()
        time.sleep(1)
        expect((ran.returncode, copy.calls()), (143, BUILD[:1]))
        copy.expect_built(BUILD)


@case
def ctrl_c_at_a_build_leaves_no_half_line():
    terminal, its_side = pty.openpty()
    with Copy() as copy:
        (copy.top / "wait").touch()
        words = [sys.executable, copy.top / "iox", "--proved"]
        with subprocess.Popen(words, stdin=subprocess.DEVNULL, stderr=its_side, **copy.how) as ran:
            os.close(its_side)
            copy.await_call()
            time.sleep(0.5)
            ran.send_signal(signal.SIGINT)
        (copy.top / "wait").unlink()
    said = b""
    with contextlib.suppress(OSError):
        while piece := os.read(terminal, 4096):
            said += piece
    os.close(terminal)
    expect((ran.returncode, b"crate 1 of 6" in said, said.endswith(b"\r\x1b[K")), (130, True, True))


@case
def what_the_gate_built_is_served_unless_it_failed_or_a_source_changed():
    def ran(copy, *words):
        how = {"stdout": subprocess.PIPE, "stderr": subprocess.STDOUT, "timeout": PATIENCE, **copy.how}
        said = subprocess.run([sys.executable, copy.top / "check", *words, "each_line_gets_one_reply"], **how)
        return said.returncode, said.stdout.splitlines()[-1], copy.calls()

    with Copy() as copy:
        shutil.copytree(TOP / "examples", copy.top / "examples", dirs_exist_ok=True)
        (copy.top / "fail").touch()
        expect(ran(copy), (1, b"4 passed, 3 failed", ["copy ci"]))
        expect([*(copy.top / "crates" / "iox" / "out").glob("served-*")], [])
        (copy.top / "fail").unlink()
        expect(ran(copy), (0, b"7 passed, 0 failed", ["copy ci"]))
        expect(ran(copy, "--without-proofs"), (0, b"2 passed, 0 failed", []))
        (copy.top / "edit").touch()
        expect(ran(copy), (0, b"7 passed, 0 failed", ["copy ci", *BUILD]))
        # Where `rt ci` leaves no program, that of an earlier run isn't taken.
        (copy.top / "none").touch()
        copy.edit("crates/iox/src/main.rt")
        expect(ran(copy), (0, b"7 passed, 0 failed", ["copy ci", *BUILD]))


# Two cases: one waits for ever for a process that it has started, in a folder of its own, and one ends.
STUCK = """
import subprocess
import tempfile

from cases.kit import case


@case
def it_never_ends():
    with tempfile.TemporaryDirectory(dir={folder!r}) as folder:
        subprocess.run(["sleep", "1000000"], cwd=folder)


@case
def it_ends():
    pass
"""


@case
def a_case_that_does_not_end_is_told_by_its_name_and_line_and_holds_nobody_up():
    with Copy() as copy, tempfile.TemporaryDirectory(prefix="iox-check-") as folder:
        shutil.copytree(TOP / "examples", copy.top / "examples", dirs_exist_ok=True)
        (copy.top / "cases" / "stuck.py").write_text(STUCK.format(folder=folder), encoding="utf-8")
        words = [sys.executable, copy.top / "check", "--without-proofs", "it_never_ends", "it_ends"]
        how = {"stdout": subprocess.PIPE, "stderr": subprocess.STDOUT, "timeout": PATIENCE}
        how["env"] = {**os.environ, "CHECK_LIMIT": "3", "CHECK_TIMES": ""}
        ran = subprocess.run(words, **how)
        late = "FAILED it_never_ends: not ended after 0.1 minutes, it is at cases/stuck.py:11"
        # The process of the case is ended: as long as it lived, what was read here would have no end.
        wanted = ["ok it_ends", late, "ok the_work_tree_stays_as_it_was", "2 passed, 1 failed"]
        expect((ran.returncode, ran.stdout.decode().splitlines()), (1, wanted))
        expect(os.listdir(folder), [])


@case
def progress_is_one_line_with_the_crates_that_are_done():
    with Copy() as copy:
        words = [sys.executable, copy.top / "iox", "--proved", SCRIPT]
        status, _, screen = on_terminal(words, **copy.how)
        first, _, line = screen.partition(b"\n")
        expect_in(b"`./iox FILE` answers", first)
        expect_in(b" min on four idle cores", first)
        expect((status, line.count(b"\n")), (0, 1))
        for at, crate in enumerate(PROGRAM, 1):
            expect_in(f"\r\033[Kiox: {at} of 6 crates done, last {crate}".encode(), line)


@case
def without_a_toolchain_it_says_so_and_names_the_model():
    with Copy() as copy:
        for words in ([], ["--unproved"], ["--proved"]):
            copy.run(*words, env={"PATH": str(copy.top)}).expect_one_line(3, "no rt on the path", "--model")
        copy.run("--model", SCRIPT, env={"PATH": str(copy.top)}).expect(0, REPLIES)


@case
def one_build_without_proofs_answers_until_a_source_changes():
    with Copy() as copy:
        for tries in (1, 0):
            ran = copy.run(SCRIPT)
            expect((ran.status, ran.out, copy.tries()), (0, REPLIES, tries))
        copy.edit("crates/iox_line/src/lib.rt")
        expect((copy.run(SCRIPT).out, copy.tries()), (REPLIES, 1))
        expect(sorted(it.name.partition("-")[0] for it in (copy.top / "crates" / "iox" / "out").glob("*-*")), ["lock", "unproved"])


@case
def who_answers_without_proofs_is_told_in_one_line():
    with Copy() as copy:
        copy.run(SCRIPT)
        ran = subprocess.run([sys.executable, copy.top / "iox", SCRIPT], capture_output=True, **copy.how)
        expect((ran.returncode, ran.stdout, ran.stderr.decode()), (0, REPLIES, f"iox: {UNPROVED}\n"))
        copy.run("-q", SCRIPT).expect(0, REPLIES)


@case
def the_kept_build_answers_at_a_prompt_too():
    with Copy() as copy:
        copy.run(SCRIPT)
        copy.calls()
        words = [sys.executable, copy.top / "iox"]
        environment = {"XDG_STATE_HOME": str(copy.top), "PATH": copy.how["env"]["PATH"]}
        status, screen = talk(words, [b"node\n", b"put p1 1\n", b"quit\n"], environment)
        expect((status, copy.calls()), (0, []))
        expect_in("iox> node\nok n1\niox> put p1 1\nskip\nline 2, skip: p1 doesn't exist\niox> quit\n", screen)


@case
def the_proved_program_comes_first_where_it_stands():
    with Copy() as copy:
        copy.run(SCRIPT)
        copy.calls()
        copy.expect_built(BUILD)
        # The copy's proved program answers `ok` to everything.
        expect(copy.run(given=b"node\n").out, b"ok\n")
        expect(copy.run("--unproved", given=b"node\n").out, b"ok n1\n")
        expect(copy.run("--model", given=b"node\n").out, b"ok n1\n")
        expect(copy.calls(), [])


@case
def where_no_program_can_be_taken_each_script_has_a_run_of_its_own():
    with Copy() as copy:
        (copy.top / "other").touch()
        ran = copy.run(SCRIPT)
        expect((ran.status, ran.out, copy.tries()), (0, REPLIES, 2))
        expect_in(b"a run of its own", ran.err)


@case
def a_refused_build_without_proofs_names_its_first_error_and_its_log():
    with Copy() as copy:
        (copy.top / "fail").touch()
        ran = copy.run(SCRIPT)
        log = copy.top / "crates" / "iox" / "out" / "unproved.log"
        expect((ran.status, ran.out), (3, b""))
        expect_in(f"iox: the program can't be built: error: no such name ({log} has all of it)".encode(), ran.err)
        expect_in("no such name", log.read_text(encoding="utf-8"))


@case
def a_build_that_answers_the_first_script_otherwise_is_kept_and_the_line_is_told():
    with Copy() as copy:
        (copy.top / "wrong").touch()
        ran = copy.run(given=b"node\ncreate n1 ps A\nsubscriber f1\nreceive s1\n")
        expect((ran.status, ran.out, copy.tries()), (0, b"ok n1\nok f1\nok s1\nnothing\n", 1))
        told = b'iox: examples/first.iox:14: this build replies "nothing", and first.replies has "none"\n'
        expect_in(told, ran.err)
        # It is told once, and nothing is built again.
        ran = copy.run(SCRIPT)
        expect((ran.status, ran.out, copy.tries(), ran.err), (0, REPLIES.replace(b"none", b"nothing"), 0, b""))


@case
def without_a_toolchain_a_program_of_these_sources_is_taken():
    with Copy() as copy:
        copy.run(SCRIPT)
        copy.calls()
        alone = {"PATH": "/usr/bin:/bin"}
        ran = copy.run(SCRIPT, env=alone)
        expect((ran.status, ran.out, copy.calls()), (0, REPLIES, []))
        expect_in(b"there is no rt on the path: the program that answers was built from these sources", ran.err)
        copy.run("-q", SCRIPT, env=alone).expect(0, REPLIES)
        copy.edit("crates/iox_line/src/lib.rt")
        copy.run(SCRIPT, env=alone).expect_one_line(3, "no rt on the path", "--model")


@case
def a_checkout_that_cannot_be_written_is_built_into_the_users_cache():
    with Copy() as copy:
        out, cache = copy.top / "crates" / "iox" / "out", copy.top / "cache"
        # (Whoever runs this may be allowed to write everywhere.)
        shutil.rmtree(out)
        out.touch()
        environment = {**copy.how["env"], "XDG_CACHE_HOME": str(cache)}
        for tries in (1, 0):
            ran = copy.run(SCRIPT, env=environment)
            expect((ran.status, ran.out, copy.tries()), (0, REPLIES, tries))
        expect(len([*cache.glob("kohepuri/*/unproved-*-*")]), 1)
        # A relative path isn't taken.
        home = copy.top / "home"
        relative = copy.run(SCRIPT, env={**environment, "XDG_CACHE_HOME": "cache", "HOME": str(home)})
        kept = [*home.glob(".cache/kohepuri/*/unproved-*-*")]
        expect((relative.status, relative.out, copy.tries(), len(kept)), (0, REPLIES, 1, 1))
        copy.run("--proved", SCRIPT, env=environment).expect_one_line(3, f"{out} can't be written", "--model")
        environment["XDG_CACHE_HOME"] = str(out)
        copy.run(SCRIPT, env=environment).expect_one_line(3, f"neither {out} nor {out}/kohepuri/", "--model")
        copy.run("--model", SCRIPT, env=environment).expect(0, REPLIES)
        expect(copy.calls(), [])


@case
def a_stopped_launcher_stops_the_build_without_proofs():
    with Copy() as copy:
        (copy.top / "wait").touch()
        with subprocess.Popen([sys.executable, copy.top / "iox"], stderr=subprocess.DEVNULL, **copy.how) as ran:
            copy.await_call()
            ran.terminate()
        (copy.top / "wait").unlink()
        expect((ran.returncode, copy.tries()), (143, 1))
        expect([*(copy.top / "crates" / "iox" / "out").glob("trying-*")], [])
        expect((copy.run(SCRIPT).out, copy.tries()), (REPLIES, 1))


@case
def texts_are_read_again_only_where_a_file_looks_otherwise():
    with Copy() as copy:
        out = copy.top / "crates" / "iox" / "out"
        await_that(lambda: copy.run(SCRIPT).status == 0 and (out / "sum").exists(), "the sum is kept once the files are some seconds old")
        look, total = (out / "sum").read_text(encoding="ascii").split()
        # Whatever sum is kept for this look is believed.
        built = next(out.glob(f"unproved-{total}-*"))
        built.rename(out / built.name.replace(total, "0123456789abcdef"))
        (out / "sum").write_text(f"{look} 0123456789abcdef\n", encoding="ascii")
        copy.calls()
        expect((copy.run(SCRIPT).out, copy.tries()), (REPLIES, 0))
        os.utime(copy.top / "crates" / "iox_line" / "src" / "lib.rt")
        expect((copy.run(SCRIPT).out, copy.tries()), (REPLIES, 1))


@case
def the_program_can_be_copied_and_run_without_the_launcher():
    with Copy() as copy:
        ran = copy.run("--path")
        program = ran.out.decode().strip()
        expect((ran.status, ran.out.count(b"\n")), (0, 1))
        shutil.copy2(program, copy.top / "mine")
        ran = subprocess.run([copy.top / "mine"], input=SCRIPT.read_bytes(), capture_output=True, timeout=PATIENCE)
        expect((ran.returncode, ran.stdout), (0, REPLIES))
        copy.run("--path", "--model").expect_one_line(3, "model/script_model.py")


@case
def cases_are_listed_and_chosen_by_their_names_and_near_names_are_told():
    def listed(*words):
        ran = Ran("--list", *words, at=TOP / "check")
        return ran.status, ran.out.decode().splitlines(), ran.err.decode()

    every = [it.__name__ + " *" * of_program for it, of_program in CASES.items()]
    expect(listed(), (0, every, ""))
    expect(listed("-k", "schedule", "-k", "near"), (0, [it for it in every if "schedule" in it or "near" in it], ""))
    name = "cases_are_listed_and_chosen_by_their_names_and_near_names_are_told"
    expect(listed(name), (0, [name], ""))
    expect(listed(name.replace("near", "other")), (64, [], f"check: no case {name.replace('near', 'other')}; near it: {name}\n"))
    expect(listed("unheard-of"), (64, [], "check: no case unheard-of; ./check --list has them\n"))
    expect(listed("-k", "unheard-of"), (64, [], "check: no case has unheard-of in its name; ./check --list has them\n"))
