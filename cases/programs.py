"""The programs of the pages, the whole examples of the API pages and the tracer run as they should, before any proof; and what is refused.

The toolchain reads all sources below a program at each build, which takes most of its time. So one build has them all: the program of the
page of threads, since `main` alone may start threads; the others are libraries, whose `main` is called if an argument names it. Among
them is `crates/script_cases`, for the cases that ask it before it is proved. The build is kept until one of its texts or the toolchain
changes, as the program without proofs is.
"""
import hashlib
import re
import subprocess
import tempfile
import threading
from concurrent.futures import Future
from pathlib import Path

from cases import structs
from cases.kit import (
    KEPT,
    LONG,
    TOP,
    Differs,
    NotHere,
    built,
    can_try,
    case,
    expect,
    expect_in,
    paste,
    rust_blocks,
    taken_at_work,
    takes_long,
    tries_unproved,
)
from cases.vendoring import vendor
from tool.build import put_in_place
from tool.sources import place, toolchain

USING, THREADS, TRACED = "docs/USING.md", "docs/THREADS.md", TOP / "examples" / "tracer"
# The library that calls the others, and how the program of threads begins where it calls that one.
CALLER = """\
//! Runs the program that the first argument names, unless it is the one that asks, and returns whether it was run.
#![tactic(auto)]

use anyhow::{Result, bail};
use std::env;

pub fn is_run(rt: HostRuntime) -> Result<bool> {
    let word = env::args(&rt)?.nth(1);
    match word.as_deref().unwrap_or("") {
        "weather" => return Ok(false),
        "robot" => robot::main(rt)?,
        "latest" => latest::main(rt)?,
        "speak" => println!(rt; "{:?}", speak::main(rt))?,
        "own" => own::main(rt)?,
        "draw" | "record" | "replay" | "serve" => println!(rt; "{:?}", example_tracer::main(rt)?)?,
        "cases" => script_cases::main(rt)?,
        word => bail!("no program {word}"),
    }
    Ok(true)
}
"""
BEGINS = "fn main(rt: HostRuntime) -> Result<()> {\n"
CALLS = "    if called::is_run(rt)? {\n        return Ok(());\n    }\n"
# A function of what the page of threads shows of lost ports.
LOST = """\
use iox_lanes::threads::{{DomainThreads, abandon}};

pub fn go_on(hub: &mut Station, ports: DomainThreads<Reading, (), Nobody, Nobody>) -> Result<()> {{
{}    Ok(())
}}

"""
# What it prints behind a program whose `main` returns a status: here success.
SUCCESS = "ExitCode(unix_exit_status(0))\n"
# What the second and the third program of the users' page are given, and the others leave.
GIVEN = b"7\n1\n9\n4\n"


def text_of(page):
    return (TOP / page).read_text(encoding="utf-8")


def struct_of_the_users_page():
    return next(it for it in rust_blocks(USING) if "pub struct Pose" in it)


def replaced(text, old, new):
    """A text in which something stands once, with something else in its place."""
    expect(text.count(old), 1)
    return text.replace(old, new)


def add(folder, line, own=None, **texts):
    """Writes a crate: its line of `crates.txt`, its files, and what `vendor` makes of the structs in the file `own`. Returns its folder."""
    src = folder / "crates" / line.partition(":")[0] / "src"
    src.mkdir(parents=True)
    for name, text in texts.items():
        (src / name).parent.mkdir(parents=True, exist_ok=True)
        (src / f"{name}.rt").write_text(text, encoding="utf-8")
    if own:
        expect(vendor("--struct", src / f"{own}.rt").returncode, 0)
    with open(folder / "crates.txt", "a", encoding="utf-8") as it:
        it.write(f"{line}\n")
    return src.parent


def add_library(folder, line, program, **how):
    """Writes a program as a library, so that another one may call its `main`."""
    add(folder, line, lib=replaced(program, "\nfn main(", "\npub fn main("), **how)


def programs_of_the_users_page(folder):
    """Writes them as the page says, and returns for each name what the page says that it prints."""
    page = text_of(USING)
    programs = [it for it in rust_blocks(USING) if "fn main(" in it]
    outputs = re.findall(r"```\n(received .*?|\[7\]\n.*?|said .*?)```", page, re.S)
    expect((len(programs), len(outputs)), (3, 3))
    expect_in("KOHEPURI/vendor --struct crates/robot/src/pose.rt\n", page)
    lines = ("robot: iox_hub anyhow", "latest: iox_container", "speak: iox_conversation")
    for line, program in zip(lines, programs):
        name, crate = line.split()[:2]
        expect(vendor(folder, crate).returncode, 0)
        expect_in(line, page)
        how = {"own": "pose", "pose": struct_of_the_users_page()} if name == "robot:" else {}
        add_library(folder, line, program, **how)
    robot, latest, speak = outputs
    return {"robot": robot, "latest": latest, "speak": speak + SUCCESS}


def asked_of_the_tracer():
    """For each run of the tracer its argument, what it is given, and what it answers."""
    stored = [(it.stem, it.read_bytes(), it.with_suffix(".out").read_bytes()) for it in sorted(TRACED.glob("*.in"))]
    return stored + [("draw", paste(it.with_suffix(".iox")), it.read_bytes()) for it in sorted((TOP / "examples").glob("*.svg"))]


def add_ours(folder, crate):
    """Copies a program of this repository as a library, with what it depends on."""
    (line,) = re.findall(rf"(?m)^{crate}: .*", text_of("crates.txt"))
    below = [it for it in line.split()[1:] if (TOP / "crates" / it).is_dir()]
    expect(vendor(folder, *below).returncode, 0)
    src = TOP / "crates" / crate / "src"
    texts = {str(it.relative_to(src).with_suffix("")): it.read_text(encoding="utf-8") for it in src.rglob("*.rt")}
    add_library(folder, line, texts.pop("main"), **texts)


def program_of_threads(folder, old, new, *below):
    """Writes the program of the page of threads as its commands do, with one change and further crates below it. Returns its folder."""
    page, (message, program, *_) = text_of(THREADS), rust_blocks(THREADS)
    (handles,) = re.findall(r"echo '(Handles .*?)' >HANDLES\n", page)
    (crates,) = re.findall(r"KOHEPURI/vendor \. (.*)\n", page)
    (line,) = re.findall(r"echo '(weather: .*?)' >>crates\.txt\n", page)
    folder.mkdir()
    (folder / "HANDLES").write_text(f"{handles}\n", encoding="utf-8")
    ran = vendor(folder, *crates.split())
    # The file HANDLES that the page writes allows all that is copied.
    expect((ran.returncode, "HANDLES" in ran.stdout), (0, False))
    expect_in("KOHEPURI/vendor --struct crates/weather/src/reading.rt\n", page)
    return add(folder, " ".join([line, *below]), "reading", reading=message, main=replaced(program, old, new))


def function_of_lost_ports():
    (shown,) = re.findall(r"```\n(let left = abandon\(.*?)```", text_of(THREADS), re.S)
    return LOST.format("".join(f"    {it}\n" for it in shown.splitlines()))


def last_reading():
    """What the page of threads says that its program prints."""
    (output,) = re.findall(r"```\n(the last reading .*?)```", text_of(THREADS), re.S)
    return output


def tried(crate, *words):
    return subprocess.run(["rt", "try", *words], cwd=crate, stdin=subprocess.DEVNULL, capture_output=True, text=True, timeout=LONG)


# The program that has all of them and what each run of it is given and prints, or why there is none. It is built once.
JOINED: Future = Future()
JOINING = threading.Lock()


def sum_of(folder):
    """A sum of the texts of all crates of a folder, and of their lines."""
    files = [folder / "crates.txt", folder / "HANDLES", *sorted(it for it in (folder / "crates").rglob("*") if it.is_file())]
    told = "".join(f"{it.relative_to(folder)} {hashlib.sha256(it.read_bytes()).hexdigest()}\n" for it in files)
    return hashlib.sha256(told.encode()).hexdigest()[:16]


def kept_program(home):
    """The program of these texts and this toolchain: one that an earlier run built, or a new one."""
    program = (place() or Path(KEPT.name)) / f"pages-{sum_of(home.parent.parent)}-{toolchain()}"
    if not program.exists():
        put_in_place(taken_at_work(home, "cases", Path(KEPT.name) / "built"), program)
    return program


def join_all():
    """Builds one program of all. Returns it, and for each run its argument, what it is given, and what it prints."""
    folder = Path(KEPT.name) / "programs"
    weather = program_of_threads(folder, BEGINS, function_of_lost_ports() + BEGINS + CALLS, "called")
    printed = {"weather": last_reading(), "own": structs.OUTPUT, **programs_of_the_users_page(folder)}
    add_library(folder, "own: iox_hub iox_lanes anyhow", structs.PROGRAM, own="imu", imu=structs.STRUCTS, whole=structs.whole())
    for it in ("example_tracer", "script_cases"):
        add_ours(folder, it)
    add(folder, "called: robot latest speak own example_tracer script_cases anyhow", lib=CALLER)
    runs = [(word, GIVEN, output.encode()) for word, output in printed.items()]
    runs += [(word, told, answer + SUCCESS.encode()) for word, told, answer in asked_of_the_tracer()]
    return kept_program(weather), runs


def joined():
    with JOINING:
        if not JOINED.done():
            try:
                JOINED.set_result(join_all())
            except Differs as error:
                JOINED.set_exception(error if can_try() else NotHere("`rt try` runs no program on this machine"))
            except Exception as error:
                JOINED.set_exception(error)
    return JOINED.result()


def answered(given):
    """What `crates/script_cases` writes: the one that `rt ci` built, or the one that is built with all the others before any proof."""
    proved = built("script_cases")
    ran = subprocess.run([proved] if proved else [joined()[0], "cases"], input=given, stdout=subprocess.PIPE, timeout=LONG)
    expect(ran.returncode, 0)
    return ran.stdout


@case
@takes_long
def the_programs_of_the_pages_the_whole_examples_and_the_tracer_print_what_they_should():
    program, runs = joined()
    for word, given, output in runs:
        ran = subprocess.run([program, word], input=given, stdout=subprocess.PIPE, timeout=LONG)
        expect((word, ran.returncode, ran.stdout), (word, 0, output))


@case
@tries_unproved
def no_port_reads_another_type_than_its_services():
    own = "port: &mut threads::Subscriber<Reading, ()>) -> Result<Reading>"
    with tempfile.TemporaryDirectory(prefix="iox-check-") as name:
        ran = tried(program_of_threads(Path(name) / "users", own, own.replace("Subscriber<Reading", "Subscriber<[f64; 4]")))
        said = ran.stdout + ran.stderr
        expect((ran.returncode > 0, last_reading() in said), (True, False))
        expect_in("main.rt:", said)
