"""What programs do where memory ends, where each request for memory is refused in turn; and how much stack the hub's program needs.

A library that is laid before the program makes a further process at each request, which meets that one refused and goes on to its end. Its
replies are as with memory to spare; or the line at which the request is made is refused, which did nothing but what others had done before;
or it lacks a connection; or the run ended there with status 2. The lines behind are answered as the model answers them then.
The tests that make each other thing that takes memory pass in spite of it, or fail by their memory error.
"""
import os
import re
import resource
import signal
import subprocess
import sys
import tempfile
from bisect import bisect_left
from collections import Counter
from pathlib import Path

from cases.kit import LONG, TOP, Differs, NotHere, case, case_of_program, expect, expect_in
from tool.sources import Wanted

sys.path.insert(0, str(TOP / "model"))
from script_lines import PATTERNS, Faulty, read_command
from script_model import Machine, lines_of, replies

# In bytes: so much stack is enough for the program, as docs/ERRORS.md says, and so much isn't.
ENOUGH, TOO_LITTLE = 640 << 10, 512 << 10
# Tests that make what takes memory, by the beginnings of their names, in the crates that they are of. None of them has a thread. After so
# many requests they make again what they made.
MOST = 400
MAKING = {
    "iox_values_rows": ["containers::sizes::", "queues::sizes::", "agreement::sizes::"],
    "iox_lanes_rows": ["messages::", "sizes::"],
    "iox_hub_rows": ["services::", "asked::", "making::"],
}
# More than the limits below, in requests of 45 kB, and then lines of services, which go deepest.
FILLING = b"node\ncreate n1 ps A publishers=400 subscribers=1 buffer=1\n" + b"publisher f1 slice=1000\n" * 400 + b"""\
open_or_create n1 rr B
open_or_create n1 rr B
create n1 ev C
open n1 ps A |1 register:x1 |2 leave:x1
close f1
"""
# Lines that are refused for their settings or for what their first look finds, or skipped, whatever memory there is; and some that make
# what they need.
NEEDING_NONE = b"""\
node
create n1 ps A nodes=16777216
create n1 ev A nodes=16777216
create n1 rr A nodes=16777216
create n1 ps A overflow=0 buffer=1 history=2
open_or_create n1 ps A nodes=16777216
open_or_create n1 ev A nodes=16777216
open_or_create n1 rr A nodes=16777216
open_or_create n1 ps A overflow=0 buffer=1 history=2
open_or_create n1 ps A nodes=16777216 |2 lock:x1 publish:x1
open n1 ps A
open n1 ev A
open n1 rr A
open n1 ps A @a=b
open n1 ps A |2 lock:x1 publish:x1
foreign ps L lock:x1
foreign ev L lock:x1
foreign rr L lock:x1
open n1 ps L
open n1 ev L
open n1 rr L
create n1 ps L
create n1 ev L
create n1 rr L
create n1 ps L @a=b
create n1 ps L nodes=16777216
open_or_create n1 ps L
open_or_create n1 ev L
open_or_create n1 rr L
open_or_create n1 ps L nodes=16777216
open_or_create n1 ps L |2 giveup:x1
loan p1 1
loan_uninit p1 1
put p1 1
receive s1
create n1 ps A
publisher f1
subscriber f1
put p1 1
create n1 ps B nodes=16777216 @a=b
create n1 ps B overflow=0 buffer=1 history=2
open_or_create n1 ps B nodes=16777216 @a=b
open_or_create n1 ps B overflow=0 buffer=1 history=2
loan p2 1
loan_uninit p2 1
receive s2
leave p1
loan p1 1
leave s1
receive s1
create n1 ev C
create n1 rr C
create n1 ps A
create n1 ps A @a=b
create n1 ps A |2 register:x1
create n1 ps A nodes=16777216
create n1 ev C
create n1 rr C
"""
# A node of others comes into a service of three nodes at the first access of a node of the hub. Where it is in, one node more finds room.
COMING = b"open n1 ev E |1 register:x2"
BESIDE = b"foreign ev E lock:x1 publish:x1:nodes=3\n" + COMING + b"\nopen n2 ev E\nopen n3 ev E\n"
REFUSER = r"""
#define _GNU_SOURCE
#include <fcntl.h>
#include <stdio.h>
#include <stdlib.h>
#include <sys/wait.h>
#include <unistd.h>

extern void *__libc_malloc(size_t), *__libc_realloc(void *, size_t);
static int is_beside, is_busy, notes = -1;
static long requests;

static void give(int file, const char *path, int flags, off_t from) {
    int opened = open(path, flags, 0600);
    lseek(opened, from, SEEK_SET);
    dup2(opened, file);
    close(opened);
}

/* A process beside this one in which the request is refused: it reads from the same place, and writes to files of its own. */
static void go_beside(void) {
    char path[64];
    alarm(60);
    is_beside = 1;
    give(0, "script", O_RDONLY, lseek(0, 0, SEEK_CUR));
    for (int file = 1; file <= 2; file++) {
        snprintf(path, sizeof path, "%ld.%d", requests, file);
        give(file, path, O_CREAT | O_WRONLY, 0);
    }
}

static int is_refused(void) {
    int ended = 0;
    if (is_beside || is_busy) return 0;
    is_busy = 1;
    if (notes < 0) notes = open("notes", O_CREAT | O_WRONLY | O_TRUNC | O_CLOEXEC, 0600);
    requests++;
    const char *most = getenv("REFUSE_EACH");
    pid_t beside = most && requests <= atol(most) ? fork() : -1;
    if (beside == 0) go_beside();
    if (beside > 0) waitpid(beside, &ended, 0);
    if (!is_beside) dprintf(notes, "%ld %d %ld\n", requests, ended, (long)lseek(1, 0, SEEK_CUR));
    is_busy = 0;
    return is_beside;
}

void *malloc(size_t size) { return is_refused() ? NULL : __libc_malloc(size); }
void *realloc(void *block, size_t size) { return is_refused() ? NULL : __libc_realloc(block, size); }
"""


class Lacking(Machine):
    """The model's machine, which finds no memory for one of the connections that are to be made at the present line."""

    unconnected, asked = None, 0

    def has_memory(self):
        self.asked += 1
        return self.asked != self.unconnected

    def agree(self, *rest):
        made = super().agree(*rest)
        domain = self.made["f"][-1].life.domain
        if domain is not None:
            domain.has_memory = self.has_memory
        return made


def foreign_steps(command):
    """The service that a line names, and the steps of others at that line, in their order."""
    if command[0] == "foreign":
        return command[1:3], command[3]
    return command[2:4], [step for _, steps in sorted(command[6].items()) for step in steps]


def refusals(command):
    """What tells want of memory at a line."""
    if command[0] in ("create", "open", "open_or_create"):
        kind = PATTERNS[command[2]]
        whole = {"create": "CreateError", "open": "OpenError", "open_or_create": "OpenOrCreateError"}[command[0]]
        if command[0] != "open_or_create":
            return [f"err {kind}{whole}::OutOfMemory"]
        return [f"err {kind}{whole}::{kind}{it}(OutOfMemory)" for it in ("OpenError", "CreateError")]
    other = {
        "foreign": "HubError::OutOfMemory",
        "publisher": "PublisherCreateError::UnableToCreateDataSegment",
        "subscriber": "SubscriberCreateError::OutOfMemory",
    }
    return [f"err {other[command[0]]}"] if command[0] in other else []


class Row:
    """A script, its replies, and what it may be answered where a request is refused at one of its lines."""

    def __init__(self, script):
        self.lines, self.whole = lines_of(script), replies(script)
        self.known = {}

    def said(self, at, answer):
        """All replies, where the line at a place is answered by a call that is handed the machine."""
        machine = Lacking()
        return [answer(machine) if i == at else machine.answer(line) for i, line in enumerate(self.lines)]

    def refused(self, at):
        """Yields the replies where the line is refused, and how many of their steps others had done when the refusal came."""
        try:
            command = read_command(self.lines[at])
        except Faulty:
            return
        for told in refusals(command):
            service, steps = foreign_steps(command) if command[0] not in ("publisher", "subscriber") else (None, [])
            for count in range(len(steps) + 1):

                def answer(machine, told=told, service=service, done=steps[:count]):
                    for step in done:
                        machine.names.act(tuple(service), *step)
                    return told

                yield count, self.said(at, answer)

    def unconnected(self, at):
        """Yields the replies where one of the connections isn't made that the line makes."""
        number, asked = 0, 1
        while number < asked:
            number += 1
            made = []

            def answer(machine, number=number, made=made):
                machine.unconnected, machine.asked = number, 0
                reply = machine.answer(self.lines[at])
                made.append(machine.asked)
                machine.unconnected = None
                return reply

            found = self.said(at, answer)
            asked = made[0]
            if number <= asked:
                yield found

    def ways(self, at):
        """Each way in which all lines may be answered, with what it is called."""
        if at not in self.known:
            self.known[at] = [("refused late" if count else "refused", it) for count, it in self.refused(at)]
            self.known[at] += [("unconnected", it) for it in self.unconnected(at)]
        return self.known[at]

    def judge(self, at, status, got, said):
        """What came of a run in which a request of the line at a place was refused, or None where it may not be so."""
        if (status, said) == (2, b"out of memory\n"):
            return "ended" if got == self.whole[:at] else None
        if (status, said) != (0, b""):
            return None
        if got == self.whole:
            return "as ever"
        return next((what for what, way in self.ways(at) if got == way), None)


def refuser_in(folder):
    """Compiles the library that refuses."""
    source, library = Path(folder) / "refuse.c", Path(folder) / "librefuse.so"
    source.write_text(REFUSER)
    try:
        made = subprocess.run([os.environ.get("CC", "cc"), "-O1", "-shared", "-fPIC", "-o", library, source], capture_output=True)
    except OSError as error:
        raise NotHere(f"no C compiler: {error}") from error
    if made.returncode:
        raise NotHere(f"the C compiler makes no library: {made.stderr.decode(errors='replace')[-200:]}")
    return library


def run(program, library, folder, script, each, words=(), most=1 << 40):
    """Runs the program on a script. Returns for each request how the run beside it ended, and what had been written when it was made.

    Where each is to be refused it is one of the first so many.
    """
    (folder / "script").write_bytes(script)
    env = {"LD_PRELOAD": str(library), **({"REFUSE_EACH": str(most)} if each else {})}
    with open(folder / "script", "rb") as given, open(folder / "out", "wb") as out:
        subprocess.run([program, *words], stdin=given, stdout=out, stderr=out, env=env, cwd=folder, timeout=LONG)
    if not (folder / "notes").exists():
        raise NotHere("this program asks something else than the C library for memory, as an unproved one does")
    return [tuple(map(int, it.split())) for it in (folder / "notes").read_text().splitlines()]


def outcomes(program, library, script):
    """Yields for each request of a row the place of its line, its verb, and what came of the run in which it is refused."""
    row = Row(script)
    with tempfile.TemporaryDirectory(prefix="iox-check-") as name:
        folder = Path(name)
        beginnings = [b"".join(bytes(it) + b"\n" for it in row.lines[:count]) for count in range(len(row.lines) + 1)]
        requests = [len(run(program, library, folder, it, each=False)) for it in beginnings]
        runs = run(program, library, folder, script, each=True)
        whole = (folder / "out").read_bytes()
        expect(whole.decode().split("\n")[:-1], row.whole)
        for number, ended, written in runs:
            at = max(0, bisect_left(requests, number) - 1)
            out, said = [(folder / f"{number}.{it}").read_bytes() for it in (1, 2)]
            got = (whole[:written] + out).decode("latin-1").split("\n")[:-1]
            line = bytes(row.lines[at]).decode() if row.lines else "(no line)"
            what = row.judge(at, os.waitstatus_to_exitcode(ended), got, said)
            if what is None:
                raise Differs(f"request {number} refused, at line {at + 1}, {line!r}: status {ended}, {said!r}, {got}")
            yield at, line.split()[0], what


@case_of_program
def each_request_of_a_row_for_memory_that_is_refused_is_told_or_ends_the_run():
    wanted, seen = Wanted(), Counter()
    program = wanted.proved if wanted.proved.exists() else wanted.unproved
    with tempfile.TemporaryDirectory(prefix="iox-check-") as folder:
        library = refuser_in(folder)
        for script in sorted((TOP / "examples" / "rows").glob("*.iox")):
            seen.update((verb, what) for _, verb, what in outcomes(program, library, script.read_bytes()))
    met = [(it, "refused") for it in ("create", "open", "open_or_create", "foreign", "publisher", "subscriber")]
    met += [("publisher", "unconnected"), ("subscriber", "unconnected"), ("node", "ended"), ("receive", "ended")]
    expect([it for it in met if not seen[it]], [])


@case_of_program
def what_is_told_without_memory_comes_before_want_of_it():
    wanted = Wanted()
    program = wanted.proved if wanted.proved.exists() else wanted.unproved
    with tempfile.TemporaryDirectory(prefix="iox-check-") as folder:
        met = {(at, what) for at, _, what in outcomes(program, refuser_in(folder), NEEDING_NONE)}
    told = [at for at, it in enumerate(replies(NEEDING_NONE)) if it == "skip" or it.startswith("err")]
    expect((len(told), [at for at in told if {(at, "refused"), (at, "refused late")} & met]), (46, []))
    # One line further it is found wanting.
    expect((NEEDING_NONE.splitlines().index(b"create n1 ps A"), "refused") in met, True)


@case_of_program
def want_of_room_for_a_service_is_told_before_any_step_of_its_line():
    wanted = Wanted()
    program = wanted.proved if wanted.proved.exists() else wanted.unproved
    with tempfile.TemporaryDirectory(prefix="iox-check-") as folder:
        library = refuser_in(folder)
        for pattern in (b" ev ", b" ps "):
            found = []
            # Beside a factory there is room for another among the counts, among the domains, and among the older factories: a list of such
            # small items begins with capacity for four. The ring of the newest factories asks for four places more in either case.
            for before in (b"", b"create n1 ev D\n"):
                script = (b"node\n" * 3 + before + BESIDE).replace(b" ev ", pattern)
                line = script.splitlines().index(COMING.replace(b" ev ", pattern))
                found.append(Counter(what for at, _, what in outcomes(program, library, script) if at == line))
            first, second = found
            expect((first["refused"] - second["refused"], first["refused late"] - second["refused late"]), (3, 0))
            expect_in("refused late", second)


def refusals_in(tests, library, name):
    """Has each of the first requests of a test refused in turn. Returns how often it failed for it; any other failure differs."""
    failed = 0
    with tempfile.TemporaryDirectory(prefix="iox-check-") as folder:
        try:
            made = run(tests, library, Path(folder), b"", each=True, words=[name], most=MOST)
        except NotHere:
            # It asks for more than there can be, and so for nothing.
            return 0
        for number, ended, _ in made[:MOST]:
            status = os.waitstatus_to_exitcode(ended)
            said = b"".join((Path(folder) / f"{number}.{it}").read_bytes() for it in (1, 2))
            if status < 0 or status > 0 and not re.search(rb"(?i)alloc_?error|allocfailed|out ?of ?memory", said):
                raise Differs(f"{tests.name} {name}, request {number} refused: status {status}, {said[-300:]!r}")
            failed += status > 0
    return failed


@case
def each_request_of_a_test_that_makes_something_is_refused_by_a_memory_error():
    homes = {it: TOP / "crates" / it / "out" / f"{it}_tests" for it in MAKING}
    if not all(it.exists() for it in homes.values()):
        raise NotHere("the tests aren't built: rt ci builds them")
    with tempfile.TemporaryDirectory(prefix="iox-check-") as folder:
        library = refuser_in(folder)
        for crate, tests in homes.items():
            listed = subprocess.run([tests, "--list"], capture_output=True, text=True, timeout=LONG).stdout
            names = re.findall(r"(?m)^(\S+): test$", listed)
            chosen = [it for it in names if it.startswith(tuple(MAKING[crate]))]
            expect((crate, sum(refusals_in(tests, library, it) for it in chosen) > 0), (crate, True))


def limited(program, script, what, limit):
    """Runs the program on a script with so many bytes of stack or of address space."""

    def limit_it():
        resource.setrlimit(what, (limit, limit))

    return subprocess.run([program], input=script, env={}, capture_output=True, preexec_fn=limit_it, timeout=LONG)


@case_of_program
def the_stack_is_there_before_the_first_line_or_never():
    program, stored = Wanted().proved, TOP / "crates" / "iox"
    expect_in(f"`ulimit -s {ENOUGH >> 10}` or more", (TOP / "docs" / "ERRORS.md").read_text(encoding="utf-8"))
    if not program.exists():
        raise NotHere("an unproved program needs more stack")
    ran = limited(program, (stored / "stdin").read_bytes(), resource.RLIMIT_STACK, ENOUGH)
    expect((ran.returncode, ran.stdout == (stored / "stdout").read_bytes()), (0, True))
    # It ends at once, though this run would need less.
    expect(limited(program, b"", resource.RLIMIT_STACK, TOO_LITTLE).returncode, -signal.SIGSEGV)
    # From the least space in which the program starts.
    least = next(it for it in range(1 << 20, 64 << 20, 100_000) if limited(program, b"", resource.RLIMIT_AS, it).returncode == 0)
    ends = set()
    for space in range(least, least + (12 << 20), 300_000):
        ran = limited(program, FILLING, resource.RLIMIT_AS, space)
        ends.add((ran.returncode, ran.stderr, ran.stdout.count(b"\n") == FILLING.count(b"\n")))
    expect(ends - {(0, b"", True), (2, b"out of memory\n", False)}, set())
