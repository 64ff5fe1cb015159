#!/usr/bin/env python3
"""What a line costs the program while much is alive that has no part in it: loans, samples, connections, services, ports of other
factories; and a message for many.

Usage: bench/alive.py [--count] [PROGRAM [WORD]]     (PROGRAM is crates/iox/out/iox if not named; `rt run` in crates/iox builds it)

It is asked about all rows, or about those whose name has the word.

Each figure is the least of three runs of a script, less the least of three of its beginning alone, for each line behind that. With
`--count` it is instructions, of one run each, as callgrind of valgrind counts them: these tell the same on a busy machine.
"""
import re
import subprocess
import sys
import time
from pathlib import Path

# What is imported leaves nothing in the work tree.
sys.dont_write_bytecode = True
from callgrind import counted

WORDS = [it for it in sys.argv[1:] if it != "--count"]
PROGRAM = Path(WORDS[0] if WORDS else Path(__file__).resolve().parent.parent / "crates" / "iox" / "out" / "iox").resolve()
IS_COUNTING, WORD = "--count" in sys.argv, (WORDS[1:] or [""])[0]
# Counting takes some fifty times as long, so so much less of what is behind is counted.
A_COUNT = 20
# How many lines a row measures, but for those whose lines walk many ports.
LINES = 300_000


def run(script):
    """The replies to a script: none may say that a line was skipped, refused or faulty, since then it is not what is measured."""
    ran = subprocess.run([PROGRAM], input=script.encode(), stdout=subprocess.PIPE, check=True)
    other = re.search(rb"^(?!ok|none).*$", ran.stdout, re.M)
    if other and other.group():
        sys.exit(f"{script.splitlines()[ran.stdout[: other.start()].count(10)]}: {other.group().decode()}")


def seconds(script):
    """The least time of three runs."""
    times = []
    for _ in range(3):
        began = time.perf_counter()
        subprocess.run([PROGRAM], input=script.encode(), stdout=subprocess.DEVNULL, check=True)
        times.append(time.perf_counter() - began)
    return min(times)


def instructions(script):
    """The instructions of one run."""
    return counted([PROGRAM], script.encode())[0]


def tell(what, beginning, behind, unit=1):
    """Prints what each so many lines behind the beginning take."""
    if WORD not in what:
        return
    few = behind[: max(len(behind) // A_COUNT // unit, 1) * unit]
    run("\n".join([*beginning, *few, ""]))
    measured, measure = (few, instructions) if IS_COUNTING else (behind, seconds)
    spent = measure("\n".join([*beginning, *measured, ""])) - measure("\n".join([*beginning, ""]))
    told = f"{spent / len(measured):,.0f} instructions" if IS_COUNTING else f"{spent / len(measured) * 1e9:,.0f} ns"
    print(f"{what}: {told} a line", flush=True)


def cycles(publisher, first, release):
    """Lines of `put`, `receive` and `release`, where so many samples were received before; `release` says of each which one goes."""
    return [line for at in range(LINES // 5) for line in (f"put p{publisher} 3", "receive s1", f"release m{release(first + at)}")]


for loans in (1, 1_000, 10_000, 100_000):
    out = ["node", "create n1 ps A", f"publisher f1 loans={loans + 1}"] + ["loan p1 1"] * loans
    tell(f"put, {loans:,} loans out", out, ["put p1 3"] * LINES)
    tell(f"set of the last, {loans:,} loans out", out, [f"set l{loans} 0 4"] * LINES)
for held in (0, 1_000, 5_000, 100_000):
    out = ["node", f"create n1 ps A subscribers=1 buffer={held + 2} borrowed={held + 2}", "publisher f1", "subscriber f1"]
    out += ["put p1 3", "receive s1"] * held
    tell(f"put, receive, release of the newest, {held:,} samples held", out, cycles(1, held + 1, lambda at: at), 3)
    tell(f"put, receive, release of the oldest, {held:,} samples held", out, cycles(1, 1, lambda at: at), 3)
for most in (2, 1_000, 100_000):
    out = ["node", f"create n1 ps A subscribers=1 borrowed={most}", "publisher f1"]
    behind = [line for at in range(3_000) for line in ("subscriber f1", f"leave s{at + 1}")]
    tell(f"a subscriber comes or leaves, of which {most:,} may be borrowed", out, behind, 2)
for expired in (0, 300, 3_000):
    out = ["node", f"create n1 ps A subscribers=1 publishers={expired + 1} borrowed={max(expired, 2)}", "subscriber f1"]
    out += ["publisher f1 slots=4"] * (expired + 1) + [f"put p{at + 1} 3" for at in range(expired)] + ["receive s1"] * expired
    out += [f"leave p{at + 1}" for at in range(expired)] + ["update s1"]
    behind = cycles(expired + 1, expired + 1, lambda at: at)[: LINES * 30 // (expired + 10)]
    tell(f"put, receive, release, {expired:,} expired connections with a sample", out, behind, 3)
for idle in (10, 100, 1_000, 10_000):
    out = ["node", f"create n1 ps A subscribers=1 publishers={idle}", "subscriber f1", *["publisher f1"] * idle, "receive s1"]
    tell(f"receive over {idle:,} idle publishers", out, ["receive s1"] * (LINES * 10 // idle))
for services in (100, 1_000, 10_000):
    out = ["node", *(f"create n1 ps A{at}" for at in range(services)), *(f"publisher f{at + 1}" for at in range(services))]
    behind = [line for at in range(3_000) for line in ("publisher f1", f"leave p{services + 1 + at}")]
    tell(f"a publisher comes or leaves, {services:,} services with one each", out, behind, 2)
for kind in ("publisher", "subscriber"):
    for ports in (1, 1_000, 3_000):
        out = ["node", f"create n1 ps A {kind}s={ports + 1}", *[f"{kind} f1"] * ports]
        behind = [line for at in range(3_000) for line in ("open n1 ps A", f"close f{2 + at}")]
        tell(f"a further factory is opened or closed, {ports:,} {kind}s of another", out, behind, 2)
for readers in (10, 100, 1_000, 10_000):
    out = ["node", f"create n1 ps A subscribers={readers}", "publisher f1", *["subscriber f1"] * readers, *["put p1 3"] * 3]
    tell(f"put to {readers:,} subscribers", out, ["put p1 3"] * (LINES * 10 // readers))
for services in (10, 1_000, 10_000):
    out = ["node", *(f"create n1 ps A{at}" for at in range(services))]
    tell(f"node, {services:,} services", out, ["node"] * 3_000)
    behind = [line for at in range(3_000) for line in ("create n1 ps B", f"close f{services + 1 + at}")]
    tell(f"a service is created or closed, beside {services:,}", out, behind, 2)
    behind = [line for at in range(3_000) for line in ("open n1 ps A0", f"close f{services + 1 + at}")]
    tell(f"a further factory is opened or closed, {services:,} services", out, behind, 2)
for ports in (1, 10, 1_000):
    out = ["node", f"create n1 ps A subscribers={ports} publishers=2", *["subscriber f1"] * ports]
    behind = [line for at in range(400) for line in ("publisher f1", f"leave p{1 + at}")]
    tell(f"a publisher comes or leaves, {ports:,} subscribers of its service", out, behind, 2)
    out = ["node", f"create n1 ps A publishers={ports} subscribers=2", *["publisher f1"] * ports]
    behind = [line for at in range(400) for line in ("subscriber f1", f"leave s{1 + at}")]
    tell(f"a subscriber comes or leaves, {ports:,} publishers of its service", out, behind, 2)
    out = ["node", f"create n1 ps A publishers={ports}", *["publisher f1"] * ports, "put p1 3"]
    tell(f"put of the first of {ports:,} publishers", out, ["put p1 3"] * LINES)
    tell(f"update of the first of {ports:,} publishers", out, ["update p1"] * LINES)
    out = ["node", f"create n1 ps A subscribers={ports} publishers=2", *["subscriber f1"] * ports, "receive s1"]
    tell(f"receive of the first of {ports:,} subscribers, no publisher", out, ["receive s1"] * LINES)
for held in (1, 1_000, 100_000):
    out = ["node", f"create n1 ps A subscribers=1 buffer={held + 2} borrowed={held + 2}", "publisher f1", "subscriber f1"]
    out += ["put p1 3", "receive s1"] * held
    tell(f"read of the first of {held:,} samples held", out, ["read m1"] * LINES)
