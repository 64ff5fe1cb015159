"""Schedules of lanes that are cut: one party has no further entry, the other one goes on, and what is read then is whole."""
import re

from cases.kit import asks_what_others_build, case, expect
from cases.programs import answered

# Two schedules of one publisher and one subscriber, at whose connection one message may wait: each line with how many entries it has,
# by the word steps of docs/FORMATS.md. Slot K is sent with message K + 1. In the first a receive overtakes the put of a send; in the
# second all samples come back while a send is under way.
WORDS = "user_header=1 payload=2"
SENT = {value: f"[0, 0, 1, 6, {value}, {value}]" for value in (1, 2, 3, 9)}
SCHEDULES = {
    f"lanes overflowing borrowed=2 slots=5 {WORDS}": """
4 p0 loan
4 p0 write 0 1 6 1 1
13 p0 send 0
4 p0 loan
4 p0 write 1 1 6 2 2
1 p0 begin send 1
11 p0 go 11
6 s0 receive
3 p0 go 24
8 s0 read 0
6 s0 receive
8 s0 read 1
""",
    f"lanes overflowing borrowed=1 slots=3 {WORDS}": """
4 p0 loan
4 p0 write 0 1 6 1 1
13 p0 send 0
6 s0 receive
4 p0 loan
4 p0 write 1 1 6 2 2
13 p0 send 1
4 p0 loan
4 p0 write 2 1 6 3 3
1 p0 begin send 2
7 p0 go 7
6 s0 release 0
6 s0 receive
5 p0 go 24
6 s0 release 1
6 s0 receive
6 s0 release 2
16 p0 loan
""",
}
READS = ["s0 read 0", "s0 read 1", "s0 read 2"]
# Who goes on behind the cut: the subscriber, while the publisher has no further entry; or the publisher, which ends its call and sends
# once more, and only then the subscriber.
WAYS = {
    "the subscriber goes on": ["s0 go 24", *READS, "s0 receive", *READS],
    "the publisher goes on": ["p0 go 24", "p0 put 9", "s0 go 24", *READS, "s0 receive", *READS],
}


def cut(line, entries):
    """The line with so many entries of its call at most."""
    party, verb, *rest = line.split(" ")
    if verb == "begin":
        return line
    return " ".join([party, "go", str(entries)] if verb == "go" else [party, "within", str(entries), verb, *rest])


def ends(line, of_it, entries):
    """Whether so many entries of a line end its call. Of a call in pieces the last one asks for more entries than there are."""
    return entries == of_it and " begin " not in line and not line.endswith(f" go {of_it}")


def held(lines):
    """The slots that the subscriber holds behind these lines."""
    received = list(range(lines.count("s0 receive")))
    return [it for it in received if f"s0 release {it}" not in lines]


def blocks(sizes, text):
    """For each entry of a schedule and each way to go on the lines of a block, how many of them are behind the cut, whether
    its last call was at its end there, and what the subscriber surely holds."""
    schedule = [(int(of_it), line) for of_it, line in (it.split(" ", 1) for it in text.strip().splitlines())]
    for place, (of_it, line) in enumerate(schedule):
        before = [it for _, it in schedule[:place]]
        kept = held([*before, line]) if " release " in line else held(before)
        for entries in range(1, of_it + 1):
            for way, behind in WAYS.items():
                title = f"{way} behind entry {entries} of {line}"
                yield [title, sizes, *before, cut(line, entries), *behind], len(behind), ends(line, of_it, entries), kept


def differs(lines, behind, is_at_its_end, kept, told):
    """What isn't as it should be in a block, or None."""
    answers = [it.rpartition(" -> ")[2] if " [" not in it else it.partition(" -> ")[2] for it in told]
    if [it.partition(" -> ")[0] for it in told] != lines or (answers[-behind - 1] == "Went") == is_at_its_end:
        return answers[-behind - 1]
    read = [it for line, it in zip(lines[-behind:], answers[-behind:]) if " read " in line]
    if "Went" in answers[-behind:] or not set(read) <= {*SENT.values(), "Skipped"}:
        return read
    return next((it for it in kept if read[it] != SENT[it + 1]), None)


@case
@asks_what_others_build
def each_read_is_whole_where_a_schedule_of_lanes_is_cut():
    asked = [it for schedule in SCHEDULES.items() for it in blocks(*schedule)]
    given = "\n\n".join("\n".join(lines) for lines, *_ in asked)
    told = [it.splitlines() for it in answered(f"{given}\n".encode()).decode().strip("\n").split("\n\n")]
    expect(len(told), len(asked))
    wrong = ((block[0][0], differs(*block, lines)) for block, lines in zip(asked, told))
    expect(next((it for it in wrong if it[1] is not None), None), None)
    read = {line.partition(" -> ")[2] for lines in told for line in lines if re.match("s0 read .* -> \\[", line)}
    # Each message is read behind some cut.
    expect(read, set(SENT.values()))
