"""Ceilings of cost: what lines take of the program once much has been, in instructions and in memory, held against tables.

`rows.txt` has what a line may take once much has been, `much.txt` what it may take after a million times, and how much memory is resident
then. `verbs.txt` has what a line of each verb takes, `memory.txt` what asks for no memory and what keeps none. It is the proved program
that is counted, as `rt ci` built it, or the one that COSTS_OF names in the environment. `machines.txt` has what a call of a set, a ring or
a container takes whatever its capacity is: there crates/script_cases is counted.
With CHECK_TIMES=1 each figure is printed.
"""
import os
import re
from concurrent.futures import ThreadPoolExecutor

from cases.costs import counting
from cases.costs.table import HERE, Line, Script, at, read
from cases.kit import COMMANDS, Differs, case, case_of_program, expect, takes_long

# Lines that take more instructions are counted only after the least number of times and the most.
FEW = 20_000
# So much more than its first figure may a line take that has no reason to; and than its figure in the table, which is of the
# proved program.
GROWTH, MARGIN = 1.15, 1.15
# What is known to grow is mended once it grows by less than this.
GONE = 1.05
# In bytes, how much more may be in use after 10,000 times than after 10.
KEPT = 16_384
# In kilobytes, how much more may be resident after a million times than after a thousand.
RESIDENT = 64
# So many instructions may a line take more for each digit that its numbers have more.
DIGIT = 30
# How a call is answered that isn't made, or finds nothing.
UNDONE = "-> (unknown|none|false|err|skip)"
# How many places a set, a ring or a container has.
CAPACITIES = (10, 10_000)
# A domain that is taken out of its hub and put back after so many messages, of which some wait and one is held.
PUT_BACK = """\
a domain that is put back
hub
node
create n1 ps A
publisher f1
subscriber f1
{n} times put p1 3; receive s1; release m#
put p1 4
receive s1
put p1 5
measure take 1
measure put
"""
# The test that makes each call of a port in threads, at few places and at many.
OF_PORTS = ["measured::calls_of_ports_are_measured"]
# What two sensors and two displays ask for in all, and the most bytes in use.
IN_THREADS = counting.Counted(steps=0, requests=83, in_use=0, most=15_400)


def note(text):
    if os.environ.get("CHECK_TIMES"):
        print(f"note: {text}\n", end="", flush=True)


# ---- instructions, once much has been


def script_of(script, times, dear=frozenset()):
    """The lines of a script, each that is counted with its mark; those of `dear` go uncounted."""
    lines, place = [*script.before(times), *script.all_times(times)], -1
    for it in script.lines:
        place += it.is_counted
        lines.append(counting.COUNT * (it.is_counted and place not in dear) + at(it.text, times, times))
    return lines


def figures(script, count=counting.instructions):
    """How many instructions each counted line takes after so many times: for each line by the times."""
    of, (least, *more) = counting.program(), script.times
    found = [{least: it} for it in count(of, script_of(script, least))]
    dear = {place for place, it in enumerate(found) if it[least] > FEW}
    for times in more:
        left = dear if times != more[-1] else frozenset()
        told = iter(count(of, script_of(script, times, left)))
        for place, it in enumerate(found):
            if place not in left:
                it[times] = next(told)
    return list(zip(script.counted(), found))


def judge(name, line, found):
    """What is wrong with the figures of a line, or nothing."""
    first, least = min(found), found[min(found)]
    grown = {number: it for number, it in found.items() if it > GROWTH * least}
    told = ", ".join(f"{it:,} after {number:,}" for number, it in found.items())
    if line.mark == "walks":
        steep = any(it > GROWTH * least * number / first for number, it in found.items())
        return f"{name}: `{line.text}` takes {told}: more than so many times {GROWTH} of the first" if steep else ""
    if line.mark == "known":
        is_so = any(it > GONE * least for it in found.values())
        return "" if is_so else f"{name}: `{line.text}`: {line.why}: no longer so ({told}): take the mark out of cases/costs/rows.txt"
    return f"{name}: `{line.text}` takes {told}: more than {GROWTH} of the first" if grown else ""


def judged(scripts, judge_one):
    """What is wrong with each script, several at a time."""

    def go(script):
        try:
            return judge_one(script)
        except Differs as error:
            return [f"{script.name}: {error}"]

    with ThreadPoolExecutor(os.cpu_count() or 1) as pool:
        wrong = [it for found in pool.map(go, scripts) for it in found]
    if wrong:
        raise Differs("; ".join(wrong))


@case_of_program
def a_line_takes_no_more_once_much_has_been():
    def judge_one(script):
        lines = figures(script)
        for line, found in lines:
            note(f"{script.name}: {line.text}: {', '.join(f'{it:,}' for it in found.values())}{' ' * bool(line.mark)}{line.mark}")
        return [it for line, found in lines if (it := judge(script.name, line, found))]

    judged(read("rows.txt"), judge_one)


# ---- after a million times


def judge_much(name, lines, resident):
    """What is wrong after the most times: of each line with its figures, and of the kilobytes that were resident by the times."""
    wrong = []
    for line, found in lines:
        least, most = found[min(found)], found[max(found)]
        digits = len(at(line.text, 0, max(found))) - len(at(line.text, 0, min(found)))
        if most > GONE * least + DIGIT * digits:
            wrong.append(f"{name}: `{line.text}` takes {least:,} after {min(found):,} times, and {most:,} after {max(found):,}")
    least, most = resident[min(resident)], resident[max(resident)]
    if most > least + RESIDENT:
        wrong.append(f"{name}: {least:,} kB are resident after {min(resident):,} times, and {most:,} after {max(resident):,}")
    return wrong


@takes_long
@case_of_program
def a_line_takes_no_more_and_no_more_is_resident_after_a_million_times():
    of, wrong = counting.program(), []
    for script in read("much.txt"):
        lines, resident = [(it, {}) for it in script.counted()], {}
        for times in script.times:
            given = script_of(script, times)
            for (_, found), steps in zip(lines, counting.instructions(of, given), strict=True):
                found[times] = steps
            resident[times] = counting.resident(of, [it.removeprefix(counting.COUNT) for it in given])
        for line, found in lines:
            note(f"{script.name}: {line.text}: {', '.join(f'{it:,}' for it in found.values())}")
        note(f"{script.name}: {', '.join(f'{it:,}' for it in resident.values())} kB resident")
        wrong += judge_much(script.name, lines, resident)
    if wrong:
        raise Differs("; ".join(wrong))


# ---- instructions of one line


def number_of(text):
    """A number as tables have it; 0 where there is none."""
    return int(text.replace(",", "") or 0)


def above(script, lines):
    """What takes more than its figure, or so much less that the figure is old."""
    wrong = []
    for line, found in lines:
        figure, least = number_of(line.why), min(found.values())
        note(f"{script.name}: {line.text}: {least:,}, by the table {figure:,}")
        if not figure / MARGIN <= least <= figure * MARGIN:
            wrong.append(f"{script.name}: `{line.text}` takes {least:,}, and {figure:,} by cases/costs/verbs.txt")
    return wrong


@case_of_program
def a_line_of_each_verb_takes_what_the_table_says():
    scripts = read("verbs.txt")
    expect(sorted({it.text.split()[0] for script in scripts for it in script.counted()}), sorted(COMMANDS))
    judged(scripts, lambda it: above(it, figures(it)))


# ---- memory


def memory(script, count=counting.memory):
    """Before the times and behind them, after 10 and after 10,000: requests, bytes in use, the most that ever were."""
    of, found = counting.program(), {}
    for times in (min(script.times), max(script.times)):
        lines = [*script.before(times), *counting.WARM, counting.MARK, *script.all_times(times), counting.MARK]
        found[times] = count(of, lines)
    return found


def judge_memory(script, found):
    """What is wrong with the memory that a script took, or nothing."""
    (few_before, few), (many_before, many) = (found[it] for it in sorted(found))
    asked = {times: behind.requests - before.requests for times, (before, behind) in found.items()}
    wrong, (what, _, why) = [], script.said.get("asks", "").partition(": ")
    each = int(what.split()[0]) if what and what != "never" else 0
    if what and any(it != each * times for times, it in asked.items()):
        told = ", ".join(f"{it:,} requests for memory in {times:,} times" for times, it in asked.items())
        wrong.append(f"{told}, and not {what} ({why})" if why else told)
    what, _, why = script.said.get("keeps", "").partition(": ")
    kept = max((many.in_use - many_before.in_use) - (few.in_use - few_before.in_use), many.most - few.most)
    if what and ((kept > KEPT) is not (what == "known")):
        wrong.append(f"keeps {kept:,} bytes more after {max(found):,} times than after {min(found):,}{f' ({why})' * bool(why)}")
    ceiling, taken = number_of(script.said.get("takes", "")), few.in_use - few_before.in_use
    if ceiling and not ceiling / MARGIN <= taken <= ceiling * MARGIN:
        wrong.append(f"takes {taken:,} bytes in {min(found):,} times, and {ceiling:,} by cases/costs/memory.txt")
    return [f"{script.name}: {it}" for it in wrong]


@case_of_program
def calls_that_take_no_memory_ask_for_none_and_what_ends_keeps_none():
    def judge_one(script):
        found = memory(script)
        for times, (before, behind) in found.items():
            asked, more = behind.requests - before.requests, behind.in_use - before.in_use
            note(f"{script.name}: {asked:,} requests in {times:,}, {more:,} bytes more in use, {behind.most:,} at most")
        return judge_memory(script, found)

    judged(read("memory.txt"), judge_one)


# ---- machines, and domains that are put back, by the program of cases


def measured(of, what, given="", words=()):
    """What was counted of each line that begins with `measure`, with the line."""
    text, counted = counting.run(of, what, given, words)
    lines = [it for it in text.splitlines() if it.startswith("measure ") and (what == "memory" or not it.startswith("measure memory "))]
    # The last row is of the program's end.
    return list(zip(lines, counted[:-1], strict=True))


def judge_capacity(at_few, at_many):
    """Which calls take more at the larger capacity, or aren't made."""
    wrong = []
    for (line, few), (other, many) in zip(at_few, at_many, strict=True):
        note(f"{line}: {few.steps:,} at few places, {many.steps:,} at many")
        wrong += [f"`{it}`" for it in (line, other) if re.search(UNDONE, it)]
        if many.steps > GROWTH * few.steps:
            wrong.append(f"`{line}` takes {few.steps:,} at few places, and {many.steps:,} at many")
    return wrong


@case
def a_call_takes_no_more_at_a_larger_capacity():
    text = "".join(it for it in (HERE / "machines.txt").read_text(encoding="ascii").splitlines(True) if not it.startswith("#")).strip()
    of = counting.built("script_cases")
    few, many = (measured(of, "steps", at(text, times, times)) for times in CAPACITIES)
    wrong = judge_capacity(few, many)
    if wrong or not few:
        raise Differs("; ".join(wrong) or "no line is measured")


@case
def a_domain_is_taken_out_and_put_back_without_a_request_for_memory():
    of = counting.built("script_cases")
    for times in (10, 10_000):
        for (line, counted), said in zip(measured(of, "memory", PUT_BACK.replace("{n}", str(times))), ("take 1", "put"), strict=True):
            note(f"{line}: {counted.requests:,} requests for memory after {times:,} messages")
            expect((line, counted.requests), (f"measure {said} -> true", 0))


# ---- threads


def measured_in_threads(what):
    return measured(counting.built("iox_lanes_rows", of_tests=True), what, words=OF_PORTS)


@case
def a_call_of_a_port_in_threads_takes_no_more_at_a_larger_capacity():
    found = measured_in_threads("steps")
    half = len(found) // 2
    wrong = judge_capacity(found[:half], found[half:])
    if wrong or not half:
        raise Differs("; ".join(wrong) or "no call is measured")


@case
def a_call_of_a_port_in_threads_asks_for_no_memory():
    """Neither do 10 messages, samples that are held and loans, or 10,000 of each."""
    for line, counted in measured_in_threads("memory"):
        note(f"{line}: {counted.requests:,} requests for memory")
        expect((line, line.endswith(" -> true"), counted.requests), (line, True, 0))


@case
def a_message_in_threads_asks_for_no_memory():
    """Two sensors send 1,001 messages each to two displays: all that is asked for is asked for before the first of them."""
    _, counted = counting.run(counting.built("example_threads"), "memory")
    asked = counted[-1]
    note(f"2,002 messages in threads: {asked.requests:,} requests, {asked.most:,} bytes at most")
    # What threads ask for at their start depends on the C library and on their order; a request a message would be 2,002.
    if asked.requests > 2 * IN_THREADS.requests or asked.most > 2 * IN_THREADS.most:
        wanted = f"{IN_THREADS.requests} and {IN_THREADS.most:,}"
        raise Differs(f"{asked.requests:,} requests and {asked.most:,} bytes at most, and not {wanted}")


# ---- what the cases must not pass over


def expect_told(found, *parts):
    """Expects a judge to tell of something, in these words, or of nothing where there are none."""
    told = "; ".join([found] if isinstance(found, str) else found)
    if bool(told) is not bool(parts) or any(it not in told for it in parts):
        raise Differs(f"{told!r}, and not {parts}")


@case
def a_line_that_grows_and_a_known_one_that_does_not_are_told():
    flat, grown = {10: 1_000, 1_000: 1_100, 10_000: 1_149}, {10: 1_000, 1_000: 1_001, 10_000: 1_151}
    marks = (("", ""), ("known", "it is lame"), ("walks", "by a rule"))
    plain, known, walking = (Line("put p1 3", True, *mark) for mark in marks)
    expect_told(judge("visits", plain, flat))
    expect_told(judge("visits", plain, grown), "visits: `put p1 3` takes 1,000 after 10, 1,001 after 1,000, 1,151 after 10,000")
    expect_told(judge("visits", known, grown))
    expect_told(judge("visits", known, {10: 1_000, 10_000: 1_049}), "it is lame: no longer so", "take the mark out of cases/costs/rows.txt")
    expect_told(judge("visits", walking, grown))
    expect_told(judge("visits", walking, {10: 1_000, 1_000: 114_999}))
    expect_told(judge("visits", walking, {10: 1_000, 1_000: 115_001}), "visits: `put p1 3` takes 1,000 after 10, 115,001 after 1,000")
    figure = Line("put p1 3", True, "takes", "1,000")
    expect_told(above(Script("a message"), [(figure, {10: 1_149, 20: 1_149})]))
    expect_told(above(Script("a message"), [(figure, {10: 1_151, 20: 1_151})]), "`put p1 3` takes 1,151, and 1,000 by")
    expect_told(above(Script("a message"), [(figure, {10: 869, 20: 869})]), "takes 869")


@case
def a_line_that_grows_or_memory_that_stays_resident_after_a_million_times_is_told():
    line, few = Line("put p1 3", True), {1_000: 500}
    expect_told(judge_much("visits", [(line, {1_000: 1_000, 1_000_000: 1_050})], few | {1_000_000: 500 + RESIDENT}))
    digits = Line("release m{N}", True)
    expect_told(judge_much("visits", [(digits, {1_000: 1_000, 1_000_000: 1_050 + 3 * DIGIT})], few | {1_000_000: 500}))
    more = [(line, {1_000: 1_000, 1_000_000: 1_051})]
    expect_told(judge_much("visits", more, few | {1_000_000: 500}), "takes 1,000 after 1,000 times, and 1,051 after 1,000,000")
    kept = few | {1_000_000: 501 + RESIDENT}
    expect_told(judge_much("visits", [], kept), "500 kB are resident after 1,000 times, and 565 after 1,000,000")


@case
def memory_that_is_asked_for_or_kept_is_told():
    at = lambda requests, in_use: counting.Counted(0, requests, in_use, in_use)
    none, often = {10: (at(5, 9), at(5, 9)), 10_000: (at(7, 9), at(7, 9))}, {10: (at(5, 9), at(5, 9)), 10_000: (at(7, 9), at(8, 9))}
    twice = {10: (at(5, 9), at(25, 9)), 10_000: (at(7, 9), at(20_007, 9))}
    kept = {10: (at(5, 900), at(5, 900)), 10_000: (at(5, 900), at(5, 900 + KEPT + 1))}
    never, two = Script("a put", said={"asks": "never"}), Script("a read", said={"asks": "2 a time: its values"})
    expect_told(judge_memory(never, none))
    expect_told(judge_memory(never, often), "a put: 0 requests for memory in 10 times, 1 requests for memory in 10,000 times")
    expect_told(judge_memory(two, twice))
    expect_told(judge_memory(two, none), "and not 2 a time (its values)")
    expect_told(judge_memory(Script("a put", said={"keeps": "nothing"}), none))
    expect_told(judge_memory(Script("a put", said={"keeps": "nothing"}), kept), "keeps 16,385 bytes more after 10,000 times than after 10")
    expect_told(judge_memory(Script("a put", said={"keeps": "known: it is lame"}), kept))
    expect_told(judge_memory(Script("a put", said={"keeps": "known: it is lame"}), none), "keeps 0 bytes more", "(it is lame)")


@case
def a_call_that_takes_more_at_a_larger_capacity_is_told():
    at = lambda steps: [("measure 0 set 5 -> true", counting.Counted(steps, 0, 0, 0))]
    expect_told(judge_capacity(at(1_000), at(1_149)))
    expect_told(judge_capacity(at(1_000), at(1_151)), "`measure 0 set 5 -> true` takes 1,000 at few places, and 1,151 at many")
    undone = [("measure s0 receive -> none", counting.Counted(1_000, 0, 0, 0))]
    expect_told(judge_capacity(undone, undone), "`measure s0 receive -> none`")
