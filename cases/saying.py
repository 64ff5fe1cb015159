"""What is said beside replies: where a line is faulty, why one is skipped; records, pictures, the prompt. By the Python model."""
import contextlib
import json
import re
import shutil
import subprocess
import sys
import tempfile
import xml.etree.ElementTree as ElementTree
from pathlib import Path

from cases.kit import SCRIPT, TOP, NotHere, Ran, case, expect, expect_in, talk

# A line that spells no command, the column at fault, and what is said of it.
FAULTS = [
    ("", 1, "the line is empty (`--comments` ignores such lines)"),
    ("recieve s1", 1, '"recieve" isn\'t a command; did you mean "receive"?'),
    ("Node", 1, '"Node" isn\'t a command; did you mean "node"?'),
    ("# first", 1, "scripts have no comments (`--comments` ignores lines that begin with #)"),
    (" node", 1, "a space before the first word"),
    ("node ", 5, "a space after the last word"),
    ("put  p1 1", 5, "two spaces: words are separated by one"),
    ("put\tp1 1", 4, "a tab: words are separated by one space"),
    ("put p1 01", 8, "01 has a leading zero"),
    ("put p1 1.5", 8, '"1.5" isn\'t a number: numbers are decimal, with no sign and no point'),
    ("put p1 18446744073709551616", 8, "18446744073709551616 is above 18446744073709551615, the largest number"),
    ("put f1 1", 5, 'expected a publisher such as p1, not "f1"'),
    ("put p1 café", 8, '"café" isn\'t a number'),
    ("nöde", 1, '"nöde" isn\'t a command; did you mean "node"?'),
    ("put p1 " + "9" * 50, 8, f"{'9' * 40} .. is above 18446744073709551615, the largest number"),
    ("receive", 8, "a subscriber such as s1 is missing: receive sK"),
    ("receive s1 s2", 12, '"s2" is one word too many: receive sK'),
    ("create n1 PS A", 11, '"PS" isn\'t a pattern: ps, ev or rr; did you mean "ps"?'),
    ("create n1 ps A buffer=3 buffer=3", 25, "buffer=3 is given twice"),
    ("create n1 ps A buffer=3 buffer=4", 25, "buffer= is given twice"),
    ("create n1 ps A bufer=3", 16, '"bufer" isn\'t an option of ps services; did you mean "buffer"?'),
    ("create n1 ps A maxid=3", 16, '"maxid" isn\'t an option of ps services: it is one of ev services'),
    ("create n1 ps A overflow=2", 25, 'overflow is 0 or 1, and "2" is neither'),
    ("create n1 ps A @k", 16, "@k requires a key, and create defines attributes: write @k=VALUE"),
    ("open n1 ps A @k=v buffer=3", 19, "an option after an attribute: options come first, then attributes, then lists of steps"),
    ("open n1 ps A |1", 14, "the list |1 has no step"),
    ("open n1 ps A |2 lock:x1 |1 lock:x1", 25, "the list |1 comes after |2: lists are in rising order"),
    ("publisher f1 strategy=retri", 23, 'strategy is retry or discard, not "retri"; did you mean "retry"?'),
    ("foreign ps A lok:x1", 14, '"lok" isn\'t a step: lock, giveup, publish, publish1, register, leave or remove; did you mean "lock"?'),
    ("foreign ps A lock:n1", 19, 'expected a foreign node such as x1, not "n1"'),
    ("foreign ps A publish:x1:", 25, "an option is missing: publish:x1:KEY=VALUE,.."),
    ("foreign ps A publish1:x1:", 26, "an option is missing: publish1:x1:KEY=VALUE,.."),
    ("foreign ps A publish1:x1:buffer=1:", 35, "one colon too many in the step publish1"),
    ("create n1 rr A sequence=1", 16, '"sequence" isn\'t an option of rr services: it is one of ps services'),
    ("sequence s1", 10, 'expected a sample such as m1, not "s1"'),
    ("sequence m1 m2", 13, '"m2" is one word too many: sequence mK'),
    ("create n1 ps A sequence=", 25, "sequence= needs 0 or 1"),
    ("create n1 ps A sequence=2", 25, 'sequence is 0 or 1, and "2" is neither'),
]


@case
def each_faulty_line_is_told_with_its_column_and_what_is_wrong():
    script = "".join(line + "\n" for line, _, _ in FAULTS)
    notes = "".join(f"line {at}, column {column}: {why}\n" for at, (_, column, why) in enumerate(FAULTS, 1))
    ran = Ran("--model", given=script.encode())
    expect((ran.status, ran.out, ran.err.decode().splitlines()), (0, b"err faulty line\n" * len(FAULTS), notes.splitlines()))


# A script, and what is said of it if it is named: the place as compilers have it, and then what else `-v` says.
NAMED = """node
put p1 1
nod
create n1 ps A buffer=0
publisher f1
close f1
open n1 ps B
"""
SAID_OF_NAMED = """own.iox:2: skip: p1 doesn't exist
own.iox:3:1: "nod" isn't a command; did you mean "node"?
own.iox:4: buffer=0 counts as 1
own.iox:6: StillInUse: f1 is still used by p1
"""
MORE_OF_NAMED = """own.iox:2: put p1 1
own.iox:3: nod
own.iox:6: close f1
own.iox:7: open n1 ps B
own.iox:7: no service of this name exists: create it, or open_or_create
"""


@case
def lines_of_a_script_that_is_named_are_told_by_file_and_line():
    with tempfile.TemporaryDirectory(prefix="iox-check-") as folder:
        (Path(folder) / "own.iox").write_text(NAMED)
        expect(Ran("--model", "own.iox", cwd=folder).err.decode(), SAID_OF_NAMED)
        told = [Ran("--model", it, "own.iox", cwd=folder).err.decode().splitlines() for it in ("-v", "--verbose")]
        expect((told[0], [it for it in (SAID_OF_NAMED + MORE_OF_NAMED).splitlines() if it not in told[0]]), (told[1], []))
        expect([Ran("--model", it, "own.iox", cwd=folder).err for it in ("-q", "--quiet")], [b"", b""])
        ran = Ran("--model", "./own.iox", cwd=folder)
        expect(ran.err.decode(), SAID_OF_NAMED.replace("own.iox", "./own.iox"))
    # Standard input has no name.
    told = SAID_OF_NAMED.replace("own.iox:3:1", "line 3, column 1").replace(": skip", ", skip").replace(": StillInUse", ", StillInUse")
    for words in ([], ["-"]):
        expect(Ran("--model", *words, given=NAMED.encode()).err.decode(), told.replace("own.iox:", "line "))


@case
def windows_line_ends_and_a_byte_order_mark_are_told():
    ran = Ran("--model", given=b"\xef\xbb\xbfnode\nnode\r\nput p1\r\n")
    expect(ran.out, b"err faulty line\n" * 3)
    expect_in("line 1, column 1: the file begins with a byte order mark (EF BB BF): save it as UTF-8 without BOM\n", ran.err.decode())
    expect_in("line 2, column 5: a carriage return ends the line: the file has Windows line ends (CRLF); `sed", ran.err.decode())
    for mark in (b"\xff\xfe", b"\xfe\xff"):
        ran_in_utf_16 = Ran("--model", given=mark + b"n\0o\0d\0e\0\n")
        expect_in("line 1, column 1: the file is in UTF-16: save it as UTF-8 without BOM\n", ran_in_utf_16.err.decode())
    # The hint is given once.
    expect_in("line 3, column 7: a carriage return ends the line\n", ran.err.decode())


@case
def a_line_is_found_faulty_just_where_the_model_finds_it_so():
    from script_lines import Faulty, read_command
    from tool.explain import fault_of

    def is_command(line):
        try:
            return read_command(line) is not None
        except Faulty:
            return False

    lines = {it for it in (TOP / "crates" / "iox" / "stdin").read_bytes().split(b"\n") if len(it) < 200}
    # Each with a byte less, a word less, a word twice, and a byte that is another.
    for line in sorted(lines)[::7]:
        words = line.split(b" ")
        half = len(line) // 2
        for it in (line, line[:-1], line[1:], b" ".join(words[:-1]), line + b" " + words[-1], line[:half] + b"=" + line[half + 1 :]):
            expect((it, fault_of(it) is None), (it, is_command(it)))


@case
def skips_are_told_with_their_reasons():
    script = """node
put p1 1
create n1 ps A overflow=0 buffer=1
publisher f1 slice=2
subscriber f1
loan_uninit p1 2
send l1
fill l1 7
set l1 0 1
drop l1
send l1
retry p1 5
put p1 1
put p1 2
put p1 3
leave p1
receive s1
release m1
read m1
giveup p1
leave p1
update p1
create n1 ev A
publisher f2
loan p2 1
close f2
close f2
publisher f1
loan p2 1
send l2
send l2
"""
    reasons = """line 2, skip: p1 doesn't exist
line 7, skip: l1 isn't written
line 8, skip: l1 has 2 places, and 1 values are given
line 9, skip: l1 isn't written
line 11, skip: l1 was dropped
line 12, skip: no send of p1 is blocked
line 15, skip: p1 waits at a full mailbox
line 16, skip: p1 waits at a full mailbox
line 19, skip: m1 was released
line 22, skip: p1 left
line 24, skip: f2 is of an ev service, and only ps services have ports
line 25, skip: p2 doesn't exist
line 27, skip: f2 was closed
line 31, skip: l2 was sent
"""
    ran = Ran("--model", given=script.encode())
    expect((ran.status, ran.err.decode().splitlines()), (0, reasons.splitlines()))


@case
def what_keeps_a_factory_is_told():
    script = b"node\ncreate n1 ps A\npublisher f1\nsubscriber f1\nput p1 1\nreceive s1\nloan p1 1\nleave s1\nclose f1\n"
    ran = Ran("--model", given=script)
    expect((ran.out.splitlines()[-1], ran.err), (b"err CloseError::StillInUse", b"line 9, StillInUse: f1 is still used by p1, l1, m1\n"))


@case
def numbers_that_count_as_larger_ones_are_told():
    given = b"node\ncreate n1 ps A buffer=0 history=0 overflow=0\nsubscriber f1 buffer=0\npublisher f1 slots=0\nopen n1 ps A buffer=0\n"
    ran = Ran("--model", given=given)
    told = "line 2: buffer=0 counts as 1\nline 3: buffer=0 counts as 1\nline 4: slots=0 counts as 1\n"
    expect((ran.out, ran.err.decode()), (b"ok n1\nok f1\nok s1\nok p1\nok f2\n", told))


@case
def verbose_says_what_an_error_means_and_what_to_do():
    ran = Ran("-v", "--model", given=b"node\nopen n1 ps A\n")
    expect(ran.err.decode(), "line 2: open n1 ps A\nline 2: no service of this name exists: create it, or open_or_create\n")


@case
def each_error_has_the_meaning_of_its_own_row():
    from tool.notes import meaning_of

    for error, meaning in (
        ("PublishSubscribeCreateError::InternalFailure", "a setting is beyond the limits (the storage isn't used then)"),
        ("EventOpenError::DoesNotSupportRequestedAmountOfNodes", "the service allows fewer nodes than asked for: ask for fewer"),
        ("EventOpenOrCreateError::EventOpenError(IncompatibleDeadline)", "the service has another deadline: ask for the same"),
        (
            "PublishSubscribeOpenError::IncompatibleSequenceNumbers",
            "the service has another sequence_numbers (option sequence): ask for the same",
        ),
        ("SendError::LoanError(OutOfMemory)", "every slot is in use, or no segment can be opened for a longer slice"),
        ("ReceiveError::ExceedsMaxBorrows", "every publisher with a waiting message has reached its limit of held samples"),
    ):
        expect_in(meaning, ": ".join(meaning_of(f"err {error}")[2:]))
    replies = (TOP / "crates" / "iox" / "stdout").read_text(encoding="latin-1").splitlines()
    for reply in sorted({it for it in replies if it.startswith("err ") and " line" not in it}):
        expect((reply, meaning_of(reply) is not None), (reply, True))


@case
def records_have_line_command_reply_and_values():
    given = b"node\ncreate n1 ps A\nsubscriber f1\npublisher f1 slice=2\nput p1 4 5\nhas s1\nreceive s1\nread m1\nreceive s1\n"
    given += b"put p9 1\nnod\nclose f1\n"
    ran = Ran("--json", "-q", "--model", given=given)
    expect((ran.status, ran.err), (0, b""))
    wanted = [
        {"line": 1, "command": "node", "reply": "ok n1", "kind": "ok", "made": "n1"},
        {"line": 2, "command": "create n1 ps A", "reply": "ok f1", "kind": "ok", "made": "f1"},
        {"line": 3, "command": "subscriber f1", "reply": "ok s1", "kind": "ok", "made": "s1"},
        {"line": 4, "command": "publisher f1 slice=2", "reply": "ok p1", "kind": "ok", "made": "p1"},
        {"line": 5, "command": "put p1 4 5", "reply": "ok 1", "kind": "ok", "took": 1},
        {"line": 6, "command": "has s1", "reply": "ok true", "kind": "ok", "has": True},
        {"line": 7, "command": "receive s1", "reply": "ok m1 4 5", "kind": "ok", "made": "m1", "values": [4, 5]},
        {"line": 8, "command": "read m1", "reply": "ok 4 5", "kind": "ok", "values": [4, 5]},
        {"line": 9, "command": "receive s1", "reply": "none", "kind": "none"},
        {"line": 10, "command": "put p9 1", "reply": "skip", "kind": "skip", "why": ["p9 doesn't exist"]},
        {"line": 11, "command": "nod", "reply": "err faulty line", "kind": "err", "error": "faulty line", "column": 1}
        | {"why": ['"nod" isn\'t a command; did you mean "node"?']},
        {"line": 12, "command": "close f1", "reply": "err CloseError::StillInUse", "kind": "err", "error": "CloseError::StillInUse"}
        | {"why": ["f1 is still used by p1, s1, m1"], "advice": "leave, drop or release it first"},
    ]
    expect([json.loads(it) for it in ran.out.splitlines()], wanted)


@case
def records_have_the_numbers_of_messages():
    given = b"node\ncreate n1 ps A sequence=1\nsubscriber f1\npublisher f1\nput p1 4\nreceive s1\nsequence m1\n"
    given += b"create n1 ps B\nsubscriber f2\npublisher f2\nput p2 5\nreceive s2\nsequence m2\n"
    ran = Ran("--json", "-q", "--model", given=given)
    wanted = [
        {"line": 7, "command": "sequence m1", "reply": "ok 1", "kind": "ok", "sequence": 1},
        {"line": 13, "command": "sequence m2", "reply": "ok none", "kind": "ok", "sequence": None},
    ]
    expect([it for it in map(json.loads, ran.out.splitlines()) if it["command"].startswith("sequence")], wanted)


@case
def the_time_is_told_at_the_end():
    ran = Ran("--time", "--model", SCRIPT)
    said = rb"iox: 14 lines in \d+\.\d{3} s, the first reply after \d+\.\d{3} s, \d+ \S+ a line after that\n"
    expect(bool(re.fullmatch(said, ran.err)), True)


@case
def the_picture_shows_title_values_and_what_became_of_messages():
    with tempfile.TemporaryDirectory(prefix="iox-check-") as folder:
        picture = Path(folder) / "first.svg"
        Ran("--model", "--svg", picture, SCRIPT)
        drawn = ElementTree.parse(picture).getroot()
        texts = [it.text for it in drawn.iter("{http://www.w3.org/2000/svg}text")]
        expect(texts[:2], ["first.iox", "14 lines, 3 messages sent, 2 received, 1 lost in a mailbox"])
        classes = [it.get("class") for it in drawn.iter("{http://www.w3.org/2000/svg}path")]
        # One more of each kind is in the legend.
        expect([classes.count(it) for it in ("message", "held", "lost", "waits", "life")], [3, 3, 2, 1, 6])
        expect(sorted(it for it in texts if it and it.startswith("[")), ["[1]", "[2]", "[3]"])
        expect_in("received", texts)


@case
def the_picture_and_the_state_show_the_numbers_of_messages_and_what_is_missing():
    from tool.converse import Line
    from tool.state import told
    from tool.trace import Trace

    missed = TOP / "examples" / "rows" / "what-was-missed-shows-in-the-numbers.iox"
    with tempfile.TemporaryDirectory(prefix="iox-check-") as folder:
        picture = Path(folder) / "missed.svg"
        Ran("--model", "--svg", picture, missed)
        drawn = ElementTree.parse(picture).getroot()
        texts = [it.text for it in drawn.iter("{http://www.w3.org/2000/svg}text")]
        expect(sorted(it for it in texts if it and it.startswith("[")), ["[10] #4", "[7] #1", "[8] #2", "[9] #3"])
        expect(sorted(it for it in texts if it and "missing" in it), ["1 missing", "numbers are missing"])
        # One more is in the legend.
        expect([it.get("class") for it in drawn.iter("{http://www.w3.org/2000/svg}path")].count("gap"), 2)
    trace = Trace()
    pairs = zip(missed.read_bytes().splitlines(), missed.with_suffix(".replies").read_bytes().splitlines())
    for at, (line, reply) in enumerate(pairs, 1):
        trace.take(Line(at, line, len(line)), reply)
    expect([it.missing for it in trace.told.deliveries], [0, 0, 1, 0])
    state = told(trace.told.states[-1])
    for it in ("p1 of f1, ps A: 2 of 34 slots in use; last number 4\n", "m2 at s1, of p1: [9] #3"):
        expect_in(it, state)


@case
def the_page_has_all_rows_and_states_and_asks_nothing_of_a_network():
    with tempfile.TemporaryDirectory(prefix="iox-check-") as folder:
        page, script = Path(folder) / "page.html", Path(folder) / "a<b.iox"
        script.write_text("node\n</script><b>\nput p1 1\n", encoding="utf-8")
        Ran("--model", "-q", "--html", page, script)
        text = page.read_text(encoding="utf-8")
        told = json.loads(re.search(r'<script id="told" type="application/json">(.*?)</script>', text, re.S)[1])
        wanted = [("node", "ok n1"), ("</script><b>", "err faulty line"), ("put p1 1", "skip")]
        expect([(it["line"], it["reply"]) for it in told["rows"]], wanted)
        expect([it["nodes"] for it in told["states"]], [["n1"]] * 3)
        expect_in("<title>a&lt;b.iox</title>", text)
        expect_in("default-src 'none'", text)
        expect(set(re.findall(r"https?://[^\"' ]+", text)), {"http://www.w3.org/2000/svg"})


@case
def a_picture_that_cannot_be_written_is_told_in_one_line():
    ran = Ran("--model", "-q", "--svg", TOP / "docs", SCRIPT)
    expect((ran.status, ran.err.count(b"\n"), b"docs: " in ran.err), (66, 1, True))


@case
def the_prompt_has_its_own_words_keys_and_completion():
    typed = [
        b"node\n",
        b"cre\tn\tps A buf\t3\n",
        b"publisher f1 stra\tdis\t\n",
        b"subscriber f1\n",
        b"put p1 7\n",
        b"a line that is dropped\x03",
        b":state\n",
        b"read m1\n",
        b":why\n",
        b"help put\n",
        b"exit\n",
    ]
    with tempfile.TemporaryDirectory(prefix="iox-check-") as folder:
        status, screen = talk([sys.executable, TOP / "iox", "--model"], typed, {"XDG_STATE_HOME": folder})
        expect(status, 0)
        for it in (
            "iox> create n1 ps A buffer=3\nok f1\n",
            "iox> publisher f1 strategy=discard \nok p1\n",
            "ps A: open; nodes n1; factories f1\n  overflow=1 sequence=0 publishers=2 subscribers=8 buffer=3 ",
            "  from p1: [7] waits (1 of 3)\n",
            "skip\nline 6, skip: m1 doesn't exist\niox> :why\nline 6, skip: m1 doesn't exist\n",
            "put pK V ..\n",
        ):
            expect_in(it, screen)
        expect(re.findall(r"faulty line", screen), [])
        kept = (Path(folder) / "kohepuri" / "history").read_text(encoding="utf-8")
        expect_in("subscriber f1\n", kept)


@case
def completion_offers_what_lives_and_what_the_grammar_has():
    from tool.notes import Follower
    from tool.prompt import Completion
    from tool.converse import Line

    follower = Follower()
    for at, it in enumerate((b"node", b"node", b"create n1 ps Sonar", b"publisher f1", b"subscriber f1", b"leave p1"), 1):
        follower.take(Line(at, it, len(it)), b"")
    offered = Completion(follower).candidates
    for typed, wanted in (
        ("re", ["retry ", "receive ", "read ", "release "]),
        ("se", ["set ", "send ", "sequence "]),
        ("open n", ["n1 ", "n2 "]),
        ("open n1 ", ["ps ", "ev ", "rr "]),
        ("open n1 ps ", ["Sonar "]),
        ("open n1 ps Sonar bu", ["buffer="]),
        ("open n1 ev Sonar b", []),
        ("open n1 ps Sonar buffer=1 b", ["borrowed="]),
        ("open n1 ps Sonar seq", ["sequence="]),
        ("open n1 ps Sonar sequence=", ["sequence=0 ", "sequence=1 "]),
        ("publisher f1 handler=", ["handler=follow ", "handler=retry ", "handler=discard ", "handler=fail "]),
        ("update ", ["s1 "]),
        ("foreign ps Sonar re", ["register:x", "remove:x"]),
        ("foreign ps Sonar pub", ["publish:x", "publish1:x"]),
        ("help le", ["leave "]),
        ("help hi", ["history "]),
        ("nothing ", []),
    ):
        expect((typed, offered(typed)), (typed, wanted))


@case
def help_on_each_command_names_each_option():
    from script_lines import PUBLISHER_OPTIONS, SETTINGS, SUBSCRIBER_OPTIONS
    from tool.grammar import VERBS, help_on_verb

    for verb, keys in (
        ("create", [key for settings in SETTINGS.values() for key, *_ in settings]),
        ("publisher", PUBLISHER_OPTIONS),
        ("subscriber", SUBSCRIBER_OPTIONS),
    ):
        for key in keys:
            expect_in(f"    {key}=", help_on_verb(VERBS[verb]))


@case
def the_prompt_is_quiet_and_timed_where_that_is_asked_for():
    with tempfile.TemporaryDirectory(prefix="iox-check-") as folder:
        words = [sys.executable, TOP / "iox", "--model", "-q", "--time"]
        status, screen = talk(words, [b"put p1 1\n", b":why\n", b"\x04"], {"XDG_STATE_HOME": folder})
        expect(status, 0)
        expect_in("iox> put p1 1\nskip\niox> :why\nline 1, skip: p1 doesn't exist\n", screen)
        expect_in("iox: 1 line in ", screen)


@case
def the_manual_page_and_the_completion_are_those_of_the_arguments():
    compared = subprocess.run([sys.executable, TOP / "tool" / "manual.py", "--check"], capture_output=True, text=True)
    expect((compared.returncode, compared.stderr), (0, ""))


def completed(shell, *words):
    """What a shell offers behind these words of a line. Of bash the function is called, fish completes a line itself."""
    if not shutil.which(shell):
        raise NotHere(f"no {shell}")
    script = TOP / "tool" / f"completion.{shell}"
    if shell == "fish":
        words = ["fish", "--no-config", "-c", f"source {script}; complete -C '{' '.join(words)}'"]
    else:
        call = f'source {script}; COMP_WORDS=("$@") COMP_CWORD=$(($# - 1)); _iox; printf "%s\\n" "${{COMPREPLY[@]}}"'
        words = ["bash", "--norc", "-c", call, "bash", *words]
    ran = subprocess.run(words, cwd=TOP, capture_output=True, text=True)
    expect((ran.returncode, ran.stderr), (0, ""))
    return sorted(it.partition("\t")[0] for it in ran.stdout.split("\n") if it)


@case
def bash_completes_options_and_scripts():
    expect(completed("bash", "./iox", "--m"), ["--model"])
    expect(completed("bash", "./iox", "--svg", "examples/first.r"), ["examples/first.replies"])
    expect(completed("bash", "./iox", "examples/fi"), ["examples/first.iox"])


@case
def fish_completes_options_and_scripts():
    expect(completed("fish", "./iox", "--m"), ["--model"])
    expect(completed("fish", "./iox", "--model", "--pro"), [])
    expect(completed("fish", "./iox", "--svg", "examples/first.r"), ["examples/first.replies"])
    expect_in("examples/first.iox", completed("fish", "./iox", "examples/fi"))


@case
def zsh_reads_its_completion():
    if not shutil.which("zsh"):
        raise NotHere("no zsh")
    # Each option has a specification of its own, and the file is asked for last.
    told = "_arguments() { for it; do print -r -- $it; done }; compdef() { _iox }; source $1"
    ran = subprocess.run(["zsh", "-f", "-c", told, "zsh", TOP / "tool" / "completion.zsh"], capture_output=True, text=True)
    expect((ran.returncode, ran.stderr), (0, ""))
    *specs, last = ran.stdout.splitlines()
    expect(last, '::FILE:_files -g "*.iox(-.)"')
    from tool.arguments import parser

    names = [name for option in parser()._actions for name in option.option_strings]
    expect([re.search(r"\)(-[\w-]+)\[", it)[1] for it in specs], names)


@case
def who_reads_replies_no_more_ends_the_run_without_a_word():
    how = {"stdin": subprocess.PIPE, "stdout": subprocess.PIPE, "stderr": subprocess.PIPE}
    with subprocess.Popen([sys.executable, TOP / "iox", "--model", "-q"], **how) as ran:
        ran.stdout.close()
        with contextlib.suppress(BrokenPipeError):
            ran.stdin.write(b"node\n" * 100_000)
            ran.stdin.close()
        said = ran.stderr.read()
    expect((ran.returncode, said), (1, b""))


@case
def the_page_of_the_launcher_names_each_option_and_has_its_picture():
    from tool.arguments import parser

    page = (TOP / "docs" / "TOOL.md").read_text(encoding="utf-8")
    for option in parser()._actions:
        if option.option_strings:
            expect_in(option.option_strings[0], page)
    with tempfile.TemporaryDirectory(prefix="iox-check-") as folder:
        # The picture in docs/ has a sum of its script's place beside it, so it is drawn at such a place.
        for it in ("docs", "examples"):
            (Path(folder) / it).mkdir()
        script = shutil.copy(SCRIPT, Path(folder) / "examples")
        Ran("--model", "--svg", Path(folder) / "docs" / "first-steps.svg", script)
        expect((TOP / "docs" / "first-steps.svg").read_bytes(), (Path(folder) / "docs" / "first-steps.svg").read_bytes())


@case
def what_the_page_of_questions_shows_is_what_is_answered():
    page = (TOP / "docs" / "FAQ.md").read_text(encoding="utf-8")
    for shown in re.findall(r"```\n(node  .*?)```", page, re.S):
        rows = [re.split(r"  +", it) for it in shown.splitlines()]
        ran = Ran("--model", given="".join(f"{line}\n" for line, _ in rows).encode())
        expect((ran.out.decode().splitlines(), ran.err), ([reply for _, reply in rows], b""))
    script, said = re.search(r"```\n\$ printf '(.*?)' \| ./iox --model\n(.*?)```", page, re.S).groups()
    ran = Ran("--model", given=script.replace("\\n", "\n").encode())
    expect((ran.out + ran.err).decode(), said)
