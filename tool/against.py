"""Another program held against the Python model: it answers each line first, and the model says whether it may answer so.

The program reads a line and writes its reply, and begins anew at `:reset`. A reply `unsupported ..` takes the line back; `_` is a word
that isn't told. Of the first reply that isn't allowed the shortest script is looked for, run three times and drawn.
"""
from __future__ import annotations

import contextlib
import re
import shlex
import signal
import subprocess
import sys
import time
from collections import Counter
from collections.abc import Callable, Collection, Generator, Iterator
from dataclasses import dataclass, field
from itertools import combinations, count
from pathlib import Path
from typing import Any

from allowed import Allowed, FreeMachine, TooMany
from core_scripts import PROFILES, made, script
from script_model import lines_of

from tool.converse import Line
from tool.draw import svg
from tool.files import put
from tool.notes import place_of
from tool.progress import DIFFERS, MISUSED, NO_INPUT, Progress, say, stop
from tool.trace import Trace

# In seconds: how long a reply may take, and the end of the program behind its last line.
PATIENCE, ENDING = 20.0, 10.0
AGAIN = 1.0
# In bytes: what is read of a reply before its end.
LONGEST_REPLY = 65_536
# So often the shortest script is run, and of scripts up to that length two lines at once are left out.
TIMES, MOST_PAIRED = 3, 30

Source = Generator[str, Any, None]


def is_late(*_):
    raise TimeoutError


class Side:
    """The other program."""

    def __init__(self, command: str):
        self.child: Any = None
        try:
            self.words = shlex.split(command)
        except ValueError as error:
            stop(MISUSED, f"{command}: {error}")
        signal.signal(signal.SIGALRM, is_late)

    def close(self):
        if self.child is not None:
            with contextlib.suppress(BrokenPipeError):
                self.child.stdin.close()
            try:
                self.child.wait(ENDING)
            except subprocess.TimeoutExpired:
                self.child.kill()
                self.child.wait()
            self.child.stdout.close()
            self.child = None

    def begin(self):
        """Has nothing made any more; a program that doesn't know `:reset` is started anew."""
        reply = self.ask(":reset") if self.child is not None else ""
        if reply.startswith("("):
            say(f"at :reset {reply}")
        if reply != "ok":
            self.close()
            try:
                self.child = subprocess.Popen(self.words, stdin=subprocess.PIPE, stdout=subprocess.PIPE)
            except OSError as error:
                stop(NO_INPUT, f"{self.words[0]}: {error.strerror}")

    def ask(self, line: str) -> str:
        """The reply to a line. One in parentheses says why there is none; then the program is ended."""
        reply = None
        # (told again, since Python may drop what a signal raises)
        signal.setitimer(signal.ITIMER_REAL, PATIENCE, AGAIN)
        try:
            with contextlib.suppress(BrokenPipeError):
                self.child.stdin.write(line.encode("latin-1") + b"\n")
                self.child.stdin.flush()
            reply = self.child.stdout.readline(LONGEST_REPLY + 1)
        except TimeoutError:
            pass
        finally:
            signal.setitimer(signal.ITIMER_REAL, 0)
        if reply is None:
            return self.give_up(f"no reply in {PATIENCE:.0f} s")
        if reply.endswith(b"\n"):
            return reply[:-1].decode("latin-1")
        if len(reply) > LONGEST_REPLY:
            return self.give_up(f"a reply of more than {LONGEST_REPLY} bytes")
        return self.give_up(f"the program ended, status {self.child.wait()}")

    def give_up(self, why: str) -> str:
        self.child.kill()
        self.close()
        return f"({why})"


@dataclass
class Held:
    """A conversation up to its first reply that isn't allowed, with what is allowed there; none of it where all are."""

    lines: list[str] = field(default_factory=list)
    replies: list[str] = field(default_factory=list)
    allowed: list[str] = field(default_factory=list)
    taken_back: int = 0
    given_up: str = ""  # why it wasn't followed to its end

    def kind(self) -> tuple[str, str]:
        """What the last line asks, and the first word of its reply."""
        return self.lines[-1].split(" ")[0], self.replies[-1].split(" ")[0]


def hold(side: Side, source: Source, make: Callable) -> Held:
    """Has the other side answer the lines of a source, as long as a model allows its replies."""
    side.begin()
    states, held, line = Allowed(make), Held(), next(source, None)
    try:
        while line is not None and not held.allowed:
            reply = side.ask(line)
            if reply.startswith("unsupported"):
                held.taken_back += 1
            else:
                held.lines.append(line)
                held.replies.append(reply)
                held.allowed = states.take(line.encode("latin-1"), reply)
            line = source.send(reply)
    except StopIteration:
        pass
    except TooMany as why:
        held.given_up = str(why)
    return held


# A line of a longer script, with the number that it was given there, if it was.
Part = tuple[str, list[str]]


def parts_of(held: Held) -> list[Part]:
    return [(line, made(reply)) for line, reply in zip(held.lines, held.replies)]


def renumbered(parts: list[Part], given: set[str]) -> Source:
    """The parts, by the numbers that are given now. A line goes if it names one that was given in the longer script, and isn't here."""
    names: dict[str, str] = {}
    for line, numbers in parts:
        verb, *rest = line.split(" ")
        if rest and rest[0] in given:
            if rest[0] not in names:
                continue
            rest[0] = names[rest[0]]
        reply = yield " ".join([verb, *rest])
        names.update(zip(numbers, made(reply)))


def smaller(words: list[str], at: int) -> list[list[str]]:
    """What may stand in the place of a word: of an option nothing, or a smaller number; of a further value of a message nothing."""
    key, is_option, value = words[at].partition("=")
    if is_option and value.isdecimal():
        return [[], *([f"{key}={it}"] for it in range(1, min(4, int(value))))]
    return [[]] if is_option or (words[0] == "put" and at > 2) else []


class Shortening:
    """Leaves out of a script what isn't needed for a reply of the same kind that isn't allowed."""

    def __init__(self, side: Side, held: Held, make: Callable):
        self.side, self.best, self.make, self.kind = side, held, make, held.kind()

    def takes(self, parts: list[Part]) -> bool:
        """Whether these parts show it too; then they are the best."""
        given = {name for _, names in parts_of(self.best) for name in names}
        tried = hold(self.side, renumbered(parts, given), self.make)
        if tried.allowed and tried.kind() == self.kind:
            self.best = tried
        return self.best is tried

    def groups(self) -> list[list[Part]]:
        """What goes together: a port with the updates behind it, by which the others learn of it; else a line."""
        found: list[list[Part]] = []
        for part in parts_of(self.best):
            if part[0].startswith("update ") and found and found[-1][0][0].startswith(("publisher ", "subscriber ")):
                found[-1].append(part)
            else:
                found.append([part])
        return found

    def leaves_out(self, gone: Collection[int]) -> bool:
        return self.takes([part for at, group in enumerate(self.groups()) if at not in gone for part in group])

    def without_lines(self):
        step = len(self.best.lines)
        while step:
            at, is_shorter = 0, False
            while at < len(self.groups()):
                is_left_out = self.leaves_out(range(at, at + step))
                is_shorter |= is_left_out
                at += 0 if is_left_out else step
            step = 1 if step == 1 and is_shorter else step // 2
        # One line may be needed for another one alone, which isn't needed either.
        while len(self.groups()) <= MOST_PAIRED and any(map(self.leaves_out, combinations(range(len(self.groups())), 2))):
            pass

    def with_less(self):
        for at, word in [(at, word) for at, line in enumerate(self.best.lines) for word in range(line.count(" "), 1, -1)]:
            parts = parts_of(self.best)
            words = parts[at][0].split(" ") if at < len(parts) else []
            for it in smaller(words, word) if words[word:] else []:
                parts[at] = (" ".join(words[:word] + it + words[word + 1 :]), parts[at][1])
                if self.takes(parts):
                    break

    def shortest(self) -> Held:
        before = None
        while before != self.best.lines:
            before = self.best.lines
            self.without_lines()
            self.with_less()
        return self.best


def picture(held: Held, title: str) -> str:
    """The conversation drawn. What became of messages is the model's; its own reply stands beside one that it doesn't allow."""
    trace = Trace()
    trace.watched.machine = FreeMachine()
    for number, (line, reply) in enumerate(zip(held.lines, held.replies), 1):
        is_last = number == len(held.lines)
        ours, text = held.allowed[0] if is_last else reply, line.encode("latin-1")
        trace.watched.machine.lead(ours, 0)
        trace.take(Line(number, text, len(text)), ours.encode("latin-1"))
        trace.told.rows[-1].reply = f"{reply}, and not {ours}" if is_last else reply
    return svg(trace.told, title)


def table(held: Held) -> str:
    """Each line with its reply, and below what is allowed in the place of the last one."""
    width, last = max(map(len, held.lines)), ("", f"allowed: {' or '.join(held.allowed)}")
    return "\n".join(f"{line:{width}}  {reply}" for line, reply in [*zip(held.lines, held.replies), last])


def say_of_last(held: Held, where: str, options, text: str):
    """Says something of the last line of a conversation: where it is in the script, which has a name of its own if it is a random one."""
    at = place_of(options.file, len(held.lines))
    print(f"{at if options.random is None else f'{where}, {at}'}: {text}", file=sys.stderr, flush=True)


def show(side: Side, held: Held):
    """Writes the shortest script that shows a reply like the one that isn't allowed, and its picture."""
    short = Shortening(side, held, FreeMachine).shortest()
    print(table(short), flush=True)
    runs = 0
    for _ in range(TIMES):
        side.close()
        runs += bool(hold(side, (it for it in short.lines), FreeMachine).allowed)
    # Nothing that is there already is written.
    files = ((Path(f"against-{at}.iox"), Path(f"against-{at}.svg")) for at in count(1))
    file, drawn = next(it for it in files if not any(map(Path.exists, it)))
    put(file, "".join(f"{it}\n" for it in short.lines).encode("latin-1"))
    put(drawn, picture(short, file.name).encode())
    say(f"{runs} of {TIMES} runs of these {len(short.lines)} lines show it: {file}, drawn in {drawn}")


def sources(options) -> Iterator[tuple[str, Source]]:
    """What the other side is asked, each with what it is called."""
    if options.random is None:
        with open(options.file or 0, "rb") as given:
            text = given.read()
        yield options.file or "standard input", (it.decode("latin-1") for it in lines_of(text))
        return
    asked = re.fullmatch(r"([1-9][0-9]*)(?:,([a-z]+))?(?:,([0-9]+))?", options.random)
    scripts, profile, seed = asked.groups("") if asked else ("", "", "")
    profile, seed = profile or "standard", seed or "1"
    if not scripts or options.file is not None or profile not in PROFILES:
        stop(MISUSED, f"--random is N[,PROFILE[,SEED]] without FILE; PROFILE is one of {', '.join(PROFILES)}: see ./iox --help")
    for at in range(1, int(scripts) + 1):
        yield f"script {at} of {scripts}, {profile}, seed {seed}", script(profile, int(seed), at)


def run(options) -> int:
    """Holds a program against the model by one script, or by random ones up to the first difference. Returns the status."""
    others = [key for key, value in vars(options).items() if value and key not in ("against", "random", "file", "names_script")]
    if others or not (options.against or "").strip():
        stop(MISUSED, "--against COMMAND takes FILE or --random N and no other option, and --random needs --against: see ./iox --help")
    side, progress, told = Side(options.against), Progress(), Counter[str]()
    try:
        for where, source in sources(options):
            held = hold(side, source, FreeMachine)
            if held.allowed:
                progress.end()
                say_of_last(held, where, options, f"the reply {held.replies[-1]!r} to {held.lines[-1]!r} isn't allowed")
                show(side, held)
                return DIFFERS
            told += Counter(scripts=1, replies=len(held.lines), back=held.taken_back, up=bool(held.given_up))
            if held.given_up:
                say_of_last(held, where, options, held.given_up)
            elif progress.is_terminal:
                progress.tell(where)
    finally:
        side.close()
        progress.end()
    more = f"; {told['back']} lines were taken back as unsupported" * bool(told["back"])
    say(f"{told['replies']} replies in {told['scripts']} script{'s' * (told['scripts'] != 1)} are allowed{more}")
    return DIFFERS if told["up"] else 0
