"""Inputs for the program and for a plain hub: triples, mixes of lines by chance, and lines of single kinds."""
import random
import re
import subprocess
from collections.abc import Callable
from pathlib import Path

HEADER = "node\nnode\ncreate n1 ps A{}\nopen n2 ps A\nsubscriber f2\npublisher f1{}\n"
# How many lines more of a kind are counted.
MORE = 64


def triples(lines: int) -> str:
    """A header, and as many triples as make so many lines."""
    text = "".join(f"put p1 {number}\nreceive s1\nrelease m{number}\n" for number in range(1, lines // 3 + 1))
    return HEADER.format("", "") + text


# ---- mixes

TRAFFIC = {"put": 22, "receive": 26, "release": 20, "read": 5, "sequence": 1, "has": 3, "update": 2}
TRAFFIC |= {"loan": 6, "set": 4, "fill": 2, "send": 5, "drop": 1}
# Some 3 in 100 that open, close, come and leave, and 1 that is faulty or skipped.
OTHERS = {"leave": 1.0, "port": 1.1, "open": 0.5, "close": 0.5, "create": 0.2, "faulty": 0.3, "skipped": 0.3, "node": 0.1}


class Mix:
    """Lines by chance of eight services; what is alive is read off the replies of a plain hub."""

    def __init__(self, answer: Callable[[str], str]) -> None:
        self.answer, self.dice, self.lines = answer, random.Random(1), list[str]()
        # The service of each port, and of each loan its publisher and length.
        self.publishers, self.subscribers = dict[str, int](), dict[str, int]()
        self.loans, self.samples, self.blocked = dict[str, tuple[str, int]](), set[str](), set[str]()
        self.factories: list[list[str]] = [[] for _ in range(8)]
        for _ in range(4):
            self.say("node")
        for service in range(8):
            options = f"buffer={self.dice.choice([2, 4, 8])} history={self.dice.choice([0, 0, 1, 2])} borrowed={self.dice.choice([2, 4])}"
            options += f" publishers=4 subscribers=6 overflow={int(service != 7)} sequence={int(service == 6)}"
            self.factories[service].append(self.say(f"create n1 ps S{service} {options}")[3:])
            self.open(service)
            for kind in ("subscriber", "subscriber", "publisher"):
                self.come(kind, service)

    def say(self, line: str) -> str:
        self.lines.append(line)
        return self.answer(line)

    def any(self, things: dict[str, int] | dict[str, tuple[str, int]] | set[str]) -> str:
        return self.dice.choice(sorted(things))

    def values(self, count: int) -> str:
        return "".join(f" {self.dice.randrange(10 ** self.dice.choice([1, 3, 6]))}" for _ in range(count))

    def open(self, service: int) -> None:
        reply = self.say(f"open n{self.dice.randrange(1, 5)} ps S{service}")
        if reply.startswith("ok"):
            self.factories[service].append(reply[3:])

    def come(self, kind: str, service: int) -> None:
        options = [" slice=4", " slice=4 loans=3 strategy=discard"] if kind == "publisher" else ["", " buffer=1"]
        reply = self.say(f"{kind} {self.dice.choice(self.factories[service])}{self.dice.choice(options)}")
        if reply.startswith("ok"):
            (self.publishers if kind == "publisher" else self.subscribers)[reply[3:]] = service

    def leave(self) -> None:
        ports, least = self.dice.choice([(self.publishers, 8), (self.subscribers, 16)])
        port = self.any(ports)
        if len(ports) > least and self.say(f"leave {port}") == "ok":
            del ports[port]

    def close(self) -> None:
        factories = self.dice.choice(self.factories)
        factory = self.dice.choice(factories)
        if len(factories) > 1 and self.say(f"close {factory}") == "ok":
            factories.remove(factory)

    def send(self, line: str, publisher: str) -> None:
        """A line that sends. Where it is blocked the next `put` of the publisher retries or gives up."""
        if self.say(line) == "blocked":
            self.blocked.add(publisher)

    def put(self) -> None:
        publisher = self.any(self.publishers)
        if publisher not in self.blocked:
            self.send(f"put {publisher}{self.values(self.dice.choice([1, 1, 1, 2, 4]))}", publisher)
        elif self.say(self.dice.choice([f"giveup {publisher}", f"retry {publisher} 1000"])) != "blocked":
            self.blocked.remove(publisher)

    def loan(self) -> None:
        publisher, length = self.any(self.publishers), self.dice.choice([1, 1, 2, 4])
        reply = self.say(f"loan {publisher} {length}")
        if reply.startswith("ok"):
            self.loans[reply[3:]] = (publisher, length)

    def receive(self) -> None:
        reply = self.say(f"receive {self.any(self.subscribers)}")
        if reply.startswith("ok"):
            self.samples.add(reply.split(" ")[1])

    def with_loan(self, what: str) -> None:
        loan = self.any(self.loans)
        publisher, length = self.loans[loan]
        if what == "set":
            self.say(f"set {loan} {self.dice.randrange(length)}{self.values(1)}")
        elif what == "fill":
            self.say(f"fill {loan}{self.values(length)}")
        elif what == "drop" or publisher not in self.blocked:
            del self.loans[loan]
            self.send(f"{what} {loan}", publisher)

    def with_sample(self, what: str) -> None:
        sample = self.any(self.samples)
        self.say(f"{what} {sample}")
        if what == "release":
            self.samples.remove(sample)

    def go_on(self, what: str) -> None:
        if what in ("set", "fill", "send", "drop"):
            if self.loans:
                self.with_loan(what)
        elif what in ("read", "sequence", "release"):
            if self.samples:
                self.with_sample(what)
        elif what == "has":
            self.say(f"has {self.any(self.subscribers)}")
        elif what == "update":
            self.say(f"update {self.any(self.dice.choice([self.publishers, self.subscribers]))}")
        elif what == "port":
            self.come(self.dice.choice(["publisher", "subscriber"]), self.dice.randrange(8))
        elif what == "open":
            self.open(self.dice.randrange(8))
        elif what == "create":
            self.say(f"close {self.say(f'create n1 ps T{self.dice.randrange(50)} buffer=4')[3:]}")
        elif what == "faulty":
            self.say(self.dice.choice(["foo", "put p1 x", "receive  s1", "put p1 01", "open n1 ps", "node 1"]))
        elif what == "skipped":
            self.say(self.dice.choice(["put p99999 1", "receive s0", "release m0", "read m99999999"]))
        elif what == "node":
            self.say("node")
        else:
            {"put": self.put, "loan": self.loan, "receive": self.receive, "leave": self.leave, "close": self.close}[what]()


def mix(hub: Path, lines: int, weights: dict[str, float]) -> list[str]:
    """So many lines by these weights."""
    with subprocess.Popen([hub], stdin=subprocess.PIPE, stdout=subprocess.PIPE, text=True) as asked:
        assert asked.stdin and asked.stdout
        given, told = asked.stdin, asked.stdout

        def answer(line: str) -> str:
            print(line, file=given, flush=True)
            return told.readline().rstrip("\n")

        made = Mix(answer)
        while len(made.lines) < lines:
            made.go_on(made.dice.choices(list(weights), list(weights.values()))[0])
        given.close()
    return made.lines[:lines]


# ---- kinds


def more(*kinds: str) -> str:
    """So many lines more of each kind: in each {N} is one more than in the line before, and `; ` ends a line of a group."""
    line = [(at, it.replace("; ", "\n")) for it in kinds for at in range(MORE)]
    return "".join(re.sub(r"{(\d+)}", lambda it: str(int(it[1]) + at), text) + "\n" for at, text in line)


def start(service: str = "", publisher: str = "", *kinds: str) -> str:
    return HEADER.format(service and " " + service, publisher and " " + publisher) + more(*kinds)


TEN = " ".join(str(1000 + it) for it in range(10))
WARM = ("put p1 {1000}", "receive s1", "release m{1}", "put p1 {1000}", "receive s1", "release m{65}")
TIGHT = start("overflow=0 sequence=1 buffer=1 borrowed=99") + "update s1\nput p1 1\nput p1 2\n"
TWO_HELD = start() + "put p1 1\nreceive s1\nput p1 1\nreceive s1\nput p1 1\n"

# Inputs, and for each the kinds of lines that follow, one after the other: what the row is of, and the lines.
KINDS: list[tuple[str, list[tuple[str, str]]]] = [
    (
        start("buffer=64 borrowed=64", "", *WARM),
        [
            ("put", "put p1 {1000}"),
            ("receive", "receive s1"),
            ("read", "read m{129}"),
            ("release", "release m{129}"),
            ("receive, none", "receive s1"),
            ("has", "has s1"),
            ("update pK, nothing new", "update p1"),
            ("update sK, nothing new", "update s1"),
        ],
    ),
    (
        start("", "loans=64", "loan p1 1", "drop l{1}"),
        [
            ("loan", "loan p1 1"),
            ("set", "set l{65} 0 {1000}"),
            ("fill", "fill l{65} {1000}"),
            ("send, the oldest is dropped", "send l{65}"),
            ("loan", "loan p1 1"),
            ("drop", "drop l{129}"),
            ("put, the oldest is dropped", "put p1 {1000}"),
        ],
    ),
    (
        start("", "slice=10", f"put p1 {TEN}; receive s1; release m{{1}}"),
        [("a triple of ten values, as one", f"put p1 {TEN}; receive s1; release m{{65}}")],
    ),
    (start("history=4 buffer=4", "", "put p1 {1000}"), [("put with a history of 4", "put p1 {1000}")]),
    (start() + "subscriber f2\n" * 3 + more("put p1 {1000}"), [("put to four", "put p1 {1000}")]),
    (start("overflow=0", "strategy=discard", "put p1 {1000}"), [("put, skipped", "put p1 {1000}")]),
    (TIGHT, [("retry, still blocked", "retry p1 1000"), ("giveup and put, as one", "giveup p1; put p1 7")]),
    (TIGHT + "receive s1\n", [("sequence", "sequence m1")]),
    (more("node"), [("node", "node")]),
    (
        "node\nnode\n" + "".join(f"create n1 ps S{it}\n" for it in range(8)),
        [
            ("create", "create n1 ps A{0}"),
            ("open", "open n2 ps A{0}"),
            ("create, refused", "create n1 ps A{0}"),
            ("open, refused by its settings", "open n2 ps A{0} buffer=9"),
            ("open, nothing there", "open n2 ps B{0}"),
            ("open_or_create, opens", "open_or_create n2 ps A{0}"),
            ("open_or_create, creates", "open_or_create n2 ps C{0}"),
            ("close, another stays", "close f{73}"),
            ("close, the last", "close f{201}"),
        ],
    ),
    (
        start("subscribers=80 publishers=80"),
        [
            ("subscriber, beside 1 to 64", "subscriber f2"),
            ("leave sK", "leave s{2}"),
            ("publisher, beside 1 to 64", "publisher f1"),
            ("leave pK", "leave p{2}"),
        ],
    ),
    (
        start("", "", "subscriber f2; leave s{2}"),
        [
            ("subscriber and leave, as one", "subscriber f2; leave s{66}"),
            ("publisher and leave, as one", "publisher f1; leave p{2}"),
        ],
    ),
    (TWO_HELD, [("receive, refused", "receive s1"), ("has", "has s1"), ("faulty: foo", "foo"), ("faulty: put p1 x", "put p1 x")]),
    (TWO_HELD, [("skipped: put p9 1", "put p9 1"), ("skipped: release m999", "release m999")]),
]
