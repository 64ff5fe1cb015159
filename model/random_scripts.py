#!/usr/bin/env python3
"""Writes a random script and the model's replies to it: `model/random_scripts.py SEED LINES [OUT]`.

OUT.iox has the script and OUT.replies the replies; without OUT nothing is written. Then comes a tally of the replies by
kind, and each refusal that a script can reach and this one didn't. One seed gives one script, on any machine.

Most lines make sense: few names, small limits, numbers of what is alive. No line asks for more memory than some megabytes.
"""
import sys
from pathlib import Path

sys.dont_write_bytecode = True
sys.path.insert(0, str(Path(__file__).resolve().parent))
from script_lines import PATTERNS, PERHAPS, SETTINGS, SWITCH
from script_model import Life, Machine

NAMES = ["A", "B", "C", "D"]
AGAIN = "leave:x1 remove:x1 lock:x1 publish:x1"
FULL = "FailedToEstablishConnection(ExpiredConnectionBufferFull)"


class Dice:
    """Numbers from a seed, by the steps of SplitMix64."""

    def __init__(self, seed):
        self.state = seed % 2**64

    def below(self, end):
        self.state = (self.state + 0x9E3779B97F4A7C15) % 2**64
        z = self.state
        z = (z ^ (z >> 30)) * 0xBF58476D1CE4E5B9 % 2**64
        z = (z ^ (z >> 27)) * 0x94D049BB133111EB % 2**64
        return (z ^ (z >> 31)) % end

    def of(self, things):
        return things[self.below(len(things))]

    def chance(self, percent):
        return self.below(100) < percent

    def weighted(self, pairs):
        at = self.below(sum(weight for weight, _ in pairs))
        for weight, thing in pairs:
            if at < weight:
                return thing
            at -= weight


def is_storm(factory):
    return factory.service[1].startswith(b"Full")


class Scenes:
    """Short scenes: each yields lines and is sent the replies. What is alive is read off the model."""

    # The patterns of services, and how often each is agreed on.
    patterns = [(5, "ps"), (2, "ev"), (2, "rr")]

    def __init__(self, dice, machine):
        self.dice, self.machine = dice, machine
        self.storms, self.is_storming, self.is_full = 0, False, False

    # ------------------------------------------------------------------------------------------- numbers and words

    def number(self, letter, wanted=lambda it: True):
        """The number of something that is alive and wanted; at times of anything."""
        values = self.machine.made[letter]
        alive = [i + 1 for i, it in enumerate(values) if it is not None and wanted(it)]
        if self.dice.chance(3) or not alive:
            return f"{letter}{self.dice.below(len(values) + 2)}"
        return f"{letter}{self.dice.of(alive[-12:])}"

    def node(self):
        return self.number("n")

    def any_pattern(self):
        return self.dice.of([it for _, it in self.patterns])

    def phase(self, pattern, name):
        return self.machine.names.phases.get((pattern, name.encode()))

    def asked(self, pattern, percent):
        """Some options with small numbers, in any order."""
        options = []
        for key, kind, *_ in SETTINGS[pattern]:
            if not self.dice.chance(percent):
                continue
            value = self.dice.below(2) if kind == SWITCH else self.dice.below(4) + self.dice.chance(70)
            if kind == PERHAPS and self.dice.chance(50):
                value = "off"
            options.insert(self.dice.below(len(options) + 1), f"{key}={value}")
        return options

    def attributes(self, verb):
        words = []
        while self.dice.chance(25):
            key, value = self.dice.of(["a", "b", "c"]), self.dice.of(["", "1", "2", "x=y"])
            words.append(f"@{key}" if verb != "create" and self.dice.chance(40) else f"@{key}={value}")
        return words

    def step(self, pattern, phase):
        """A step, mostly one that fits the phase."""
        node = f"x{self.dice.below(3)}"
        what = self.dice.of(["lock", "giveup", "publish", "publish1", "register", "leave", "remove"])
        if self.dice.chance(70):
            if phase is None:
                what = "lock"
            elif not isinstance(phase, Life):
                what, node = self.dice.of(["publish", "publish", "publish1", "giveup"]), f"x{phase[1]}"
            elif phase.emptied_by is not None:
                what, node = "remove", f"x{phase.emptied_by[1]}"
            else:
                inside = [it[1] for it, _ in phase.nodes if it[0] == "x"]
                what = self.dice.of(["register", "leave"]) if inside else "register"
                node = f"x{self.dice.of(inside)}" if what == "leave" else node
        options = self.asked(pattern, 40) if what in ("publish", "publish1") and self.dice.chance(60) else []
        return f"{what}:{node}" + (":" + ",".join(options) if options else "")

    def lists(self, pattern, phase):
        words, at = [], 0
        while self.dice.chance(60):
            at += 1 + self.dice.below(2)
            words.append(f"|{at}")
            for _ in range(1 + self.dice.below(3)):
                words.append(self.step(pattern, phase if at == 1 else self.dice.of([phase, None, ("x", 1)])))
        return words

    # -------------------------------------------------------------------------------------------------- agreeing

    def nodes(self):
        if len(self.machine.made["n"]) < 6 or self.dice.chance(5):
            yield "node"

    def agree(self):
        verb = self.dice.of(["create", "open", "open_or_create", "open_or_create"])
        pattern = self.dice.weighted(self.patterns)
        name = self.dice.of(NAMES + ["Z"] * (verb == "open"))
        options = self.asked(pattern, 12 if isinstance(self.phase(pattern, name), Life) else 35)
        lists = self.lists(pattern, self.phase(pattern, name)) if self.dice.chance(15) else []
        yield " ".join([verb, self.node(), pattern, name] + options + self.attributes(verb) + lists)

    def ask_too_much(self):
        """One setting that what is there doesn't meet."""
        pattern = self.any_pattern()
        name = self.dice.of(NAMES)
        life = self.phase(pattern, name)
        if not isinstance(life, Life):
            some = self.dice.of([["nodes=1"], ["overflow=0 nodes=2"] if pattern == "ps" else [], self.asked(pattern, 30)])
            yield " ".join([f"{self.dice.of(['create', 'open_or_create'])} {self.node()} {pattern} {name}"] + some)
            return
        key, kind, *_ = self.dice.of(SETTINGS[pattern])
        agreed = life.agreed[key]
        if kind == SWITCH:
            value = int(not agreed)
        elif kind == PERHAPS:
            value = self.dice.of(["off", 9]) if agreed is not None else 9
        else:
            value = agreed + 1
        yield f"{self.dice.of(['open', 'open_or_create'])} {self.node()} {pattern} {name} {key}={value}"

    def crowd(self):
        """Several nodes come into one service that has room for fewer."""
        pattern = self.any_pattern()
        made = [(yield f"open_or_create n1 {pattern} N nodes={1 + self.dice.below(2)}")]
        for node in range(2, 5):
            made.append((yield f"{self.dice.of(['open', 'open_or_create'])} n{node} {pattern} N"))
        for reply in made:
            if reply.startswith("ok"):
                yield f"close {reply[3:]}"

    def past_limits(self):
        pattern, verb = self.any_pattern(), self.dice.of(["create", "open_or_create"])
        name = self.dice.of(NAMES + [f"E{self.dice.below(9)}"])
        option = "nodes=16777216"
        if pattern == "ps":
            too_much = ["buffer=4294967296", "publishers=16777216", "overflow=0 buffer=1 history=2", "overflow=0 buffer=2 history=3"]
            option = self.dice.of([option, *too_much])
        yield f"{verb} {self.node()} {pattern} {name} {option}"

    def foreign(self):
        pattern = self.dice.weighted([(3, "ps"), (2, "ev"), (2, "rr")])
        name = self.dice.of(NAMES + ["Q0", "Q1"])
        steps = [self.step(pattern, self.phase(pattern, name)) for _ in range(1 + self.dice.below(2))]
        yield f"foreign {pattern} {name} " + " ".join(steps)

    def unblock_name(self):
        """Others give up what they hold of a name."""
        for pattern in PATTERNS:
            for name in NAMES:
                phase = self.phase(pattern, name)
                if phase is None or (isinstance(phase, Life) and phase.emptied_by is None):
                    continue
                if isinstance(phase, Life):
                    yield f"foreign {pattern} {name} remove:x{phase.emptied_by[1]}"
                elif phase[0] == "x":
                    yield f"foreign {pattern} {name} giveup:x{phase[1]}"

    def rounds(self):
        """Others come between the accesses of a call on a name of its own."""
        pattern, name = self.any_pattern(), f"Q{self.dice.below(4)}"
        phase = self.phase(pattern, name)
        node = self.node()
        if phase is None and self.dice.chance(30):
            flux = " ".join(f"|{2 * i} lock:x1" + f" |{2 * i + 1} giveup:x1" * (i < 5) for i in range(1, 6))
            yield f"open_or_create {node} {pattern} {name} {flux}"
            yield f"foreign {pattern} {name} giveup:x1"
        elif phase is None and self.dice.chance(50):
            yield f"foreign {pattern} {name} lock:x1 publish:x1"
            verb = self.dice.of(["open", "open_or_create"])
            last = 4 + self.dice.below(2)
            yield f"{verb} {node} {pattern} {name} " + " ".join(f"|{2 * i} {AGAIN}" for i in range(1, last + 1))
        elif phase is None:
            longer = ["|2 lock:x1 publish:x1", "|2 lock:x1 |3 giveup:x1", "|1 lock:x1 publish:x1 |2 leave:x1"]
            lists = self.dice.of(["|2 lock:x1", "|1 lock:x1", *longer])
            yield f"{self.dice.of(['create', 'open_or_create'])} {node} {pattern} {name} {lists}"
        elif not isinstance(phase, Life):
            yield f"{self.dice.of(['create', 'open', 'open_or_create'])} {node} {pattern} {name}"
            yield f"foreign {pattern} {name} {self.dice.of(['giveup', 'publish', 'publish1'])}:x{phase[1]}"
        elif phase.emptied_by is not None:
            yield f"{self.dice.of(['create', 'open', 'open_or_create'])} {node} {pattern} {name}"
            yield f"foreign {pattern} {name} remove:x{phase.emptied_by[1]}"
        else:
            for other in [it for it, _ in phase.nodes if it[0] == "x"]:
                yield f"foreign {pattern} {name} leave:x{other[1]}"
            for i, it in enumerate(self.machine.made["f"]):
                if it is not None and it.life is phase:
                    yield f"close f{i + 1}"

    def wind_up(self):
        """All that stands on a factory ends, and then the factory."""
        factories = [(i + 1, it) for i, it in enumerate(self.machine.made["f"]) if it is not None and not is_storm(it)]
        if len(factories) < 8 and self.dice.chance(50):
            return
        if not factories:
            return
        number, factory = self.dice.of(factories)
        yield f"close f{number}"
        for letter, end in [("p", "leave"), ("s", "leave"), ("l", "drop"), ("m", "release")]:
            for i, it in enumerate(list(self.machine.made[letter])):
                if it is None or self.machine.made[letter][i] is None:
                    continue
                if (it.message.publisher.factory if letter == "l" else it.factory) is factory:
                    if letter == "p" and it.blocked is not None:
                        yield f"giveup p{i + 1}"
                    yield f"{end} {letter}{i + 1}"
        yield f"close f{number}"

    def close(self):
        yield f"close {self.number('f', lambda it: not is_storm(it))}"

    # ----------------------------------------------------------------------------------------------------- ports

    def of_ports(self, factory):
        return factory.service[0] == "ps" and not is_storm(factory)

    def publisher(self):
        values = {"loans": [0, 1, 2, 3], "strategy": ["retry", "discard"], "slots": [0, 1, 2, 3, 4, 9], "slice": [0, 1, 2, 3, 4]}
        values |= {"alloc": ["static", "best", "power"], "handler": ["follow", "retry", "discard", "fail"]}
        values |= {"degrade": ["ignore", "warn", "fail"]}
        options = [f"{key}={self.dice.of(values[key])}" for key in values if self.dice.chance(30)]
        if self.dice.chance(3):
            options = [self.dice.of(["slice=4294967296", "loans=4294967295"])]
        wanted = self.of_ports if self.dice.chance(97) else (lambda it: True)
        yield " ".join([f"publisher {self.number('f', wanted)}"] + options)

    def subscriber(self):
        options = [f"buffer={self.dice.below(5)}"] if self.dice.chance(30) else []
        options += [f"degrade={self.dice.of(['ignore', 'warn', 'fail'])}"] if self.dice.chance(30) else []
        yield " ".join([f"subscriber {self.number('f', self.of_ports)}"] + options)

    def values(self, longest):
        return [str(self.dice.below(1000)) for _ in range(self.dice.below(longest + 1))]

    def usual(self, publisher):
        """Mostly as many values as the publisher lends, seldom more."""
        longest = publisher.segments[-1] if publisher is not None else 1
        return min(longest, 6) + self.dice.chance(10)

    def number_of_publisher(self):
        number = self.number("p", lambda it: not is_storm(it.factory))
        made = self.machine.made["p"]
        at = int(number[1:])
        return number, made[at - 1] if 1 <= at <= len(made) else None

    def put(self):
        number, publisher = self.number_of_publisher()
        if publisher is not None and self.usual(publisher) and self.dice.chance(90):
            longest = self.usual(publisher)
            words = [str(self.dice.below(1000)) for _ in range(longest)]
        else:
            words = self.values(4)
        yield " ".join([f"put {number}"] + words)

    def lend(self):
        number, publisher = self.number_of_publisher()
        verb = self.dice.of(["loan", "loan_uninit"])
        reply = yield f"{verb} {number} {self.dice.below(self.usual(publisher) + 1)}"
        if reply.startswith("ok") and self.dice.chance(80):
            yield from self.write(reply[3:])

    def write(self, number):
        loans, at = self.machine.made["l"], int(number[1:])
        loan = loans[at - 1] if 1 <= at <= len(loans) else None
        length = loan.length if loan is not None else 1
        if self.dice.chance(85):
            words = [str(self.dice.below(100)) for _ in range(length if self.dice.chance(90) else self.dice.below(4))]
            yield " ".join([f"fill {number}"] + words)
        if self.dice.chance(40):
            yield f"set {number} {self.dice.below(length + 1)} {self.dice.below(100)}"
        if self.dice.chance(85):
            yield f"send {number}"

    def fill_up(self):
        """Sends until a mailbox is full, and some more."""
        number = self.number("p", lambda it: not it.domain.agreed["overflow"] and not is_storm(it.factory))
        for _ in range(3):
            yield f"put {number}" + f" {self.dice.below(100)}" * self.dice.chance(90)

    def narrow(self):
        """A service that holds publishers up, with a port of each kind more."""
        factory = yield f"open_or_create {self.node()} ps W overflow=0 buffer={1 + self.dice.below(2)} history=1"
        if factory.startswith("ok"):
            subscriber = yield f"subscriber {factory[3:]}"
            publisher = yield f"publisher {factory[3:]} handler={self.dice.of(['follow', 'retry', 'discard', 'fail'])}"
            yield f"has {subscriber[3:] or 's1'}"
            for _ in range(4):
                yield f"put {publisher[3:] or 'p1'} {self.dice.below(100)}"

    def numbered(self):
        """A service that numbers messages, and a subscriber that misses some."""
        factory = yield f"open_or_create {self.node()} ps M sequence=1 buffer={1 + self.dice.below(3)}"
        if not factory.startswith("ok"):
            return
        subscriber = yield f"subscriber {factory[3:]}"
        publisher = yield f"publisher {factory[3:]}"
        if not (subscriber.startswith("ok") and publisher.startswith("ok")):
            return
        for _ in range(1 + self.dice.below(3)):
            for _ in range(1 + self.dice.below(4)):
                yield f"put {publisher[3:]} {self.dice.below(100)}"
            sample = yield f"receive {subscriber[3:]}"
            if sample.startswith("ok"):
                yield f"sequence {sample.split(' ')[1]}"
                yield f"release {sample.split(' ')[1]}"

    def end_loan(self):
        yield f"{self.dice.of(['drop', 'send', 'drop'])} {self.number('l')}"

    def with_loan(self):
        yield from self.write(self.number("l"))

    def last_of_a_publisher(self):
        """A loan that outlives its publisher."""
        number, _ = self.number_of_publisher()
        reply = yield f"loan {number} 0"
        if reply.startswith("ok"):
            yield f"leave {number}"
            yield f"{self.dice.of(['send', 'send', 'drop'])} {reply[3:]}"

    def retry(self):
        number = self.number("p", lambda it: it.blocked is not None)
        yield f"giveup {number}" if self.dice.chance(25) else f"retry {number} {self.dice.below(10**6)}"

    def subscriber_number(self):
        return self.number("s", lambda it: not is_storm(it.factory))

    def receive(self):
        number = self.subscriber_number()
        for _ in range(1 + self.dice.below(4)):
            reply = yield f"receive {number}"
            if not reply.startswith("ok"):
                return
            if self.dice.chance(60):
                yield f"{self.dice.of(['release', 'release', 'release', 'read', 'sequence', 'sequence'])} {reply.split(' ')[1]}"

    def old_sample(self):
        verb = self.dice.of(["read", "sequence", "release", "release", "release"])
        yield f"{verb} {self.number('m', lambda it: not is_storm(it.factory))}"

    def look_in(self):
        kind = self.dice.of(["has s", "update s", "update p"])
        letter = kind[-1]
        number = self.subscriber_number() if letter == "s" else self.number_of_publisher()[0]
        yield f"{kind[:-1]}{number}"

    def leave(self):
        letter = self.dice.of("ps")
        yield f"leave {self.subscriber_number() if letter == 's' else self.number_of_publisher()[0]}"

    def storm(self):
        """Publishers come and leave, of each of which a sample is held, until no more connections may expire."""
        degrade = self.dice.of(["fail", "warn"]) if self.is_full else "fail"
        self.storms, self.is_storming = self.storms + 1, True
        factory = (yield f"create n1 ps Full{self.storms} publishers=1 subscribers=2 borrowed=1")[3:]
        subscriber = (yield f"subscriber {factory} degrade={degrade}")[3:]
        held = []
        for i in range(132):
            publisher = (yield f"publisher {factory}")[3:]
            if not publisher.startswith("p"):
                break
            yield f"put {publisher} {i}"
            reply = yield f"receive {subscriber}"
            if reply.startswith("ok"):
                held.append(reply.split(" ")[1])
            else:
                self.is_full |= FULL in reply
                yield f"{self.dice.of(['update', 'has'])} {subscriber}"
                yield f"has {subscriber}"
                yield f"update {subscriber}"
                if held:
                    yield f"release {held.pop(self.dice.below(len(held)))}"
            yield f"leave {publisher}"
        for it in held:
            yield f"release {it}"
        yield f"receive {subscriber}"
        yield f"leave {subscriber}"
        yield f"close {factory}"
        self.is_storming = False

    # ---------------------------------------------------------------------------------------------- faulty lines

    def faulty(self):
        """A line that is nearly one, or far too long."""
        lines = ["node", "create n1 ps A buffer=2 @a=1 |1 lock:x1", "open n1 ev A maxid=3", "publisher f1 loans=2", "put p1 1 2"]
        lines += ["set l1 0 1", "foreign rr A lock:x1", "receive s1", "loan p1 1", "sequence m1", "foreign ps A publish1:x1:sequence=0"]
        line = self.dice.of(lines)
        at = self.dice.below(len(line) + 1)
        kind = self.dice.below(7)
        if kind == 0:
            line = line[:at] + " " + line[at:]
        elif kind == 1:
            line = line[:at] + self.dice.of(["\r", "\t", "0", "|", "@", ":", "=", "-", "\x7f"]) + line[at:]
        elif kind == 2:
            line = line[:at]
        elif kind == 3:
            line += " " + self.dice.of(["", "x", "n1", "buffer=2", "1"])
        elif kind == 4:
            line = line.replace("1", self.dice.of(["01", "18446744073709551616", "", "x"]))
        elif kind == 5:
            line += " " * (1025 - len(line)) + "x" * self.dice.below(9)
        else:
            line = "".join(chr(0x20 + self.dice.below(95)) for _ in range(self.dice.below(30)))
        yield line

    def any(self):
        scene = self.dice.weighted([
            (1, self.nodes), (7, self.agree), (6, self.ask_too_much), (2, self.crowd), (3, self.past_limits), (3, self.foreign),
            (1, self.unblock_name), (9, self.rounds), (6, self.wind_up), (1, self.close), (6, self.publisher), (6, self.subscriber),
            (20, self.put), (3, self.fill_up), (3, self.narrow), (3, self.numbered), (10, self.lend), (3, self.end_loan),
            (3, self.with_loan), (1, self.last_of_a_publisher), (4, self.retry), (16, self.receive), (6, self.old_sample),
            (6, self.look_in), (2, self.leave), (2, self.faulty),
        ])
        return scene()


def reachable():
    """Each refusal that a script can reach with memory to spare."""
    texts = ["err faulty line", "err line too long"]
    for pattern, kind in PATTERNS.items():
        clauses = ["IncompatibleAttributes"] + [it[-1] for it in SETTINGS[pattern]]
        clauses += ["HangsInCreation", "ExceedsMaxNumberOfNodes", "IsMarkedForDestruction"]
        limits = ["InternalFailure"] + ["SubscriberBufferMustBeLargerThanHistorySize"] * (pattern == "ps")
        creates = limits + ["AlreadyExists", "IsBeingCreatedByAnotherInstance", "HangsInCreation"]
        texts += [f"err {kind}OpenError::{it}" for it in clauses + ["DoesNotExist", "ServiceInCorruptedState"]]
        texts += [f"err {kind}CreateError::{it}" for it in creates]
        texts += [f"err {kind}OpenOrCreateError::{kind}OpenError({it})" for it in clauses]
        texts += [f"err {kind}OpenOrCreateError::{kind}CreateError({it})" for it in limits] + [f"err {kind}OpenOrCreateError::SystemInFlux"]
    loans = ["ExceedsMaxLoanSize", "ExceedsMaxLoans", "OutOfMemory"]
    texts += [f"err LoanError::{it}" for it in loans] + [f"err SendError::LoanError({it})" for it in loans]
    texts += ["err SendError::ConnectionBrokenSinceSenderNoLongerExists", "err SendError::UnableToDeliver", "err CloseError::StillInUse"]
    texts += ["err PublisherCreateError::UnableToCreateDataSegment", "err PublisherCreateError::ExceedsMaxSupportedPublishers"]
    texts += ["err SubscriberCreateError::BufferSizeExceedsMaxSupportedBufferSizeOfService"]
    texts += ["err SubscriberCreateError::ExceedsMaxSupportedSubscribers"]
    texts += ["err ReceiveError::ExceedsMaxBorrows", f"err ReceiveError::ConnectionFailure({FULL})", f"err ConnectionFailure::{FULL}"]
    return texts


def kind_of(line, reply):
    """The reply without its numbers, and for replies that are no refusal the command."""
    if reply.startswith("err"):
        return reply
    words = reply.split(" ")
    told = "".join(words[1:2])
    if told not in ("", "true", "false", "none"):
        told = told[:1] + "K" if told[:1].isalpha() else "N"
    return f"{line.split(' ')[0]}: {' '.join(filter(None, (words[0], told)))}"


def random_script(seed, length, scenes_of=Scenes):
    """The lines and the replies to them."""
    dice, machine = Dice(seed), Machine()
    scenes = scenes_of(dice, machine)
    lines, replies = [], []
    # Scenes under way, each with the line that it wants next.
    running = []

    def begin(scene):
        line = next(scene, None)
        if line is not None:
            running.append([scene, line])

    for _ in range(4):
        lines.append("node")
        replies.append(machine.answer(b"node"))
    while len(lines) < length:
        if length >= 1500 and len(lines) >= 200 and not scenes.is_storming and (not scenes.is_full or dice.below(9000) == 0):
            begin(scenes.storm())
        if len(running) < 2 or dice.chance(20):
            begin(scenes.any())
            continue
        entry = dice.of(running)
        lines.append(entry[1])
        replies.append(machine.answer(entry[1].encode("latin-1")))
        try:
            entry[1] = entry[0].send(replies[-1])
        except StopIteration:
            running.remove(entry)
    return lines, replies


def main(words):
    if len(words) not in (2, 3) or not all(it.isdecimal() for it in words[:2]):
        print(__doc__.split("\n")[0], file=sys.stderr)
        return 64
    lines, replies = random_script(int(words[0]), int(words[1]))
    if len(words) == 3:
        Path(f"{words[2]}.iox").write_bytes("".join(f"{it}\n" for it in lines).encode("latin-1"))
        Path(f"{words[2]}.replies").write_bytes("".join(f"{it}\n" for it in replies).encode("latin-1"))
    tally = {}
    for line, reply in zip(lines, replies):
        kind = kind_of(line, reply)
        tally[kind] = tally.get(kind, 0) + 1
    for kind in sorted(tally):
        print(f"{tally[kind]:6} {kind}")
    missing = [it for it in reachable() if it not in tally]
    for it in missing:
        print(f"  none {it}")
    print(f"{len(lines)} lines, {len(tally)} kinds of reply, {len(missing)} refusals not met")
    return 0


if __name__ == "__main__":
    sys.exit(main(sys.argv[1:]))
