"""Random scripts of what publish-subscribe middlewares have in common: ports, loans, sends, samples, history, sends that wait.

A script is a generator of lines, and is sent the reply to each. It goes on by these replies, so a line that is answered `unsupported` has
no part in what follows. Each message has values of its own, which say who sent it.
"""
from dataclasses import dataclass, field

from random_scripts import Dice

# How often each step comes beside the others.
STEPS = {
    "put": 260, "burst": 15, "receive": 220, "drain": 12, "release": 140, "read": 40, "has": 50, "sequence": 20, "loan": 60, "fill": 50,
    "send": 60, "drop": 15, "subscriber": 50, "publisher": 20, "leave_subscriber": 30, "leave_publisher": 8, "update": 15, "retry": 40,
    "absent": 7,
}


@dataclass
class Profile:
    """What scripts are like: as many ports at once, from which settings is chosen, how many of 100 services block, and other STEPS."""

    publishers: int = 2
    subscribers: int = 3
    buffers: tuple = (1, 2, 2, 3, 4, 5, 8)
    histories: tuple = (0, 1, 2, 3, 5)
    borrowed: tuple = (1, 2, 3, 256)
    loans: tuple = (2, 8)
    blocking: int = 20
    steps: dict = field(default_factory=dict)


PROFILES = {
    "standard": Profile(),
    "loans": Profile(publishers=1, subscribers=1, loans=(8,), steps={"loan": 300, "fill": 80, "send": 120, "drop": 140}),
    "blocking": Profile(buffers=(1, 1, 2, 3), blocking=100, steps={"retry": 100}),
    "late": Profile(histories=(1, 2, 3, 8, 16), steps={"subscriber": 90, "publisher": 50, "leave_subscriber": 60, "leave_publisher": 30}),
    "tight": Profile(publishers=3, buffers=(1, 1, 2), borrowed=(1, 2, 256), steps={"put": 400, "burst": 40}),
}
MOST_VALUES = 3
# Numbers that no script has.
ABSENT = ["release m999", "send l888", "receive s77", "put p99 1", "leave s88", "read m777", "drop l999"]


class Script:
    """One script, with what it has alive by the replies so far."""

    def __init__(self, profile, seed):
        self.profile, self.dice = profile, Dice(seed)
        self.steps = [(weight, step) for step, weight in {**STEPS, **profile.steps}.items()]
        self.factories, self.publishers, self.subscribers = [], [], []
        self.blocked, self.held, self.loans, self.count = set(), {}, {}, 0
        self.buffer, self.is_numbered = 0, False

    def lines(self):
        yield from self.agree()
        for _ in range(self.dice.below(self.profile.publishers + 1)):
            yield from self.publisher()
        for _ in range(self.dice.below(self.profile.subscribers + 1)):
            yield from self.subscriber()
        for _ in range(15 + self.dice.below(75)):
            yield from getattr(self, self.dice.weighted(self.steps))()
        for _ in range(1 + len(self.blocked)):
            for one in self.subscribers:
                yield from self.drain_of(one)
            for one in sorted(self.blocked):
                yield from self.retry_of(one)

    def agree(self):
        it, dice = self.profile, self.dice
        is_blocking = dice.chance(it.blocking)
        buffer, history = dice.of(it.buffers), dice.of(it.histories)
        options = {"buffer": buffer, "history": min(history, buffer) if is_blocking else history, "borrowed": dice.of(it.borrowed)}
        options |= {"overflow": 0} if is_blocking else {}
        options |= {"sequence": 1} if dice.chance(60) else {}
        nodes = 1 + (dice.chance(30))
        for _ in range(nodes):
            yield "node"
        yield from self.create(options)
        if nodes == 2:
            self.factories += made((yield "open n2 ps A"))

    def create(self, options):
        """Creates the service, and where an option isn't supported without the last ones."""
        while True:
            told = "".join(f" {key}={value}" for key, value in options.items())
            reply = yield f"create n1 ps A publishers={self.profile.publishers} subscribers={self.profile.subscribers}{told}"
            if not reply.startswith("unsupported") or not options:
                break
            options.popitem()
        self.factories, self.buffer, self.is_numbered = made(reply), options.get("buffer", 2), "sequence" in options

    # ----------------------------------------------------------------------------------------------------- ports

    def publisher(self):
        if len(self.publishers) < self.profile.publishers and self.factories:
            loans = self.dice.of(self.profile.loans)
            self.publishers += made((yield f"publisher {self.dice.of(self.factories)} slice={MOST_VALUES} loans={loans}"))
            yield from self.updates(self.subscribers)

    def subscriber(self):
        if len(self.subscribers) < self.profile.subscribers and self.factories:
            own = f" buffer={1 + self.dice.below(self.buffer)}" if self.dice.chance(30) else ""
            self.subscribers += made((yield f"subscriber {self.dice.of(self.factories)}{own}"))
            yield from self.updates(self.free())

    def updates(self, ports):
        """The ports of the other side learn of a new one now, or by what they do next."""
        if self.dice.chance(60):
            for one in ports:
                yield f"update {one}"

    def free(self):
        return [it for it in self.publishers if it not in self.blocked]

    def leave_publisher(self):
        for one in self.one_of(self.free()):
            if self.dice.chance(70):
                for loan in [it for it, (of, _) in self.loans.items() if of == one]:
                    yield from self.drop_of(loan)
            if (yield f"leave {one}") == "ok":
                self.publishers.remove(one)

    def leave_subscriber(self):
        for one in self.one_of(self.subscribers):
            if self.dice.chance(70):
                for sample in [it for it, of in self.held.items() if of == one]:
                    yield from self.release_of(sample)
            if (yield f"leave {one}") == "ok":
                self.subscribers.remove(one)

    def update(self):
        for one in self.one_of(self.free() + self.subscribers):
            yield f"update {one}"

    # ---------------------------------------------------------------------------------------------------- sending

    def one_of(self, options):
        """One of these, where there are any."""
        return [self.dice.of(options)] if options else []

    def values(self, length):
        self.count += length
        return "".join(f" {it}" for it in range(self.count - length + 1, self.count + 1))

    def put(self):
        if not self.publishers:
            yield from self.publisher()
        for one in self.one_of(self.free()):
            yield from self.put_of(one)

    def put_of(self, one):
        length = 0 if self.dice.chance(3) else self.dice.of([1, 1, 1, 1, 2, MOST_VALUES])
        reply = yield f"put {one}{self.values(length)}"
        yield from self.after_send(one, reply)

    def after_send(self, one, reply):
        if reply == "blocked":
            self.blocked.add(one)
            if self.dice.chance(30):
                yield from self.retry_of(one)

    def burst(self):
        for one in self.one_of(self.free()):
            for _ in range(2 + self.dice.below(6)):
                if one not in self.blocked:
                    yield from self.put_of(one)

    def retry(self):
        for one in self.one_of(sorted(self.blocked)):
            yield from self.retry_of(one)

    def retry_of(self, one):
        if (yield f"retry {one} 0").startswith("ok"):
            self.blocked.discard(one)

    def loan(self):
        for one in self.one_of(self.free()):
            verb, length = self.dice.of(["loan", "loan_uninit"]), self.dice.of([1, 1, 1, 2, MOST_VALUES])
            for it in made((yield f"{verb} {one} {length}")):
                self.loans[it] = (one, length)

    def fill(self):
        for loan in self.one_of(sorted(self.loans)):
            length = self.loans[loan][1]
            if self.dice.chance(30):
                yield f"set {loan} {self.dice.below(length + 1)}{self.values(1)}"
            else:
                yield f"fill {loan}{self.values(length)}"

    def send(self):
        for loan in self.one_of(sorted(self.loans)):
            reply = yield f"send {loan}"
            if reply != "skip" and not reply.startswith("unsupported"):
                yield from self.after_send(self.loans.pop(loan)[0], reply)

    def drop(self):
        for loan in self.one_of(sorted(self.loans)):
            yield from self.drop_of(loan)

    def drop_of(self, loan):
        if (yield f"drop {loan}") == "ok":
            del self.loans[loan]

    # -------------------------------------------------------------------------------------------------- receiving

    def receive(self):
        if not self.subscribers:
            yield from self.subscriber()
        for one in self.one_of(self.subscribers):
            yield from self.receive_of(one)

    def receive_of(self, one):
        reply = yield f"receive {one}"
        for sample in made(reply):
            self.held[sample] = one
            if self.is_numbered and self.dice.chance(50):
                yield f"sequence {sample}"
        return reply

    def drain(self):
        for one in self.one_of(self.subscribers):
            yield from self.drain_of(one)

    def drain_of(self, one):
        """Receives what waits, and releases where as many samples are held as may be."""
        for _ in range(60):
            reply = yield from self.receive_of(one)
            mine = [it for it, of in self.held.items() if of == one]
            if reply == "none" or not (reply.startswith("ok") or mine):
                return
            if not reply.startswith("ok") or self.dice.chance(30):
                yield from self.release_of(mine[0])

    def release(self):
        for sample in self.one_of(sorted(self.held)):
            yield from self.release_of(sample)

    def release_of(self, sample):
        yield f"read {sample}"
        if (yield f"release {sample}") == "ok":
            del self.held[sample]

    def read(self):
        for sample in self.one_of(sorted(self.held)):
            yield f"read {sample}"

    def sequence(self):
        for sample in self.one_of(sorted(self.held)):
            yield f"sequence {sample}"

    def has(self):
        for one in self.one_of(self.subscribers):
            yield f"has {one}"

    def absent(self):
        yield self.dice.of(ABSENT)


def made(reply):
    """The number that a reply gives, as a list of at most one."""
    words = reply.split(" ")
    return words[1:2] if words[0] == "ok" and words[1:] and words[1][:1].isalpha() else []


def script(profile, seed, at):
    """The lines of the script with that place in the row of a seed."""
    row = list(PROFILES).index(profile) * 2**24 + seed
    return Script(PROFILES[profile], row * 2**24 + at).lines()
