#!/usr/bin/env python3
"""Writes random scripts in which foreign nodes act before each access: `model/hostile_scripts.py SEED SCRIPTS [OUT]`.

OUT.iox has all scripts, one behind the other for one hub, and OUT.replies the model's replies; without OUT nothing is written. Each
script has three nodes and two names of its own, in each pattern, so that calls and steps meet. A call that opens or creates has a list
before nearly each access that it makes: mostly steps that lead from what stands there to a phase that is drawn, and some that don't
fit. Then comes a tally of the replies by kind. One seed gives the same scripts on any machine.
"""
import contextlib
import sys
from pathlib import Path

sys.dont_write_bytecode = True
sys.path.insert(0, str(Path(__file__).resolve().parent))
from random_scripts import Dice, kind_of
from script_lines import PATTERNS, read_command
from script_model import Agreeing, Life, Machine, Names, Refused

LINES = 16
WAYS = ("absent", "locked", "published", "renewed", "emptied")
# What the foreign nodes lead to before each odd access, which mostly is a look, and before each even one.
MOODS = [(way, then) for way in WAYS for then in WAYS] + [("published", "renewed"), ("absent", "locked")] * 4
# What is asked at times: a setting that others may not meet, or one beyond the limits.
ASKED = {
    "ps": [
        *("nodes=1", "nodes=2", "overflow=0", "buffer=3", "history=2", "overflow=0 buffer=1 history=2"),
        *("publishers=16777216", "sequence=1", "sequence=0"),
    ],
    "ev": ["nodes=1", "nodes=2", "maxid=7", "deadline=off", "deadline=9", "nodes=16777216"],
    "rr": ["nodes=1", "nodes=2", "fire=0", "active=5", "servers=0", "nodes=16777216"],
}
STEPS = ("lock", "giveup", "publish", "publish1", "register", "leave", "remove")


class Foreign:
    """The foreign nodes of a call: what they do before each of its accesses is drawn when it comes, by the phase that stands there."""

    def __init__(self, dice, names, service):
        self.dice, self.names, self.service, self.words = dice, names, service, []
        self.moods = dice.of(MOODS)

    def take(self, verb, node, nodes=None):
        """Takes a step, and writes its word down."""
        self.names.act(self.service, verb, ("x", node), {} if nodes is None else {"nodes": nodes})
        self.words.append(f"{verb}:x{node}" + (f":nodes={nodes}" if nodes is not None else ""))

    def step_to(self, way):
        """Takes a step towards a phase; false where it is reached, or own nodes stand in the way."""
        phase = self.names.phases.get(self.service)
        if phase is None and way != "absent":
            self.take("lock", self.dice.below(3))
        elif isinstance(phase, tuple) and phase[0] == "x" and way != "locked":
            if way == "absent":
                self.take("giveup", phase[1])
            else:
                self.take(self.dice.of(["publish", "publish", "publish1"]), phase[1], self.dice.of([None, None, 1, 2]))
        elif isinstance(phase, Life) and phase.emptied_by is not None and phase.emptied_by[0] == "x" and way != "emptied":
            self.take("remove", phase.emptied_by[1])
        elif isinstance(phase, Life) and way != "published" and [it for (it, _), _ in phase.nodes if it == "x"]:
            self.take("leave", self.dice.of([node for (kind, node), _ in phase.nodes if kind == "x"]))
        else:
            return False
        return True

    def lead_to(self, way):
        """At least one step: mostly those that lead to a phase, and perhaps others behind them. A service is renewed by one that ends
        and one that begins."""
        before = len(self.words)
        for goal in ("absent", "published") if way == "renewed" else (way,):
            while self.dice.chance(95) and self.step_to(goal):
                pass
        while len(self.words) == before or self.dice.chance(20):
            self.take(self.dice.of(STEPS), self.dice.below(3))

    def get(self, access, _):
        """The list before an access, as the model asks for it: its steps are taken here, so none are left to take."""
        if self.dice.chance(92):
            self.words.append(f"|{access}")
            self.lead_to(self.dice.of(WAYS) if self.dice.chance(15) else self.moods[access % 2 == 0])
        return []


class Script:
    """The lines of one script, drawn one by one while the model answers them."""

    def __init__(self, dice, machine, number):
        self.dice, self.machine, self.names = dice, machine, [f"A{number}", f"B{number}"]
        self.factories, self.lines, self.replies = [], [], []
        self.nodes = [self.ask("node")[3:] for _ in range(3)]
        while len(self.lines) < LINES:
            self.dice.weighted([(12, self.call), (3, self.foreign), (4, self.close)])()
        self.end()

    def end(self):
        """Ends what is left, so that the scripts behind find as little as the first."""
        while self.factories:
            self.ask(f"close {self.factories.pop()}")
        for pattern, name in ((pattern, name) for pattern in PATTERNS for name in self.names):
            others = self.others(pattern, name)
            while others.step_to("absent"):
                pass
            if others.words:
                self.ask(" ".join(["foreign", pattern, name, *others.words]))

    def ask(self, line):
        self.lines.append(line)
        self.replies.append(self.machine.answer(line.encode()))
        return self.replies[-1]

    def others(self, pattern, name):
        """The foreign nodes of a service, in a copy of what stands."""
        service, names = (pattern, name.encode()), Names()
        phase = self.machine.names.phases.get(service)
        if phase is not None:
            names.phases[service] = phase.copy() if isinstance(phase, Life) else phase
        return Foreign(self.dice, names, service)

    def service(self):
        return self.dice.of(list(PATTERNS)), self.dice.of(self.names)

    def foreign(self):
        pattern, name = self.service()
        others = self.others(pattern, name)
        others.lead_to(self.dice.of(WAYS))
        self.ask(" ".join(["foreign", pattern, name, *others.words]))

    def close(self):
        if self.factories:
            self.ask(f"close {self.factories.pop(self.dice.below(len(self.factories)))}")

    def call(self):
        """A call with a list before nearly each access that it makes, and one behind them, which nobody meets."""
        verb = self.dice.weighted([(2, "create"), (3, "open"), (4, "open_or_create")])
        node, (pattern, name) = self.dice.of(self.nodes), self.service()
        others, words = self.others(pattern, name), [verb, node, pattern, name]
        words += self.dice.of(ASKED[pattern]).split(" ") * self.dice.chance(15) + ["@a=1"] * self.dice.chance(10)
        _, _, _, _, named, attributes, _ = read_command(" ".join(words).encode())
        call = Agreeing(others.names, int(node[1:]), others.service, named, attributes, others)
        with contextlib.suppress(Refused):
            getattr(call, verb)()
        others.words.append(f"|{call.accesses + 1}")
        others.lead_to(self.dice.of(WAYS))
        reply = self.ask(" ".join(words + others.words))
        if reply.startswith("ok"):
            self.factories.append(reply[3:])


def hostile_scripts(seed, count):
    """So many scripts, each with its lines and replies."""
    dice, machine = Dice(seed), Machine()
    return [Script(dice, machine, number) for number in range(1, count + 1)]


def main(words):
    if len(words) not in (2, 3) or not all(it.isdecimal() for it in words[:2]):
        print(__doc__.split("\n")[0], file=sys.stderr)
        return 64
    scripts = hostile_scripts(int(words[0]), int(words[1]))
    lines, replies = ([word for it in scripts for word in part(it)] for part in (lambda it: it.lines, lambda it: it.replies))
    if len(words) == 3:
        for ending, texts in (("iox", lines), ("replies", replies)):
            Path(f"{words[2]}.{ending}").write_text("".join(f"{it}\n" for it in texts), encoding="latin-1")
    tally = {}
    for kind in map(kind_of, lines, replies):
        tally[kind] = tally.get(kind, 0) + 1
    for kind in sorted(tally):
        print(f"{tally[kind]:6} {kind}")
    print(f"{len(scripts)} scripts, {len(lines)} lines, {len(tally)} kinds of reply")
    return 0


if __name__ == "__main__":
    sys.exit(main(sys.argv[1:]))
