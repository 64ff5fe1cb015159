#!/usr/bin/env python3
"""Plain models of the machines that go a step at a time, and schedules for them: `model/step_machines.py SEED LINES` prints some.

A call is a generator: it yields the access that it makes next, and is sent what the word held. Its begin is a step that touches no word,
and so is its last one. A party's step that doesn't fit is skipped. What each call does word by word is what the doc comments of its
stages say: `RingMachine`, `SetMachine`, `IndexSetMachine`, `AtomicMachine`, `RobustSetMachine` and `ContainerMachine`. `Plain` is a
`BitSet`, which has no steps.

A schedule is a block of `crates/script_cases`: its first line says which machine, each further one what a party does.
"""
import random
import re
import sys

WENT, SKIPPED = "Went", "Skipped"
LOCAL = ("local",)
LOCK = "locked for good"
RINGS = ("overflowing", "refusing")


class Begun:
    """A call under way: its generator, the access that it makes next, and its answer, once it has one."""

    def __init__(self, call):
        self.call, self.access, self.answer = call, LOCAL, None
        self.acts_for = None
        self.advance(None)

    def advance(self, held):
        try:
            self.access = self.call.send(held)
        except StopIteration as end:
            self.access, self.answer = None, end.value


class Machine:
    """Words, and parties of which each is between calls or inside one."""

    def __init__(self, **sizes):
        self.sizes, self.words, self.calls, self.steps = sizes, {}, {}, 0
        self.capacity, self.parties = sizes.get("capacity", 1), range(sizes.get("parties", 1))

    def apply(self, kind, word=None, first=None, second=None):
        """What the word held, which the access may change."""
        held = self.words.get(word, 0)
        if kind == "store" or kind == "exchange" and held == first:
            self.words[word] = first if kind == "store" else second
        return held

    def may_begin(self, party, verb, *numbers):
        return True

    def may_go_on(self, party, begun):
        return True

    def ends_at_once(self):
        """Whether a call is a single step."""
        return False

    def begin(self, party, verb, *numbers):
        if party not in self.parties or party in self.calls or not self.may_begin(party, verb, *numbers):
            return SKIPPED
        self.steps += 1
        self.calls[party] = Begun(getattr(self, f"call_{verb}")(party, *numbers))
        self.has_begun(party, verb, *numbers)
        return WENT

    def has_begun(self, party, verb, *numbers):
        """What else a begin does."""

    def make_access(self, party, begun):
        begun.advance(self.apply(*begun.access))

    def go_on(self, party):
        begun = self.calls.get(party)
        if begun is None or not self.may_go_on(party, begun):
            return SKIPPED
        self.steps += 1
        if begun.access is None:
            del self.calls[party]
            return begun.answer
        self.make_access(party, begun)
        return WENT

    def go(self, party, steps):
        told = WENT
        for _ in range(steps):
            told = self.go_on(party)
            if told != WENT:
                break
        return told

    def answer_once(self, line):
        """What a line answers that is said once."""
        words = line.split(" ")
        if not words[0].isdigit():
            return self.seen(*words)
        party, is_begin = int(words[0]), words[1] == "begin"
        verb, *numbers = words[2:] if is_begin else words[1:]
        numbers = [it == "lock" if it in ("lock", "keep") else int(it) for it in numbers]
        if verb == "go":
            return self.go(party, *numbers)
        told = self.begin(party, verb, *numbers)
        return told if is_begin or told == SKIPPED or self.ends_at_once() else self.go(party, 100_000)

    def answer(self, line):
        counted = re.fullmatch(r"(\d+) times (.*)", line)
        times, once = (int(counted[1]), counted[2]) if counted else (1, line)
        told = [" ".join(map(self.answer_once, once.replace("#", str(time + 1)).split("; "))) for time in range(times)]
        # A time that is answered as the time before isn't told.
        return " ".join([line, "->", *(it for at, it in enumerate(told) if at == 0 or it != told[at - 1])])

    def seen(self, what, place="0"):
        return str(self.steps)


def is_so(holds):
    return "true" if holds else "false"


# ------------------------------------------------------------------------------------------------------------- rings


class Ring(Machine):
    """Party 0 pushes, party 1 pops and looks. The order isn't the model's."""

    def __init__(self, overflows, **sizes):
        super().__init__(**{**sizes, "parties": 2})
        self.overflows, self.cells = overflows, self.capacity + overflows or 1

    def may_begin(self, party, verb, *numbers):
        return (party == 0) == (verb == "push")

    def cell(self, position):
        return ("cell", position % self.cells)

    def call_push(self, _party, value):
        write = yield "load", "write"
        read = yield "load", "read"
        is_full = write - read == self.capacity
        if is_full and not self.overflows:
            return "refused"
        yield "store", self.cell(write), value
        yield "store", "write", write + 1
        if is_full:
            oldest = yield "load", self.cell(read)
            if (yield "exchange", "read", read, read + 1) == read:
                return str(oldest)
        return "kept"

    def call_pop(self, _party):
        read = yield "load", "read"
        if (yield "load", "write") == read:
            return "none"
        while True:
            oldest = yield "load", self.cell(read)
            if not self.overflows:
                yield "store", "read", read + 1
                return str(oldest)
            found = yield "exchange", "read", read, read + 1
            if found == read:
                return str(oldest)
            read = found

    def call_look(self, _party):
        read = yield "load", "read"
        return is_so((yield "load", "write") != read)


# ---------------------------------------------------------------------------------------------------------- bit sets


class Bits(Machine):
    def may_begin(self, party, verb, place=0):
        return place < self.capacity

    def call_set(self, _party, place):
        count = yield "load", ("cell", place)
        while count < self.sizes.get("max", 1):
            found = yield "exchange", ("cell", place), count, count + 1
            if found == count:
                return "true"
            count = found
        return "false"

    def take_out(self, place):
        """Whether the place was taken out, which isn't 0."""
        count = yield "load", ("cell", place)
        while count:
            found = yield "exchange", ("cell", place), count, 0
            if found == count:
                return True
            count = found
        return False

    def call_next(self, _party):
        begin = yield "load", "next"
        begin = begin if begin < self.capacity else 0
        for place in [*range(begin, self.capacity), *range(begin)]:
            if (yield from self.take_out(place)):
                yield "store", "next", place + 1
                return str(place)
        return "none"

    def call_all(self, _party):
        for place in range(self.capacity):
            yield from self.take_out(place)
        return "swept"

    def seen(self, what, place="0"):
        return str(self.words.get(("cell", int(place)), 0)) if what == "count" else super().seen(what)


class Plain(Machine):
    """A set of numbers, each of whose calls is a single step: its begin tells the answer."""

    def __init__(self, **sizes):
        super().__init__(**sizes)
        self.members, self.next = set(), 0

    def begin(self, party, verb, place=None):
        if verb == "set":
            told = SKIPPED if place >= self.capacity else is_so(place not in self.members)
            self.members |= {place} if told != SKIPPED else set()
            return told
        if not self.members:
            return "none"
        place = min(self.members, key=lambda it: (it < self.next, it))
        self.members.remove(place)
        self.next = place + 1
        return str(place)

    def go(self, party, steps):
        return SKIPPED

    def ends_at_once(self):
        return True


# ------------------------------------------------------------------------------------------------------ index sets


class Indices(Machine):
    """The head is the next free index, how often the head changed, and how many indices are out."""

    def __init__(self, **sizes):
        super().__init__(**sizes)
        self.words = {"head": (0, 0, 0), **{("cell", it): it + 1 for it in range(self.capacity)}}
        self.holders = {}

    def may_begin(self, party, verb, index=None, *_):
        return verb == "acquire" or self.holders.get(index) == party

    def has_begun(self, party, verb, index=None, *_):
        # What is to be given back is given back once.
        if verb == "release":
            del self.holders[index]

    def call_acquire(self, party):
        head = yield "load", "head"
        while True:
            index, changes, out = head
            if index >= self.capacity:
                return "out"
            if out == LOCK:
                return "is-locked"
            behind = yield "load", ("cell", index)
            found = yield "exchange", "head", head, (behind, changes + 1, out + 1)
            if found == head:
                self.holders[index] = party
                return str(index)
            head = found

    def call_release(self, _party, index, _=0, locks=False):
        head = yield "load", "head"
        while True:
            free, changes, out = head
            yield "store", ("cell", index), free
            is_last = locks and out == 1
            found = yield "exchange", "head", head, (index, changes + 1, LOCK if is_last else out - 1)
            if found == head:
                return "locked" if is_last else "unlocked"
            head = found

    def seen(self, what, place="0"):
        return is_so(self.words["head"][2] == LOCK) if what == "locked" else super().seen(what)


# ----------------------------------------------------------------------------------------------------- single values


def word_of(digit, place):
    return digit * 10**place


class Value(Machine):
    """Two halves of the cells in turn, and a counter that says which one is current."""

    def __init__(self, **sizes):
        super().__init__(**sizes)
        self.width, self.is_storing = sizes.get("words", 1), False

    def may_begin(self, party, verb, number=0):
        return verb == "load" or not any(begun.stores for begun in self.calls.values())

    def has_begun(self, party, verb, *numbers):
        self.calls[party].stores = verb == "store"

    def call_store(self, _party, number):
        counter = yield "load", "counter"
        for place in range(self.width):
            yield "store", ("cell", 1 - counter % 2, place), word_of(number, place)
        yield "store", "counter", counter + 1
        return "stored"

    def call_load(self, _party):
        counter, loaded = (yield "load", "counter"), 0
        while True:
            for place in range(self.width):
                loaded += yield "load", ("cell", counter % 2, place)
            found = yield "load", "counter"
            if found == counter:
                return str(loaded)
            counter = found


# ---------------------------------------------------------------------------------------- sets that know their holders


def decided(number, index):
    """By list 0 each index is freed, by list 1 each that 2 divides, by list 2 each that 3 divides; by no other any."""
    return number < 3 and index % (number + 1) == 0


class Robust(Machine):
    """Each index has a cell, which names its owner, or the owner that is about to take it; a count is locked for good, or counted up."""

    def __init__(self, **sizes):
        super().__init__(**sizes)
        self.lost, self.holders, self.insists = set(), {}, False

    def cell(self, index):
        return ("cell", index)

    def may_begin(self, party, verb, owner, index=None, *_):
        if verb == "release":
            holds = self.holders.get(index) == party and self.words.get(self.cell(index), 0) == owner
            return owner not in self.lost and holds
        return verb == "recover" or owner not in self.lost

    def has_begun(self, party, verb, owner, *_):
        if verb == "recover":
            self.lost.add(owner)
        else:
            self.calls[party].acts_for = owner

    def may_go_on(self, party, begun):
        return begun.access is None or begun.acts_for not in self.lost

    def make_access(self, party, begun):
        access = begun.access
        super().make_access(party, begun)
        # What is freed is nobody's; from then on a release acts for nobody.
        if access[0] == "exchange" and access[-1] == 0 and access[1] != "count":
            if self.words.get(access[1]) == 0:
                self.holders.pop(access[1][1], None)
            begun.acts_for = None

    def call_acquire(self, party, owner):
        count = yield "load", "count"
        if count == LOCK:
            return "is-locked"
        for index in range(self.capacity):
            if (yield "exchange", self.cell(index), 0, ("reserved", owner)) != 0:
                continue
            while True:
                found = yield "exchange", "count", count, count + 1
                if found == LOCK:
                    yield "store", self.cell(index), 0
                    return "is-locked"
                if found == count:
                    yield "store", self.cell(index), owner
                    self.holders[index] = party
                    return str(index)
                count = found
        return "out"

    def settle(self, locks):
        """What a call that freed its indices answers."""
        if not locks:
            return "unlocked"
        count = yield "load", "count"
        if count == LOCK:
            return "locked"
        for index in range(self.capacity):
            if (yield "load", self.cell(index)) != 0:
                return "unlocked"
        found = yield "exchange", "count", count, LOCK
        return "locked" if found in (count, LOCK) else "unlocked"

    def call_release(self, _party, owner, index, locks=False):
        yield "exchange", self.cell(index), owner, 0
        return (yield from self.settle(locks))

    def call_recover(self, _party, owner, number, locks=False):
        for index in range(self.capacity):
            found = yield "load", self.cell(index)
            if found in (owner, ("reserved", owner)) and (self.insists or decided(number, index)):
                yield "exchange", self.cell(index), found, 0
        return (yield from self.settle(locks))

    def seen(self, what, place="0"):
        return is_so(self.words.get("count") == LOCK) if what == "locked" else super().seen(what)


# ------------------------------------------------------------------------------------------------ containers of members


class Members(Machine):
    """Each place has a count, odd where a member is in, and the words of its value; a call asks the set of indices for its steps."""

    def __init__(self, **sizes):
        super().__init__(**sizes)
        self.set, self.width, self.saw = Robust(**sizes), sizes.get("words", 1), {}

    def may_begin(self, party, verb, owner=None, index=None, *_):
        if verb == "update":
            return True
        if verb == "add":
            return party not in self.set.calls and self.set.may_begin(party, "acquire", owner)
        asked = "release" if verb == "remove" else "recover"
        fits = party not in self.set.calls and self.set.may_begin(party, asked, owner, index)
        return fits and (verb == "recover" or self.words.get(("shown", index), 0) % 2 == 1)

    def has_begun(self, party, verb, owner=None, *_):
        if verb == "add":
            self.set.begin(party, "acquire", owner)

    def may_go_on(self, party, begun):
        access = begun.access
        kind = access[0] if access else None
        if kind in ("acts load", "acts store"):
            return access[-1] not in self.set.lost
        if kind == "set begins":
            return party not in self.set.calls and self.set.may_begin(party, *access[1:])
        if kind in ("set goes on", "set looks"):
            its = self.set.calls.get(party)
            return its is not None and self.set.may_go_on(party, its)
        return True

    def make_access(self, party, begun):
        access = begun.access
        if access[0] == "set begins":
            begun.advance(self.set.begin(party, *access[1:]))
        elif access[0] == "set goes on":
            begun.advance(self.set.go_on(party))
        elif access[0] == "set looks":
            # Whether the set is about to free the index.
            self.set.insists = access[1]
            self.set.go_on(party)
            self.set.insists = False
            its = self.set.calls[party].access
            begun.advance(its is not None and its[0] == "exchange" and its[1] != "count")
        elif access[0].startswith("acts "):
            begun.advance(self.apply(access[0][5:], *access[1:-1]))
        else:
            super().make_access(party, begun)

    def of_set(self):
        """The answer of the set's call, once it has ended."""
        while True:
            told = yield ("set goes on",)
            if told != WENT:
                return told

    def count_change(self):
        seen = yield "load", "changes"
        while True:
            found = yield "exchange", "changes", seen, seen + 1
            if found == seen:
                return
            seen = found

    def call_add(self, _party, owner, number):
        index = yield from self.of_set()
        if not index.isdigit():
            return index
        for place in range(self.width):
            yield "acts store", ("word", int(index), place), word_of(number, place), owner
        shown = yield "acts load", ("shown", int(index)), owner
        yield "acts store", ("shown", int(index)), shown + 1, owner
        yield from self.count_change()
        return index

    def call_remove(self, _party, owner, index, locks=False):
        shown = yield "acts load", ("shown", index), owner
        yield "acts store", ("shown", index), shown + 1, owner
        yield "set begins", "release", owner, index, locks
        state = yield from self.of_set()
        yield from self.count_change()
        return state

    def call_recover(self, _party, owner, number, locks=False):
        yield "set begins", "recover", owner, number, locks
        for index in range(self.capacity):
            shown = yield "load", ("shown", index)
            if (yield "set looks", shown % 2 == 0):
                if shown % 2 == 1:
                    yield "exchange", ("shown", index), shown, shown + 1
                yield ("set goes on",)
        state = yield from self.of_set()
        yield from self.count_change()
        return state

    def call_update(self, party):
        changes = yield "load", "changes"
        if changes == self.saw.get(party, 0):
            return "none"
        self.saw[party] = changes
        loaded = 0
        for index in range(self.capacity):
            shown = yield "load", ("shown", index)
            while shown % 2 == 1:
                for place in range(self.width):
                    loaded += yield "load", ("word", index, place)
                found = yield "load", ("shown", index)
                if found == shown:
                    break
                shown = found
        return str(loaded)

    def seen(self, what, place="0"):
        return self.set.seen(what) if what == "locked" else super().seen(what)


def machine_of(head):
    """The machine that the first line of a block names."""
    kind, *sizes = head.split(" ")[1:]
    sizes = {key: int(size) for key, size in (it.split("=") for it in sizes)}
    if kind in RINGS:
        return Ring(kind == "overflowing", **sizes)
    return {"bits": Bits, "plain": Plain, "indices": Indices, "value": Value, "robust": Robust, "members": Members}[kind](**sizes)


def answers(head, lines):
    """The lines of a block with what the model answers."""
    machine = machine_of(head)
    return [machine.answer(it) for it in lines]


# ------------------------------------------------------------------------------------------------------------ schedules

CAPACITIES = (1, 2, 3, 7, 64)
OWNERS = (7, 9, 11)


def ring_call(chance, machine, party):
    return f"push {chance.randrange(1, 1000)}" if party == 0 else chance.choice(("pop", "pop", "pop", "look"))


def bits_call(chance, machine, party):
    return chance.choice((f"set {chance.randrange(machine.capacity)}",) * 4 + ("next", "next", "all"))


def plain_call(chance, machine, party):
    return chance.choice((f"set {chance.randrange(machine.capacity + 1)}",) * 3 + ("next",))


def indices_call(chance, machine, party):
    held = [it for it, holder in machine.holders.items() if holder == party]
    if held and chance.random() < 0.5:
        return f"release {chance.choice(held)} 0 {chance.choice(('keep',) * 20 + ('lock',))}"
    return "acquire"


def value_call(chance, machine, party):
    return chance.choice(("load", "load", f"store {chance.randrange(10)}"))


def robust_call(chance, machine, party, verbs=("acquire", "release")):
    indices = getattr(machine, "set", machine)
    held = [it for it, holder in indices.holders.items() if holder == party]
    lock = chance.choice(("keep",) * 9 + ("lock",))
    if chance.random() < 0.02:
        return f"recover {chance.choice(OWNERS)} {chance.randrange(4)} {lock}"
    if held and chance.random() < 0.5:
        index = chance.choice(held)
        owner = indices.words.get(("cell", index))
        return f"{verbs[1]} {owner if isinstance(owner, int) else 7} {index} {lock}"
    return f"{verbs[0]} {chance.choice((*OWNERS, chance.randrange(1, 2**63)))}"


def members_call(chance, machine, party):
    if chance.random() < 0.3:
        return "update"
    call = robust_call(chance, machine, party, ("add", "remove"))
    return f"{call} {chance.randrange(10)}" if call.startswith("add") else call


KINDS = {
    "overflowing": (ring_call, ()),
    "refusing": (ring_call, ()),
    "bits": (bits_call, ("parties", "max")),
    "plain": (plain_call, ()),
    "indices": (indices_call, ("parties",)),
    "value": (value_call, ("parties", "words")),
    "robust": (robust_call, ("parties",)),
    "members": (members_call, ("parties", "words")),
}


def head_of(chance, kind):
    most = {"parties": (1, 2, 4), "max": (1, 2, 3, 1000), "words": (1, 2, 3)}
    sizes = [f"{it}={chance.choice(most[it])}" for it in KINDS[kind][1]]
    return " ".join(["steps", kind, *([] if kind == "value" else [f"capacity={chance.choice(CAPACITIES)}"]), *sizes])


def line_of(chance, kind, machine):
    """What a party does next: it goes on, or makes a call or begins one; now and then what doesn't fit."""
    party = chance.randrange(len(machine.parties))
    if party in machine.calls and chance.random() < 0.95:
        return f"{party} go {chance.choice((1, 1, 1, 2, 3, 5, 70))}"
    return f"{party} {chance.choice(('', 'begin ', 'begin '))}{KINDS[kind][0](chance, machine, party)}"


def schedule(chance, kind, lines):
    """A block: its title, the line that says which machine, and so many lines with the model's answers."""
    head = head_of(chance, kind)
    machine = machine_of(head)
    told = [machine.answer(line_of(chance, kind, machine)) for _ in range(lines)]
    return [f"a schedule of chance: {kind}", head, *told, *([] if machine.ends_at_once() else [machine.answer("steps")])]


def schedules(seed, lines):
    chance = random.Random(seed)
    return [schedule(chance, kind, lines) for kind in KINDS for _ in range(3)]


if __name__ == "__main__":
    if len(sys.argv) != 3:
        sys.exit(__doc__.split("\n\n")[0])
    print("\n\n".join("\n".join(it) for it in schedules(int(sys.argv[1]), int(sys.argv[2]))))
