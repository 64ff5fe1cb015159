#!/usr/bin/env python3
"""A Python model of the machine that a script drives: a script on standard input, one reply a line on standard output.

It follows docs/FORMATS.md and nothing else of this repository, keeps lists and searches them, and lacks memory only where it is told to.
What the program answers to a script with memory to spare is what this answers.
"""
import sys
from contextlib import suppress
from pathlib import Path

sys.dont_write_bytecode = True
sys.path.insert(0, str(Path(__file__).resolve().parent))
from script_lines import NUMBER, PATTERNS, SETTINGS, Faulty, read_command

LONGEST_LINE = 1024
MOST_SLOTS = 2**32 - 1
MOST_SEGMENTS = 255
ROUNDS = 5
EXPIRED_ROOM = 128


class Skip(Exception):
    """The command's condition fails: its text says which."""


class Refused(Exception):
    """The call answers this error, for what the reason says where the error doesn't."""

    def __init__(self, error, reason=None):
        super().__init__(error)
        self.reason = reason


# ------------------------------------------------------------------------------------- names and who is in them


class Life:
    """A service from its publication on: what was agreed, its nodes with their numbers of factories, and its ports here."""

    def __init__(self, agreed, attributes, node):
        self.agreed, self.attributes = agreed, attributes
        self.nodes = [[node, 1]]
        self.emptied_by = None
        self.domain = None

    def copy(self):
        life = Life(self.agreed, self.attributes, None)
        life.nodes, life.emptied_by = [[*it] for it in self.nodes], self.emptied_by
        return life

    def place_of(self, node):
        return [it for it in self.nodes if it[0] == node]

    def has_room(self):
        return len(self.nodes) < self.agreed["nodes"]

    def leave(self, node):
        entry = self.place_of(node)[0]
        entry[1] -= 1
        if entry[1] == 0:
            self.nodes.remove(entry)
        if not self.nodes:
            self.emptied_by = node


class Names:
    """Of each pattern and name: nothing, who is creating it, or its life."""

    def __init__(self):
        self.phases = {}

    def act(self, service, what, node, named):
        """A step of a foreign node; one that doesn't fit changes nothing."""
        phase = self.phases.get(service)
        creating = phase == node
        living = isinstance(phase, Life)
        if what == "lock" and phase is None:
            self.phases[service] = node
        elif what == "giveup" and creating:
            del self.phases[service]
        elif what in ("publish", "publish1") and creating:
            agreed = adjusted(service[0], named)
            # The first version of descriptions can't tell that messages have numbers.
            is_told = what == "publish" or not agreed.get("sequence", False)
            if is_told and within_limits(service[0], agreed):
                self.phases[service] = Life(agreed, [], node)
        elif what == "register" and living and phase.nodes and not phase.place_of(node) and phase.has_room():
            phase.nodes.append([node, 1])
        elif what == "leave" and living and phase.place_of(node):
            phase.leave(node)
        elif what == "remove" and living and phase.emptied_by == node:
            del self.phases[service]


def adjusted(pattern, named):
    """The settings that a creation asks: defaults, what is named, and no number below its least."""
    asked = {}
    for key, kind, default, least, _, _ in SETTINGS[pattern]:
        value = named.get(key, default)
        asked[key] = max(value, least) if kind == NUMBER else value
    return asked


def within_limits(pattern, asked):
    return all(asked[key] < end for key, kind, _, _, end, _ in SETTINGS[pattern] if kind == NUMBER)


def verdict(pattern, named, required, life):
    """Refuses with the first thing that is asked and not agreed."""
    for key, value in [it for it in required if it[1] is not None]:
        if (key, value) not in life.attributes:
            raise Refused("IncompatibleAttributes")
    for key, value in [it for it in required if it[1] is None]:
        if key not in [it[0] for it in life.attributes]:
            raise Refused("IncompatibleAttributes")
    for key, kind, _, _, _, error in SETTINGS[pattern]:
        if key in named:
            agreed = life.agreed[key]
            if agreed < named[key] if kind == NUMBER else agreed != named[key]:
                raise Refused(error)


class NextRound(Exception):
    """The round leads to the next one."""


class NotConnected(Exception):
    """No memory is found for a connection."""


class Agreeing:
    """One call of `create`, `open` or `open_or_create`, with the foreign steps before each of its accesses."""

    def __init__(self, names, node, service, named, attributes, lists):
        self.names, self.node, self.service = names, ("n", node), service
        self.named, self.attributes, self.lists = named, attributes, lists
        self.accesses = 0

    def access(self):
        """Runs what others do before the next access, and shows the phase that it meets."""
        self.accesses += 1
        for step in self.lists.get(self.accesses, []):
            self.names.act(self.service, *step)
        return self.names.phases.get(self.service)

    def look(self):
        phase = self.access()
        if phase is not None and not isinstance(phase, Life):
            raise Refused("HangsInCreation")
        return phase

    def asked(self):
        """The settings to create with, or the refusal that needs no access."""
        asked = adjusted(self.service[0], self.named)
        if not within_limits(self.service[0], asked):
            raise Refused("InternalFailure")
        if self.service[0] == "ps" and not asked["overflow"] and asked["buffer"] < asked["history"]:
            raise Refused("SubscriberBufferMustBeLargerThanHistorySize")
        return asked

    def lock_and_publish(self, asked, is_locked, exists):
        """The accesses of a creation after its look; what it answers where another node was faster is handed in."""
        phase = self.access()
        if phase is not None:
            raise exists if isinstance(phase, Life) else is_locked
        self.names.phases[self.service] = self.node
        self.access()
        self.access()
        pairs = [it for it in self.attributes if it[1] is not None]
        life = self.names.phases[self.service] = Life(asked, pairs, self.node)
        return life

    def enter(self, life):
        """The rest of a round whose look found this life."""
        verdict(self.service[0], self.named, self.attributes, life)
        if self.access() is not life:
            raise NextRound
        if life.emptied_by is not None:
            raise Refused("IsMarkedForDestruction")
        if life.place_of(self.node):
            life.place_of(self.node)[0][1] += 1
        elif life.has_room():
            life.nodes.append([self.node, 1])
        else:
            raise Refused("ExceedsMaxNumberOfNodes")
        return life

    def create(self):
        asked = self.asked()
        if self.look() is not None:
            raise Refused("AlreadyExists")
        return self.lock_and_publish(asked, Refused("IsBeingCreatedByAnotherInstance"), Refused("AlreadyExists"))

    def open(self):
        for _ in range(ROUNDS):
            life = self.look()
            if life is None:
                raise Refused("DoesNotExist")
            try:
                return self.enter(life)
            except NextRound:
                pass
        raise Refused("ServiceInCorruptedState")

    def open_or_create(self):
        kind = PATTERNS[self.service[0]]
        for _ in range(ROUNDS):
            wrapped = f"{kind}OpenError"
            try:
                life = self.look()
                if life is not None:
                    return self.enter(life)
                wrapped = f"{kind}CreateError"
                return self.lock_and_publish(self.asked(), NextRound(), NextRound())
            except NextRound:
                pass
            except Refused as why:
                raise Refused(f"{wrapped}({why})") from None
        raise Refused("SystemInFlux")


# -------------------------------------------------------------------------------------------- ports and messages


class Factory:
    def __init__(self, node, service, life):
        self.node, self.service, self.life = ("n", node), service, life


class Domain:
    """The ports of one service: who stands at which place, and how often each list changed."""

    def __init__(self, agreed):
        self.agreed = agreed
        self.publishers, self.subscribers = [None] * agreed["publishers"], [None] * agreed["subscribers"]
        self.publisher_changes = self.subscriber_changes = 0
        self.connections = []

    def has_memory(self):
        """Whether memory is found for one more connection."""
        return True

    def connection(self, publisher, subscriber):
        """The connection of the two, made by whichever end comes first."""
        known = [it for it in self.connections if it.publisher is publisher and it.subscriber is subscriber]
        if not known:
            if not self.has_memory():
                raise NotConnected
            known = [Connection(publisher, subscriber)]
            self.connections += known
        return known[0]

    def let_go(self, connection):
        """Forgets a connection that one end has ended, once the other end has left."""
        self.connections = [it for it in self.connections if it is not connection]


class Connection:
    def __init__(self, publisher, subscriber):
        self.publisher, self.subscriber = publisher, subscriber
        self.waiting, self.borrowed = [], []
        self.is_attached = False

    def is_full(self):
        return len(self.waiting) == self.subscriber.buffer

    def is_idle(self):
        return not self.waiting and not self.borrowed


class Message:
    """The values are None until they are written. They stay as they are from the send on, and so does the number that it gives."""

    def __init__(self, publisher, segment, values):
        self.publisher, self.segment, self.values = publisher, segment, values
        self.sequence = None


class Loan:
    def __init__(self, message, length):
        self.message, self.length = message, length


class Sample:
    def __init__(self, factory, connection, message):
        self.factory, self.connection, self.message = factory, connection, message


class Publisher:
    def __init__(self, factory, options):
        agreed, domain = factory.life.agreed, factory.life.domain
        self.factory, self.domain = factory, domain
        self.most_loans, self.history_size = options.get("loans", 2), agreed["history"]
        self.strategy, self.handler = options.get("strategy", "retry"), options.get("handler", "follow")
        self.alloc, self.segments = options.get("alloc", "static"), [options.get("slice", 1)]
        worst = agreed["subscribers"] * (agreed["buffer"] + agreed["borrowed"]) + agreed["history"] + self.most_loans
        if worst > MOST_SLOTS or self.segments[0] > MOST_SLOTS:
            raise Refused("PublisherCreateError::UnableToCreateDataSegment")
        if None not in domain.publishers:
            raise Refused("PublisherCreateError::ExceedsMaxSupportedPublishers")
        self.slots = min(max(options.get("slots", worst), 1), worst)
        self.loans, self.history, self.blocked, self.has_left = [], [], None, False
        self.links, self.ended, self.seen = {}, [], None
        self.last_sequence = 0 if agreed["sequence"] else None
        self.update()
        domain.publishers[domain.publishers.index(None)] = self
        domain.publisher_changes += 1

    def update(self):
        """Ends connections to subscribers that left, and makes those to new ones, which get of the history what fits."""
        if self.seen == self.domain.subscriber_changes:
            return
        self.seen = self.domain.subscriber_changes
        for place, subscriber in enumerate(self.domain.subscribers):
            link = self.links.get(place)
            if link is not None and link.subscriber is not subscriber:
                link.waiting = []
                self.ended.append(link)
                self.domain.let_go(link)
                del self.links[place]
            if subscriber is not None and place not in self.links:
                with suppress(NotConnected):
                    link = self.links[place] = self.domain.connection(self, subscriber)
                    link.waiting += self.history[-subscriber.buffer :]

    def in_use(self):
        """The messages of the current segment whose slots aren't free."""
        self.ended = [it for it in self.ended if it.borrowed]
        messages = [it.message for it in self.loans] + self.history
        for link in list(self.links.values()) + self.ended:
            messages += link.waiting + link.borrowed
        return {id(it) for it in messages if it.segment == len(self.segments)}

    def loan(self, length, values):
        if self.alloc == "static" and length > self.segments[-1]:
            raise Refused("LoanError::ExceedsMaxLoanSize")
        if len(self.loans) >= self.most_loans:
            raise Refused("LoanError::ExceedsMaxLoans")
        if length > self.segments[-1]:
            longer = length if self.alloc == "best" else 1 << (length - 1).bit_length()
            if longer > MOST_SLOTS or len(self.segments) == MOST_SEGMENTS:
                raise Refused("LoanError::OutOfMemory")
            self.segments.append(longer)
        if len(self.in_use()) >= self.slots:
            raise Refused("LoanError::OutOfMemory")
        loan = Loan(Message(self, len(self.segments), values), length)
        self.loans.append(loan)
        return loan

    def send(self, loan):
        if self.has_left:
            self.loans.remove(loan)
            raise Refused("SendError::ConnectionBrokenSinceSenderNoLongerExists")
        self.update()
        if self.last_sequence is not None:
            self.last_sequence += 1
            loan.message.sequence = self.last_sequence
        if self.history_size > 0:
            self.history = (self.history + [loan.message])[-self.history_size :]
        self.blocked = Blocked(loan, [self.links[it] for it in sorted(self.links)])
        return self.go_on()

    def go_on(self):
        """The blocked send goes over the places that are left, and waits at the first where it has to."""
        send = self.blocked
        while send.left:
            link = send.left[0]
            if link.is_full():
                if self.domain.agreed["overflow"]:
                    link.waiting.pop(0)
                elif link.is_attached and not link.subscriber.has_left:
                    action = self.strategy if self.handler == "follow" else self.handler
                    if action == "retry":
                        return None
                    send.is_failed |= action == "fail"
            if not link.is_full():
                link.waiting.append(send.loan.message)
                send.taken += 1
            send.left.pop(0)
        self.give_up()
        if send.is_failed:
            raise Refused("SendError::UnableToDeliver")
        return send.taken

    def give_up(self):
        send, self.blocked = self.blocked, None
        self.loans.remove(send.loan)
        return send.taken

    def leave(self):
        self.has_left = True
        self.domain.publishers[self.domain.publishers.index(self)] = None
        self.domain.publisher_changes += 1


class Blocked:
    """A send under way: the connections that it hasn't tried yet, and how many took it."""

    def __init__(self, loan, left):
        self.loan, self.left = loan, left
        self.taken, self.is_failed = 0, False


class Subscriber:
    """Its connections stand under keys, and at the place of their publisher or in the list of those that expired."""

    def __init__(self, factory, options):
        self.factory, self.domain = factory, factory.life.domain
        self.most_borrowed = self.domain.agreed["borrowed"]
        self.buffer = max(options.get("buffer", self.domain.agreed["buffer"]), 1)
        self.degrade = options.get("degrade", "warn")
        if self.buffer > self.domain.agreed["buffer"]:
            raise Refused("SubscriberCreateError::BufferSizeExceedsMaxSupportedBufferSizeOfService")
        if None not in self.domain.subscribers:
            raise Refused("SubscriberCreateError::ExceedsMaxSupportedSubscribers")
        self.room = max(EXPIRED_ROOM, self.most_borrowed)
        self.keys, self.freed_keys, self.next_key = {}, [], 0
        self.at, self.expired, self.seen, self.has_left = {}, [], None, False
        self.update()
        self.domain.subscribers[self.domain.subscribers.index(None)] = self
        self.domain.subscriber_changes += 1

    def attach(self, place, publisher):
        link = self.domain.connection(publisher, self)
        key = self.freed_keys.pop() if self.freed_keys else self.next_key
        self.next_key += key == self.next_key
        self.keys[key] = self.at[place] = link
        self.at[place].is_attached = True

    def forget(self, link):
        """The connection ends: its key is the next that is given."""
        key = [it for it in self.keys if self.keys[it] is link][0]
        del self.keys[key]
        self.freed_keys.append(key)
        self.domain.let_go(link)

    def makes_room(self, place):
        """Whether the connection at this place, whose publisher left, ended or expired; else it stays."""
        link = self.at[place]
        idle = [it for it in self.expired if it.is_idle()]
        unborrowed = [it for it in self.expired if not it.borrowed]
        if link.is_idle():
            leaves = link
        elif len(self.expired) < self.room:
            leaves = None
        elif idle:
            leaves = idle[0]
        elif not link.borrowed:
            leaves = link
        elif unborrowed:
            leaves = unborrowed[0]
        else:
            return False
        del self.at[place]
        if leaves is not link:
            self.expired = [it for it in self.expired if it is not leaves] + [link]
        if leaves is not None:
            self.forget(leaves)
        return True

    def update(self):
        if self.seen == self.domain.publisher_changes:
            return
        self.seen, is_failed = self.domain.publisher_changes, False
        listed = list(enumerate(self.domain.publishers))
        for place, publisher in listed:
            link = self.at.get(place)
            if publisher is not None and (link is None or link.publisher is not publisher):
                if link is None or self.makes_room(place):
                    with suppress(NotConnected):
                        self.attach(place, publisher)
                else:
                    is_failed = True
        for place, publisher in listed:
            if publisher is None and place in self.at:
                self.makes_room(place)
        if is_failed:
            self.seen = None
            if self.degrade == "fail":
                raise Refused("ConnectionFailure::FailedToEstablishConnection(ExpiredConnectionBufferFull)")

    def receive(self):
        """The sample that is received, or None."""
        try:
            self.update()
        except Refused as why:
            raise Refused(f"ReceiveError::ConnectionFailure({str(why).partition('::')[2]})") from None
        link = self.next_to_give()
        if link is not None:
            return self.take(link)
        if self.has_data():
            raise Refused("ReceiveError::ExceedsMaxBorrows")
        return None

    def next_to_give(self):
        """The connection whose oldest message is received; expired ones with nothing left end on the way to it."""
        for link in list(self.expired):
            if self.may_give(link):
                return link
            if link.is_idle():
                self.expired.remove(link)
                self.forget(link)
        return next((self.keys[key] for key in sorted(self.keys) if self.may_give(self.keys[key])), None)

    def may_give(self, link):
        return bool(link.waiting) and len(link.borrowed) < self.most_borrowed

    def has_data(self):
        return any(it.waiting for it in self.keys.values())

    def take(self, link):
        message = link.waiting.pop(0)
        link.borrowed.append(message)
        return Sample(self.factory, link, message)

    def leave(self):
        self.has_left = True
        self.domain.subscribers[self.domain.subscribers.index(self)] = None
        self.domain.subscriber_changes += 1


# --------------------------------------------------------------------------------------------------- the machine


class Machine:
    """All that was made, under its numbers: what is spent is None there."""

    def __init__(self):
        self.names = Names()
        self.made = {letter: [] for letter in "nfpslm"}
        # How what is spent ended, and why the last line was skipped or refused, in words.
        self.ends, self.reason = {}, None

    def answer(self, line):
        """The reply to one line."""
        self.reason = None
        if len(line) > LONGEST_LINE:
            return "err line too long"
        try:
            verb, *rest = read_command(line)
            return getattr(self, f"on_{verb}")(*rest)
        except Faulty:
            return "err faulty line"
        except Skip as why:
            self.reason = str(why)
            return "skip"
        except Refused as why:
            self.reason = why.reason
            return f"err {why}"

    def add(self, letter, value):
        self.made[letter].append(value)
        return f"ok {letter}{len(self.made[letter])}"

    def get(self, letter, number):
        if not 1 <= number <= len(self.made[letter]):
            raise Skip(f"{letter}{number} doesn't exist")
        if self.made[letter][number - 1] is None:
            raise Skip(f"{letter}{number} {self.ends[letter, number]}")
        return self.made[letter][number - 1]

    def spend(self, letter, number, how):
        self.made[letter][number - 1] = None
        self.ends[letter, number] = how

    def name_of(self, letter, value):
        """What a living value goes by."""
        return f"{letter}{[it is value for it in self.made[letter]].index(True) + 1}"

    def living(self, letter):
        return [it for it in self.made[letter] if it is not None]

    def on_node(self):
        return self.add("n", True)

    def agree(self, verb, error, node, pattern, name, named, attributes, lists):
        self.get("n", node)
        call = Agreeing(self.names, node, (pattern, name), named, attributes, lists)
        try:
            life = getattr(call, verb)()
        except Refused as why:
            raise Refused(f"{PATTERNS[pattern]}{error}::{why}") from None
        if pattern == "ps" and life.domain is None:
            life.domain = Domain(life.agreed)
        return self.add("f", Factory(node, (pattern, name), life))

    def on_create(self, *rest):
        return self.agree("create", "CreateError", *rest)

    def on_open(self, *rest):
        return self.agree("open", "OpenError", *rest)

    def on_open_or_create(self, *rest):
        return self.agree("open_or_create", "OpenOrCreateError", *rest)

    def on_foreign(self, pattern, name, steps):
        for step in steps:
            self.names.act((pattern, name), *step)
        return "ok"

    def on_close(self, number):
        factory = self.get("f", number)
        users = [("p", it, it.factory) for it in self.living("p")] + [("s", it, it.factory) for it in self.living("s")]
        users += [("l", it, it.message.publisher.factory) for it in self.living("l")] + [("m", it, it.factory) for it in self.living("m")]
        keepers = [self.name_of(letter, it) for letter, it, user in users if user is factory]
        if keepers:
            raise Refused("CloseError::StillInUse", f"f{number} is still used by {', '.join(keepers)}")
        self.spend("f", number, "was closed")
        life = factory.life
        if not [it for it in self.living("f") if it.life is life]:
            life.domain = None
        life.leave(factory.node)
        if life.emptied_by is not None:
            del self.names.phases[factory.service]
        return "ok"

    def factory_of_ports(self, number):
        factory = self.get("f", number)
        if factory.service[0] != "ps":
            raise Skip(f"f{number} is of an {factory.service[0]} service, and only ps services have ports")
        return factory

    def on_publisher(self, number, options):
        return self.add("p", Publisher(self.factory_of_ports(number), options))

    def on_subscriber(self, number, options):
        return self.add("s", Subscriber(self.factory_of_ports(number), options))

    def free_publisher(self, number):
        """A publisher that isn't blocked."""
        publisher = self.get("p", number)
        if publisher.blocked is not None:
            raise Skip(f"p{number} waits at a full mailbox")
        return publisher

    def on_loan(self, number, length):
        return self.lend(self.free_publisher(number), length, is_written=True)

    def on_loan_uninit(self, number, length):
        return self.lend(self.free_publisher(number), length, is_written=length == 0)

    def lend(self, publisher, length, is_written):
        loan = publisher.loan(length, None)
        loan.message.values = [0] * length if is_written else None
        return self.add("l", loan)

    def on_set(self, number, place, value):
        loan = self.get("l", number)
        if loan.message.values is None:
            raise Skip(f"l{number} isn't written")
        if place >= loan.length:
            raise Skip(f"l{number} has {loan.length} places, counted from 0")
        loan.message.values[place] = value
        return "ok"

    def on_fill(self, number, values):
        loan = self.get("l", number)
        if len(values) != loan.length:
            raise Skip(f"l{number} has {loan.length} places, and {len(values)} values are given")
        loan.message.values = values
        return "ok"

    def on_drop(self, number):
        loan = self.get("l", number)
        loan.message.publisher.loans.remove(loan)
        self.spend("l", number, "was dropped")
        return "ok"

    def on_send(self, number):
        loan = self.get("l", number)
        publisher = loan.message.publisher
        if loan.message.values is None:
            raise Skip(f"l{number} isn't written")
        if publisher.blocked is not None:
            raise Skip(f"{self.name_of('p', publisher)} waits at a full mailbox")
        self.spend("l", number, "was sent")
        return sent(publisher.send(loan))

    def on_put(self, number, values):
        publisher = self.free_publisher(number)
        try:
            loan = publisher.loan(len(values), values)
        except Refused as why:
            raise Refused(f"SendError::LoanError({str(why).partition('::')[2]})") from None
        return sent(publisher.send(loan))

    def blocked_publisher(self, number):
        publisher = self.get("p", number)
        if publisher.blocked is None:
            raise Skip(f"no send of p{number} is blocked")
        return publisher

    def on_retry(self, number, _elapsed):
        return sent(self.blocked_publisher(number).go_on())

    def on_giveup(self, number):
        return sent(self.blocked_publisher(number).give_up())

    def on_receive(self, number):
        sample = self.get("s", number).receive()
        return "none" if sample is None else with_values(self.add("m", sample), sample)

    def on_read(self, number):
        return with_values("ok", self.get("m", number))

    def on_sequence(self, number):
        sequence = self.get("m", number).message.sequence
        return "ok none" if sequence is None else f"ok {sequence}"

    def on_release(self, number):
        sample = self.get("m", number)
        sample.connection.borrowed.remove(sample.message)
        self.spend("m", number, "was released")
        return "ok"

    def on_has(self, number):
        subscriber = self.get("s", number)
        subscriber.update()
        return "ok true" if subscriber.has_data() else "ok false"

    def port(self, letter, number):
        return self.free_publisher(number) if letter == "p" else self.get("s", number)

    def on_update(self, letter, number):
        self.port(letter, number).update()
        return "ok"

    def on_leave(self, letter, number):
        self.port(letter, number).leave()
        self.spend(letter, number, "left")
        return "ok"


def sent(taken):
    return "blocked" if taken is None else f"ok {taken}"


def with_values(reply, sample):
    return " ".join([reply] + [str(it) for it in sample.message.values])


def lines_of(script):
    """The lines of a script: a last one without newline counts if it isn't empty."""
    lines = script.split(b"\n")
    return lines if lines[-1] else lines[:-1]


def replies(script):
    """The reply to each line of a script, on a new machine."""
    machine = Machine()
    return [machine.answer(line) for line in lines_of(script)]


if __name__ == "__main__":
    the_machine = Machine()
    for the_line in sys.stdin.buffer:
        print(the_machine.answer(the_line[:-1] if the_line.endswith(b"\n") else the_line), flush=True)
