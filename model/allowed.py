"""The Python model led by another program's replies: whether it allows them, over all states that it may be in.

docs/FORMATS.md says which connection gives at a receive. Another program may choose otherwise. So any connection with a waiting message
may give here, if fewer than `borrowed` of its samples are held. A word `_` of a reply isn't told, and fits any word.
"""
import copy
import pickle

from script_model import Machine, Subscriber

# More states aren't followed. They differ only where messages have the same values.
MOST_STATES = 1000


class TooMany(Exception):
    """The replies leave more states than are followed."""


class Several(Exception):
    """As many connections may have given what was told."""


class NoneFits(Exception):
    """No connection may give what was told: these replies are possible."""


def is_alike(ours, told):
    """Whether a reply is ours, where each word that isn't told is any one word."""
    mine, theirs = ours.split(" "), told.split(" ")
    return len(mine) == len(theirs) and all(b in (a, "_") for a, b in zip(mine, theirs))


class Choice:
    """Which connection gives at a receive: one whose message fits the reply that was told. Where several do, it is the one at a place."""

    def __init__(self):
        self.told, self.at, self.sample = "", None, ""

    def of(self, links):
        replies = [" ".join([f"ok {self.sample}", *map(str, it.waiting[0].values)]) for it in links]
        fitting = [link for link, reply in zip(links, replies) if is_alike(reply, self.told)]
        if self.at is None and not fitting:
            raise NoneFits(replies)
        if self.at is None and len(fitting) > 1:
            raise Several(len(fitting))
        return (fitting or links)[self.at or 0]


class FreeSubscriber(Subscriber):
    def __init__(self, factory, options, choice):
        self.choice = choice
        super().__init__(factory, options)

    def next_to_give(self):
        for link in [it for it in self.expired if it.is_idle()]:
            self.expired.remove(link)
            self.forget(link)
        could = [self.keys[key] for key in sorted(self.keys) if self.may_give(self.keys[key])]
        return self.choice.of(could) if could else None


class FreeMachine(Machine):
    """The Python model in which any connection may give."""

    def __init__(self):
        super().__init__()
        self.choice = Choice()

    def on_subscriber(self, number, options):
        return self.add("s", FreeSubscriber(self.factory_of_ports(number), options, self.choice))

    def on_receive(self, number):
        self.choice.sample = f"m{len(self.made['m']) + 1}"
        return super().on_receive(number)

    def lead(self, told, at=None):
        """The next line was answered so by the other program. Without a place there must be one connection that may have given it."""
        self.choice.told, self.choice.at = told, at

    def follow(self, line, told, at=None):
        """This model's reply to a line that the other program answered so."""
        self.lead(told, at)
        return self.answer(line)


class Allowed:
    """All the states that a machine may be in, by the lines and replies so far."""

    def __init__(self, make=FreeMachine):
        self.states = [make()]

    def take(self, line, told):
        """Goes on by a line and its reply. Returns what is allowed in its place, or nothing where it is allowed itself."""
        replies, after = [], []
        for state in self.states:
            try:
                reply = state.follow(line, told)
                replies.append(reply)
                after += [state] * is_alike(reply, told)
            except NoneFits as possible:
                replies += possible.args[0]
            except Several as count:
                after += self.branches(state, count.args[0], line, told)
        if after:
            self.states = self.unlike(after)
        return [] if after else sorted(set(replies))

    def branches(self, state, count, line, told):
        found = [state, *(copy.deepcopy(state) for _ in range(count - 1))]
        for at, it in enumerate(found):
            it.follow(line, told, at)
        return found

    def unlike(self, states):
        """The states, each once."""
        if len(states) > 1:
            states = list({pickle.dumps(it): it for it in states}.values())
        if len(states) > MOST_STATES:
            raise TooMany(f"the model may be in more than {MOST_STATES} states here: give messages different values")
        return states
