"""The lines of a script in one table: help, completion and what is said of a faulty line are all made from it.

Options, their kinds and their defaults are those of `model/script_lines.py`.
"""
from __future__ import annotations

from dataclasses import dataclass
from enum import Enum

from script_lines import NUMBER, PATTERNS, PERHAPS, PUBLISHER_OPTIONS, SETTINGS, SUBSCRIBER_OPTIONS, SWITCH


class Kind(Enum):
    """What a word of a line is: how it is shown, what it is in words, an example, and the letters that its numbers follow."""

    NODE = "nK", "a node", "n1", "n"
    FACTORY = "fK", "a factory", "f1", "f"
    PUBLISHER = "pK", "a publisher", "p1", "p"
    SUBSCRIBER = "sK", "a subscriber", "s1", "s"
    PORT = "pK or sK", "a publisher or subscriber", "p1 or s1", "ps"
    LOAN = "lK", "a loan", "l1", "l"
    SAMPLE = "mK", "a sample", "m1", "m"
    PATTERN = "PAT", "a pattern (ps, ev or rr)", "ps"
    NAME = "NAME", "a name of 1 to 255 visible bytes", "A"
    COUNT = "N", "a number", "1"
    PLACE = "PLACE", "a place of the loan (the first is 0)", "0"
    VALUE = "V", "a value", "7"
    VALUES = "V ..", "values, also none", "7"
    STEPS = "STEP ..", "a step of another process's node", "lock:x1"
    SETTINGS = "[KEY=V ..] [@KEY=V ..] [|I STEP ..]", "options, then attributes, then lists of steps", "buffer=3"
    PUBLISHER_OPTIONS = "[KEY=V ..]", "options of a publisher", "loans=1"
    SUBSCRIBER_OPTIONS = "[KEY=V ..]", "options of a subscriber", "buffer=3"

    def __init__(self, shown: str, words: str, example: str, letters: str = ""):
        self.shown, self.words, self.example, self.letters = shown, words, example, letters


@dataclass(frozen=True)
class Verb:
    name: str
    operands: tuple[Kind, ...]
    reply: str
    meaning: str
    details: str = ""

    @property
    def form(self) -> str:
        return " ".join([self.name, *(it.shown for it in self.operands)])


SERVICE = (Kind.NODE, Kind.PATTERN, Kind.NAME, Kind.SETTINGS)
IN_USE = "Refused while one of its ports, loans or samples exists."
AS_RECEIVED = "The sample reads the same until it is released, even if its publisher leaves."
NUMBERED = "A publisher numbers its messages from 1 on if the service has sequence=1. A gap in the numbers is what was lost."
FOLLOWS = "A publisher does so at each send, a subscriber at `receive` and `has`."
VERBS = {
    it.name: it
    for it in (
        Verb("node", (), "ok nK", "creates a node"),
        Verb("create", SERVICE, "ok fK", "creates a service", "Whoever opens it later may ask for no more than the numbers named here."),
        Verb("open", SERVICE, "ok fK", "opens a service", "The service has to meet each option that is named: by a number as large."),
        Verb("open_or_create", SERVICE, "ok fK", "opens or creates one", "Opens the service if it exists, and creates it otherwise."),
        Verb("foreign", (Kind.PATTERN, Kind.NAME, Kind.STEPS), "ok", "nodes elsewhere act", "A step that doesn't fit changes nothing."),
        Verb("close", (Kind.FACTORY,), "ok", "closes a factory", IN_USE),
        Verb("publisher", (Kind.FACTORY, Kind.PUBLISHER_OPTIONS), "ok pK", "creates a publisher"),
        Verb("subscriber", (Kind.FACTORY, Kind.SUBSCRIBER_OPTIONS), "ok sK", "creates a subscriber"),
        Verb("put", (Kind.PUBLISHER, Kind.VALUES), "ok N, blocked", "sends these numbers", "N is the number of mailboxes that took them."),
        Verb("loan", (Kind.PUBLISHER, Kind.COUNT), "ok lK", "loans N numbers, all 0"),
        Verb("loan_uninit", (Kind.PUBLISHER, Kind.COUNT), "ok lK", "loans N, not written", "The loan can't be sent before `fill`."),
        Verb("set", (Kind.LOAN, Kind.PLACE, Kind.VALUE), "ok", "writes one number"),
        Verb("fill", (Kind.LOAN, Kind.VALUES), "ok", "writes all numbers"),
        Verb("send", (Kind.LOAN,), "ok N, blocked", "sends a loan", "The loan is gone then. N is the number of mailboxes that took it."),
        Verb("drop", (Kind.LOAN,), "ok", "drops a loan"),
        Verb("retry", (Kind.PUBLISHER, Kind.COUNT), "ok N, blocked", "retries a blocked send", "N nanoseconds have passed."),
        Verb("giveup", (Kind.PUBLISHER,), "ok N", "ends a blocked send", "N is the number of mailboxes that took it before."),
        Verb("receive", (Kind.SUBSCRIBER,), "ok mK V .., none", "receives a message", AS_RECEIVED),
        Verb("read", (Kind.SAMPLE,), "ok V ..", "reads a sample again"),
        Verb("sequence", (Kind.SAMPLE,), "ok N, ok none", "its message's number", NUMBERED),
        Verb("release", (Kind.SAMPLE,), "ok", "releases a sample"),
        Verb("has", (Kind.SUBSCRIBER,), "ok true, ok false", "does a message wait?"),
        Verb("update", (Kind.PORT,), "ok", "updates connections", FOLLOWS),
        Verb("leave", (Kind.PORT,), "ok", "closes a port", "What others hold of it stays as it is."),
    )
}

# What each option is, in words. A key of several patterns has one text if it means the same in all of them.
PORT_OPTIONS: dict[str, dict] = {"publisher": PUBLISHER_OPTIONS, "subscriber": SUBSCRIBER_OPTIONS}
MEANINGS = {
    "overflow": "a full mailbox drops its oldest message, and doesn't block the publisher",
    "sequence": "messages are numbered, so that subscribers see what they missed",
    "publishers": "maximum number of publishers",
    "subscribers": "maximum number of subscribers",
    "buffer": "maximum number of waiting messages in a mailbox",
    "history": "number of messages that a publisher keeps for later subscribers",
    "borrowed": "maximum number of samples that a subscriber holds of one publisher",
    "nodes": "maximum number of nodes that have the service open",
    "deadline": "the deadline in nanoseconds",
    "notifiers": "maximum number of notifiers",
    "listeners": "maximum number of listeners",
    "maxid": "the greatest event id",
    "created": "the event id when a notifier is created",
    "dropped": "the event id when a notifier is dropped",
    "dead": "the event id when a notifier is found dead",
    "overflow_requests": "safe overflow of requests",
    "overflow_responses": "safe overflow of responses",
    "fire": "requests that expect no response",
    "loans": "maximum number of loans at once",
    "active": "maximum number of active requests of a client",
    "servers": "maximum number of servers",
    "clients": "maximum number of clients",
    "slots": "number of messages that fit in memory (default: enough for the worst case)",
    "slice": "number of values in the slices that are loaned (default 1)",
    "alloc": "whether longer slices can be loaned: static no; best, power yes",
    "strategy": "what a send does at a full mailbox without overflow: retry blocks, discard skips that mailbox",
    "handler": "the same by a handler: follow does what the strategy says, fail makes the send fail",
    "degrade": "whether a call fails if a connection can't be made: only with fail",
}
# What a key means that is another thing at another pattern.
OWN_MEANINGS = {
    ("rr", "loans"): "maximum number of loaned requests of a client",
    ("rr", "buffer"): "maximum number of waiting responses",
    ("rr", "borrowed"): "maximum number of held responses",
}
STEP_MEANINGS = {
    "lock": "locks the name",
    "giveup": "gives up the lock",
    "publish": "publishes a service; its options, such as buffer=3, follow a second colon",
    "publish1": "the same in version 1, which has no switch for numbers",
    "register": "joins the service",
    "leave": "leaves the service",
    "remove": "removes the service that it was the last to leave",
}
STEP_VERBS = tuple(STEP_MEANINGS)
# Those that may have options after the node.
PUBLISHING = ("publish", "publish1")
PORT_DEFAULTS = {"loans": "2", "strategy": "retry", "alloc": "static", "handler": "follow", "degrade": "warn"}


def settings_of(pattern: str) -> dict:
    """The options of a service of this pattern, each with its kind."""
    return {key: kind for key, kind, *_ in SETTINGS[pattern]}


def meaning_in(pattern: str, key: str) -> str:
    return OWN_MEANINGS.get((pattern, key), MEANINGS[key])


def least_of(pattern: str, key: str) -> int | None:
    """What a smaller number counts as, if it counts as another one."""
    return next((least for name, _, _, least, _, _ in SETTINGS[pattern] if name == key), None)


def options_of(verb: str, pattern: str | None) -> dict:
    """The options that a line of this verb and pattern may have, each with its kind."""
    if verb in PORT_OPTIONS:
        return PORT_OPTIONS[verb]
    return settings_of(pattern) if VERBS[verb].operands == SERVICE and pattern and pattern in PATTERNS else {}


def values_of(kind) -> list[str]:
    """The values of an option of this kind that can be listed."""
    if kind == SWITCH:
        return ["0", "1"]
    if kind == PERHAPS:
        return ["off"]
    return [] if kind == NUMBER else list(kind)


def kind_in_words(kind) -> str:
    if kind == SWITCH:
        return "0 or 1"
    if kind in (NUMBER, PERHAPS):
        return f"a {kind}"
    return f"{', '.join(kind[:-1])} or {kind[-1]}"


def setting_in_words(value) -> str:
    return "off" if value is None else str(int(value))


def help_on_verb(verb: Verb) -> str:
    """What `help VERB` says: the form, the reply, what it does, and each option."""
    told = [verb.form, f"  {verb.meaning}: {verb.reply}"]
    told += [f"  {it.shown}: {it.words}, such as {it.example}" for it in verb.operands]
    if verb.details:
        told.append(f"  {verb.details}")
    if Kind.STEPS in verb.operands:
        told += [f"    {f'{name}:x1':<16} {meaning}" for name, meaning in STEP_MEANINGS.items()]
    if verb.name in PORT_OPTIONS:
        for key, kind in PORT_OPTIONS[verb.name].items():
            default = f"; default {PORT_DEFAULTS[key]}" if key in PORT_DEFAULTS else ""
            told.append(f"    {f'{key}=' + ('|'.join(values_of(kind)) or 'N'):<36} {MEANINGS[key]}{default}")
    if verb.operands == SERVICE:
        for pattern in PATTERNS:
            told.append(f"  options of {pattern} services, with their defaults")
            for key, kind, default, *_ in SETTINGS[pattern]:
                told.append(f"    {f'{key}={setting_in_words(default)}':<24} {meaning_in(pattern, key)}")
    return "\n".join(told)


def help_on_option(key: str) -> str | None:
    """What `help OPTION` says: what the option is, of which services and ports, and its default."""
    told = []
    for pattern in PATTERNS:
        for name, kind, default, *_ in SETTINGS[pattern]:
            if name == key:
                what = f"{kind_in_words(kind)}, default {setting_in_words(default)}"
                told.append(f"  of {pattern} services (create, open, open_or_create): {meaning_in(pattern, key)}; {what}")
    for verb, kinds in PORT_OPTIONS.items():
        if key in kinds:
            default = f", default {PORT_DEFAULTS[key]}" if key in PORT_DEFAULTS else ""
            told.append(f"  of a {verb}: {MEANINGS[key]}; {kind_in_words(kinds[key])}{default}")
    return "\n".join([f"{key}=", *told]) if told else None


def help_on_all() -> str:
    """The lines of a script in one screen."""
    told = ["One command a line, one reply a line. K counts each kind from 1; PAT: ps, ev, rr"]
    short = {Kind.SETTINGS: "[KEY=V ..]"}
    for verb in VERBS.values():
        form = " ".join([verb.name, *(short.get(it, it.shown) for it in verb.operands)])
        told.append(f"  {form:<37} {verb.reply:<17} {verb.meaning}")
    return "\n".join(told)
