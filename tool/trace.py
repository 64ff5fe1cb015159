"""What became of each message of a conversation, by the Python model: who sent it, who received it, where it was lost."""
from __future__ import annotations

import os
from dataclasses import dataclass, field
from importlib import import_module
from pathlib import Path

from script_model import Life

from tool.converse import Line
from tool.notes import known, readable
from tool.outputs import write_output
from tool.progress import say
from tool.state import Watched, snapshot

# A picture of more lines is no picture any more.
MOST_ROWS = 2000


@dataclass
class Row:
    number: int
    line: str
    reply: str
    # Why it was refused or skipped, and which messages are missing before the one that it received.
    note: str = ""
    missed: str = ""


@dataclass
class Lifeline:
    """Something that lives, from the row that made it to the row that ended it."""

    name: str
    first: int
    last: int | None = None


@dataclass
class Delivery:
    """A message in the mailbox of one subscriber: by which row it came in, and by which it was received, released or lost."""

    values: list[int]
    sent: int
    publisher: str
    subscriber: str
    arrived: int
    received: int | None = None
    released: int | None = None
    lost: int | None = None
    # Its number, where messages have any, and how many messages are missing between it and the one that was received before it.
    sequence: int | None = None
    missing: int = 0


@dataclass
class Untaken:
    """A message that no mailbox took when it was sent."""

    values: list[int]
    sent: int
    publisher: str
    sequence: int | None = None


@dataclass
class Conversation:
    rows: list[Row] = field(default_factory=list)
    lifelines: list[Lifeline] = field(default_factory=list)
    deliveries: list[Delivery] = field(default_factory=list)
    untaken: list[Untaken] = field(default_factory=list)
    states: list[dict] = field(default_factory=list)
    is_cut: bool = False


def missed(it: Delivery) -> str:
    """Which messages are missing before one that was received, in words."""
    how = f"{it.missing} messages of {it.publisher} are" if it.missing > 1 else f"1 message of {it.publisher} is"
    return f"{how} missing before this one" if it.missing else ""


class Trace:
    """Follows a conversation line by line: the replies are those that came, what became of messages is the model's."""

    failed = False

    def __init__(self, options=None):
        self.options, self.watched, self.told, self.lines = options, Watched(), Conversation(), []
        # By the number of the object: each message that was sent with its row, each connection with what waits or is held there.
        self.sent, self.links = {}, {}
        # By the connection: the number of the message that was received there last.
        self.last_received = {}
        self.living, self.under_way = {}, {}

    def take(self, line: Line, reply: bytes):
        if len(self.told.rows) == MOST_ROWS:
            self.told.is_cut = True
            return
        row = len(self.told.rows)
        answer = reply.decode("latin-1").rstrip("\n")
        self.lines.append(line.text.decode("latin-1"))
        self.told.rows.append(Row(line.number, readable(line.text), answer, self.note(line, reply)))
        self.follow_lives(row)
        self.follow_messages(row, answer)
        self.told.states.append(snapshot(self.watched))

    def note(self, line: Line, reply: bytes) -> str:
        """Has the model answer the line, and returns what is said of it."""
        model = self.watched.answer(line.text)
        if model.encode("latin-1") != reply.rstrip(b"\n"):
            return f"the Python model answers {model!r}"
        return self.watched.machine.reason or "; ".join(known(line, reply, None)[2])

    def follow_lives(self, row: int):
        now = {name for letter in "nfpsl" for name, _ in self.watched.living(letter)}
        for name in sorted(now - self.living.keys()):
            self.living[name] = Lifeline(name, row)
            self.told.lifelines.append(self.living[name])
        for name, life in self.living.items():
            if life.last is None and name not in now:
                life.last = row

    def connections(self):
        """All connections that there are: those of services, of ports, and of samples that are held."""
        lives = [it for it in self.watched.machine.names.phases.values() if isinstance(it, Life)]
        lives += [it.life for _, it in self.watched.living("f")]
        found = [link for life in lives if life.domain for link in life.domain.connections]
        found += [link for _, it in self.watched.living("p") for link in it.links.values()]
        found += [link for _, it in self.watched.living("s") for link in it.keys.values()]
        found += [it.connection for _, it in self.watched.living("m")]
        return {id(it): it for it in found}

    def follow_messages(self, row: int, reply: str):
        line = self.lines[row]
        is_sent = reply.startswith(("ok", "blocked", "err SendError::UnableToDeliver"))
        if line.startswith(("put ", "send ")) and is_sent:
            self.note_origin(row, line)
        now = self.connections()
        for key, link in now.items():
            self.links.setdefault(key, (link, {}))
        for key, (link, there) in self.links.items():
            waiting = {id(it): it for it in link.waiting} if key in now else {}
            held = {id(it) for it in link.borrowed}
            for each in waiting.keys() - there.keys():
                there[each] = self.delivery(link, waiting[each], row)
            for each, it in list(there.items()):
                is_new = it.received is None and each in held
                self.follow(it, each in waiting, each in held, row)
                if is_new and it.sequence is not None:
                    it.missing = it.sequence - self.last_received.get(key, it.sequence - 1) - 1
                    self.last_received[key] = it.sequence
                    self.told.rows[row].missed = missed(it)
                if it.released is not None or it.lost is not None:
                    del there[each]
        if line.startswith(("put ", "send ", "retry ", "giveup ")) and is_sent and reply != "blocked":
            self.note_untaken(row, line)

    def delivery(self, link, message, row: int) -> Delivery:
        origin = self.sent.setdefault(id(message), (row, message))[0]
        ends = self.watched.name(link.publisher), self.watched.name(link.subscriber)
        self.told.deliveries.append(Delivery(list(message.values), origin, *ends, row, sequence=message.sequence))
        return self.told.deliveries[-1]

    def follow(self, it: Delivery, is_waiting: bool, is_held: bool, row: int):
        if it.received is None and is_held:
            it.received = row
        elif it.received is not None and not is_held:
            it.released = row
        elif it.received is None and not is_waiting:
            it.lost = row

    def sender(self, line: str):
        """The publisher of a line that sends, goes on or gives up."""
        name = line.split(" ")[1]
        named = self.watched.all[name[0]][int(name[1:]) - 1]
        return named if name[0] == "p" else named.message.publisher

    def note_origin(self, row: int, line: str):
        """Keeps the row of what was just sent, where it is in a mailbox, in the history, or waits."""
        publisher = self.sender(line)
        for link in publisher.links.values():
            for it in link.waiting[-1:]:
                self.sent.setdefault(id(it), (row, it))
        for it in publisher.history[-1:] + ([publisher.blocked.loan.message] if publisher.blocked else []):
            self.sent.setdefault(id(it), (row, it))
        self.under_way[id(publisher)] = row

    def note_untaken(self, row: int, line: str):
        """A send that ended and came into no mailbox; what is in the history may come there later."""
        publisher = self.sender(line)
        origin = self.under_way.get(id(publisher), row)
        if any(it.sent == origin for it in self.told.deliveries):
            return
        words = self.lines[origin].split(" ")
        values = [int(it) for it in words[2:]] if words[0] == "put" else list(self.watched.all["l"][int(words[1][1:]) - 1].message.values)
        self.told.untaken.append(Untaken(values, origin, self.watched.name(publisher), publisher.last_sequence))

    def end(self):
        """Writes the picture and the page that are asked for, and says if the conversation was too long for all of it."""
        options = self.options
        title = readable(os.fsencode(Path(options.file).name)) if options.file else "standard input"
        if self.told.is_cut:
            say(f"the picture has the first {MOST_ROWS} lines")
        drawn = import_module("tool.draw")
        for name in ("svg", "html"):
            if getattr(options, name):
                write_output(name, getattr(drawn, name)(self.told, title), options)
