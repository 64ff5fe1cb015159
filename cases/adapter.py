#!/usr/bin/env python3
"""An adapter for `./iox --against`, by the Python model: as it is, or with the fault that its argument names.

`cases/against.py` wants each fault found, and those without one (`none`, `last-first`, `tells-little`) to pass.
"""
import sys
from pathlib import Path

sys.dont_write_bytecode = True
sys.path.insert(0, str(Path(__file__).resolve().parent.parent / "model"))
import script_model as model


class LastFirst(model.Subscriber):
    """Takes from the connection that it made last: another order among publishers, and no fault."""

    def next_to_give(self):
        super().next_to_give()
        return next((self.keys[key] for key in sorted(self.keys, reverse=True) if self.may_give(self.keys[key])), None)


class TellsLittle(model.Machine):
    """Has neither loans nor numbers, and doesn't tell how many mailboxes took a message: no fault either."""

    def answer(self, line):
        if line.startswith(b"loan") or b"sequence=1" in line:
            return "unsupported"
        reply = super().answer(line)
        return "ok _" if line.startswith((b"put", b"retry")) and reply.startswith("ok") else reply


class NewestFirst(model.Subscriber):
    """Gives the newest message in the place of the oldest."""

    def take(self, link):
        link.waiting.insert(0, link.waiting.pop())
        return super().take(link)


class HoldsOneMore(model.Subscriber):
    """Lets one sample more be held than was agreed."""

    def may_give(self, link):
        return bool(link.waiting) and len(link.borrowed) <= self.most_borrowed


class DropsTheNewest(model.Publisher):
    """Keeps the oldest message of a full mailbox, and drops the one that comes."""

    def go_on(self):
        if self.domain.agreed["overflow"]:
            for link in [it for it in self.blocked.left if it.is_full()]:
                link.waiting.insert(0, link.waiting.pop())
        return super().go_on()


class HistoryOfOneLess(model.Publisher):
    """Hands out its history without the oldest message."""

    def update(self):
        kept, self.history = self.history, self.history[1:]
        super().update()
        self.history = kept


class NumbersReceived(model.Machine):
    """Numbers what was received of a publisher, so that no gap shows."""

    def on_receive(self, number):
        reply = super().on_receive(number)
        if reply.startswith("ok"):
            link = self.made["m"][-1].connection
            link.received = self.made["m"][-1].number = getattr(link, "received", 0) + 1
        return reply

    def on_sequence(self, number):
        reply = super().on_sequence(number)
        return reply if reply == "ok none" else f"ok {self.get('m', number).number}"


class KeepsLoans(model.Machine):
    """Doesn't give a loan back that is dropped."""

    def on_drop(self, number):
        self.get("l", number)
        self.spend("l", number, "was dropped")
        return "ok"


# What each argument puts in the place of which class of the model.
FAULTS = {
    "none": {},
    "last-first": {"Subscriber": LastFirst},
    "tells-little": {"Machine": TellsLittle},
    "newest-first": {"Subscriber": NewestFirst},
    "holds-one-more": {"Subscriber": HoldsOneMore},
    "drops-the-newest": {"Publisher": DropsTheNewest},
    "history-of-one-less": {"Publisher": HistoryOfOneLess},
    "numbers-received": {"Machine": NumbersReceived},
    "keeps-loans": {"Machine": KeepsLoans},
}


def main(name):
    for changed, by in FAULTS[name].items():
        setattr(model, changed, by)
    machine = model.Machine()
    for line in sys.stdin.buffer:
        text, reply = line.rstrip(b"\n"), "ok"
        if text == b":reset":
            machine = model.Machine()
        else:
            reply = machine.answer(text)
        print(reply, flush=True)


if __name__ == "__main__":
    main(sys.argv[1])
