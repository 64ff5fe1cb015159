#!/usr/bin/env python3
"""What iceoryx 2.0.3 does with a script: the Python model, with four rules changed.

1. A subscriber has one queue for all publishers.
2. Ports are connected as soon as they are there, and the history is handed over then.
3. A send that has to wait serves all other subscribers first, goes on by itself, and enters the history last.
4. A subscriber may hold 257 samples of all publishers. One more is taken from the queue, refused and lost.

As a program it answers a script on standard input.
"""
import sys
from pathlib import Path

sys.dont_write_bytecode = True
sys.path.insert(0, str(Path(__file__).resolve().parent.parent.parent / "model"))
from allowed import FreeMachine
from script_model import Loan, Message, Refused, Sample

# 256 by its configuration, and one to receive before one is released.
MOST_HELD = 257
MOST_LOANS = 8


class Queue:
    """What waits for a subscriber and what it holds, of all publishers."""

    def __init__(self, size, is_overflowing):
        self.size, self.is_overflowing = size, is_overflowing
        self.waiting, self.borrowed = [], []

    def take(self, message):
        """Whether the message is taken."""
        if len(self.waiting) == self.size:
            if not self.is_overflowing:
                return False
            self.waiting.pop(0)
        self.waiting.append(message)
        return True


class ClassicSubscriber:
    def __init__(self, factory, options):
        self.factory, self.domain, agreed = factory, factory.life.domain, factory.life.agreed
        size = max(options.get("buffer", agreed["buffer"]), 1)
        if size > agreed["buffer"]:
            raise Refused("SubscriberCreateError::BufferSizeExceedsMaxSupportedBufferSizeOfService")
        self.queue, self.has_left = Queue(size, agreed["overflow"]), False
        for publisher in living(self.domain.publishers):
            # Of a history that doesn't fit, a queue that doesn't overflow gets the older messages.
            for it in publisher.history[-min(agreed["history"], size) :] if agreed["history"] else []:
                self.queue.take(it)
        enter(self.domain.subscribers, self)

    def update(self):
        pass

    def has_data(self):
        return bool(self.queue.waiting)

    def receive(self):
        if not self.queue.waiting:
            return None
        message = self.queue.waiting.pop(0)
        if len(self.queue.borrowed) == MOST_HELD:
            raise Refused("ReceiveError::ExceedsMaxBorrows")
        self.queue.borrowed.append(message)
        return Sample(self.factory, self.queue, message)

    def leave(self):
        self.has_left = True
        self.domain.subscribers[self.domain.subscribers.index(self)] = None


class ClassicPublisher:
    def __init__(self, factory, options):
        self.factory, self.domain, agreed = factory, factory.life.domain, factory.life.agreed
        self.most_loans, self.most_values = min(options.get("loans", 2), MOST_LOANS), options.get("slice", 1)
        self.history_size, self.last_sequence = agreed["history"], 0 if agreed["sequence"] else None
        # blocked: the message that waits, and for whom.
        self.loans, self.history, self.blocked = [], [], None
        enter(self.domain.publishers, self)

    def update(self):
        pass

    def loan(self, length, values):
        if length > self.most_values:
            raise Refused("LoanError::ExceedsMaxLoanSize")
        if len(self.loans) >= self.most_loans:
            raise Refused("LoanError::ExceedsMaxLoans")
        self.loans.append(Loan(Message(self, 1, values), length))
        return self.loans[-1]

    def send(self, loan):
        self.loans.remove(loan)
        if self.last_sequence is not None:
            self.last_sequence += 1
            loan.message.sequence = self.last_sequence
        self.blocked = (loan.message, living(self.domain.subscribers))
        self.go_on_by_itself()
        return self.go_on()

    def go_on_by_itself(self):
        message, left = self.blocked
        if left is None:
            return
        left = [it for it in left if not it.has_left and not it.queue.take(message)]
        if not left and self.history_size:
            self.history = [*self.history, message][-self.history_size :]
        self.blocked = (message, left or None)

    def go_on(self):
        """What a retry is answered: the send has ended, or waits."""
        if self.blocked[1]:
            return None
        self.blocked = None
        return len(living(self.domain.subscribers))

    def leave(self):
        self.domain.publishers[self.domain.publishers.index(self)] = None


def enter(ports, port):
    """A port takes the lowest free place. In the order of these places a new subscriber gets histories."""
    if None not in ports:
        ports.append(None)
    ports[ports.index(None)] = port


def living(ports):
    return [it for it in ports if it is not None]


class Classic(FreeMachine):
    def on_publisher(self, number, options):
        return self.add("p", ClassicPublisher(self.factory_of_ports(number), options))

    def on_subscriber(self, number, options):
        return self.add("s", ClassicSubscriber(self.factory_of_ports(number), options))

    def answer(self, line):
        reply = super().answer(line)
        for it in self.living("p"):
            if it.blocked:
                it.go_on_by_itself()
        return reply


if __name__ == "__main__":
    machine = Classic()
    for line in sys.stdin.buffer:
        print(machine.answer(line.rstrip(b"\n")), flush=True)
