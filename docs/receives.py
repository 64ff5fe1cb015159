#!/usr/bin/env python3
"""Writes the two tables of docs/LANES.md, section "A receive over two connections": one step of a receive a row.

Usage: docs/receives.py            writes the tables
       docs/receives.py --check    status 1 where the tables aren't those that would be written

The calls are those of a block of crates/script_cases: each line is made here, after the table of word steps in docs/FORMATS.md, and must be
answered as the stored answers have it. So the steps of a receive are as many, and come to the same, as on the proved lanes.
"""
import re
import sys
from pathlib import Path

DOCS = Path(__file__).resolve().parent
PAGE, CASES = DOCS / "LANES.md", DOCS.parent / "crates" / "script_cases"
BLOCK = "A receive takes once at each connection, up to the first that gives"
NAMES = ("first", "second")
HEAD = "| Step | Access | Answer | What it is |\n|---|---|---|---|\n"


class Lanes:
    """The rings of messages of one subscriber's connections, one with each publisher; what it holds; what each message is."""

    def __init__(self, head):
        sizes = {name: int(size) for name, size in re.findall(r"(\w+)=(\d+)", head)}
        self.borrowed, self.slots = sizes["borrowed"], sizes["slots"]
        self.cells, self.read, self.write = ([[None, None] for _ in NAMES], [0, 0], [0, 0])
        self.held, self.messages = [], {}

    def put(self, place, message):
        """A message into a ring in which one may wait, where none does."""
        used = {*self.held, *(it for cells in self.cells for it in cells)}
        slot = next(it for it in range(place * self.slots, (place + 1) * self.slots) if it not in used)
        self.cells[place][self.write[place] % 2], self.messages[slot] = slot, message
        self.write[place] += 1
        return "Sent(Delivered(Delivery { taken: 1, refused: 0 }))"

    def release(self, slot):
        self.held.remove(slot)
        return "Released(true)"

    def receive(self):
        """The steps of a receive, and at the last one its answer too."""
        yield "none", "", "the call begins", None
        answer, told = "Nothing", "since nothing waits"
        for place, name in enumerate(NAMES):
            read, write, waits = self.read[place], self.write[place], self.read[place] < self.write[place]
            is_look = sum(it // self.slots == place for it in self.held) >= self.borrowed
            kind = "the borrow limit is reached, so this is a look" if is_look else "the borrow limit isn't reached, so this is a take"
            yield f"load the {name} connection's read position", read, kind, None
            seen = "a message waits" if waits else "nothing waits"
            yield "load its write position", write, seen + ", and the look says so" * is_look, None
            if is_look and waits:
                answer, told = "ExceedsMaxBorrows", "since a look saw a message"
            if not is_look and waits:
                slot = self.cells[place][read % 2]
                yield f"load the cell of position {read}", slot, f"the slot of message {self.messages[slot]}", None
                self.read[place], self.cells[place][read % 2] = read + 1, None
                self.held.append(slot)
                yield f"exchange the read position, {read} by {read + 1}", read, f"the take happens here, and gives slot {slot}", None
                answer, told = f"Taken {{ place: {place}, slot: {slot} }}", f"message {self.messages[slot]}"
                break
        yield "none", "", f"the call ends, and answers `{answer.split()[0]}`: {told}", f"Received({answer})"


def answered(lanes, line, going):
    """What a line is answered; the steps that it makes of a receive join those of the call that goes on."""
    _, verb, *numbers = line.split()
    if verb == "put":
        return lanes.put(int(line[1]), int(numbers[0]))
    if verb == "release":
        return lanes.release(int(numbers[0]))
    if verb in ("begin", "receive"):
        going.append([lanes.receive(), []])
    call, rows = going[-1]
    for _ in range({"begin": 1, "go": int(numbers[0]) if verb == "go" else 0}.get(verb, 99)):
        *row, answer = next(call)
        rows.append(row)
        if answer:
            return answer
    return "Went"


def block(file):
    text = (CASES / file).read_text(encoding="utf-8")
    return text.partition(f"{BLOCK}\n")[2].partition("\n\n")[0].splitlines()


def tables():
    head, *lines = block("stdin")
    lanes, going = Lanes(head), []
    for line, told in zip(lines, block("stdout")[1:], strict=True):
        answer = f"{line} -> {answered(lanes, line, going)}"
        if answer != told:
            sys.exit(f"docs/receives.py: {answer}, and script_cases has {told}")
    # The two that the block makes step by step.
    return [HEAD + "".join(row_of(at, row) for at, row in enumerate(rows, 1)) for _, rows in going[1:3]]


def row_of(at, row):
    return "".join(f"| {it} " if it != "" else "| " for it in (at, *row)) + "|\n"


def main(words):
    page, found = PAGE.read_text(encoding="utf-8"), iter(tables())
    written = re.sub(re.escape(HEAD) + r"(?:\|.*\|\n)*", lambda _: next(found), page)
    if words == ["--check"]:
        if written != page or next(found, None):
            sys.exit("the tables of docs/LANES.md aren't what a receive does: run docs/receives.py")
        return
    if words:
        sys.exit(__doc__)
    PAGE.write_text(written, encoding="utf-8")


if __name__ == "__main__":
    main(sys.argv[1:])
