#!/usr/bin/env python3
"""Draws docs/late-put.svg: a send and a receive at a ring that lets its oldest go, one access to a shared word a row.

Usage: docs/late_put.py            writes the picture
       docs/late_put.py --check    status 1 where the picture isn't the one that would be written

The two ends are generators after the table of word steps in docs/FORMATS.md; what is drawn is what they do.
"""
import sys
from html import escape
from pathlib import Path

PICTURE = Path(__file__).resolve().parent / "late-put.svg"
LIMIT = 1
# Whose step each row is: the publisher's P or the subscriber's S.
SCHEDULE = "PPPPSSSSPP"
COLUMNS = {"step": 14, "publisher": 50, "subscriber": 290, "ring": 530, "mailbox": 760, "order": 850}
WIDTH, TOP, ROW, BOX = 1180, 84, 34, 26


class Ring:
    """The shared words of a connection that holds one message, the mailbox that it stands for, and the put that waits."""

    def __init__(self):
        self.cells, self.write, self.read = ["a", ""], 1, 0
        self.mailbox, self.waiting, self.told = ["a"], None, ""

    def moved_by(self, is_pop, value):
        """The read position moved: what was taken or left out, and behind a take the put that waited for the move."""
        self.read += 1
        self.mailbox.remove(value)
        self.told = f"take {value}" if is_pop else f"{value} is left out"
        if self.waiting:
            self.mailbox.append(self.waiting)
            self.told = f"take {value}, then put {self.waiting}" if is_pop else f"put {self.waiting}, which leaves {value} out"
            self.waiting = None


def push(ring, value):
    write = ring.write
    yield f"load write: {write}"
    read = ring.read
    yield f"load read: {read}"
    ring.cells[write % len(ring.cells)] = value
    yield f"store {value} in cell {write % len(ring.cells)}"
    ring.write = write + 1
    if write - read < LIMIT:
        ring.mailbox.append(value)
        ring.told = f"put {value}"
        yield f"store write: {write + 1}"
        return
    ring.waiting = value
    ring.told = f"two lie in the ring: the put of {value} waits"
    yield f"store write: {write + 1}"
    oldest = ring.cells[read % len(ring.cells)]
    yield f"load cell {read % len(ring.cells)}: {oldest}"
    if ring.read == read:
        ring.moved_by(False, oldest)
        yield f"exchange read {read} for {read + 1}: done"
    else:
        ring.told = f"a receive took {oldest}: nothing is left out"
        yield f"exchange read {read} for {read + 1}: lost, it is {ring.read}"


def pop(ring):
    read = ring.read
    yield f"load read: {read}"
    write = ring.write
    yield f"load write: {write}"
    if read == write:
        return
    while True:
        value = ring.cells[read % len(ring.cells)]
        yield f"load cell {read % len(ring.cells)}: {value}"
        if ring.read == read:
            ring.moved_by(True, value)
            yield f"exchange read {read} for {read + 1}: done"
            return
        yield f"exchange read {read} for {read + 1}: lost, it is {ring.read}"
        read = ring.read


def text(x, y, words, kind="step"):
    return f'<text x="{x}" y="{y}" class="{kind}">{escape(words)}</text>'


def drawn_ring(ring, y):
    """The cells with what lies in them, and below each which position stands there."""
    for place, value in enumerate(ring.cells):
        x = COLUMNS["ring"] + place * (BOX + 60)
        yield f'<rect x="{x}" y="{y - 18}" width="{BOX}" height="{BOX - 2}" fill="white" stroke="#555"/>'
        yield text(x + BOX // 2, y, value, "cell")
        marks = [name for name, at in (("read", ring.read), ("write", ring.write)) if at % len(ring.cells) == place]
        yield text(x + BOX + 5, y - 8 if len(marks) == 2 else y, marks[0], "mark") if marks else ""
        if len(marks) == 2:
            yield text(x + BOX + 5, y + 4, marks[1], "mark")


def row(ring, y, number="", access="", party=""):
    if number and int(number) % 2:
        yield f'<rect x="4" y="{y - 22}" width="{WIDTH - 8}" height="{ROW}" fill="#f3f3f3"/>'
    yield text(COLUMNS["step"], y, number)
    if access:
        yield text(COLUMNS["publisher" if party == "P" else "subscriber"], y, access)
    yield from drawn_ring(ring, y)
    yield text(COLUMNS["mailbox"], y, ", ".join(ring.mailbox))
    if ring.told:
        yield text(COLUMNS["order"], y, ring.told, "told")
    ring.told = ""


def picture():
    ring = Ring()
    ends = {"P": push(ring, "b"), "S": pop(ring)}
    titles = {"publisher": "a publisher sends b", "subscriber": "a subscriber receives", "ring": "the ring", "mailbox": "mailbox"}
    titles |= {"order": "what comes into the order"}
    body = [text(COLUMNS[at], 26, title, "title") for at, title in titles.items()]
    body += row(ring, TOP - ROW + 2)
    for at, party in enumerate(SCHEDULE):
        access = next(ends[party])
        body += row(ring, TOP + at * ROW, str(at + 1), access, party)
    height = TOP + len(SCHEDULE) * ROW + 4
    style = (
        "text{font-family:sans-serif;fill:#222;font-size:13px}.title{font-weight:bold}.cell{text-anchor:middle}"
        ".mark{font-size:11px;fill:#777}.told{fill:#b03030}"
    )
    head = f'<svg xmlns="http://www.w3.org/2000/svg" width="{WIDTH}" height="{height}" viewBox="0 0 {WIDTH} {height}">'
    return "\n".join([head, f"<style>{style}</style>", *(it for it in body if it), "</svg>", ""])


def main(words):
    drawn = picture()
    if words == ["--check"]:
        if not PICTURE.is_file() or PICTURE.read_text() != drawn:
            sys.exit("docs/late-put.svg isn't what the two ends do: run docs/late_put.py")
        return
    if words:
        sys.exit(__doc__)
    PICTURE.write_text(drawn)


if __name__ == "__main__":
    main(sys.argv[1:])
