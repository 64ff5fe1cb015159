"""A conversation as one picture: a row a line, lifelines of what was made, an arrow for each message from its send to who received it.

And as a page that plays it step by step, whole in one file: it asks nothing of any network.
"""
from __future__ import annotations

import json
import re
from collections import namedtuple
from collections.abc import Iterator
from dataclasses import asdict
from html import escape as escape_with_quotes
from itertools import product
from pathlib import Path
from typing import Any

from tool import outputs
from tool.state import KINDS, message_shown
from tool.trace import Conversation, Delivery, Lifeline


def escape(text: str) -> str:
    return escape_with_quotes(text, quote=False)


# In pixels: a row, a lifeline, a letter of the font, the margin, and what is above the first row.
ROW, COLUMN, LETTER, MARGIN, TOP = 24, 64, 7.9, 16, 64
# A letter of a label, and how far a label reaches above and below its base line.
SMALL_LETTER, RISES, FALLS = 6.7, 9, 3
# In letters: how much of a line is shown, and how long a label may be.
LONGEST_SHOWN, LONGEST_LABEL = 48, 32
PAGE = Path(__file__).resolve().parent / "page.html"
STYLE = """\
text{font:13px monospace;fill:#222}.title{font:bold 16px sans-serif}.sub,.legend{font:12px sans-serif;fill:#555}
.number{fill:#737373}.ok{fill:#595959}.bad{fill:#b3261e}.wait{fill:#9a5b00}.band{fill:#f6f7f9}.life{stroke:#c4c8ce;stroke-width:1.5}
.name{font-weight:bold}.p{fill:#1b7a3d}.s{fill:#1f5fbf}.held{stroke:#1f5fbf;stroke-opacity:.28;stroke-width:9}
.message{stroke:#1f5fbf;stroke-width:1.8;fill:none;marker-end:url(#tip)}
.waits{stroke:#1f5fbf;stroke-width:1.5;stroke-dasharray:2 4;fill:none;marker-end:url(#ring)}
.lost{stroke:#b3261e;stroke-width:1.5;stroke-dasharray:6 4;fill:none;marker-end:url(#cross)}
.untaken,.gap{stroke:#b3261e;stroke-width:2.5}
.value{font:11px monospace;paint-order:stroke;stroke:#fff;stroke-width:4px}.gone{fill:#b3261e}"""
MARKER = '<marker id="{}" viewBox="0 0 8 8" refX="{}" refY="4" markerWidth="6" markerHeight="6"{}>{}</marker>'
MARKERS = "\n".join(
    (
        MARKER.format("tip", 7, ' orient="auto"', '<path d="M0 0L8 4L0 8z" fill="#1f5fbf"/>'),
        MARKER.format("ring", 4, "", '<circle cx="4" cy="4" r="3" fill="#fff" stroke="#1f5fbf"/>'),
        MARKER.format("cross", 4, "", '<path d="M1 1L7 7M7 1L1 7" stroke="#b3261e" stroke-width="2"/>'),
    )
)


def shown(text: str) -> str:
    return escape(text[:LONGEST_SHOWN] + ".." * (len(text) > LONGEST_SHOWN))


def width_of(texts: list[str]) -> int:
    return int(LETTER * max([min(len(it), LONGEST_SHOWN + 2) for it in texts], default=0))


Box = namedtuple("Box", "left top right bottom")


def overlaps(one: Box, other: Box) -> bool:
    return one.left < other.right and other.left < one.right and one.top < other.bottom and other.top < one.bottom


def box_of(x: float, y: float, text: str, side: int) -> Box:
    """The box of a label, which begins at x, or ends there where the side is the left one."""
    wide = SMALL_LETTER * (len(text) + 1)
    return Box(x if side > 0 else x - wide, y - RISES, x + wide if side > 0 else x, y + FALLS)


def label_of(values: list[int] | None, sequence: int | None) -> str:
    """A message as a label has it: as many of its values as fit, four at most."""
    shown = [message_shown(values, sequence, most) for most in (4, 3, 2, 1)]
    return next((it for it in shown if len(it) <= LONGEST_LABEL), shown[-1])


class Sheet:
    """Where rows and lifelines are on the picture, and what is drawn there."""

    def __init__(self, told: Conversation):
        self.told = told
        self.parts: list[str] = []
        self.line_at = MARGIN + 32
        self.reply_at = self.line_at + width_of([it.line for it in told.rows]) + 20
        self.lives_at = self.reply_at + width_of([it.reply for it in told.rows]) + 40
        self.x = {life.name: self.lives_at + COLUMN * at for at, life in enumerate(told.lifelines)}
        self.end = len(told.rows) - 1
        # Where no label may be: the names of what lives, and the labels that are placed.
        self.taken = [self.box_of_name(it) for it in told.lifelines]

    @property
    def width(self) -> int:
        reach = int(max((it.right for it in self.taken), default=0)) + MARGIN
        return max(self.lives_at + COLUMN * len(self.told.lifelines), reach, 720)

    @property
    def bottom(self) -> int:
        return TOP + ROW * len(self.told.rows) + 8

    def y(self, row: int) -> int:
        return TOP + ROW * row + ROW // 2

    def box_of_name(self, life: Lifeline) -> Box:
        x, y, half = self.x[life.name], self.y(life.first), int(LETTER * len(life.name)) // 2 + 5
        return Box(x - half, y - 9, x + half, y + 9)

    def label(self, text: str, name: str, side: int, places: Iterator[tuple[float, float]]):
        """Writes a label at the first of some places where it covers no other."""
        for x, y in places:
            box = box_of(x, y, text, side)
            if box.left >= self.lives_at - COLUMN // 2 and not any(overlaps(box, it) for it in self.taken):
                break
        self.taken.append(box)
        anchor = "start" if side > 0 else "end"
        self.text(round(x), round(y), escape(text), f"value{name}", f' text-anchor="{anchor}"')

    def text(self, x, y, text: str, name: str, more: str = ""):
        self.parts.append(f'<text class="{name}" x="{x}" y="{y}"{more}>{text}</text>')

    def stroke(self, name: str, x1, y1, x2, y2):
        self.parts.append(f'<path class="{name}" d="M{x1} {y1}L{x2} {y2}"/>')


def draw_rows(sheet: Sheet):
    for at in range(0, len(sheet.told.rows), 2):
        sheet.parts.append(f'<rect class="band" x="0" y="{TOP + ROW * at}" width="100%" height="{ROW}"/>')
    for at, row in enumerate(sheet.told.rows):
        y = sheet.y(at) + 4
        sheet.text(sheet.line_at - 10, y, str(row.number), "number", ' text-anchor="end"')
        sheet.text(sheet.line_at, y, shown(row.line), "line")
        why = "; ".join(filter(None, (row.note, row.missed)))
        hint = f"<title>{escape(why)}</title>" if why else ""
        kind = "bad" if row.reply.startswith(("err", "skip")) else "wait" if row.reply in ("blocked", "none") else "ok"
        sheet.text(sheet.reply_at, y, shown(row.reply) + hint, kind)


def draw_lives(sheet: Sheet):
    for life in sheet.told.lifelines:
        foot = sheet.bottom - 8 if life.last is None else sheet.y(life.last)
        sheet.stroke("life", sheet.x[life.name], sheet.y(life.first), sheet.x[life.name], foot)


def draw_names(sheet: Sheet):
    for life in sheet.told.lifelines:
        x, y, box = sheet.x[life.name], sheet.y(life.first), sheet.box_of_name(life)
        size = f'x="{box.left}" y="{box.top}" width="{box.right - box.left}" height="18"'
        sheet.parts.append(f'<rect {size} rx="4" fill="#fff" stroke="#c4c8ce"/>')
        more = f' text-anchor="middle"><title>{KINDS[life.name[0]]}</title'
        sheet.text(x, y + 4, life.name, f"name {life.name[0]}", more)


def offsets(deliveries: list[Delivery], end: int) -> dict[int, int]:
    """How far aside the bar of each delivery is drawn, so that samples that are held at once lie beside each other."""
    found: dict[int, int] = {}
    busy: dict[str, list[int]] = {}
    for at, it in enumerate(deliveries):
        if it.received is None:
            continue
        lanes = busy.setdefault(it.subscriber, [])
        lane = next((lane for lane, until in enumerate(lanes) if until <= it.received), len(lanes))
        lanes[lane : lane + 1] = [end + 1 if it.released is None else it.released]
        found[at] = 10 * lane
    return found


def cross(x: int, y: int) -> str:
    return f'<path class="untaken" d="M{x - 5} {y - 5}L{x + 5} {y + 5}M{x + 5} {y - 5}L{x - 5} {y + 5}"/>'


def gap(x: int, y: int) -> str:
    return f'<path class="gap" d="M{x - 7} {y + 1}L{x + 7} {y - 5}M{x - 7} {y + 5}L{x + 7} {y - 1}"/>'


def places(x1: int, y1: int, x2: int, y2: int) -> Iterator[tuple[float, float]]:
    """Where the label of a stroke may be: at its end, then further and further back along it, then above and below its end."""
    for back, aside in product(range(0, 100, 8), (-7, 13)):
        yield x2 + (x1 - x2) * back / 100, y2 + (y1 - y2) * back / 100 + aside
    for rows in range(1, 100):
        yield x2, y2 - 7 - rows * (RISES + FALLS)
        yield x2, y2 - 7 + rows * (RISES + FALLS)


def draw_gap(sheet: Sheet, it: Delivery, side: int):
    """Breaks the lifeline of a subscriber above the row where numbers are missing, and says how many."""
    x, y = sheet.x[it.subscriber], sheet.y(it.received or 0) - ROW // 2
    sheet.parts.append(gap(x, y))
    sheet.label(f"{it.missing} missing", " gone", side, places(x + side * 12, y + 11, x + side * 12, y + 11))


def draw_delivery(sheet: Sheet, it: Delivery, aside: int):
    """The stroke of one message from its publisher to a subscriber, and its bar while it is held."""
    x1, y1, x2 = sheet.x[it.publisher], sheet.y(it.sent), sheet.x[it.subscriber] + aside
    side = 1 if x1 > x2 else -1
    if it.received is not None:
        foot = sheet.y(sheet.end) + 8 if it.released is None else sheet.y(it.released)
        sheet.stroke("held", x2, sheet.y(it.received), x2, foot)
    end = ("waits", sheet.end) if it.lost is None else ("lost", it.lost)
    name, row = end if it.received is None else ("message", it.received)
    x3, y3 = x2 + side * (4 if name == "message" else 14), sheet.y(row)
    sheet.stroke(name, x1, y1, x3, y3 + (8 if name == "waits" else 0))
    if it.missing:
        draw_gap(sheet, it, -side)
    sheet.label(label_of(it.values, it.sequence), " gone" if name == "lost" else "", side, places(x1 + side * 10, y1, x3 + side * 10, y3))


def draw_messages(sheet: Sheet):
    aside = offsets(sheet.told.deliveries, sheet.end)
    for at, it in enumerate(sheet.told.deliveries):
        if it.publisher in sheet.x and it.subscriber in sheet.x:
            draw_delivery(sheet, it, aside.get(at, 0))
    reached = {it.sent for it in sheet.told.deliveries}
    for lost in sheet.told.untaken:
        if lost.sent not in reached and lost.publisher in sheet.x:
            x, y = sheet.x[lost.publisher], sheet.y(lost.sent)
            sheet.parts.append(cross(x, y))
            sheet.label(label_of(lost.values, lost.sequence), " gone", 1, places(x + 9, y + 2, x + 9, y + 2))


def draw_legend(sheet: Sheet):
    x, y = MARGIN, sheet.bottom + 18
    marks = [("message", "received"), ("held", "held"), ("waits", "still waits"), ("lost", "lost"), ("", "no mailbox took it")]
    # Where no number is missing the legend needn't say how that is drawn.
    marks += [("gap", "numbers are missing")] * any(it.missing for it in sheet.told.deliveries)
    for name, what in marks:
        if name == "gap":
            sheet.parts.append(gap(x + 25, y - 4))
        elif name:
            sheet.stroke(name, x, y - 4, x + 34, y - 4)
        else:
            sheet.parts.append(cross(x + 25, y - 4))
        sheet.text(x + 44, y, what, "legend")
        x += 44 + 8 * len(what) + 20
    kinds = ", ".join(f"{letter} {kind}" for letter, kind in KINDS.items() if letter != "m")
    numbers = [it.sequence for it in sheet.told.deliveries] + [it.sequence for it in sheet.told.untaken]
    numbered = ", after # its own number" * any(it is not None for it in numbers)
    sheet.text(MARGIN, y + 20, f"numbers in brackets are a message's values{numbered}; {kinds}", "legend")


def counts(told: Conversation) -> str:
    received, lost = [sum(getattr(it, what) is not None for it in told.deliveries) for what in ("received", "lost")]
    sent = len({it.sent for it in told.deliveries} | {it.sent for it in told.untaken})
    return f"{len(told.rows)} lines, {sent} messages sent, {received} received, {lost} lost in a mailbox"


def svg(told: Conversation, title: str) -> str:
    """The picture as a file of its own."""
    sheet = Sheet(told)
    sheet.text(MARGIN, 26, escape(title), "title")
    sheet.text(MARGIN, 46, counts(told), "sub")
    for draw in (draw_rows, draw_lives, draw_messages, draw_names, draw_legend):
        draw(sheet)
    # Labels are above all strokes.
    sheet.parts.sort(key=lambda it: it.startswith('<text class="value'))
    height = sheet.bottom + 52
    size = f'width="{sheet.width}" height="{height}" viewBox="0 0 {sheet.width} {height}"'
    head = [f'<svg xmlns="http://www.w3.org/2000/svg" {size} role="img">', outputs.KINDS["svg"][1], f"<title>{escape(title)}</title>"]
    head += [f"<style>{STYLE}</style>"]
    return "\n".join([*head, MARKERS, '<rect width="100%" height="100%" fill="#fff"/>', *sheet.parts, "</svg>"]) + "\n"


def exact(told: Any) -> Any:
    """What the page is told of states: a browser rounds numbers above 2^53, so these are texts."""
    if isinstance(told, dict):
        return {key: exact(it) for key, it in told.items()}
    if isinstance(told, list):
        return [exact(it) for it in told]
    return str(told) if isinstance(told, int) and told > 2**53 else told


def html(told: Conversation, title: str) -> str:
    """The page, with what it plays and the whole picture in it."""
    told_of = {"rows": [asdict(it) for it in told.rows], "states": exact(told.states), "top": TOP, "row": ROW}
    # No text of a script ends the element that it lies in.
    data = json.dumps(told_of, separators=(",", ":")).replace("<", "\\u003c")
    parts = {"@MARK@": outputs.KINDS["html"][1], "@TITLE@": escape(title), "@PICTURE@": svg(told, title), "@TOLD@": data}
    return re.sub("|".join(parts), lambda it: parts[it[0]], PAGE.read_text(encoding="utf-8"))
