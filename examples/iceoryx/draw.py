#!/usr/bin/env python3
"""Draws the scripts of `scripts/`, NAME.svg: what iceoryx2 does by the Python model, and what iceoryx 2.0.3 replies where that is another.

`examples/iceoryx/draw.py` writes the pictures; `--check` only compares them.
"""
import re
import sys
from dataclasses import fields, replace
from pathlib import Path

sys.dont_write_bytecode = True
HERE = Path(__file__).resolve().parent
sys.path.insert(0, str(HERE.parent.parent))
from tool import draw
from tool.converse import Line
from tool.trace import Row, Trace

from allowed import is_alike

# Of a longer script the first and the last rows are drawn.
FIRST, LAST = 9, 10
BETWEEN = " | 2.0.3: "
# The fields of what is drawn that are rows.
PLACES = ("first", "last", "sent", "arrived", "received", "released", "lost")


def traced(file):
    """The conversation of a script, with both replies in the rows where they differ."""
    trace = Trace()
    texts = [file.read_bytes(), *(file.with_suffix(it).read_bytes() for it in (".replies", ".classic"))]
    for number, (line, ours, theirs) in enumerate(zip(*(it.splitlines() for it in texts)), 1):
        trace.take(Line(number, line, len(line)), ours)
        if not is_alike(ours.decode(), theirs.decode()):
            trace.told.rows[-1].reply = f"{ours.decode()}{BETWEEN}{theirs.decode()}"
    return trace.told


def moved(it, rows):
    """A lifeline, delivery or message by the rows that are left, or None where it isn't to be seen there."""
    places = {each.name: getattr(it, each.name) for each in fields(it) if each.name in PLACES and getattr(it, each.name) is not None}
    if not any(place in rows for place in places.values()):
        return None
    return replace(it, **{name: rows.get(place, FIRST) for name, place in places.items()})


def shortened(told):
    """The conversation without the rows in the middle of a long one."""
    left_out = len(told.rows) - FIRST - LAST
    if left_out <= LAST:
        return told
    rows = {at: at if at < FIRST else at - left_out + 1 for at in range(len(told.rows)) if at < FIRST or at >= FIRST + left_out}
    gap = Row("", f".. {left_out} more lines like these", "")
    made = {each: [it for it in (moved(it, rows) for it in getattr(told, each)) if it] for each in ("lifelines", "deliveries", "untaken")}
    return replace(told, rows=[*told.rows[:FIRST], gap, *told.rows[-LAST:]], **made)


def picture(file):
    told, title = traced(file), f"{file.name}: iceoryx2, and where iceoryx 2.0.3 replies otherwise"
    # Two replies in a row are longer than one.
    draw.LONGEST_SHOWN = 70
    seen = shortened(told)
    drawn = draw.svg(seen, title).replace(draw.counts(seen), draw.counts(told))
    return re.sub(r'class="\w+"( x="\d+" y="\d+">[^<]*' + re.escape(BETWEEN) + ")", r'class="bad"\1', drawn)


def main(words):
    differs = False
    for file in sorted((HERE / "scripts").glob("*.iox")):
        drawn, text = file.with_suffix(".svg"), picture(file)
        if words == ["--check"]:
            if not drawn.exists() or drawn.read_text(encoding="utf-8") != text:
                print(f"{drawn.name} isn't what examples/iceoryx/draw.py draws", file=sys.stderr)
                differs = True
        else:
            drawn.write_text(text, encoding="utf-8")
    return int(differs)


if __name__ == "__main__":
    sys.exit(main(sys.argv[1:]))
