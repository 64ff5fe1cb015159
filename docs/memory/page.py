"""The table of docs/notes/MEMORY.md: its rows, written and compared."""

from collections import Counter

from memory.sources import libraries, places, texts_of

HEADER = "| File | Function | Made, and under what | Why |\n|---|---|---|---|\n"


def cells(row):
    return row.replace("|", r"\|")


def rows_of(page):
    """The rows of the page: (file, function, text) with the reason."""
    found = []
    for line in page.partition(HEADER)[2].splitlines():
        parts = [it.strip() for it in line.replace(r"\|", "\0").strip("|").split("|")]
        if len(parts) == 4:
            *place, reason = (it.replace("\0", "|") for it in parts)
            found.append((tuple(it.strip("`") for it in place), reason))
    return found


def differences(page, found):
    """What a page lacks of these places, has beyond them, and gives no reason for."""
    rows = rows_of(page)
    here, there = Counter(found), Counter(place for place, _ in rows)
    show = lambda it: "{}: {}: {}".format(*it)
    lines = [f"a new or changed place of out of memory: {show(it)}" for it in (here - there).elements()]
    lines += [f"no place any longer: {show(it)}" for it in (there - here).elements()]
    return lines + [f"a place without a reason: {show(place)}" for place, reason in rows if not reason]


def written(page, found):
    reasons = {}
    for place, reason in rows_of(page):
        reasons.setdefault(place, reason)
    rows = [f"| `{a}` | `{b}` | `{cells(c)}` | {cells(reasons.get((a, b, c), ''))} |\n" for a, b, c in found]
    return page.partition(HEADER)[0] + HEADER + "".join(rows)


def all_places():
    return [it for crate in libraries() for it in places(texts_of(crate))]

