"""Writes what docs/notes/PLANTS.md says of the table."""
from __future__ import annotations

from collections import Counter

from planted.trying import choosing, table
from planted.trying.edits import TOP, every_edit
from planted.trying.table import Row

PAGE = TOP / "docs" / "notes" / "PLANTS.md"
MARKS = ("<!-- planted/try writes the lines from here on -->\n", "<!-- to here -->\n")
KINDS = {
    "clause": "at a goal",
    "test": "by a test",
    "case": "by a case",
    "weakly": "at a proof by hand alone",
    "untold": "can't be told",
    "broken": "broken",
    "through": "let through",
}
HEADS = ("Crate", "Bodies", *KINDS.values(), "not tried")


def fallen(row: Row | None) -> str:
    """What refused a body, for a cell of a table."""
    if row is None:
        return "not tried"
    where = row.where.removeprefix(f"{row.crate}::")
    goals = ", ".join(f"`{it}`" for it in row.what.split()) if row.how == "clause" else f"`{row.what}`"
    return {"clause": f"`{where}`: {goals}", "test": f"test {goals} of `{where}`", "case": f"case {goals}"}.get(row.how, row.how)


def lines_of_gate(rows: dict[str, Row]) -> list[str]:
    lines = ["| What is wrong | Body | Refused by |", "|---|---|---|"]
    for what, keys in choosing.promised().items():
        for key in keys:
            crate, _, body = key.partition("/")
            lines.append(f"| {what} | `{crate}`: `{body}` | {fallen(rows.get(key))} |")
            what = ""
    return lines


def lines_by_crate(rows: dict[str, Row]) -> list[str]:
    lines = ["| " + " | ".join(HEADS) + " |", "|---" * len(HEADS) + "|"]
    bodies = Counter(it.crate for it in every_edit())
    kinds = Counter((row.crate, row.how) for row in rows.values())
    for crate, count in sorted(bodies.items()):
        told = [kinds[crate, kind] for kind in KINDS]
        lines.append("| " + " | ".join([f"`{crate}`", str(count), *map(str, told), str(count - sum(told))]) + " |")
    count, told = sum(bodies.values()), [sum(kinds[crate, kind] for crate in bodies) for kind in KINDS]
    lines.append("| " + " | ".join(["all", str(count), *map(str, told), str(count - sum(told))]) + " |")
    return lines


def written() -> str:
    """The page as the table has it."""
    rows, text = table.read(), PAGE.read_text(encoding="utf-8")
    lines = ["## Listed for each gate", "", *lines_of_gate(rows), "", "## By crate", "", *lines_by_crate(rows), ""]
    through = sorted(row.key for row in rows.values() if row.how not in table.HELD)
    if through:
        lines += ["## Held by nothing", "", *(f"- `{key}`: {fallen(rows[key])}" for key in through), ""]
    before, _, rest = text.partition(MARKS[0])
    return before + MARKS[0] + "\n" + "\n".join(lines) + "\n" + MARKS[1] + rest.partition(MARKS[1])[2]


def write() -> None:
    PAGE.write_text(written(), encoding="utf-8")
