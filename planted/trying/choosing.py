"""Which bodies a run of the gate tries: those of planted/gate.txt each time, and others by the commit, so that all come round."""
from __future__ import annotations

import hashlib
import subprocess

from planted.trying.edits import PLANTED, TOP, Edit
from planted.trying.table import HELD, Row

GATE = PLANTED / "gate.txt"
OTHERS = 20
# In seconds of processor time, by the table: what those of each gate and the others may take together, and the others at most.
ALL_SECONDS, MOST_SECONDS = 900.0, 240.0


def promised() -> dict[str, list[str]]:
    """What is wrong in each body that is tried each time, in words, and the edits of it."""
    lines = [line for line in GATE.read_text(encoding="utf-8").splitlines() if line and not line.startswith("#")]
    return {line.partition(": ")[0]: line.partition(": ")[2].split() for line in lines}


def commit() -> str:
    """What names this text: its commit, or without git a sum over the planted bodies."""
    ran = subprocess.run(["git", "rev-parse", "HEAD"], cwd=TOP, capture_output=True, text=True)
    if ran.returncode == 0:
        return ran.stdout.strip()
    names = "\n".join(str(path.relative_to(PLANTED)) for path in sorted(PLANTED.glob("*/*.edit")))
    return hashlib.sha1(names.encode()).hexdigest()


def others(edits: list[Edit], rows: dict[str, Row], named: set[str], by: str) -> list[Edit]:
    """Twenty bodies that follow one another in the list of all, from a place on that the commit chooses.

    Neighbours change the same crate, and are asked about at once. One that fell for a test or a case takes minutes: as many are taken as
    the time leaves.
    """
    tried = [it for it in edits if it.key not in named and it.key in rows and rows[it.key].how in HELD]
    start = int(by, 16) % len(tried) if tried else 0
    chosen: list[Edit] = []
    left = min(MOST_SECONDS, ALL_SECONDS - sum(float(rows[key].seconds) for key in named & rows.keys()))
    for it in tried[start:] + tried[:start]:
        seconds = float(rows[it.key].seconds)
        if len(chosen) < OTHERS and seconds <= left:
            chosen.append(it)
            left -= seconds
    return chosen
