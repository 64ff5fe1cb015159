"""Lays what a function calls aside: the prover then takes each callee of its crate by its contract, and doesn't prove it anew."""
from __future__ import annotations

import json
import re
from functools import cache
from pathlib import Path

OWN_PROOF = ("Answers.antt", "Invariants.antt", "Proof.antt")


@cache
def bodies(library: Path) -> dict[str, str]:
    """The code of each function of a built library."""
    text = (library / "toolchain" / "mir.json").read_text(encoding="utf-8", errors="replace")
    return {name: json.dumps(body) for name, body in json.loads(text)}


def calls(crate: str, body: str, names: set[str]) -> set[str]:
    """What a body names of its crate: functions, and all those of the impls that it hands on."""
    found = {it for it in re.findall(rf'"({crate}::[\w:+]+)"', body) if it in names}
    for impl in set(re.findall(rf'"Impl": \["({crate}::[\w:+]+)"', body)):
        found |= {it for it in names if it.rpartition("::")[0] == impl}
    return found


def called_by(crate: str, asked: list[str], code: dict[str, str]) -> list[str]:
    """What these functions call in their crate, and what those call."""
    names = {it for it in code if "++" not in it and "+decl" not in it}
    seen, ends = set(asked), list(asked)
    while ends:
        for it in calls(crate, code.get(ends.pop(), ""), names) - seen:
            seen.add(it)
            ends.append(it)
    return sorted(seen - set(asked))


def lay_aside(crate: str, folder: Path, functions: list[str]) -> None:
    """Writes a hole in place of the proof of each of these functions."""
    for function in functions:
        parts = function.split("::")[1:]
        place = folder.joinpath("proofs", *parts)
        place.mkdir(parents=True, exist_ok=True)
        for name in OWN_PROOF:
            (place / name).unlink(missing_ok=True)
        stated = f"use Rattle.{crate}.proofs.{'.'.join(parts)}.Statement as stated\n"
        hole = f"pub {parts[-1]}_spec : {{M : Type 1}} → stated.statement M\n{parts[-1]}_spec = ?\n"
        (place / "Proof.antt").write_text(f"{stated}\n{hole}", encoding="utf-8")
