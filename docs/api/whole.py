"""Whole functions that the API pages show at calls whose short examples can't stand alone: docs/api/whole.md has them; a case runs them."""

import re
from pathlib import Path

PAGE = Path(__file__).resolve().parent / "whole.md"


def whole_examples():
    """Each function by its call: the crate, and its place on the page of the crate."""
    found = {}
    for name, code in re.findall(r"(?m)^## `([\w:]+)`\n\n```rust\n((?:.*\n)*?)```$", PAGE.read_text(encoding="utf-8")):
        crate, *path = name.split("::")
        found[crate, ".".join(path)] = code.rstrip("\n")
    return found
