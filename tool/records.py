"""Replies for programs: a line of JSON each, with the line's number, the command, the reply and what it says."""
from __future__ import annotations

import json

from tool.converse import Line
from tool.notes import Follower, known

MADE = "nfpslm"


def values_in(words: list[str]) -> list[int] | None:
    return [int(it) for it in words] if all(it.isdigit() for it in words) else None


def said(command: str, reply: str) -> dict:
    """What a reply says, by the command that it answers."""
    kind, _, rest = reply.partition(" ")
    words = rest.split(" ") if rest else []
    if kind != "ok":
        return {"kind": kind, "error": rest} if kind == "err" else {"kind": kind}
    verb = command.partition(" ")[0]
    if words and words[0][:1] in MADE and words[0][1:].isdigit():
        found = {"kind": kind, "made": words[0]}
        return {**found, "values": values_in(words[1:])} if verb == "receive" else found
    if verb == "read":
        return {"kind": kind, "values": values_in(words)}
    if verb == "sequence":
        return {"kind": kind, "sequence": None if words == ["none"] else int(words[0])}
    if verb == "has":
        return {"kind": kind, "has": words == ["true"]}
    return {"kind": kind, "took": int(words[0])} if words else {"kind": kind}


def record_of(line: Line, reply: bytes, follower: Follower, has_strings: bool) -> bytes:
    """The line of JSON in the place of a reply. Numbers of messages are strings if asked for: many readers have no integers above 2^53."""
    command, text = line.text.decode(errors="backslashreplace"), reply.decode("latin-1").rstrip("\n")
    record = {"line": line.number, "command": command, "reply": text, **said(command, text)}
    if has_strings and record.get("values") is not None:
        record["values"] = [str(it) for it in record["values"]]
    if has_strings and record.get("sequence") is not None:
        record["sequence"] = str(record["sequence"])
    told, meaning, why = known(line, reply, follower)
    parts = {"column": next((it.column for it in told), None), "why": why, "advice": meaning.what_to_do if meaning else None}
    return json.dumps({**record, **{key: it for key, it in parts.items() if it}}).encode() + b"\n"
