#!/usr/bin/env python3
"""Asks each service of a script alone: `model/alone.py [--program PROGRAM] SCRIPT..`, by the model, or by a program that reads a script.

A service's part of a script are the lines that make nodes, those that name its pattern and name, and those that name by its number
something that such a line made, also where it is spent since; what the service made is counted from 1 anew. On a hub of its own each part
must get the replies that it got among the others, with the same numbers counted anew. A line a difference, then `N passed, M failed`;
where a part alone has a script and replies of its own beside SCRIPT, `NAME-alone.iox` and `NAME-alone.replies`, it must be just these.
"""
import sys
from pathlib import Path

sys.dont_write_bytecode = True
TOP = Path(__file__).resolve().parent.parent
sys.path.insert(0, str(TOP / "model"))
from join import SERVICE_VERBS, is_command
from rows import answers
from script_model import lines_of


def service_named(words):
    """The pattern and the name that a command names, or None."""
    at = 2 if words[0] in SERVICE_VERBS else 1 if words[0] == b"foreign" else None
    return None if at is None else (words[at], words[at + 1])


def thing_made(reply):
    """The letter and the number of what a reply says was made, if it says so; a node isn't a service's own."""
    words = reply.split(b" ")
    is_made = words[0] == b"ok" and len(words) > 1 and words[1][:1] in (b"f", b"p", b"s", b"l", b"m") and words[1][1:].isdigit()
    return words[1] if is_made else None


def part_of(lines, replies, service):
    """The lines of a service with their replies, by the service's own numbers."""
    own, counts, part = {}, {}, []
    for line, reply in zip(lines, replies):
        words = line.split(b" ")
        if not is_command(line):
            continue
        named = service_named(words)
        if words[0] != b"node" and named != service and (named is not None or words[1] not in own):
            continue
        if words[0] != b"node" and named is None:
            words[1] = own[words[1]]
        made = thing_made(reply)
        if made is not None:
            counts[made[:1]] = counts.get(made[:1], 0) + 1
            own[made] = made[:1] + b"%d" % counts[made[:1]]
            reply = b" ".join([b"ok", own[made]] + reply.split(b" ")[2:])
        part.append((b" ".join(words), reply))
    return part


def parts(lines, replies):
    """Each service that a script names, with its part."""
    named = [service_named(line.split(b" ")) for line in lines if is_command(line)]
    return [(it, part_of(lines, replies, it)) for it in dict.fromkeys(named) if it is not None]


def typed(script, service):
    """The part that was typed by hand beside a script, or None."""
    file = script.with_name(f"{service[1].decode('latin-1').replace('/', '.')}-alone.iox")
    if not file.is_file():
        return None
    return list(zip(lines_of(file.read_bytes()), file.with_suffix(".replies").read_bytes().split(b"\n")))


def difference(script, service, part, program):
    """What the part of a service is answered alone that it wasn't among the others, or None."""
    by_hand = typed(script, service)
    if by_hand is not None and by_hand != part:
        return "its part isn't the one beside the script"
    found = [it.encode("latin-1") for it in answers(b"".join(line + b"\n" for line, _ in part), program)]
    for at, (line, wanted) in enumerate(part):
        got = found[at] if at < len(found) else b"(nothing)"
        if got != wanted:
            return f"line {at + 1} of its part, {line[:80]!r}: {got!r} alone, and {wanted!r} among the others"
    return None


def main(words):
    program = words.pop(1) if words[:1] == ["--program"] and words[1:] else None
    scripts = [Path(it) for it in words[program is not None :]]
    passed = failed = 0
    for script in scripts:
        lines = lines_of(script.read_bytes())
        replies = [it.encode("latin-1") for it in answers(script.read_bytes(), program)]
        for service, part in parts(lines, replies):
            wrong = difference(script, service, part, program)
            failed, passed = failed + (wrong is not None), passed + (wrong is None)
            if wrong is not None:
                print(f"{script}: {b' '.join(service).decode('latin-1')[:80]}: {wrong}")
    print(f"{passed} passed, {failed} failed")
    return failed > 0 or passed == 0


if __name__ == "__main__":
    sys.exit(main(sys.argv[1:]))
