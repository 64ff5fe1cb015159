#!/usr/bin/env python3
"""Runs scripts of which the replies are known, `NAME.iox` beside `NAME.replies`: a line a difference, then `N passed, M failed`.

`model/rows.py [--program PROGRAM] [FOLDER ..]`: by the model, or by a program that reads a script on standard input;
in these folders and below, examples/rows where none is named.
"""
import subprocess
import sys
from pathlib import Path

sys.dont_write_bytecode = True
TOP = Path(__file__).resolve().parent.parent
sys.path.insert(0, str(TOP / "model"))
from script_model import lines_of, replies


def answers(script, program):
    """The reply lines to a script."""
    if program is None:
        return replies(script)
    ran = subprocess.run([program], input=script, stdout=subprocess.PIPE, timeout=600)
    return ran.stdout.decode("latin-1").split("\n")[:-1] + [f"(status {ran.returncode})"] * (ran.returncode != 0)


def difference(script, program):
    """The first line whose reply isn't the one beside it, or None."""
    lines, wanted = lines_of(script.read_bytes()), script.with_suffix(".replies").read_text().split("\n")[:-1]
    found = answers(script.read_bytes(), program)
    for i in range(max(len(wanted), len(found), len(lines))):
        line, want, got = [it[i] if i < len(it) else "(nothing)" for it in (lines, wanted, found)]
        if want != got or "(nothing)" in (line, want):
            return f"line {i + 1}: {str(line)[:80]}: {got!r}, and not {want!r}"
    return None


def main(words):
    program = words.pop(1) if words[:1] == ["--program"] and words[1:] else None
    folders = words[program is not None :] or [TOP / "examples" / "rows"]
    failed = passed = 0
    for script in sorted(it for folder in folders for it in Path(folder).rglob("*.iox")):
        wrong = difference(script, program)
        failed, passed = failed + (wrong is not None), passed + (wrong is None)
        if wrong is not None:
            print(f"{script}: {wrong}")
    print(f"{passed} passed, {failed} failed")
    return failed > 0 or passed == 0


if __name__ == "__main__":
    sys.exit(main(sys.argv[1:]))
