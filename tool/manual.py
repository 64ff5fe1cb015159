#!/usr/bin/env python3
"""Writes the manual page and the completions of bash, zsh and fish from the launcher's arguments; with `--check` it only compares."""
import argparse
import re
import sys
from pathlib import Path

sys.dont_write_bytecode = True
sys.path.insert(0, str(Path(__file__).resolve().parent.parent))
from tool import TOP, VERSION  # first, since it says where the model's modules are
from script_lines import SETTINGS
from tool.arguments import ABOUT, STATUSES, parser
from tool.grammar import MEANINGS, PORT_OPTIONS, VERBS, setting_in_words

PAGE, COMPLETION = TOP / "docs" / "iox.1", TOP / "tool" / "completion"


def options():
    """The launcher's options, without FILE."""
    return [it for it in parser()._actions if it.option_strings]


def plain(text):
    return " ".join(text.replace("\\", "\\e").split())


def roff(text):
    """Text for a manual page: dashes that are typed, and no line that begins like a request."""
    return re.sub(r"(?m)^([.'])", r"\\&\1", text.replace("\\", "\\e").replace("-", "\\-"))


def manual():
    lines = [f'.TH IOX 1 "" "Kohepuri {VERSION}" "User commands"', ".SH NAME", "iox \\- publish\\-subscribe conversations by lines"]
    lines += [".SH SYNOPSIS", ".B ./iox", "[OPTION ..] [FILE]", ".SH DESCRIPTION", roff(plain(ABOUT))]
    built = "a build of the same sources without proofs, which is made once and kept"
    lines += [roff(f"The proved program answers if it is built, and otherwise {built}.")]
    lines += [".SH OPTIONS"]
    for it in options():
        operand = f"[{it.metavar}]" if it.nargs == "?" else it.metavar
        names = ", ".join(it.option_strings) + (f" {operand}" if operand else "")
        lines += [".TP", f".B {roff(names)}", roff(it.help)]
    lines += [".SH COMMANDS OF A SCRIPT"]
    for verb in VERBS.values():
        lines += [".TP", f".B {roff(verb.form)}", roff(f"{verb.meaning}: {verb.reply}. {verb.details}".strip())]
    lines += [".SH OPTIONS OF COMMANDS"]
    for pattern, settings in SETTINGS.items():
        told = ", ".join(f"{key}={setting_in_words(default)}" for key, _, default, *_ in settings)
        lines += [".TP", f".B create, open, open_or_create {pattern}", roff(f"options with their defaults: {told}")]
    for verb, kinds in PORT_OPTIONS.items():
        told = "; ".join(f"{key}: {MEANINGS[key]}" for key in kinds)
        lines += [".TP", f".B {verb}", roff(told)]
    lines += [".SH EXIT STATUS", roff(plain(STATUSES.partition("\n`")[0]).replace("status: ", ""))]
    built = "crates/iox/out has what is built, or $XDG_CACHE_HOME/kohepuri if that can't be written"
    lines += [".SH FILES", roff(f"{built}; $XDG_STATE_HOME/kohepuri/history has the lines typed at the prompt.")]
    return "\n".join(lines) + "\n"


def excluded(option):
    """The names of the options of an option's group, of which there may be one at most; none where it is in no group."""
    names = [[name for it in group._group_actions for name in it.option_strings] for group in parser()._mutually_exclusive_groups]
    return next((it for it in names if option.option_strings[0] in it), [])


def of_bash():
    words = " ".join(name for it in options() for name in it.option_strings)
    files = "|".join(name for it in options() if it.metavar for name in it.option_strings)
    return f"""\
# Completion of ./iox in bash, written by tool/manual.py: `source tool/completion.bash`
_iox() {{
    local word=${{COMP_WORDS[COMP_CWORD]}} before=${{COMP_WORDS[COMP_CWORD - 1]}}
    case $before in
    {files})
        COMPREPLY=($(compgen -f -- "$word"))
        return
        ;;
    esac
    if [[ $word == -* ]]; then
        COMPREPLY=($(compgen -W "{words}" -- "$word"))
    else
        COMPREPLY=($(compgen -f -X '!*.iox' -- "$word") $(compgen -d -- "$word"))
    fi
}}
complete -o filenames -F _iox ./iox iox
"""


def of_zsh():
    specs = []
    for it in options():
        names = it.option_strings
        # A colon ends a part of a specification.
        told = re.sub(r"([\\\[\]:])", r"\\\1", it.help).replace("'", "'\\''")
        tail = f"'[{told}]" + (f":{it.metavar}:_files'" if it.metavar else "'")
        others = " ".join(excluded(it) or names)
        name = f"{{{','.join(names)}}}" if len(names) > 1 else names[0]
        specs.append(f"'({others})'{name}{tail}")
    lines = " \\\n        ".join([*specs, "'::FILE:_files -g \"*.iox(-.)\"'"])
    return f"""\
#compdef iox
# Completion of ./iox in zsh, written by tool/manual.py: `source tool/completion.zsh`, behind `compinit`
_iox() {{
    _arguments \\
        {lines}
}}
compdef _iox iox ./iox
"""


def of_fish():
    lines = ["# Completion of ./iox in fish, written by tool/manual.py: `source tool/completion.fish`", "complete -c iox -f"]
    lines += ["complete -c iox -a '(__fish_complete_suffix .iox)' -d 'a script'"]
    for it in options():
        names = " ".join(f"-l {name[2:]}" if name.startswith("--") else f"-s {name[1:]}" for name in it.option_strings)
        others = " ".join(f"{name.lstrip('-')}" if name.startswith("--") else f"-s {name[1:]}" for name in excluded(it))
        condition = f" -n 'not __fish_contains_opt {others}'" if others else ""
        told = it.help.replace("\\", "\\\\").replace("'", "\\'")
        lines.append(f"complete -c iox{condition} {names}{' -r -F' if it.metavar else ''} -d '{told}'")
    return "\n".join(lines) + "\n"


SHELLS = {"bash": of_bash, "zsh": of_zsh, "fish": of_fish}


def main():
    arguments = argparse.ArgumentParser(description=__doc__)
    arguments.add_argument("--check", action="store_true", help="only compare, and say what differs")
    is_check = arguments.parse_args().check
    differs = False
    written = [(PAGE, manual())] + [(COMPLETION.with_suffix(f".{shell}"), of()) for shell, of in SHELLS.items()]
    for file, text in written:
        if not is_check:
            file.write_text(text, encoding="utf-8")
        elif not file.exists() or file.read_text(encoding="utf-8") != text:
            print(f"{file.relative_to(TOP)} isn't what tool/manual.py writes", file=sys.stderr)
            differs = True
    return int(differs)


if __name__ == "__main__":
    sys.exit(main())
