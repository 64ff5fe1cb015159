"""The launcher's arguments. Its help, its manual page and the completions of shells are made from them."""
from __future__ import annotations

import argparse
from importlib import import_module

from tool.progress import MISUSED, stop

ABOUT = """\
Answers FILE, or standard input if FILE is missing or `-`: one command a line,
one reply a line. It has a prompt on a terminal."""
STATUSES = """\
status: 0 end of the input; 1 read or write fault; 2 out of memory; 3 not built
  or not proved, or Python is older than 3.9; 4 --strict failed; 5 --expect or
  --against failed; 64 wrong arguments; 66 FILE or REPLIES can't be read, OUT
  can't be written, PORT can't be listened on, CMD can't start; 128+N signal N
`./iox --commands` lists the commands; first script: ./iox examples/first.iox"""


def version() -> str:
    import shutil
    import subprocess

    from tool import VERSION

    toolchain = "no Rattle toolchain: there is no rt on the path"
    if shutil.which("rt"):
        toolchain = subprocess.run(["rt", "version"], stdout=subprocess.PIPE, text=True).stdout.strip()
    return f"Kohepuri {VERSION}\n{toolchain}"


# The options in the order of the help: names, help, and how argparse reads them. Those of an inner list exclude each other.
FLAG: dict = {"action": "store_true"}
# (No argument can have this character, so an empty OUT is told from none.)
NO_NAME = "\0"
OUT: dict = {"metavar": "OUT", "nargs": "?", "const": NO_NAME}
PRINT: dict = {"action": "store_const", "dest": "prints"}
OPTIONS: list = [
    [
        (["--proved"], "use the proved program; prove it first if needed", FLAG),
        (["--unproved"], "use the build without proofs, even beside a proved one", FLAG),
        (["--model"], "use the Python model: no build, no toolchain", FLAG),
    ],
    [
        (["--json"], "write a JSON object for each reply", {"action": "store_const", "const": "numbers"}),
        (["--json=strings"], "the same, messages' numbers as strings", {"dest": "json", "action": "store_const", "const": "strings"}),
    ],
    (["--svg"], "draw the conversation (default OUT: FILE.svg)", OUT),
    (["--html"], "write a page that plays it (default OUT: FILE.html)", OUT),
    (["--force"], "replace an OUT that ./iox wouldn't overwrite", FLAG),
    (["--expect"], "compare the replies with the file REPLIES", {"metavar": "REPLIES"}),
    (["--strict"], "fail if a reply is err or skip", FLAG),
    (["--comments"], "skip blank lines and lines that begin with #", FLAG),
    (["--listen"], "serve one hub to all who connect by TCP", {"metavar": "[HOST:]PORT"}),
    (["--against"], "check another program's replies by the model", {"metavar": "CMD"}),
    (["--random"], "with --against: N random scripts, or N,PROFILE,SEED", {"metavar": "N"}),
    (["--time"], "print the time taken at the end", FLAG),
    (["--numbers"], "repeat each line that got err or skip", FLAG),
    [
        (["-q", "--quiet"], "no messages about lines on standard error", FLAG),
        (["-v", "--verbose"], "also explain each err, and what to do", FLAG),
    ],
    (["--path"], "print the program's path; build it first if needed", FLAG),
    (["--commands"], "list the commands of a script", {**PRINT, "const": lambda: import_module("tool.grammar").help_on_all()}),
    (["--version"], "print the versions of Kohepuri and the toolchain", {**PRINT, "const": version}),
    (["-h", "--help"], "print this", {"action": "help"}),
]
# What an option can't be given with, beside those that argparse excludes.
APART = {
    "listen": ("file", "svg", "html", "expect", "strict", "time", "path", "against", "random"),
    "path": ("svg", "html", "expect"),
}


class Parser(argparse.ArgumentParser):
    def error(self, message):
        stop(MISUSED, f"{message.replace('ignored explicit argument', 'takes no such value:')}: see ./iox --help")


def parser() -> Parser:
    made = Parser(
        prog="./iox",
        usage="./iox [OPTION ..] [FILE]",
        description=ABOUT,
        epilog=STATUSES,
        add_help=False,
        allow_abbrev=False,
        formatter_class=lambda prog: argparse.RawDescriptionHelpFormatter(prog, max_help_position=24, width=80),
    )
    made.add_argument("file", metavar="FILE", nargs="?", help=argparse.SUPPRESS)
    for row in OPTIONS:
        place = made.add_mutually_exclusive_group() if isinstance(row, list) else made
        for names, meaning, how in row if isinstance(row, list) else [row]:
            place.add_argument(*names, help=meaning, **how)
    return made


def read_arguments() -> argparse.Namespace:
    """Returns the options, with None for a FILE that is standard input, and whether FILE or `-` was named."""
    made = parser()
    options = made.parse_args()
    if options.prints:
        print(options.prints())
        made.exit()
    options.names_script = options.file is not None
    options.file = None if options.file == "-" else options.file
    if options.expect == "":
        made.error("--expect needs the name of a file")
    for name in ("svg", "html"):
        if getattr(options, name) == "":
            made.error(f"--{name} got an empty name for OUT")
        if getattr(options, name) == NO_NAME:
            setattr(options, name, "")
    if options.force and options.svg is None and options.html is None:
        made.error("--force replaces an OUT, so it needs --svg or --html")
    for name, others in APART.items():
        found = [it for it in others if getattr(options, it) not in (None, False)]
        if getattr(options, name) not in (None, False) and found:
            made.error(f"--{name} can't be given with {'FILE' if found[0] == 'file' else f'--{found[0]}'}")
    return options
