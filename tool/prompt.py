"""The prompt on a terminal: a line with history and completion, its own words beside the commands, and what the keys of a shell do."""
from __future__ import annotations

import contextlib
import os
import sys
from collections.abc import Iterator
from pathlib import Path

from script_lines import PATTERNS

from tool import VERSION
from tool.converse import STANDARD_INPUT, Fault
from tool.explain import meant
from tool.grammar import PORT_OPTIONS, SERVICE, STEP_VERBS, VERBS, Kind, options_of, settings_of, values_of
from tool.grammar import help_on_all, help_on_option, help_on_verb

PROMPT = "iox> "
KEPT_LINES = 1000
WORDS = """\
words of the prompt:
  help or ?             the commands
  help WORD             a command with its options, or an option
  :state                nodes, services, ports with what waits and is held, loans, samples
  :why                  why the last line was skipped, refused or faulty
  exit, quit, Ctrl-D    ends the hub with all that it holds
keys: Tab completes, Up and Ctrl-R find earlier lines, Ctrl-C drops the line, Ctrl-L clears the screen"""
OWN_WORDS = ("help", "exit", "quit", ":state", ":why")
OPTIONS = tuple(dict.fromkeys([*(key for it in PATTERNS for key in settings_of(it)), *(key for it in PORT_OPTIONS.values() for key in it)]))


def history_file() -> Path:
    state = os.environ.get("XDG_STATE_HOME") or Path.home() / ".local" / "state"
    return Path(state) / "kohepuri" / "history"


def help_on(word: str) -> str:
    if not word:
        return f"{help_on_all()}\n{WORDS}"
    if word in (*OWN_WORDS, "?"):
        return WORDS
    told = help_on_verb(VERBS[word]) if word in VERBS else help_on_option(word.rstrip("="))
    return told or f'no command or option "{word}"{meant(word.encode(), [*VERBS, *OPTIONS])}'


class Completion:
    """What a line that is being typed may go on with, by the grammar and by what lives."""

    def __init__(self, follower):
        self.follower = follower

    def living(self, letters: str) -> list[str]:
        watched = self.follower.catch_up()
        return [name for letter in letters for name, _ in watched.living(letter)]

    def names(self) -> list[str]:
        """The names of the services that exist."""
        return sorted({name.decode("latin-1") for _, name in self.follower.catch_up().machine.names.phases})

    def of_options(self, kinds: dict, words: list[str], begun: str) -> list[str]:
        key, equals, _ = begun.partition("=")
        if equals and key in kinds:
            return [f"{key}={it}" for it in values_of(kinds[key])]
        return [f"{it}=" for it in kinds if it not in {word.partition("=")[0] for word in words}]

    def of_kind(self, kind: Kind, verb: str, words: list[str], begun: str) -> list[str]:
        if kind.letters:
            return self.living(kind.letters)
        if kind is Kind.PATTERN:
            return list(PATTERNS)
        if kind is Kind.NAME:
            return self.names()
        if kind is Kind.STEPS:
            return [f"{it}:x" for it in STEP_VERBS]
        pattern = words[2] if VERBS[verb].operands == SERVICE and len(words) > 2 else None
        return self.of_options(options_of(verb, pattern), words, begun)

    def candidates(self, line: str) -> list[str]:
        """What the last word of a line may become."""
        *words, begun = line.split(" ")
        if not words:
            found = [*VERBS, *OWN_WORDS]
        elif words[0] == "help":
            found = [*VERBS, *OPTIONS] if len(words) == 1 else []
        elif words[0] in VERBS:
            operands = VERBS[words[0]].operands
            kind = operands[min(len(words), len(operands)) - 1] if operands else None
            found = self.of_kind(kind, words[0], words, begun) if kind else []
        else:
            found = []
        return [it if it.endswith(("=", ":x")) else f"{it} " for it in found if it.startswith(begun)]


class Prompt:
    """Yields the lines that are typed, and answers its own words itself."""

    def __init__(self, follower, notes):
        self.follower, self.notes = follower, notes
        self.completion, self.readline = Completion(follower), None

    def tell(self, text: str):
        print(text, file=sys.stderr, flush=True)

    def begin(self):
        """Uses readline, if both ends are a terminal and Python has it."""
        if not (sys.stdin.isatty() and sys.stdout.isatty()):
            return
        with contextlib.suppress(ImportError):
            import readline

            self.readline = readline
            readline.set_completer_delims(" ")
            readline.set_completer(self.complete)
            is_libedit = "libedit" in (readline.__doc__ or "")
            readline.parse_and_bind("bind ^I rl_complete" if is_libedit else "tab: complete")
            with contextlib.suppress(OSError):
                readline.read_history_file(history_file())
            sys.stdin.reconfigure(errors="surrogateescape")

    def end(self):
        if self.readline:
            with contextlib.suppress(OSError):
                history_file().parent.mkdir(parents=True, exist_ok=True)
                self.readline.set_history_length(KEPT_LINES)
                self.readline.write_history_file(history_file())

    def complete(self, _begun: str, at: int) -> str | None:
        if at == 0:
            line = self.readline.get_line_buffer()[: self.readline.get_endidx()]
            self.found = self.completion.candidates(line)
        return self.found[at] if at < len(self.found) else None

    def read(self) -> bytes | None:
        """The next line with its newline, or what there is of it at the end of the input; None at the end."""
        try:
            if self.readline:
                # A word that was completed has a space after it, which would make the line faulty.
                return os.fsencode(input(PROMPT).strip(" ")) + b"\n"
            print(PROMPT, end="", file=sys.stderr, flush=True)
            return sys.stdin.buffer.readline() or None
        except EOFError:
            return None
        except OSError as error:
            raise Fault(f"read fault: {STANDARD_INPUT}: {error.strerror}") from None

    def answer(self, line: str) -> bool:
        """Answers a line that is the prompt's own, and returns whether it was."""
        word, _, of = line.partition(" ")
        near = meant(word.encode(), [*VERBS, *OWN_WORDS]) if word not in VERBS else ""
        if word in ("help", "?"):
            self.tell(help_on(of.strip()))
        elif line == ":state":
            from tool.state import snapshot, told

            self.tell(told(snapshot(self.follower.catch_up())))
        elif line == ":why":
            self.tell(self.notes.last or "no line was skipped, refused or faulty so far")
        elif word in OWN_WORDS:
            self.tell(f"{word} takes no further words")
        elif any(f'"{it}"' in near for it in OWN_WORDS):
            self.tell(f'no command "{word}"{near}')
        elif line.startswith(":"):
            self.tell(WORDS)
        else:
            return False
        return True

    def lines(self) -> Iterator[bytes]:
        self.tell(f"Kohepuri {VERSION}: one command a line; `help` lists them, Tab completes, Ctrl-D ends")
        self.begin()
        try:
            while True:
                try:
                    line = self.read()
                except KeyboardInterrupt:
                    self.tell("" if self.readline else "^C")
                    continue
                text = (line or b"").decode(errors="replace").strip()
                if line is None:
                    self.tell("")
                if line is None or text in ("exit", "quit"):
                    return
                if not self.answer(text):
                    yield line
        finally:
            self.end()
