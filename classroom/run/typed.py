"""The teacher's input: lines with the desk's commands, and a terminal with line editing, history and completion."""
from __future__ import annotations

import difflib
import queue
import re
import sys
import termios
from collections.abc import Callable

from classroom.core.desk_words import PATTERNS, WORDS

Typed = queue.SimpleQueue[str]
NOW = "\x03"  # The text that ends the run at once, as a signal does.
EOF = "\x04"  # The text of Ctrl-D.
HUNG = "\x01"  # The text that says that the terminal was closed.
LEAVE = "\x02"  # The text that says that another process takes the desk.
FORMS = {word: f"{word} {it.form}".strip() for word, it in WORDS.items()}
HELP = ", ".join(FORMS.values())


def parse_command(line: str) -> list[str]:
    """Returns the words of a typed line. An empty line is the command `wait`. Raises `ValueError` if the line isn't a
    command of the desk. Its text says how to write the command."""
    word, *rest = line.split() or ["wait"]
    if word not in FORMS:
        near = difflib.get_close_matches(word, WORDS, 1)
        raise ValueError(f"{word} isn't a command.{f' Did you mean {FORMS[near[0]]}?' if near else ''} The commands are: {HELP}")
    form = WORDS[word].form.replace("[", "").replace("]", "").split()
    least = len(form) - WORDS[word].form.count("[")
    if not least <= len(rest) <= len(form) or not all(re.fullmatch(PATTERNS[of], it, re.ASCII) for of, it in zip(form, rest)):
        raise ValueError(f"the command {word} was written in a wrong form. Write: {FORMS[word]}")
    return [word, *rest]


def command_help() -> str:
    """Returns all commands with their effects, one per line."""
    wide = max(map(len, FORMS.values()))
    return "\n".join(f"  {FORMS[word]:{wide}}  {it.help}" for word, it in WORDS.items())


class Terminal:
    """A terminal in which a line is edited while other lines are printed."""

    PROMPT = "> "

    def __init__(self, words: list[str]) -> None:
        """`words` are offered as completions after the first word of a line."""
        import readline  # Imported only here, since it writes to a terminal as it is loaded.

        self.words, self.readline = words, readline
        self.prompt = self.PROMPT
        self.reads = False  # Whether a line is being typed.
        self.before = termios.tcgetattr(sys.stdin)
        readline.set_completer_delims(" ")
        readline.set_completer(self.complete)
        readline.parse_and_bind("tab: complete")

    def complete(self, text: str, state: int) -> str | None:
        """Returns the completion of a text with the index `state`, or None after the last one. The first word of a line
        is completed to a command, and a later one to a name or number."""
        before = self.readline.get_line_buffer()[:self.readline.get_begidx()]
        first = re.fullmatch(r"\s*(\d+\s+|\S+\s*:\s*)?", before) is not None  # The command may follow the number or the name of a network.
        found = [f"{word} " for word in (WORDS if first else self.words) if word.startswith(text)]
        return found[state] if state < len(found) else None

    def around(self, line: str) -> str:
        """Returns the characters that print `line` on the terminal above the line that is being typed. If no line is
        being typed at the moment, returns `line` itself."""
        # The first characters erase the typed line, which is printed again after `line`.
        return f"\r\x1b[K{line}{self.prompt}{self.readline.get_line_buffer()}" if self.reads else line

    def read(self, put: Callable[[str], None]) -> None:
        """Calls `put` with each typed line, and with EOF for Ctrl-D, until the terminal is closed."""
        while True:
            self.reads = True
            try:
                put(input(self.prompt))
            except EOFError:
                try:  # A closed terminal has no settings, but after Ctrl-D it still has them.
                    termios.tcgetattr(sys.stdin)
                except termios.error:
                    return
                put(EOF)
            except (OSError, ValueError):
                return
            finally:
                self.reads = False

    def leave(self) -> None:
        """Restores the settings of the terminal."""
        self.reads = False
        try:
            termios.tcsetattr(sys.stdin, termios.TCSADRAIN, self.before)
        except (OSError, termios.error):
            pass


def read_lines(put: Callable[[str], None]) -> None:
    """Calls `put` with each line of standard input, which isn't a terminal, until its end."""
    try:
        for line in sys.stdin:
            put(line.rstrip("\n"))
    except (OSError, ValueError):
        pass
