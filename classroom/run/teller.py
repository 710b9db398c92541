"""The lines of a run. The lines go to the terminal, to the run's folder, and to its pages."""
from __future__ import annotations

import os
import stat
import sys
import time
from collections.abc import Callable
from pathlib import Path

from classroom.core.printable import printable

# How the lines begin that the desk of a class of several networks recognises: the commands, the addresses of the pages,
# and the command that continues a run.
READY, TO_CONTINUE = "commands: ", "to continue the run: "
TO_LOOK, TO_ACT, TO_PLAY, FOR_ALL = "page for the projector", "page on which you can act", "page for playing by hand", "page for all networks"
FROM_ELSEWHERE = ", from other machines"  # This comes after the name of a page if the address leads through the door.


def is_private(typed: bool) -> bool:
    """Returns whether only the teacher reads what is printed. Returns True for a terminal and for the system's journal,
    which is a socket, but not for a file. Returns True for a pipe, too, if `typed` says that a program types the
    commands: then this program reads what is printed."""
    try:
        mode = os.fstat(sys.stdout.fileno()).st_mode
        return sys.stdout.isatty() or stat.S_ISSOCK(mode) or typed and not stat.S_ISREG(mode)
    except (AttributeError, OSError, ValueError):  # It is closed.
        return False


class Teller:
    """A printer of lines, which also appends them to a file in the folder. A closed terminal or a full disk raises no
    error."""

    def __init__(self, folder: Path) -> None:
        """`folder` is that of the run, in which the lines are kept."""
        self.path = folder / "run.txt"
        self.also: list[Callable[[str], None]] = []  # functions to which each line is passed too
        self.around: Callable[[str], str] = str  # Returns the characters that print a text while a line is typed at the terminal.

    def __call__(self, line: str) -> None:
        """Prints a line, appends it to the file, and passes it on to the functions in `also`."""
        line = printable(line)
        for hear in self.also:
            hear(line)
        for put in (self.keep, self.say):
            try:
                put(line)
            except OSError:
                pass

    def print_only(self, line: str) -> None:
        """Prints a line that is neither appended to the file nor shown on pages."""
        try:
            self.say(printable(line))
        except OSError:
            pass

    def say(self, line: str) -> None:
        """Prints a line. Prints nothing once the reader has closed the output."""
        try:
            print(self.around(line + "\n"), end="", flush=True)
        except OSError:
            # From now on, nothing that is printed raises an error, also not when the program ends.
            with open(os.devnull, "w", encoding="utf-8") as nowhere:
                os.dup2(nowhere.fileno(), sys.stdout.fileno())

    def keep(self, line: str) -> None:
        """Appends one or several lines to `run.txt`, each after the hour and minute. Raises `OSError` if the file can't
        be written."""
        now = time.strftime("%H:%M")
        with self.path.open("a", encoding="utf-8") as it:
            it.writelines(f"{now} {each}\n" for each in line.split("\n"))
