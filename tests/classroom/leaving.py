"""Tests with bots of `bots/faulty.py` that leave programs running. Such a program sleeps, and is found by its argument,
a number of seconds."""
from __future__ import annotations

import secrets
from pathlib import Path

from classroom.core.program import TOP
from tests.classroom.help import InRoom, wait_until

FAULTY = TOP / "tests/classroom/bots/faulty.py"
# A copy of `faulty.py` outside the repository needs the path of the repository in place of this expression.
IMPORTED_FROM = "Path(__file__).resolve().parents[3]"
SLEEP = '"98765.25"'  # the argument in `faulty.py`


class Leaving(InRoom):
    """A test whose bots run a copy of `faulty.py`. In the copy, the programs that are left running have an argument of
    their own, so that the test doesn't find those of other tests."""

    def setUp(self) -> None:
        """Makes the copy, whose path is `faulty`. The programs that its bots leave running have `argument` as their
        argument."""
        super().setUp()
        self.argument = f"98765.{secrets.randbits(40)}"
        text = FAULTY.read_text(encoding="utf-8")
        for old, new in ((IMPORTED_FROM, repr(str(TOP))), (SLEEP, repr(self.argument))):
            self.assertEqual(text.count(old), 1, old)
            text = text.replace(old, new)
        (self.room / "bots").mkdir()
        self.faulty = self.file("bots/faulty.py", text)

    def left_behind(self) -> list[str]:
        """Returns the numbers of the running programs that bots of this test have left."""
        return [each.name for each in Path("/proc").iterdir() if self.argument.encode() in words_of(each)]

    def check_nothing_left(self) -> None:
        """Waits until no program is left that a bot of this test has started. Fails after a time limit."""
        wait_until(lambda: not self.left_behind(), "a program of a bot is still running")


def words_of(process: Path) -> list[bytes]:
    """Returns the words of a process's command line. `process` is its folder in /proc. Returns none if it has ended, or
    if this isn't the folder of a process."""
    try:
        return (process / "cmdline").read_bytes().split(b"\0") if process.name.isdecimal() else []
    except OSError:
        return []
