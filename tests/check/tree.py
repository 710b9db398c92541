"""A copy of the repository's tree with a `./check` whose parts are shell lines of the tests."""
from __future__ import annotations

import os
import shutil
import subprocess
import tempfile
import time
import unittest
from collections.abc import Callable
from pathlib import Path

TOP = Path(__file__).resolve().parents[2]
LIMIT = 300.0  # seconds after which a check counts as hanging
# Replaces the tables of parts: here each part is a shell command.
TABLES = '''
PROOFS = Part("proofs", ("sh", "-c", {proofs!r}, "proofs"), 8, 1, ALL, (), shows="^rt: ", hands_on=STANDS)
WRONG = Part("wrong", ("sh", "-c", {wrong!r}, "wrong"), 4, 1, ALL)
QUICK = [Part(name, ("sh", "-c", line), 1, 0.5, width, needs, likes) for name, line, width, needs, likes in {quick!r}]
'''
# Needs that are never met.
NEED = '''
NEEDS["nothing"] = Need("a thing that nobody has", lambda: False, ("no-such-package",))
NEEDS["must"] = Need("what a check is of", lambda: False, is_a_must=True)
'''
WELL = "echo 3 calls as wanted"

Quick = tuple[str, str, int, tuple[str, ...], tuple[str, ...]]


def part(name: str, line: str, width: int = 1, needs: tuple[str, ...] = (), likes: tuple[str, ...] = ()) -> Quick:
    """Returns a row for the table QUICK in TABLES: a part named `name` that runs the shell line `line`. `width`,
    `needs` and `likes` mean the same as in the class `Part` of `tools/check/parts.py`."""
    return name, line, width, needs, likes


class InTree(unittest.TestCase):
    """A test with a tree of its own, and a folder for temporary files that has to be empty at the end."""

    def setUp(self) -> None:
        """Makes a tree that has the sources of `./check`, the crates `one` and `two`, and the needs of NEED."""
        room = tempfile.TemporaryDirectory()
        self.addCleanup(room.cleanup)
        self.room, self.tree, self.temporary = (Path(room.name) / name for name in ("", "tree", "tmp"))
        self.temporary.mkdir()
        (self.tree / "tools").mkdir(parents=True)
        for name in ("check", "tools/__init__.py"):
            shutil.copy(TOP / name, self.tree / name)
        shutil.copytree(TOP / ".ci", self.tree / ".ci")
        shutil.copytree(TOP / "tools/check", self.tree / "tools/check", ignore=shutil.ignore_patterns("__pycache__"))
        (self.tree / "crates.txt").write_text("# A line a crate.\none:\ntwo: one\n", encoding="utf-8")
        self.original = (self.tree / "tools/check/parts.py").read_text(encoding="utf-8")
        needs = self.tree / "tools/check/needs.py"
        text = needs.read_text(encoding="utf-8")
        needs.write_text(text.replace("\ndef apt(", NEED + "\n\ndef apt("), encoding="utf-8")

    def stand_in(self, *quick: Quick, proofs: str = "echo 5 passed, 0 failed", wrong: str = "echo 7 passed, 0 failed") -> None:
        """Sets the quick parts, and the shell lines of the proofs and of the wrong bodies. Notes which files the tree
        has then, for `check_nothing_left`."""
        tables = TABLES.format(quick=[*quick], proofs=proofs, wrong=wrong)
        (self.tree / "tools/check/parts.py").write_text(self.original + tables, encoding="utf-8")
        self.stood = self.files()

    def files(self) -> list[str]:
        """Returns the paths of all files and folders of the tree, sorted."""
        return sorted(str(it.relative_to(self.tree)) for it in self.tree.rglob("*"))

    def environment(self, **more: str) -> dict[str, str]:
        """Returns the environment of a check: that of the test without the variable CI, with the folder `temporary` as
        TMPDIR and the folder `room` as ROOM, and with `more`."""
        kept = {name: it for name, it in os.environ.items() if name != "CI"}
        return {**kept, "TMPDIR": str(self.temporary), "ROOM": str(self.room), **more}

    def check(self, *words: str, program: str = "check", **more: str) -> subprocess.CompletedProcess[str]:
        """Runs the program `program` of the tree, with these arguments and `more` in its environment, to its end.
        Checks that it leaves nothing. Returns its result."""
        done = self.check_beside(*words, program=program, **more)
        self.check_nothing_left()
        return done

    def check_beside(self, *words: str, program: str = "check", **more: str) -> subprocess.CompletedProcess[str]:
        """Runs the program `program` of the tree, with these arguments and `more` in its environment, to its end.
        Another check may be running, or may have been killed and have left files. Returns its result."""
        return subprocess.run(
            [self.tree / program, *words], cwd="/", stdin=subprocess.DEVNULL, capture_output=True, text=True,
            env=self.environment(**more), timeout=LIMIT, check=False,
        )

    def check_nothing_left(self) -> None:
        """Checks that the tree has no new file, and the folder for temporary files no file."""
        self.assertEqual([*self.temporary.iterdir()], [])
        self.assertEqual(self.files(), self.stood)

    def start(self, *words: str) -> subprocess.Popen[str]:
        """Starts `./check` as the leader of a group of processes, and waits until one of its parts has made the file
        `begun`. Returns its process. Fails if the check ends before."""
        going = subprocess.Popen(
            [self.tree / "check", *words], stdin=subprocess.DEVNULL, stdout=subprocess.PIPE, stderr=subprocess.STDOUT,
            text=True, env=self.environment(), start_new_session=True,
        )
        self.addCleanup(end_check, going)
        self.wait_until(lambda: (self.room / "begun").exists() or going.poll() is not None)
        if going.poll() is not None:
            self.fail(going.communicate()[0])
        return going

    def wait_until(self, holds: Callable[[], object]) -> None:
        """Waits until the function `holds` returns a true value. Fails after a time limit."""
        until = time.monotonic() + LIMIT
        while not holds():
            self.assertLess(time.monotonic(), until)
            time.sleep(0.02)


def end_check(going: subprocess.Popen[str]) -> None:
    """Ends a check by SIGTERM if it is running, and waits for its end."""
    if going.poll() is None:
        going.terminate()
        going.communicate(timeout=LIMIT)


def is_there(pid: int) -> bool:
    """Returns whether a process with this number is running."""
    try:
        # The letter after the name in parentheses is the process's state. Z is that of one that has ended.
        return Path(f"/proc/{pid}/stat").read_text(encoding="utf-8").rpartition(") ")[2][0] != "Z"
    except OSError:
        return False
