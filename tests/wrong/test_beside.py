"""Tests of `tools/wrong` beside the proofs: it tries wrong bodies while `rt ci` proves the crates. Each try is a
*check*, a process. Here shell commands stand in for the prover."""
from __future__ import annotations

import os
import signal
import subprocess
import sys
import tempfile
import threading
import time
import unittest
from collections.abc import Iterator
from pathlib import Path
from unittest import mock

from tools.wrong import checks
from tools.wrong.beside import as_proved
from tools.wrong.checks import Running, Stopped
from tools.wrong.edits import Round
from tools.wrong.libraries import Tree

TOP = Path(__file__).resolve().parents[2]
MUCH = checks.MOST_HELD + checks.LEFT_FREE + 1  # the least free memory with which a check begins beside proofs
LIMIT = 300.0
# A command that appends a line to a file, and another at its end. The first time it kills itself between the two.
KILLED_ONCE = 'echo begun >> log; [ -e once ] || { touch once; kill -9 $$; }; echo ended'


class InRoom(unittest.TestCase):
    """A test with a tree of three crates: `top` uses `high`, which uses `low`."""

    def setUp(self) -> None:
        """Makes the tree in a temporary folder. Copies of libraries are put into its folder `kept`."""
        room = tempfile.TemporaryDirectory()
        self.addCleanup(room.cleanup)
        self.room = Path(room.name)
        (self.room / "kept").mkdir()
        self.tree = Tree(self.room, self.room, {"low": [], "high": ["low"], "top": ["high"]}, self.room / "kept")

    def write(self, crate: str, text: str) -> None:
        """Replaces the library of a crate by one with this text, as `rt` does: it makes a new file."""
        self.tree.left(crate).mkdir(parents=True, exist_ok=True)
        (self.tree.left(crate) / "format").unlink(missing_ok=True)
        (self.tree.left(crate) / "format").write_text(text, encoding="utf-8")


class Proved(InRoom):
    """The order in which crates are tried, and the libraries with which they are tried."""

    def test_a_crate_is_tried_once_it_and_those_below_are_proved(self) -> None:
        """The names of proved crates are read only as far as necessary. `top` is never named, so it is tried when the
        proofs have ended, and then checks may use all processors."""
        running = Running(beside=1)
        told: list[str] = []

        def names() -> Iterator[str]:
            """Yields the names of proved crates as lines, and notes each in `told`."""
            for name in ("other\n", "high\n", "low\n", "low\n"):
                told.append(name.strip())
                yield name

        given = as_proved(self.tree, ["top", "high", "low"], names(), running)
        self.assertEqual((next(given), told, running.beside), ("high", ["other", "high", "low"], 1))
        self.assertEqual((next(given), running.beside), ("low", 1))
        self.assertEqual(([*given], running.beside), (["top"], None))

    def test_a_library_is_kept_as_it_is_when_its_crate_is_named(self) -> None:
        """If the library is replaced later, checks still read the kept one. The library of `high` isn't kept, because
        this crate isn't named as proved. So it is missing for `top`."""
        self.write("low", "new")
        self.write("high", "old")
        given = as_proved(self.tree, ["low"], iter(("low\n", "top\n")), Running(beside=1))
        self.assertEqual(next(given), "low")
        self.write("low", "older")
        self.assertEqual((self.tree.library("low") / "format").read_text(encoding="utf-8"), "new")
        self.assertEqual([*given], [])
        self.assertEqual(({*self.tree.missing("top")}, self.tree.missing("high")), ({"high"}, []))

    def test_a_library_is_kept_if_it_can_not_be_linked(self) -> None:
        """On another disk a file can't be linked. Then the kept library is a symbolic link to the folder of the crate's
        library."""
        self.write("low", "new")
        with mock.patch("os.link", side_effect=OSError):
            self.assertEqual([*as_proved(self.tree, ["low"], iter(("low\n",)), Running(beside=1))], ["low"])
        self.assertEqual((self.tree.library("low") / "format").read_text(encoding="utf-8"), "new")


class Turns(InRoom):
    """When a check may begin, and what happens if it is killed."""

    def begin(self, running: Running, line: str, is_alone: bool = False) -> threading.Thread:
        """Starts a check, the shell line `line`, in a thread. `is_alone` says that it has to wait for the end of the
        proofs. Returns the thread."""
        def run() -> None:
            """Runs the check. Keeps its result in `ended`, or sets `was_stopped`."""
            try:
                self.ended = running.run(["sh", "-c", line], self.room, is_alone)
            except Stopped:
                self.was_stopped = True

        it = threading.Thread(target=run)
        it.start()
        return it

    def wait_for(self, path: Path) -> None:
        """Waits until a file exists. Fails after a time limit."""
        until = time.monotonic() + LIMIT
        while not path.exists():
            self.assertLess(time.monotonic(), until)
            time.sleep(0.02)

    def test_beside_proofs_few_checks_run_and_only_if_memory_is_free(self) -> None:
        """Beside the proofs one check may run at a time (`beside=1`). After their end a second one may begin at
        once."""
        running = Running(beside=1)
        for free, may in ((MUCH, True), (MUCH - 1, False), (0, False)):
            with mock.patch.object(checks, "free_memory", return_value=free):
                self.assertEqual(running.may_begin(), may)
        with mock.patch.object(checks, "free_memory", return_value=MUCH):
            first = self.begin(running, "touch begun; until [ -e go ]; do sleep 0.05; done")
            self.wait_for(self.room / "begun")
            self.assertFalse(running.may_begin())
            running.go_on_alone()
            self.assertTrue(running.may_begin())
            self.assertEqual(running.run(["true"], self.room).status, 0)
        (self.room / "go").touch()
        first.join(LIMIT)

    def test_a_check_that_waits_for_the_end_of_the_proofs_begins_then_or_is_stopped(self) -> None:
        """A check waits if no check may run beside the proofs, or if it has to run alone."""
        for running in (Running(beside=0), Running(beside=1)):
            waiting = self.begin(running, f"echo begun > {self.room}/begun", is_alone=running.beside == 1)
            waiting.join(0.5)
            self.assertFalse((self.room / "begun").exists())
            running.go_on_alone()
            waiting.join(LIMIT)
            self.wait_for(self.room / "begun")
            (self.room / "begun").unlink()
        running = Running(beside=0)
        waiting = self.begin(running, "true")
        running.stop()
        waiting.join(LIMIT)
        self.assertTrue(self.was_stopped)

    def test_a_check_that_is_killed_runs_once_more(self) -> None:
        """If it is killed again, that is its result."""
        words = ["sh", "-c", f"cd {self.room}; {KILLED_ONCE}"]
        (self.room / "crates/low/src").mkdir(parents=True)
        with mock.patch.object(checks, "check_words", return_value=words):
            it = checks.try_round(self.tree, "low", Round([], {}), self.room, Running())
        self.assertEqual((it.status, it.output, (self.room / "log").read_text(encoding="utf-8")), (0, "ended\n", "begun\nbegun\n"))
        with mock.patch.object(checks, "check_words", return_value=["sh", "-c", "kill -9 $$"]):
            it = checks.try_round(self.tree, "low", Round([], {}), self.room, Running())
        self.assertEqual(it.status, -signal.SIGKILL)


class GivingWay(unittest.TestCase):
    """The priority of checks beside other processes."""

    def test_checks_give_way_to_other_processes(self) -> None:
        """A check has the lowest priority for processors, and is among the first processes to be ended if memory runs
        out."""
        line = "from tools.wrong.beside import give_way; give_way(); import os; print(os.nice(0), open('/proc/self/oom_score_adj').read())"
        said = subprocess.run([sys.executable, "-B", "-c", line], cwd=TOP, capture_output=True, text=True, check=True).stdout
        number, first_to_end = map(int, said.split())
        self.assertEqual((number, first_to_end >= 500), (min(19, os.nice(0) + 19), True))


if __name__ == "__main__":
    unittest.main()
