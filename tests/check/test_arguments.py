"""The arguments of the tests' own programs: wrong ones end them with status 1 and a line that says what to write."""
from __future__ import annotations

import contextlib
import io
import subprocess
import sys
import unittest
from unittest import mock

from tests.check.tree import LIMIT
from tests.common.lines import refusal_of
from tests.resume.__main__ import TURNS, play_until_halted
from tools.check.parts import TOP


class Arguments(unittest.TestCase):
    """Wrong arguments. No test runs, so the program needn't be built."""

    def check_error(self, module: str, words: list[str], line: str) -> None:
        """Calls a program of the tests with these arguments. Checks that its status is 1, that it prints nothing on
        standard output, where `FAILED` would be a failed test, and that its only line of error begins with `line`."""
        done = subprocess.run([sys.executable, "-B", "-m", f"tests.{module}", *words], cwd=TOP, stdin=subprocess.DEVNULL, capture_output=True,
                              text=True, timeout=LIMIT, check=False)
        self.assertEqual((done.returncode, done.stdout, done.stderr.count("\n")), (1, "", 1), done.stderr)
        self.assertTrue(done.stderr.startswith(line), done.stderr)

    def test_random_prints_its_usage(self) -> None:
        for words in (["ends"], ["ends", "x"], ["ends", "0"], ["ends", "1", "2"], ["end"], ["1", "2"]):
            self.check_error("random", words, "usage: python3 -B -m tests.random [SEED|ends WORLDS]\n")

    def test_memory_and_program_name_their_parts(self) -> None:
        self.check_error("memory", ["use"], "there is no part use: write one of uses, hosts, classes, tests, or nothing for all of them\n")
        self.check_error("memory", ["uses", "hosts"], "there is no part uses hosts: ")
        self.check_error("program", ["no_such"], "no part has no_such in its name. The parts are: tests.program.words, ")

    def test_programs_that_run_the_tests_with_a_word_in_their_names_list_all_tests(self) -> None:
        self.check_error("resume", ["no_such", "nor_this"], "no test has no_such or nor_this in its name. The tests are: kills, ")
        self.check_error("record", ["no_such"], "no test has no_such in its name. The tests are: kept_and_held, ")


class Halting(unittest.TestCase):
    """The requests that the tests in `tests/resume` repeat until a full disk halts the journal."""

    def test_a_journal_that_is_never_halted_is_a_failure(self) -> None:
        """Each reply grants the request, so each turn has three events: those of the move, the close and the fault."""
        granted = mock.Mock()
        granted.ask.return_value = b'{"place":1}\n'
        said = io.StringIO()
        with contextlib.redirect_stdout(said), self.assertRaises(SystemExit):
            play_until_halted(granted, granted)
        self.assertTrue(said.getvalue().startswith(f"FAILED: resume: after {TURNS} turns and {3 * TURNS} events "), said.getvalue())

    def test_the_events_before_the_journal_is_halted_are_counted(self) -> None:
        """In each turn, ana asks for a move, and the teacher for a close and a fault. The fault of the third turn is
        refused, so there are 3 + 3 + 2 events."""
        ana, tess = mock.Mock(), mock.Mock()
        ana.ask.return_value = b'{"place":1}\n'
        tess.ask.side_effect = [b'{"place":1}\n'] * 5 + [refusal_of("journal")]
        self.assertEqual(play_until_halted(ana, tess), 8)


if __name__ == "__main__":
    unittest.main()
