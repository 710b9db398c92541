"""Bugs that are planted into the player, the page that replays a run. For each bug the named test fails, and it passes
without the bug."""
from __future__ import annotations

import unittest
from pathlib import Path

from tests.classroom import test_play, test_shown, test_spoken
from tests.classroom.browser import Played

CONFIGURATIONS = (test_play.Play, "test_the_keys_go_to_each_place_and_each_step")
READ = (test_shown.Sizes, "test_every_text_can_be_read_and_the_current_event_is_in_view")
SAID = (test_spoken.Spoken, "test_a_new_state_is_announced_once")
STILL = (test_spoken.Spoken, "test_nothing_moves_for_a_reader_who_prefers_reduced_motion")
# A bug in words, the text in the page's source, the text that replaces it, and the test that finds the bug.
PLANTS = (
    ("the count of nodes that can move never falls", "this.privileged += (rule > 0) - (this.rule[node] > 0);", "this.privileged += Number(rule > 0);",
     CONFIGURATIONS),
    ("a move that was chosen stays chosen after its step", "row.chosen || []) this.chosen[node] = rule;",
     "row.chosen || []) this.chosen[node] = rule || this.chosen[node];", CONFIGURATIONS),
    ("going back leaves what came later", "this.state = this.snapshots[kept].copy();", "this.state = this.snapshots[kept];", CONFIGURATIONS),
    ("the header keeps the number of the step before", 'this.say("number", String(row.number));', 'this.say("number", String(row.number - (row.number > 0)));',
     CONFIGURATIONS),
    ("a pair counts twice", 'String(state.paired / 2)', "String(state.paired)", CONFIGURATIONS),
    ("the step at hand is off the screen", "if (row) list.scrollTop = ", "if (!row) list.scrollTop = ", READ),
    ("a text is too small for a laptop", ".cap { font-size: var(--small);", ".cap { font-size: 0.7em;", READ),
    ("a text is too faint in the dark", "--quiet: #a9b2bd;", "--quiet: #59616b;", READ),
    ("each step of a run that is played is said", "said\", text), 300)", "said\", text), 0), this.say(\"said\", text)", SAID),
    ("arrows grow though less motion is asked for", "this.grown.length > 0 && !isStill()", "this.grown.length > 0", STILL),
)


def run_on_changed_pages(of: type[Played], test: str, old: str, new: str) -> unittest.TestResult:
    """Runs a test of the class `of` over pages in which the text `old` is replaced by `new`. Returns its result."""

    class Buggy(of):  # type: ignore[valid-type, misc]
        """The same tests over changed pages."""

        def page(self, lab: Path, journal: Path) -> Path:
            """Makes the page of a run, and replaces `old` in it, which it must have once. Returns its file."""
            made: Path = super().page(lab, journal)
            text = made.read_text(encoding="utf-8")
            self.assertEqual(text.count(old), 1, old)
            made.write_text(text.replace(old, new), encoding="utf-8")
            return made

    found = unittest.TestResult()
    Buggy(test).run(found)
    return found


class Bugs(unittest.TestCase):
    """The bugs in PLANTS, each tried with the test that has to find it."""

    def test_the_named_test_fails_on_each_bug(self) -> None:
        """It must fail by a check of its own, and not by another error."""
        for bug, old, new, (of, test) in PLANTS:
            with self.subTest(bug):
                found = run_on_changed_pages(of, test, old, new)
                self.assertEqual([trace for _, trace in found.errors], [])
                self.assertGreater(len(found.failures), 0, f"not seen by {test}")

    def test_the_named_tests_pass_on_pages_without_a_bug(self) -> None:
        """Here the replacement only adds an attribute that nothing reads."""
        for of, test in {finder for *_, finder in PLANTS}:
            with self.subTest(test):
                found = run_on_changed_pages(of, test, "<body class=\"player\">", "<body class=\"player\" data-planted=\"none\">")
                self.assertEqual([trace for _, trace in (*found.errors, *found.failures)], [])


if __name__ == "__main__":
    unittest.main()
