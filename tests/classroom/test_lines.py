"""The table of all lines that a teacher or a student can see, and phrases that none of them contains.
`tests/classroom/lines.py` makes the table from the sources."""
from __future__ import annotations

import re
import unittest

from tests.classroom.lines import TABLE, lines

# Patterns of phrases in lines that readers didn't understand. Each was in a line once.
NOT_SAID = (
    r"no move was granted yet to", r"for nobody, and", r"at a terminal alone", r"hasn't ended, or not as it should", r"gone on from",
    r"entries may be lacking", r"^[^:]*: where ", r"the same words", r"tells the words", r"its keeper", r"left to itself",
    r"desk is held", r"is no part:", r"isn't handled", r"^classroom/bots/\w+: it (?!had|used)", r"by this look", r"nodes, \{\}, daemon",
    r"new configuration after place",
    # The desk and the pages say "links between free nodes".
    r"between two unmarried nodes", r"in the whole run, \{\} now",
)


class Lines(unittest.TestCase):
    """The table."""

    def test_the_table_is_the_one_that_is_made_from_the_sources(self) -> None:
        """If a line in a source has changed, the table has to be written anew."""
        kept = TABLE.read_text(encoding="utf-8").splitlines()
        self.assertEqual(kept, lines(), "python3 -B -m tests.classroom.lines writes the table anew; read what has changed")
        self.assertGreater(len(kept), 1000)

    def test_the_table_has_known_lines_from_each_kind_of_source(self) -> None:
        """If the search in the sources missed them, the table would lack them too, and the first test would still
        pass."""
        kept = TABLE.read_text(encoding="utf-8").splitlines()
        for line in (
            "classroom/run/desk: students without a granted move so far: {}", "classroom/run/several: ALARM {} is down: {}",
            "classroom/run/announcing: nothing more is granted: {}", "classroom/run/clock: the lesson ends at {}, in {}",
            "classroom/run/wording: fault at node {}: p {}, m {}", "classroom/run/heard: {} sends too much: {} lines a second",
            "classroom/client: node {}: {} granted in configuration {}, as event {}",
            "crates/mml_program/src/fault.rt: command line: not understood", "crates/mml_board/src/denial.rt: this node is not shown to you",
            "crates/mml_host_program/src/journal_watch.rt: host: {}: nothing more is granted", "classroom/setup/check: warning: {}",
            "classroom/bots/bots: ended by itself, with status {}", "examples/bot.c: the connection was lost: start again",
            "examples/Bot.java: the run is over", "examples/bot.js: the run is over", "examples/bot.rs: the run is over",
            "classroom/pages/live.html: Freeze the picture", "classroom/pages/by_hand.js: this node isn't yours",
        ):
            self.assertIn(line, kept)

    def test_no_line_has_a_phrase_that_readers_did_not_understand(self) -> None:
        for line in lines():
            for pattern in NOT_SAID:
                self.assertIsNone(re.search(pattern, line), line)


if __name__ == "__main__":
    unittest.main()
