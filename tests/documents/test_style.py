"""Tests of the rules of style (`tests.documents.style`): a text that is hard to read has faults, and a clear one has
none."""
from __future__ import annotations

import unittest

from tests.documents.style import found_in, sentences

# A sentence of 31 words, one more than are allowed.
LONG = "This sentence has " + " ".join(["word"] * 28) + "."
# Texts that each have a fault, and texts that have none. The last one of PLAIN has 29 words.
HARD = (
    "Where no node is privileged, the run has ended.",
    "The list ends where nothing is left.",
    "`check` tells what is wrong.",
    "Nobody was told.",
    "It is written behind the other.",
    "A node that isn't there is asked for in vain.",
    "It ends for want of memory.",
    "Lets what is held go. The crate hands up a law.",
    "Who comes and goes.",
    LONG,
    f"- An item.\n- {LONG}",
    f"| Head | Other |\n|---|---|\n| short | {LONG} |",
)
PLAIN = (
    "If no node is privileged, the run has ended.",
    "Where does it go? Who owns the node?",
    "# Where a run ends",
    "| Notion | Where |\n|---|---|\n| a | b |",
    "Nobody can tell these two apart.",
    "It shows where the journal is kept.",
    "    Where no node is code, nobody tells.\n",
    "```text\nWhere no node is code, nobody tells.\n```",
    "A line has " + "`some long code that counts as one word` " * 20 + "in it.",
    f"{LONG[:-1].rsplit(' ', 2)[0]}.",
)


class Style(unittest.TestCase):
    """Faults of texts, and how a text is divided into sentences."""

    def test_each_text_that_is_hard_to_read_has_a_fault(self) -> None:
        for text in HARD:
            self.assertTrue([*found_in(text)], text)

    def test_a_plain_text_has_no_fault(self) -> None:
        for text in PLAIN:
            self.assertEqual([*found_in(text)], [], text)

    def test_a_text_is_divided_at_periods_and_colons_and_exclamation_marks(self) -> None:
        """A link is replaced by its text, and code by one word."""
        self.assertEqual([*sentences("One is here. Two\nis [there](a.md): `code` is three! *Four.*")],
                         ["One is here.", "Two is there:", "`c` is three!", "*Four.*"])


if __name__ == "__main__":
    unittest.main()
