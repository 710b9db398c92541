"""Keys that are typed from paper, and the words that they are made of."""
from __future__ import annotations

import math
import re
import unittest

from classroom.setup.keys import for_people, for_programs
from classroom.setup.word_list import WORDS


class Keys(unittest.TestCase):
    """Keys of three words and two digits for people, and keys of 32 hexadecimal digits for programs."""

    def test_the_list_has_4096_different_words_of_three_to_seven_letters_in_order(self) -> None:
        self.assertEqual((len(WORDS), len(set(WORDS))), (4096, 4096))
        self.assertEqual([word for word in WORDS if not re.fullmatch("[a-z]{3,7}", word)], [])
        self.assertEqual(WORDS, sorted(WORDS))

    def test_keys_have_the_right_parts_and_these_are_random(self) -> None:
        """Among 2000 keys about 1580 different words are expected at each place, and all of the 100 pairs of digits. A
        key has more than 42 bits of entropy."""
        made = {for_people() for _ in range(2000)}
        self.assertEqual(len(made), 2000)
        parts = [key.split("-") for key in made]
        self.assertTrue(all(len(each) == 4 and set(each[:3]) <= set(WORDS) and re.fullmatch("[0-9]{2}", each[3]) for each in parts))
        self.assertTrue(all(1 <= len(key) <= 64 for key in made))
        for place in range(3):  # At each place of a key many different words occur.
            self.assertGreater(len({each[place] for each in parts}), 1300)
        self.assertGreater(len({each[3] for each in parts}), 90)
        self.assertGreater(3 * math.log2(len(WORDS)) + math.log2(100), 42)
        self.assertRegex(for_programs(), "^[0-9a-f]{32}$")


if __name__ == "__main__":
    unittest.main()
