"""Keys. Students have three words and two digits, to be typed from paper. Programs have 32 hexadecimal digits.

A student's key is one of 4096 * 4096 * 4096 * 100, which are 42.6 bits. A class's server answers at most one wrong
key in 12 milliseconds over all connections. So the guesses of a whole day are about one in 950,000 of all keys.
"""
from __future__ import annotations

import math
import secrets

from classroom.setup.word_list import WORDS

KEY_BYTES = 16
WORDS_EACH, DIGITS = 3, 2
DENIALS = 1000 / 12  # wrong keys that a class's server answers in a second, over all connections
KNOWN = frozenset(WORDS)


def for_people() -> str:
    """Returns a new random key that can be typed, such as `amber-lilac-tonic-42`."""
    return "-".join([*(secrets.choice(WORDS) for _ in range(WORDS_EACH)), f"{secrets.randbelow(10 ** DIGITS):0{DIGITS}}"])


def for_programs() -> str:
    """Returns a new random key of 32 hexadecimal digits, for the teacher or for the house, the program that plays for
    absent students. Nobody has to type it, since a file contains it."""
    return secrets.token_hex(KEY_BYTES)


def count_parts(key: str) -> tuple[int, int] | None:
    """Returns how many parts of a key are words of WORDS, and the number of digits in its other parts. The parts are
    separated by hyphens. Returns None if the key has parts of another kind."""
    parts = key.split("-")
    digits = [part for part in parts if part.isascii() and part.isdecimal()]
    words = [part for part in parts if part in KNOWN]
    return (len(words), sum(map(len, digits))) if len(words) + len(digits) == len(parts) else None


def bits_of(words: int, digits: int) -> float:
    """Returns the bits of entropy of a key that consists of `words` random words and `digits` random digits."""
    return words * math.log2(len(WORDS)) + digits * math.log2(10)
