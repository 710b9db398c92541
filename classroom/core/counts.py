"""Counts: read from a command line, and written as text."""
from __future__ import annotations

import argparse
import re


def positive(word: str) -> int:
    """Returns the whole number that an argument of the command line spells. Raises `ArgumentTypeError` unless the
    number is at least 1."""
    if not (word.isascii() and word.isdecimal() and int(word) > 0):
        raise argparse.ArgumentTypeError(f"{word!r} isn't a whole number of at least 1")
    return int(word)


def seconds(word: str) -> float:
    """Returns the number of seconds that an argument of the command line spells. Raises `ArgumentTypeError` unless the
    number is above 0."""
    if not re.fullmatch(r"\d+(\.\d+)?", word) or float(word) == 0:
        raise argparse.ArgumentTypeError(f"{word!r} isn't a number of seconds above 0, such as 20 or 0.5")
    return float(word)


def plural(count: int, word: str) -> str:
    """Returns the count and the noun `word`, to which an s is added unless the count is 1."""
    return f"{count} {word}{'' if count == 1 else 's'}"
