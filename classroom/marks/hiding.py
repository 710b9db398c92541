"""Lines of a record in a form that can be shown: only printable characters, and no key of a student or teacher."""
from __future__ import annotations

import json
import re
from collections.abc import Iterable
from itertools import islice

from classroom.client import KEYS, RULES
from classroom.core.printable import printable

HIDDEN = '"***"'
ESCAPE = "\\"
TEXT = re.compile(r'"(?:[^"\\]|\\.)*"', re.DOTALL)
WORDS = frozenset(("do", "with", *RULES, *KEYS, *(key for keys in KEYS.values() for key in keys)))  # of requests


class Hider:
    """An object that hides the keys of a lab in texts."""

    def __init__(self, keys: Iterable[str], names: Iterable[str]) -> None:
        """`keys` are the texts to hide. `names` are texts that are shown even if they equal a key."""
        self.keys = [key for key in keys if key]
        self.shown = WORDS | set(names)

    def line(self, line: bytes) -> str:
        """Returns a line with `***` in place of each key. If the line isn't a JSON object and may have a key, returns
        only the part before the key."""
        text = line.decode(errors="backslashreplace")
        return printable(self.without_keys(text) if is_object(text) else self.beginning(text))

    def without_keys(self, text: str) -> str:
        """Returns the text of a JSON object without keys. Replaces each value of `key`, and each text that contains
        somebody's key. If a value of `key` isn't a text, hides it and all that follows."""
        pieces: list[str] = []
        at, hides = 0, False
        for found in TEXT.finditer(text):
            between = text[at:found.start()]
            if hides and between.strip() != ":":  # The value under `key` isn't a text.
                return f"{''.join(pieces)}:*** (the rest is hidden)"
            word = json.loads(found[0], strict=False)
            is_name = text[found.end():].lstrip().startswith(":")
            pieces += [between, HIDDEN if hides or self.has_key(word) else found[0]]
            hides = not hides and is_name and word.lower() == "key"
            at = found.end()
        return "".join(pieces) + (":*** (the rest is hidden)" if hides else text[at:])

    def has_key(self, word: str) -> bool:
        """Returns whether a text contains somebody's key. A key that is also a word of the protocol or a name doesn't
        count."""
        return word not in self.shown and self.first_key(word) is not None

    def first_key(self, text: str) -> int | None:
        """Returns the position of the first key in a text, however it is escaped, or None if there is no key."""
        plain = unescaped(text)
        found = [at for at in (plain.find(unescaped(key)) for key in self.keys) if at >= 0]
        if not found:
            return None
        # The position in `plain` counts only characters that aren't backslashes, so these are counted in `text` too.
        return next(islice((at for at, char in enumerate(text) if char != ESCAPE), min(found), None), len(text))

    def beginning(self, text: str) -> str:
        """Returns the part of a text before the first place at which a key may be. If that isn't the whole text, adds
        how many characters are hidden."""
        # A key may follow the word `key`, which may be spelled with escapes such as \u006b.
        found = re.search(r"key|\\u", text, re.IGNORECASE)
        shown = text[:found.start()] if found else text
        shown = shown[:self.first_key(shown)]
        return shown if len(shown) == len(text) else f"{shown}.. ({len(text) - len(shown)} more characters are hidden, since they may contain a key)"


def unescaped(text: str) -> str:
    """Returns a text without its backslashes, so that a key can be found even in a string within strings."""
    return text.replace(ESCAPE, "")


def is_object(text: str) -> bool:
    """Returns whether a text is a JSON object."""
    try:
        return isinstance(json.loads(text), dict)
    except (ValueError, RecursionError):
        return False
