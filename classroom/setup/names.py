"""Turns the names in a class list into names for a lab, which consist of the letters a to z, digits and hyphens. The
program prints how long a name may be, so functions that cut names raise `Fault` if it isn't built."""
from __future__ import annotations

import re
import unicodedata
from collections import Counter
from collections.abc import Iterable

from classroom.core import limits
from classroom.core.lists import Person

# Letters, and their spelling in letters a to z.
SPELLED = {
    "ä": "ae", "ö": "oe", "ü": "ue", "ß": "ss", "æ": "ae", "œ": "oe", "ø": "oe", "å": "aa", "ł": "l", "đ": "d", "ð": "d",
    "þ": "th", "ı": "i", "ħ": "h", "ŋ": "ng", "ə": "e",
}
SPELLED |= dict(zip(
    "абвгдезийклмнопрстуфхцчшщъыьэюяжёєії",
    "a b v g d e z i i k l m n o p r s t u f kh ts ch sh shch  y  e yu ya zh e ye i yi".split(" "), strict=True,
))
SPELLED |= dict(zip(
    "αβγδεζηθικλμνξοπρσςτυφχψω", "a v g d e z i th i k l m n x o p r s s t y f ch ps o".split(" "), strict=True,
))
# The beginnings of names of letters in Unicode whose last word says how the letter sounds, as `KATAKANA LETTER KA`.
NAMED = ("HIRAGANA LETTER", "KATAKANA LETTER", "HANGUL SYLLABLE", "GEORGIAN LETTER", "ARMENIAN SMALL LETTER")
# Letters whose name says how they sound, as `ARABIC LETTER MEEM`.
SOUNDS = {
    "alef": "a", "bet": "b", "gimel": "g", "dalet": "d", "he": "h", "vav": "v", "zayin": "z", "het": "h", "tet": "t", "yod": "y",
    "kaf": "k", "lamed": "l", "mem": "m", "nun": "n", "samekh": "s", "ayin": "a", "pe": "p", "tsadi": "ts", "qof": "q", "resh": "r",
    "shin": "sh", "tav": "t", "beh": "b", "teh": "t", "theh": "th", "jeem": "j", "hah": "h", "khah": "kh", "dal": "d", "thal": "dh",
    "reh": "r", "zain": "z", "seen": "s", "sheen": "sh", "sad": "s", "dad": "d", "tah": "t", "zah": "z", "ain": "a", "ghain": "gh",
    "feh": "f", "qaf": "q", "lam": "l", "meem": "m", "noon": "n", "heh": "h", "waw": "w", "yeh": "y", "peh": "p", "gaf": "g",
    "hamza": "", "marbuta": "a", "maksura": "a",
}
# Scripts whose letters have such names too, as `TAMIL LETTER KA` and `TAMIL VOWEL SIGN AA`.
SYLLABLES = ("DEVANAGARI", "BENGALI", "GURMUKHI", "GUJARATI", "TAMIL", "TELUGU", "KANNADA", "MALAYALAM", "SINHALA")


def letters(char: str) -> str:
    """Returns a letter of any script as letters a to z and digits, regardless of the letters beside it. Returns an
    empty text if its sound isn't known."""
    if char in SPELLED:
        return SPELLED[char]
    named = unicodedata.name(char, "")
    if named.startswith(NAMED):
        return "".join(filter(str.isascii, named.split()[-1].lower())).replace("-", "")
    sound = sounds(named.split())
    if sound is not None:
        return sound
    # NFKD splits a letter into simpler ones and its accents. The accents are left out.
    plain = [each for each in unicodedata.normalize("NFKD", char) if not unicodedata.combining(each)]
    if plain == [char]:
        return char if char.isascii() and char.isalnum() else ""
    return "".join(letters(each) for each in plain)


def sounds(named: list[str]) -> str | None:
    """Returns the sound of a letter as letters a to z. `named` has the words of its Unicode name. Returns None if the
    sound isn't known."""
    if len(named) < 3:
        return None
    if named[0] in ("ARABIC", "HEBREW") and named[1] == "LETTER":
        # The last known word before WITH counts, as in ALEF MAKSURA. After WITH there are marks, as in ALEF WITH HAMZA ABOVE.
        letter = named[:named.index("WITH")] if "WITH" in named else named
        return next((SOUNDS[word.lower()] for word in reversed(letter) if word.lower() in SOUNDS), None)
    if named[0] in SYLLABLES and (named[1] == "LETTER" or named[1:3] == ["VOWEL", "SIGN"]):
        return named[-1].lower() if named[-1].isalpha() else None
    if named[:2] == ["THAI", "CHARACTER"]:  # For example, THAI CHARACTER SARA I, or THAI CHARACTER KO KAI.
        return named[-1].lower() if named[2] == "SARA" else named[2].lower().removesuffix("o")
    return None


def lab_name(name: str) -> str:
    """Returns a name as a lab has it: `zoe-mueller` for `Zoë Müller` and for `Müller, Zoë`. If the result would begin
    with a digit, it gets `s-` before it. It is cut if it is longer than a name may be. The result is empty if none of
    the name's letters is known. Different persons may get the same name."""
    # Only in a name with exactly one comma, the last name is before it.
    last, comma, first = name.partition(",")
    folded = unicodedata.normalize("NFC", f"{first} {last}" if comma and "," not in first else name).lower()
    spelled = "".join("-" if char.isspace() or char in "-_.,/" else letters(char) for char in folded)
    short = re.sub("-+", "-", spelled).strip("-")
    return (short if not short or short[0].isalpha() else f"s-{short}")[:limits.allowed().name].rstrip("-")


def with_end(short: str, end: str) -> str:
    """Returns the name `short`, a hyphen and the suffix `end`. The name is cut if the whole would be longer than a name
    may be."""
    return f"{short[: limits.allowed().name - len(end) - 1].rstrip('-')}-{end}"


def all_of(people: Iterable[Person], taken: Iterable[str] = ()) -> dict[str, Person]:
    """Returns these people by their names in the lab, which all differ and aren't in `taken`. If several persons would
    have the same name, or one that is in `taken`, the identifier of each is added to it. A name that is still taken, as
    without an identifier, also gets a number. A person whose name has no known letter is called `s-` with an identifier
    or a number."""
    listed = list(people)
    forms = [lab_name(person.written) for person in listed]
    ids = [re.sub("[^a-z0-9]+", "-", person.id.lower()).strip("-") for person in listed]
    counts, used, made = Counter([*forms, *taken]), set(taken), dict[str, Person]()
    for index, (person, form, identifier) in enumerate(zip(listed, forms, ids), 1):
        short = form or f"s-{identifier or index}"[:limits.allowed().name].rstrip("-")
        if form and identifier and counts[form] > 1:
            short = with_end(form, identifier)
        first, number = short, 1
        while short in used:
            number += 1
            short = with_end(first, str(number))
        used.add(short)
        made[short] = person
    return made
