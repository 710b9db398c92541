"""Lines that are typed at the desk of a class of several networks, such as `2: close` or `end maths-2`. Each is split
into the networks that it is for, and the command for them. The *desk* is the terminal or program at which the teacher
types."""
from __future__ import annotations

import re
from collections.abc import Sequence

from classroom.core.desk_words import WORDS

EVERY = "all"
NETWORKS, RESUME, END, HELP = "networks", "resume", "end", "help"
OWN = {
    NETWORKS: "print the table of all networks, with the state of each",
    f"{RESUME} NETWORK": "continue a network that is down, so that its server runs and takes commands again",
    f"{END} NETWORK": "end the run of a network; if the network is down, give it up",
}
# The commands after which the name of a network may come.
BARE = {word for word, it in WORDS.items() if not it.form} | {RESUME}
NAMING = {word for word, it in WORDS.items() if it.form == "NAME"}  # the words for one student
HOW = "write a network's number or name before a command (`2 shake 3`, `maths-2: close`), or after a command that needs no further words " \
      "(`close 2`); with `all`, or without a network, the command is for every network"


def listed(names: Sequence[str]) -> str:
    """Returns the names of networks with their numbers from 1, as a text."""
    return ", ".join(f"{number} {name}" for number, name in enumerate(names, 1))


def target(word: str, names: Sequence[str]) -> list[int] | None:
    """Returns the indices of the networks that `word` names: by a number from 1, by a name, or as `all`. `names` are
    the names of all networks, in their order. Returns None if the word names none."""
    if word == EVERY:
        return list(range(len(names)))
    if word in names:
        return [names.index(word)]
    return [int(word) - 1] if re.fullmatch(r"\d{1,9}", word, re.ASCII) and 1 <= int(word) <= len(names) else None


def addressed(line: str, names: Sequence[str]) -> tuple[list[int], str]:
    """Returns the indices of the networks that a line is for, and the command for them. The network comes before the
    command, with or without a colon, or after a command without arguments. A line that names no network is for all of
    them. Raises `ValueError` if the line names a network that doesn't exist."""
    words = line.split()
    before = re.fullmatch(r"\s*(\S+?)\s*:\s*(.*?)\s*", line)
    if before and before[1] not in WORDS:  # In `every:5`, the word before the colon is a command and not a network.
        return require_target(before[1], names), before[2]
    first = words[0] if words else ""
    # A first word that begins with a digit is meant as a network, so a wrong number raises an error.
    if first not in WORDS and (re.match(r"\d", first) or target(first, names) is not None):
        return require_target(first, names), " ".join(words[1:])
    if len(words) == 2 and first in BARE:
        return require_target(words[1], names), first
    return require_target(EVERY, names), line.strip()


def require_target(word: str, names: Sequence[str]) -> list[int]:
    """Returns the indices of the networks that `word` names. `names` are the names of all networks, in their order.
    Raises `ValueError` if the word names none."""
    found = target(word, names)
    if found is None:
        raise ValueError(f"this class has no network {word}. Its networks are: {listed(names)}")
    return found
