"""Explanations of mistakes: which part of a guard fails, and what a correct bot sends. The explanations come from the
plain model (`model/`), a second program with the same rules. A guard is the condition under which a node may move, and
a *script* is a list of request lines, each after the number of its connection.

The explanations help a reader who looks for a mistake, and are marked as the model's. No verdict depends on them.
"""
from __future__ import annotations

from classroom.bots.playing import Playing
from classroom.core import explained
from classroom.core.explained import MARK


def lines_of(playing: Playing, more: bytes = b"") -> list[list[str]]:
    """Returns the model's explanations for the script of a class up to now, followed by the lines `more` if they are
    given. Each explanation is a list. For each denied move it has the number of its line in the script, its node and a
    text. For each node that could move at the end it has `now`, the node and a text. Returns no explanations if the
    model doesn't answer."""
    return explained.lines_of(playing.lab, playing.program.script() + (more + b"\n" if more else b""))


def of_denial(playing: Playing, line: bytes) -> str:
    """Returns a semicolon and the explanation of why `line` was denied just now in the class `playing`. Returns an
    empty text if there is no explanation. `line` begins with the number of its connection, as in a script. The script
    of the class doesn't have it, since a denied line makes no event."""
    found = [text for place, _, text in lines_of(playing, line) if place != "now"]
    return f"; {MARK}{found[-1]}" if found else ""


def of_waiting(playing: Playing, who: str) -> str:
    """Returns a semicolon and what a correct bot would send for those nodes of the student `who` in the class `playing`
    that could move. Returns an empty text if no such node could move, or if the model doesn't answer."""
    own = [str(node) for node in playing.lab.nodes_of(who)]
    found = [text for place, node, text in lines_of(playing) if place == "now" and node in own]
    return f"; {MARK}{'; '.join(found)}" if found else ""
