"""The state of a continuing run at its desk, the teacher's connection to the server: the chosen moves, and the moves
that steps applied. A granted move is *chosen* until a close applies it, and a *close* ends a step. Marks aren't counted
here but by `classroom.core.tally`."""
from __future__ import annotations

from classroom.core.desk_words import links_after
from classroom.core.journal import Event


class Book:
    """The chosen moves and the counts of a run, updated event by event."""

    def __init__(self, students: list[str]) -> None:
        """Begins at the first configuration, in which no node has a chosen move. `students` are the names of all
        students."""
        self.idle = dict.fromkeys(students)  # The names of the students who had no move granted.
        self.chosen: dict[int, tuple[str, str]] = {}  # The student and the rule of each node's chosen move.
        self.links = 0  # How many more links there are than at the beginning.
        self.moves = 0
        self.since = 0  # Moves since the last fault, link or cut.

    def add(self, event: Event) -> list[tuple[int, str, str]]:
        """Updates the book by the next event. If the event is a close, returns the moves that it applied. Each has the
        node, the student to whom it was granted, and the rule."""
        word = event.kind
        if word == "grant":
            _, name, node, rule = event.words[:4]
            self.idle.pop(name, None)
            self.chosen[int(node)] = (name, rule)
            return []
        if word == "release":
            self.chosen.pop(int(event.words[1]))
            return []
        return self.step(word)

    def step(self, word: str) -> list[tuple[int, str, str]]:
        """Updates the book by an event that makes a configuration: a close, a fault, a link or a cut, as `word` says.
        Returns the moves that a close applied, each with its node, student and rule, and no moves for any other event.
        The other events drop all chosen moves."""
        moved = [(node, name, rule) for node, (name, rule) in sorted(self.chosen.items())] if word == "close" else []
        self.links += links_after(word)
        self.moves += len(moved)
        self.since = self.since + len(moved) if word == "close" else 0
        self.chosen.clear()
        return moved
