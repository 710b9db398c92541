"""The events of a journal that `mml audit` has passed. A *journal* is the file of a run that lists the granted moves,
the closed steps and the teacher's changes, its *events*. A *configuration* is the state of all registers and links at
one moment, and configurations are numbered from 0. A *fault*, a *link* and a *cut* are the teacher's changes of
registers and links."""
from __future__ import annotations

from dataclasses import dataclass
from functools import cached_property

from classroom import client
from classroom.core.desk_words import EDITS, WORDS, links_after

RULES = client.RULES
# For each kind of event that names nodes: the index of the first word that is a node, and the number of nodes.
NODES_AT = {"grant": (2, 1)} | {word: (1, it.nodes) for word, it in WORDS.items() if it.nodes}


@dataclass(frozen=True)
class Event:
    """A line of a journal: its place (the number of the event), the number of the configuration before the event, and
    the words of the event."""

    place: int
    at: int
    words: tuple[str, ...]

    @cached_property
    def kind(self) -> str:
        """Returns the first word of the event."""
        return self.words[0]

    @property
    def student(self) -> str | None:
        """Returns the name in a move's event: the student who asked for the move. Returns None for an event of the
        teacher."""
        return self.words[1] if self.kind == "grant" else None

    @property
    def is_edit(self) -> bool:
        """Returns whether the event changes registers or links: a fault, a link or a cut."""
        return self.kind in EDITS

    @property
    def makes_configuration(self) -> bool:
        """Returns whether the event makes a new configuration."""
        return self.kind == "close" or self.kind in EDITS

    @property
    def links(self) -> int:
        """Returns by how much the event changes the number of links: 1, 0 or -1."""
        return links_after(self.kind)

    @cached_property
    def nodes(self) -> tuple[int, ...]:
        """Returns the nodes that the event's line names, in its order."""
        first, count = NODES_AT.get(self.kind, (0, 0))
        return tuple(int(word) for word in self.words[first : first + count])


def in_words(event: Event) -> str:
    """Returns an event as a text for people. The page's script has the same texts (`toldEvent` in `picture.js`)."""
    kind, *rest = event.words
    if kind == "grant":
        return f"node {rest[1]} ({rest[0]}): {' with '.join(rest[2:])}"
    if kind == "fault":
        return f"⚡ fault at node {rest[0]}: p {'null' if rest[1] == '-' else rest[1]}, m {rest[2]}"
    if kind in EDITS:
        return f"⚡ link {'–'.join(rest)} {'removed' if event.links < 0 else 'added'}"
    return "the step is closed" if kind == "close" else f"node {rest[0]}: its move is dropped"


def split(text: str) -> list[list[str]]:
    """Returns the words of each complete line of a journal: the event's place, the number of the configuration before
    it, and the words of the event."""
    return [line.split(" ") for line in text.split("\n")[:-1]]


def events(text: str) -> list[Event]:
    """Returns the events in the complete lines of a journal."""
    return [Event(int(place), int(at), tuple(rest)) for place, at, *rest in split(text)]
