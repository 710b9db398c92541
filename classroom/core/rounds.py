"""The recovery of a class: its moves, closes and rounds, beside the proved bounds. A *close* applies the chosen moves.
A node is *privileged* if a rule can be applied at it. A *round* ends when each node has had its turn. A node has had
its turn if at some point in the round it wasn't privileged, or if a close applied its move
(docs/SELF-STABILISATION.md)."""
from __future__ import annotations

from collections.abc import Collection, Iterable

from classroom.core import bounds
from classroom.core.counts import plural
from classroom.core.tally import Bounds


def counts_in_words(moves: int, closes: int, rounds: int, most: Bounds | None) -> str:
    """Returns the counts of a recovery, its moves, closes and rounds, as a text. The text also has the proved bounds
    `most`, unless that is None."""
    proved = f" (at most {most.moves} moves and {most.rounds} rounds, as is proved)" if most else ""
    return f"{plural(moves, 'move')}, {plural(closes, 'step')} and {plural(rounds, 'round')}{proved}"


class Recovery:
    """The moves, closes and rounds of a recovery, counted close by close while a run goes on. The program counts those
    of a whole journal (`classroom.core.tally`)."""

    def __init__(self, privileged: Iterable[int]) -> None:
        """Begins to count. `privileged` are the nodes that can move at the beginning."""
        self.moves = self.closes = self.rounds = 0
        self.left = set(privileged)  # the nodes that haven't had their turn in this round

    def step(self, moved: Collection[int], privileged: Collection[int]) -> None:
        """Counts a close. `moved` are the nodes that moved, and `privileged` those that can move after it."""
        self.moves, self.closes = self.moves + len(moved), self.closes + 1
        self.left -= set(moved)
        self.left &= set(privileged)
        if not self.left:
            self.rounds += 1
            self.left = set(privileged)

    def in_words(self, nodes: int, links: int) -> str:
        """Returns the counts as a text, with the bounds for a network of `nodes` nodes and `links` links if they are
        known."""
        return counts_in_words(self.moves, self.closes, self.rounds, bounds.known(nodes, links))
