"""The data of a live page for a move whose line is in the journal before it takes effect. The server writes the line of
an event first, so for a short time the page's reader (`Watch`) can know more than the server's replies show."""
import unittest
from typing import cast

from classroom.client import Client, Denied, Edit, Look, Rule, Report
from classroom.core import lab as labs
from classroom.core.journal import Event
from classroom.core.present import Book
from classroom.core.program import TOP
from classroom.pages.watch import Watch

REPORT = Report(0, False, (), (), ((4, "update"),), ())


class LateDesk:
    """A stand-in for the desk's connection. If `is_granted` is set, node 4 has a chosen move, but looks show it only
    after a request for a link."""

    def __init__(self) -> None:
        """Begins before the move is granted. `links` counts the requests for a link."""
        self.links = 0
        self.is_granted = False

    def look(self, node: int) -> Look:
        """Returns a look at a node: at node 4 with its enabled rule, and with its chosen move if that is shown."""
        chosen: Rule | None = "update" if node == 4 and self.is_granted and self.links else None
        return Look(node, None, False, 0, "update" if node == 4 else None, chosen, ())

    def link(self, a: int, b: int) -> Edit:
        """Counts the request, and raises the denial of a link from a node to itself. `Watch` asks for such a link to
        wait for the server."""
        self.links += 1
        raise Denied(2, "loop", "a node cannot be linked to itself")


class Lines(unittest.TestCase):
    """A line of the journal comes before its effect is visible."""

    def test_a_granted_move_is_published_although_its_line_comes_first(self) -> None:
        desk = LateDesk()
        watch = Watch(labs.read(TOP / "examples/cycle.toml"), cast(Client, desk), REPORT, "by-hand")
        self.assertEqual((watch.present.now.state.chosen, desk.links), ({}, 0))
        desk.is_granted = True
        watch.note_event(Event(1, 0, ("grant", "gus", "4", "update")))
        watch.publish(REPORT, Book([]))
        self.assertEqual(watch.present.now.state.chosen, {4: "update"})


if __name__ == "__main__":
    unittest.main()
