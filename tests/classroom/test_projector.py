"""The server of the page of a continuing run, without a browser and without a run. It has two addresses, each with a
random token: one to look at, for the projector, and one at which the teacher can act."""
from __future__ import annotations

import contextlib
import http.client
import io
import json
import queue
import socket
import unittest
from unittest.mock import patch

from classroom.core import lab as labs
from classroom.core.journal import Event
from classroom.core.program import TOP, Fault
from classroom.pages import projector
from classroom.pages.frames import State
from classroom.pages.page import Frames
from classroom.pages.watch import Present

LAB = TOP / "examples/cycle.toml"


def beginning(lab: labs.Lab) -> State:
    """Returns the state before any event, with `p` null and `m` false at each node."""
    return State(0, 0, frozenset(map(labs.ordered, lab.links)), {node.id: None for node in lab.nodes}, {node.id: False for node in lab.nodes})


class Served(unittest.TestCase):
    """The server, whose data the tests change as a run would."""

    def setUp(self) -> None:
        """Makes the data that a page shows, and a list for the lines that the server prints."""
        self.lab = labs.read(LAB)
        self.present = Present(beginning(self.lab), "by-hand")
        self.told: list[str] = []

    def opened(self, port: int = 20000) -> projector.Pages:
        """Starts the server of the page at this port or the next free one, and returns it."""
        pages = projector.open_pages(port, "cycle, today", self.lab, queue.SimpleQueue())
        self.addCleanup(pages.stop)
        pages.show(self.present, self.told.append)
        return pages

    def ask(self, pages: projector.Pages) -> int:
        """Requests the page to look at. Returns the status of the answer, or 0 if the server closes the connection
        without an answer."""
        connection = http.client.HTTPConnection("127.0.0.1", pages.server_port, timeout=60)
        with contextlib.closing(connection):
            try:
                connection.request("GET", pages.address.partition(str(pages.server_port))[2])
                return connection.getresponse().status
            except http.client.RemoteDisconnected:
                return 0

    def test_an_error_of_the_server_is_printed_as_a_line_but_a_lost_connection_is_not(self) -> None:
        pages = self.opened()
        self.assertEqual(self.ask(pages), 200)
        with patch.object(projector, "live_page", side_effect=ValueError("no page")), contextlib.redirect_stderr(io.StringIO()) as printed:
            self.assertEqual(self.ask(pages), 0)
        self.assertEqual((self.told, printed.getvalue()), (["a page couldn't be shown, because of an error in its server: ValueError: no page"], ""))
        with socket.create_connection(("127.0.0.1", pages.server_port)) as gone:
            # With this option (on, for 0 seconds) the connection is reset when it is closed.
            gone.setsockopt(socket.SOL_SOCKET, socket.SO_LINGER, b"\x01\0\0\0\0\0\0\0")
            gone.sendall(b"GET /")
        self.assertEqual(self.ask(pages), 200)
        self.assertEqual(len(self.told), 1)

    def test_only_the_address_to_act_at_accepts_a_line(self) -> None:
        """The token of the other address, a wrong one and none get the status 404, and their lines aren't queued."""
        pages = self.opened()
        for token, status in ((pages.looks, 404), (pages.acts, 204), ("x", 404), ("", 404)):
            connection = http.client.HTTPConnection("127.0.0.1", pages.server_port, timeout=60)
            with contextlib.closing(connection):
                connection.request("POST", f"/{token}/act", "close")
                self.assertEqual(connection.getresponse().status, status)
        self.assertEqual(pages.typed.get(timeout=60), "close")
        self.assertTrue(pages.typed.empty())

    def test_instead_of_a_port_in_use_the_next_free_one_is_taken(self) -> None:
        """After port 65535 there is no other port, so the search fails."""
        first = self.opened()
        second = projector.open_pages(first.server_port, "", self.lab, queue.SimpleQueue())
        self.addCleanup(second.server_close)
        self.assertGreater(second.server_port, first.server_port)
        with self.assertRaisesRegex(Fault, "^all ports for the page from 65536 to 65535 are in use. Name another port in the command$"):
            projector.open_pages(65536, "", self.lab, queue.SimpleQueue())

    def test_a_message_has_only_what_is_new_to_its_page(self) -> None:
        """The first message to a page has at most the last 25 lines. A later one has the events and lines since the
        message before, so its size doesn't grow during a run."""
        rows = Frames(self.opened().drawing)
        lines = [f"line {number}" for number in range(40)]
        for line in lines[:30]:
            self.present.put(line=line)
        first = self.present.now
        told = projector.message(rows, self.present, None, first)
        self.assertEqual((told["begin"], told["lines"], told["events"]), (True, lines[5:30], []))
        events = [Event(place, 0, ("link", "1", "3")) for place in (1, 2)]
        self.present.put(events=events[:1], line=lines[30])
        self.present.put(events=events[1:], line=lines[31])
        self.present.put(closing="every:5", ended=True)
        told = projector.message(rows, self.present, first, self.present.now)
        self.assertEqual((told["begin"], told["lines"], told["events"]), (False, lines[30:32], ["event 1: ⚡ link 1–3 added", "event 2: ⚡ link 1–3 added"]))
        self.assertEqual((told["closing"], told["ended"]), ("every:5", True))
        self.assertLess(len(json.dumps(told)), 1000)

    def test_new_events_and_lines_are_appended_without_copying_the_lists(self) -> None:
        """The version of the data, which is 1 at the beginning, rises by 1 each time."""
        kept = self.present.events, self.present.lines
        for place in range(1, 1001):
            self.present.put(events=[Event(place, 0, ("close",))], line="closed")
        self.assertIs(self.present.events, kept[0])
        self.assertIs(self.present.lines, kept[1])
        self.assertEqual((self.present.now.events, self.present.now.lines, self.present.now.version), (1000, 1000, 1001))


if __name__ == "__main__":
    unittest.main()
