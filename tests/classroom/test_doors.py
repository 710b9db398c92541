"""Connections to the port of a page: their number and their time are limited. At most CONNECTIONS are served at a time.
A request has to come within ASKING seconds, and reading the answer has a time limit too. Other tests are about the
*door*, the port for students on other machines."""
from __future__ import annotations

import http.client
import queue
import select
import socket
import threading
import time
import unittest
from unittest import mock

from classroom.core.lab import read
from classroom.pages.by_hand import open_play_page
from classroom.pages.frames import State
from classroom.pages.projector import open_pages
from classroom.pages.watch import Present
from classroom.pages.web import ASKING, CONNECTIONS, Web
from tests.classroom.help import CYCLE, LIMIT, a_port


class Doors(unittest.TestCase):
    """The page for the projector. `path` is one for which the answer is 404. `page` is the path of the page, and
    `posts` one that accepts requests with a body."""

    path = "/"
    posts = "/act"

    def setUp(self) -> None:
        """Opens the page's server, and keeps its lines about errors. `threads` is the number of threads before."""
        self.told: list[str] = []
        self.threads = threading.active_count()
        self.port = self.opened(a_port()).server_port

    def opened(self, port: int) -> Web:
        """Starts and returns the server of the page for the projector, at this port or the next free one. Sets `page`
        and `posts`."""
        pages = open_pages(port, "cycle", read(CYCLE), queue.SimpleQueue())
        pages.show(Present(State(0, 0, frozenset()), "by-hand"), self.told.append)
        self.addCleanup(pages.stop)
        self.page, self.posts = f"/{pages.looks}/", f"/{pages.acts}/act"
        return pages

    def unserved(self) -> Web:
        """Returns the server of the page for the projector before it answers: it listens, but accepts no connection."""
        return open_pages(a_port(), "cycle", read(CYCLE), queue.SimpleQueue())

    def connect(self) -> socket.socket:
        """Returns a connection that has sent nothing."""
        it = socket.create_connection(("127.0.0.1", self.port), LIMIT)
        self.addCleanup(it.close)
        return it

    def asks(self) -> int:
        """Sends a request for `path`. Returns the status of the answer: 404, or 0 if the connection ends without an
        answer."""
        connection = http.client.HTTPConnection("127.0.0.1", self.port, timeout=LIMIT)
        try:
            connection.request("GET", self.path)
            return connection.getresponse().status
        except (OSError, http.client.HTTPException):
            return 0
        finally:
            connection.close()

    def request(self, method: str, path: str, *heads: str) -> bytes:
        """Returns the bytes of a request with these headers and without a body."""
        return "\r\n".join([f"{method} {path} HTTP/1.1", f"Host: 127.0.0.1:{self.port}", *heads, "", ""]).encode("ascii")

    def test_a_size_of_many_digits_gets_404_and_is_no_error_of_the_server(self) -> None:
        for size in ("9" * 5000, "0" * 5000 + "1", "-1", "1e3", "4" * 10):
            with self.subTest(digits=len(size)):
                it = self.connect()
                it.sendall(self.request("POST", self.posts, f"Content-Length: {size}"))
                self.assertTrue(it.makefile("rb").readline().startswith(b"HTTP/1.0 404 "), size[:10])
        self.assertEqual(self.told, [])

    def test_of_errors_of_the_server_only_the_first_of_each_kind_is_printed(self) -> None:
        """Errors of the same class in the same line are of one kind, whatever their texts."""
        numbers = iter(range(1000))

        def fails(_: object) -> bool:
            """Raises a `ValueError` with another text at each call."""
            raise ValueError(f"the {next(numbers)}th")

        with mock.patch("classroom.pages.web.PageRequest.reject_foreign_host", fails):
            for _ in range(5):
                self.assertEqual(self.asks(), 0)
        with mock.patch("classroom.pages.web.PageRequest.reject_foreign_host", side_effect=KeyError("another")):
            self.assertEqual(self.asks(), 0)
        self.assertEqual([line.partition(": ")[2] for line in self.told], ["ValueError: the 0th", "KeyError: 'another'"])

    def test_connections_that_do_not_read_the_answer_are_ended_and_leave_room(self) -> None:
        """The page is larger than the system's buffer for such a connection. As many of them as are served at a time
        keep others out, but only for a while."""
        with mock.patch("classroom.pages.projector.live_page", return_value=("x" * 1_000_000, "")):
            begun = time.monotonic()
            for _ in range(CONNECTIONS):
                it = socket.socket()
                self.addCleanup(it.close)
                it.setsockopt(socket.SOL_SOCKET, socket.SO_RCVBUF, 1)
                it.connect(("127.0.0.1", self.port))
                it.sendall(self.request("GET", self.page))
            self.assertEqual(self.asks(), 0, "more connections are served than CONNECTIONS")
            while self.asks() != 404:
                self.assertLess(time.monotonic() - begun, 45, "no other connection is served")
                time.sleep(0.1)

    def test_a_hundred_connections_can_be_made_before_the_server_accepts_one(self) -> None:
        """A server that keeps only a few connections waiting would let one of them time out."""
        web = self.unserved()
        self.addCleanup(web.close)
        for _ in range(100):
            it = socket.create_connection(("127.0.0.1", web.server_port), 20)
            self.addCleanup(it.close)

    def test_idle_connections_get_no_more_threads_than_connections_are_served(self) -> None:
        """The others are closed. The time limit for requests is so long here that it doesn't end the idle ones."""
        self.assertEqual(self.asks(), 404)
        with mock.patch("classroom.pages.web.ASKING", 10 * LIMIT):
            idle = [self.connect() for _ in range(2 * CONNECTIONS)]
            begun = time.monotonic()
            while len(select.select(idle, [], [], 0.1)[0]) < CONNECTIONS:
                self.assertLess(time.monotonic() - begun, LIMIT, "no connection is closed")
            self.assertLessEqual(threading.active_count(), self.threads + CONNECTIONS + 1)  # One thread accepts connections.
        for it in idle:
            it.close()
        begun = time.monotonic()
        while (status := self.asks()) == 0:
            self.assertLess(time.monotonic() - begun, LIMIT)
            time.sleep(0.05)
        self.assertEqual(status, 404)

    def test_a_connection_that_sends_nothing_is_closed_but_not_at_once(self) -> None:
        begun, it = time.monotonic(), self.connect()
        self.assertEqual(it.recv(1), b"")
        self.assertGreater(time.monotonic() - begun, ASKING / 2)

    def test_a_request_that_comes_byte_by_byte_is_cut_off_but_not_at_once(self) -> None:
        """The server then answers others."""
        begun, it = time.monotonic(), self.connect()
        it.settimeout(0.5)
        for byte in b"GET / HTTP/1.1\r\nHost: 127.0.0.1\r\n" * 100:
            self.assertLess(time.monotonic() - begun, LIMIT)
            try:
                it.sendall(bytes([byte]))
                if not it.recv(1):
                    break
            except TimeoutError:
                continue
            except ConnectionError:
                break
        self.assertGreater(time.monotonic() - begun, ASKING / 2)
        self.assertEqual(self.asks(), 404)


class DoorsOfHands(Doors):
    """The same tests for the page to play by hand, on which nobody has entered."""

    path = "/events"

    def opened(self, port: int) -> Web:
        """Starts and returns the server of the page to play by hand, at this port or the next free one. Sets `page` and
        `posts`."""
        hands = open_play_page(port, "cycle", read(CYCLE))
        hands.show(1, self.told.append)
        self.addCleanup(hands.stop)
        self.page, self.posts = "/", "/enter"
        return hands

    def unserved(self) -> Web:
        """Returns the server of the page to play by hand before it answers: it listens, but accepts no connection."""
        return open_play_page(a_port(), "cycle", read(CYCLE))


if __name__ == "__main__":
    unittest.main()
