"""The page on which a student plays by hand. The page's server connects to the class's server with the student's name
and key, as a program would, and shows the replies on that connection.

A page has a connection only after its hello, the request with name and key. The connection takes a *seat* at the
class's server, and a page that is closed frees its seat.
"""
from __future__ import annotations

import hmac
import json
import secrets
import select
import threading
import time
from collections.abc import Callable
from contextlib import contextmanager
from typing import Any, Iterator

from classroom.client import Client, Closed, Denied, Refused, wrong_keys
from classroom.core.lab import Lab
from classroom.pages.page import assembled
from classroom.pages.seat import Seat
from classroom.pages.web import PageRequest, Web, at_free_port

PAUSE = 0.25  # seconds between two looks
STILL_HERE = 10.0  # seconds without news after which a page gets a line that there are none
LAST_WORD = 5.0  # seconds that pages have to receive the news that the run is over
MOST_BYTES = 1000  # the most bytes of a page's request
LINES = "application/x-ndjson"
LEFT = "the page's server was ended: ask your teacher where you can play again"
ASKS = ("node", "at", "rule", "with")  # the keys of a request for a move


class PlayServer(Web):
    """The server of the page for all students of one run."""

    def __init__(self, port: int, title: str, lab: Lab) -> None:
        """Listens at `port`, but doesn't answer before `show`. `title` is the page's title, and `lab` the lab whose
        students play. Raises `OSError` if the port is taken."""
        super().__init__(port, PlayRequest, title)
        self.lab, self.students = lab, 0
        self.page = assembled("by_hand", {"TITLE": title}, "", ("drawing.css", "page.css", "by_hand.css"), ("by_hand.js",))
        self.seats: dict[str, Seat] = {}
        self.names: dict[int, str] = {}  # the names of the students who play by hand, by the local port of their connection to the server
        self.turn = threading.Condition()
        self.leaves = False  # whether all pages are to give up their seats

    @property
    def address(self) -> str:
        """Returns the address that a student opens."""
        return f"http://127.0.0.1:{self.server_port}/"

    def show(self, students: int, tell: Callable[[str], None]) -> None:
        """Starts to answer. `students` is the port of the class's server, and the callback prints a line about an
        error."""
        self.students, self.tell = students, tell
        self.open()

    @contextmanager
    def keeping_seat(self, seat: Seat) -> Iterator[str]:
        """Keeps a seat in the table of seats, and its student's name in `names`, while its page is open. Yields the
        token, a new random text by which that page names its seat."""
        token, port = secrets.token_urlsafe(16), seat.client.own_port()
        with self.turn:
            self.seats[token], self.names[port] = seat, f"{seat.name}, by hand"
        try:
            yield token
        finally:
            with self.turn:
                del self.seats[token], self.names[port]
                self.turn.notify_all()

    def seat(self, token: object) -> Seat | None:
        """Returns the seat with this token, or None if no open page has it. The comparison takes the same time for all
        wrong tokens of a length, since a token is secret."""
        with self.turn:
            return next((seat for known, seat in self.seats.items()
                         if isinstance(token, str) and hmac.compare_digest(known.encode(), token.encode(errors="replace"))), None)

    def stop(self) -> None:
        """Makes all pages give up their seats, waits for that at most LAST_WORD seconds, and closes the port. Each page
        first asks the class's server once more. So that server has to be answering, or to have closed the page's
        connection."""
        with self.turn:
            self.leaves = True
            self.turn.wait_for(lambda: not self.seats, LAST_WORD)
        self.close()


class PlayRequest(PageRequest):
    """A request of a student's page."""

    server: PlayServer

    def do_GET(self) -> None:
        """Answers with the page, which is the same for every student, or with 404 for any other path than `/`. Answers
        421 if the request names another host or another port."""
        if self.reject_foreign_host():
            return
        if self.path != "/":
            return self.send_head(404)
        page, policy = self.server.page
        self.answer(200, "text/html; charset=utf-8", page.encode(), policy)

    def do_POST(self) -> None:
        """Handles a hello (`/enter`) or a move (`/move`), whose values are the JSON object in the request's body. The
        answer to a hello ends only when the page is closed. Answers 404 for another path, or for a body that is too
        large or whose size isn't a number. Answers 400 if the body isn't an object, and 421 if the request names
        another host or another port."""
        if self.reject_foreign_host():
            return
        does = {"/enter": self.enter, "/move": self.move}.get(self.path)
        body = self.body(MOST_BYTES) if does is not None else None
        if does is None or body is None:
            return self.send_head(404)
        try:
            asked = json.loads(body)
        except (ValueError, RecursionError):
            asked = None
        if not isinstance(asked, dict):
            return self.send_head(400)
        does(asked)

    def answer_json(self, status: int, **told: Any) -> None:
        """Sends an answer with a status and these values as JSON."""
        self.answer(status, "application/json", json.dumps(told).encode())

    def send_row(self, row: dict[str, Any]) -> None:
        """Sends a row of values to the page, as a line of JSON."""
        self.wfile.write(json.dumps(row).encode() + b"\n")

    def enter(self, asked: dict[str, Any]) -> None:
        """Connects to the class's server with the name and key in `asked`, and sends updates while the page is open. If
        the hello isn't granted, or the student has no node, answers with the reason. Answers 400 if the name or the key
        isn't a text."""
        name, key = asked.get("name"), asked.get("key")
        if not isinstance(name, str) or not isinstance(key, str):
            return self.send_head(400)
        try:
            client = Client(self.server.students, name, key)
        except Denied as denied:
            return self.answer_json(403, told=f"the hello was denied, since {denied.text} (clause {denied.clause}, {denied.name})")
        except (Refused, Closed) as error:
            return self.answer_json(503, told=str(error))
        with client:
            seat = Seat(client, name, self.server.lab.nodes_of(name))
            if not seat.nodes:
                return self.answer_json(403, told=f"{name} has no node in this network, so there is nothing to play")
            self.send_head(200, LINES, None)
            with self.server.keeping_seat(seat) as token:
                self.send_row({"who": name, "token": token})
                self.send_updates(seat)

    def send_updates(self, seat: Seat) -> None:
        """Sends what a seat shows whenever it has changed, until the page, the connection or the run ends. If nothing
        changes, sends an empty row every STILL_HERE seconds. The last row has the reason for the end, unless the page
        is gone."""
        before, due = None, 0.0
        while not self.server.leaves:
            try:
                row = seat.present()
            except (Closed, Denied) as error:
                return self.send_row({"ended": str(error)})
            now = time.monotonic()
            if row is not before or now >= due:  # `present` returns the same object if nothing has changed.
                self.send_row(row if row is not before else {})
                before, due = row, now + STILL_HERE
            if select.select([self.connection], [], [], PAUSE)[0]:
                return  # A page sends nothing more, so readable bytes or an end mean that it has gone.
        self.send_row({"ended": last_word(seat)})

    def move(self, asked: dict[str, Any]) -> None:
        """Asks for the move in `asked` on the connection of the page's seat, and answers with the reply. If there is no
        such seat or `asked` isn't a request for a move, answers with the reason."""
        seat = self.server.seat(asked.get("token"))
        if seat is None:
            return self.answer_json(404, told="this page is no longer connected: reload it, and enter your name and key again")
        request = {"do": "move"} | {key: asked[key] for key in ASKS if key in asked}
        wrong = wrong_keys(request)
        if wrong is not None:
            return self.answer_json(400, told=wrong)
        try:
            self.answer_json(200, **seat.move(request))
        except Closed as closed:
            self.answer_json(503, told=str(closed))


def last_word(seat: Seat) -> str:
    """Returns the reason why a seat's updates end when the page's server stops. If the class's server has closed the
    connection, it is that server's reason, and otherwise a standard text."""
    try:
        seat.present()
    except (Closed, Denied) as error:
        return str(error)
    return LEFT


def open_play_page(port: int, title: str, lab: Lab) -> PlayServer:
    """Returns the server of the page on which the students of `lab` play, with this title. It listens at `port` or the
    next free one, and doesn't answer yet. Raises `Fault` if no port is free."""
    return at_free_port(port, lambda number: PlayServer(number, title, lab))
