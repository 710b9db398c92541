"""Pages with two addresses: one to look at, and one to act at. Each has a random token in its path, and a page to look
at doesn't contain the token to act.

A page receives events while it is open. A server that ends waits a moment until each page has its last event.
"""
from __future__ import annotations

import hmac
import secrets
import threading
from collections.abc import Iterator
from contextlib import contextmanager

from classroom.pages.web import PageRequest, Web

STILL_HERE = 10.0  # seconds without news after which a page gets a line that says so
MOST_BYTES = 200  # the most bytes of a line that a page sends


def new_token() -> str:
    """Returns a random token."""
    return secrets.token_urlsafe(16)


class TwoAddresses(Web):
    """A server of a page with two addresses. If a run continues, the token to look at stays the same."""

    def __init__(self, port: int, asked: type[AtAddress], title: str, looks: str | None = None) -> None:
        """Listens at the port. `asked` is the class that handles a request, `title` is the page's title, and `looks`
        the token to look at, if there is one already. Raises `OSError` if the port is taken."""
        super().__init__(port, asked, title)
        self.looks, self.acts = looks or new_token(), new_token()
        self.leaving = threading.Condition()
        self.receiving = 0  # the number of pages that receive the news

    @property
    def address(self) -> str:
        """Returns the address to look at, which the projector shows."""
        return f"http://127.0.0.1:{self.server_port}/{self.looks}/"

    @property
    def address_to_act(self) -> str:
        """Returns the address to act at, which only the teacher opens."""
        return f"http://127.0.0.1:{self.server_port}/{self.acts}/"

    @contextmanager
    def receiving_page(self) -> Iterator[None]:
        """Counts a page as one that receives events while the `with` block runs."""
        self.count(1)
        try:
            yield
        finally:
            self.count(-1)

    def count(self, more: int) -> None:
        """Adds `more`, which is 1 or -1, to the number of pages that receive events."""
        with self.leaving:
            self.receiving += more
            self.leaving.notify_all()

    def close_after(self, seconds: float) -> None:
        """Waits until no page receives events any longer, for at most `seconds` seconds, and closes the port."""
        with self.leaving:
            self.leaving.wait_for(lambda: self.receiving == 0, seconds)
        self.close()


class AtAddress(PageRequest):
    """A request at one of the two addresses."""

    server: TwoAddresses

    def asked(self) -> tuple[str, str]:
        """Returns the token in the request's path, and the path below it. Returns two empty texts if the token isn't
        one of the server's. The comparison takes the same time for all wrong tokens of a length, since a token is
        secret."""
        beginning, slash, rest = self.path[1:].partition("/")
        known = [token for token in (self.server.looks, self.server.acts) if hmac.compare_digest(beginning.encode(), token.encode())]
        return (known[0], rest) if known and slash else ("", "")

    def do_POST(self) -> None:
        """Handles a line of the teacher, which is the request's body. Answers 204, or 400 if the page may not send this
        line. Answers 404 if the path isn't `act` below the token to act, if the body has more than MOST_BYTES bytes, or
        if its size isn't a number. Answers 421 if the request names another host or another port."""
        if self.reject_foreign_host():
            return
        body = self.body(MOST_BYTES) if self.asked() == (self.server.acts, "act") else None
        if body is None:
            return self.send_head(404)
        self.send_head(204 if self.accept_line(body.decode("utf-8", errors="replace")) else 400)

    def accept_line(self, line: str) -> bool:
        """Does what a line of the teacher asks for, if the page may send that. Returns whether it may. Subclasses
        define this."""
        raise NotImplementedError
