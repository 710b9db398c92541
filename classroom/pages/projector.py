"""The page of a continuing run, with two addresses: one for the projector, and one at which the teacher acts. Each
address has a random token in its path.

Each page has a thread, which sends all changes since its last message. A slow page gets fewer and larger messages, and
nothing waits for it. A *snapshot* has the state that the pages show at a moment, and how many events, lines and bars
there are. A *bar* of the page's chart stands for a configuration.
"""
from __future__ import annotations

import json
import queue
from collections.abc import Callable
from typing import Any

from classroom.core.desk_words import WORDS
from classroom.core.journal import in_words
from classroom.core.lab import Lab
from classroom.pages.drawing import drawing_of
from classroom.pages.frames import Frame
from classroom.pages.page import Frames, live_page
from classroom.pages.two_addresses import STILL_HERE, AtAddress, TwoAddresses, new_token
from classroom.pages.watch import Now, Present
from classroom.pages.web import at_free_port

LISTED = 25  # the most events and lines that a page gets at once
LAST_WORD = 5.0  # seconds that pages have to receive the news that the run is over


class Pages(TwoAddresses):
    """The server of the page of one run. The token of the address to act at can be replaced."""

    def __init__(self, port: int, title: str, lab: Lab, typed: queue.SimpleQueue[str], looks: str | None = None) -> None:
        """Listens at the port, but doesn't answer before `show`. `title` is the page's title, and `lab` that of the
        run. Lines of the teacher are put into `typed`, and `looks` is the token of the address to look at, if it has
        one already. Raises `OSError` if the port is taken."""
        super().__init__(port, PagesRequest, title, looks)
        self.lab, self.typed = lab, typed
        self.drawing = drawing_of(lab.without_house(), lab.links)
        self.present: Present | None = None

    def renew(self) -> None:
        """Replaces the address to act at. Requests at the old one are refused from then on, and no more is shown
        there."""
        self.acts = new_token()
        if self.present is not None:
            self.present.put()  # A new snapshot wakes the threads of all pages, so that those at the old address end.

    def show(self, present: Present, tell: Callable[[str], None]) -> None:
        """Starts to answer. `present` has what the page shows, and the callback prints a line about an error."""
        self.present, self.tell = present, tell
        self.open()

    def stop(self) -> None:
        """Informs all open pages that the run is over, waits at most LAST_WORD seconds until they have received that,
        and closes the port."""
        if self.present is not None:
            self.present.put(ended=True)
        self.close_after(LAST_WORD)


class PagesRequest(AtAddress):
    """A request at one of the two addresses."""

    server: Pages

    def do_GET(self) -> None:
        """Answers with the page or its events, as the path asks. Answers 404 for any other path, also one with a wrong
        token, and 421 if the request names another host or another port."""
        (token, asked), present = self.asked(), self.server.present
        if self.reject_foreign_host():
            return
        if present is None or not token or asked not in ("", "events"):
            return self.send_head(404)
        if asked == "events":
            self.send_head(200, "text/event-stream", None)
            with self.server.receiving_page():
                return self.send_events(present, token)
        page, policy = live_page(self.server.title, self.server.drawing, present.now.state, token == self.server.acts)
        self.answer(200, "text/html; charset=utf-8", page.encode(), policy)

    def accept_line(self, line: str) -> bool:
        """Queues a line of the teacher as if it were typed, if the page may send it. Returns whether it may."""
        word = WORDS.get(line.partition(" ")[0])
        if word is None or not word.is_on_page or not line.isprintable():
            return False
        self.server.typed.put(line)
        return True

    def send_events(self, present: Present, token: str) -> None:
        """Sends the present state, and then all changes, until the run or the page ends or the token is replaced. Sends
        a comment line if nothing has changed for STILL_HERE seconds."""
        rows = Frames(self.server.drawing)
        before: Now | None = None
        while (before is None or not before.ended) and token in (self.server.looks, self.server.acts):
            now = present.after(before.version if before else 0, STILL_HERE)
            text = ": no news" if now is before else f"data: {json.dumps(message(rows, present, before, now))}"
            self.wfile.write(f"{text}\n\n".encode())
            before = now


def message(rows: Frames, present: Present, before: Now | None, now: Now) -> dict[str, Any]:
    """Returns the values of the message that brings a page from the snapshot `before`, or from nothing, to `now`.
    `present` has all events and lines so far. `rows` has the links and the state that were sent to that page before,
    and is brought to `now` too."""
    links = len(rows.links)
    rows.add(Frame(present.events[now.events - 1] if now.events else None, now.state), len(now.state.links))
    events = present.events[max(before.events if before else 0, now.events - LISTED):now.events]
    lines = present.lines[max(before.lines if before else 0, now.lines - LISTED):now.lines]
    # The last bar that was sent may have changed since, so it is sent again.
    return rows.rows.pop() | {
        "begin": before is None, "closing": now.closing, "ended": now.ended,
        "new": rows.drawn_links(links), "bars": present.bars.rows[max(before.bars - 1, 0) if before else 0:now.bars],
        "events": [f"event {each.place}: {in_words(each)}" for each in events], "lines": lines,
    }


def open_pages(port: int, title: str, lab: Lab, typed: queue.SimpleQueue[str], looks: str | None = None) -> Pages:
    """Returns the server of the page of a lab's run, with this title. It listens at a port or the next free one, and
    doesn't answer yet. Lines of the teacher are put into `typed`, and `looks` is the token of the address to look at,
    if the run had one before. Raises `Fault` if no port is free."""
    return at_free_port(port, lambda number: Pages(number, title, lab, typed, looks))
