"""The page for all networks of a class: a drawing of each, the number of its privileged nodes, the missing students, and
alarms. A click opens the page of one network.

The page has two addresses: one to look at, and one to act at. Each has a *token*, a random text in its path. Below each
of them the server answers

- `` (nothing more): the page, `hall.html` with `drawing.css`, `hall.css` and `hall.js` inside, and the positions of each
  network's nodes, as `Drawing.data` returns them
- `state`: the state of the class as a JSON object (`classroom.core.class_state` documents it)
- `events`: server-sent events. Each `data` is such an object. One is sent whenever something has changed, and a comment line if
  nothing has changed for ten seconds
- `act`, by POST and only at the address to act: one line, as `2: close`, `all: shake 3`, `maths-2: end` or `3: resume`. The word
  is one of ACTS, with its values. The network before it is a number, a name or `all`

Each class has its own address to act at, and no other page knows it.
"""
from __future__ import annotations

import json
import re
import threading
from collections.abc import Callable
from pathlib import Path
from typing import Any

from classroom.core.class_state import ClassState
from classroom.core.lab import Lab
from classroom.pages import kept_layout
from classroom.pages.drawing import drawing_of
from classroom.pages.layout import FLAT
from classroom.pages.page import assembled, data_element
from classroom.pages.two_addresses import STILL_HERE, AtAddress, TwoAddresses
from classroom.pages.web import at_free_port

LISTED = 25  # the most lines that the page shows
LAST_WORD = 2.0  # seconds that pages have to receive the news that the class is over
ACTS = ("close", "shake", "resume", "end")
Views = list[dict[str, Any]]  # for each network what `view` returns
LINE = re.compile(r"[^\s:]+: (?:close|resume|end|shake (?:\d{1,3}|all))")


class Hall(TwoAddresses):
    """The server of the page for all networks of a class."""

    def __init__(self, port: int, title: str, act: Callable[[str], None], state: ClassState, looks: str | None = None,
                 views: Callable[[], Views] = list) -> None:
        """Listens at the port, but doesn't answer before `open`. `act` handles a line of the teacher, `state` is the
        first state that is shown, and `looks` the token of the address to look at, if it has one already. `views`
        returns the positions of each network's nodes. `views` is called for each page, since the search for a layout
        may take a second. Raises `OSError` if the port is taken."""
        super().__init__(port, HallRequest, title, looks)
        self.act, self.views = act, views
        self.turn = threading.Condition()
        self.texts = {self.looks: text(state), self.acts: text(state)}
        self.version, self.ended = 1, False

    def show(self, looks: ClassState, acts: ClassState) -> None:
        """Replaces the state that is shown at the address to look at by `looks`, and that at the address to act at by
        `acts`. The latter has links to the pages on which the teacher acts in each network."""
        texts = {self.looks: text(looks), self.acts: text(acts)}
        with self.turn:
            if texts != self.texts:
                self.texts, self.version = texts, self.version + 1
                self.turn.notify_all()

    def wait_for_change(self, version: int, seconds: float) -> tuple[int, bool]:
        """Waits at most `seconds` seconds until the state's version isn't `version`. Returns its version, and whether
        the state is the last."""
        with self.turn:
            self.turn.wait_for(lambda: self.version != version, seconds)
            return self.version, self.ended

    def stop(self, looks: ClassState, acts: ClassState) -> None:
        """Shows `looks` and `acts`, the last states for the two addresses, waits at most LAST_WORD seconds until all
        pages have them, and closes the port."""
        self.ended = True
        self.show(looks, acts)
        with self.turn:
            self.turn.notify_all()
        self.close_after(LAST_WORD)


class HallRequest(AtAddress):
    """A request at one of the two addresses."""

    server: Hall

    def do_GET(self) -> None:
        """Answers with the page, the state or the events, as the path asks. Answers 404 for any other path, also one
        with a wrong token, and 421 if the request names another host or another port."""
        token, asked = self.asked()
        if self.reject_foreign_host():
            return
        if not token or asked not in ("", "state", "events"):
            return self.send_head(404)
        if asked == "state":
            return self.answer(200, "application/json", self.server.texts[token].encode())
        if asked == "events":
            self.send_head(200, "text/event-stream", None)
            with self.server.receiving_page():
                return self.send_events(token)
        page, policy = hall_page(self.server.title, self.server.texts[token], self.server.views(), token == self.server.acts)
        self.answer(200, "text/html; charset=utf-8", page.encode(), policy)

    def accept_line(self, line: str) -> bool:
        """Handles a line of the teacher if it has the form of LINE. Returns whether it has."""
        is_known = LINE.fullmatch(line) is not None
        if is_known:
            self.server.act(line)
        return is_known

    def send_events(self, token: str) -> None:
        """Sends the state of the address with this token, and again whenever it has changed, until the class or the
        page ends. Sends a comment line if nothing has changed for STILL_HERE seconds."""
        version, ended = 0, False
        while not ended:
            before = version
            version, ended = self.server.wait_for_change(version, STILL_HERE)
            news = ": no news" if version == before else f"data: {self.server.texts[token]}"
            self.wfile.write(f"{news}\n\n".encode())


def text(state: ClassState) -> str:
    """Returns a state of the class as the JSON text that a page receives."""
    return json.dumps(state.table(), separators=(",", ":"))


def view(folder: Path, lab: Lab) -> dict[str, Any]:
    """Returns the positions of the nodes of a lab's network on the page. If the folder of its run has a layout, uses
    it."""
    kept_layout.load(folder)
    data = drawing_of(lab, lab.links, FLAT).data()
    wanted = {name: data[name] for name in ("width", "height", "measures", "points")}
    return wanted | {"nodes": [node.id for node in lab.nodes]}


def hall_page(title: str, state: str, views: Views, acts: bool) -> tuple[str, str]:
    """Returns the text of the page with this title, and the content policy that allows only the page's own style and
    script. `state` is the state of the class as `text` returns it, `views` has the positions of each network's nodes,
    and `acts` says whether the teacher can act on the page."""
    drawn = data_element(json.dumps(views, separators=(",", ":"))).replace('id="data"', 'id="views"', 1)
    parts = {"TITLE": title, "DATA": data_element(state) + drawn, "ACTS": "acts" if acts else "looks"}
    return assembled("hall", parts, "", ("drawing.css", "hall.css"), ("hall.js",))


def open_hall(port: int, title: str, act: Callable[[str], None], state: ClassState, looks: str | None = None,
              views: Callable[[], Views] = list) -> Hall:
    """Returns the server of the page with this title, which listens at a port or the next free one and answers from now
    on. `act` handles a line of the teacher, and `views` returns the positions of each network's nodes. `state` is the
    first state that is shown. `looks` is the token of the address to look at if the class continues, and otherwise
    None. Raises `Fault` if no port is free."""
    it = at_free_port(port, lambda number: Hall(number, title, act, state, looks, views))
    it.open()
    return it
