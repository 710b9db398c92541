"""A single HTML file that shows a run, and needs no other file.

A *frame* is the state of the run after an event, and a *place* is the number of events up to it. The page's script is
sent one *row* for each frame, with the changes since the frame before. An *open* link joins two nodes without a
partner, and its *witness* is a node near it that can move.
"""
from __future__ import annotations

import base64
import hashlib
import json
import zlib
from collections.abc import Iterable
from html import escape
from itertools import chain
from pathlib import Path
from typing import Any

from classroom.core import bounds
from classroom.core.counts import plural
from classroom.core.desk_words import BUTTONS, BY_LINKS, EDITS, Button
from classroom.core.journal import RULES as NAMED
from classroom.core.lab import Lab
from classroom.pages.drawing import LETTERS, OPEN_MOST, WITNESSES_MOST, Drawing, drawing_of
from classroom.pages.frames import Frame, OpenLink, State
from classroom.pages.layout import TALL

FOLDER = Path(__file__).parent
PLAIN_LIMIT = 400_000  # bytes of a page's data above which the data are compressed
RULES = ("", *NAMED)
Link = tuple[int, int]


class Frames:
    """The rows of frames that are added one after another. In rows, nodes and links are indices into lists."""

    def __init__(self, drawing: Drawing) -> None:
        """Begins without rows. The order of nodes is that of the drawing's lab."""
        self.drawing = drawing
        self.order = {node.id: index for index, node in enumerate(drawing.lab.nodes)}
        self.links: list[Link] = []  # all links so far
        self.index: dict[Link, int] = {}  # the index of each link in `links`
        self.rows: list[dict[str, Any]] = []
        self.before: State | None = None  # the state of the last frame
        self.open: dict[int, tuple[int, int]] = {}  # by the index of each open link: those of its witness and of the rule

    def add(self, frame: Frame, links: int) -> None:
        """Appends a row with the changes of a frame. `links` is the number of links in the network at that time."""
        state, event = frame.state, frame.event
        before = self.before or State(0, 0, frozenset())
        most = bounds.known(len(self.order), links)
        row: dict[str, Any] = {
            "place": state.place, "number": state.number, "moves": state.moves, "since": state.since,
            "bound": most.moves if most else None, "stable": state.stable,
        }
        if event is not None:
            row |= {"kind": event.kind, "text": " ".join(event.words), "nodes": [self.order[node] for node in event.nodes]}
        # `State.copy` shares the values that are only replaced, so if one is the same object, nothing in it has changed.
        changes = {
            "registers": self.registers(before, state),
            "chosen": self.rules(before.chosen, state.chosen),
            "privileged": [] if state.privileged is before.privileged else self.rules(before.privileged, state.privileged),
            "married": [] if state.pairs is before.pairs else self.partners(before.pairs, state.pairs),
            "links": [] if state.links is before.links else self.changed_links(before.links, state.links),
            "open": [] if state.open is before.open else self.changed_open(state.open),
        }
        self.rows.append(row | {name: rows for name, rows in changes.items() if rows})
        self.before = state.copy()

    def registers(self, before: State, state: State) -> list[list[int]]:
        """Returns three numbers for each node whose registers in `state` aren't those in `before`, the earlier state.
        They are its index, the index of the node that it points at in `state` or -1, and its m as 0 or 1."""
        if (before.pointers, before.ms) == (state.pointers, state.ms):
            return []
        return [
            [self.order[node], -1 if pointer is None else self.order[pointer], int(state.ms[node])]
            for node, pointer in state.pointers.items()
            if node not in before.ms or (before.pointers[node], before.ms[node]) != (pointer, state.ms[node])
        ]

    def rules(self, before: dict[int, str], now: dict[int, str]) -> list[list[int]]:
        """Returns the nodes whose rule in `now` isn't the one in `before`. For each, returns its index, and the index
        in RULES of its rule in `now`, which is 0 for none."""
        changed = {node for node, _ in before.items() ^ now.items()}
        return [[self.order[node], RULES.index(now.get(node, ""))] for node in sorted(changed)]

    def partners(self, before: list[Link], now: list[Link]) -> list[list[int]]:
        """Returns the nodes of the pairs that are in `before` and not in `now`, each with -1. After them come the nodes
        of the pairs that are in `now` and not in `before`, each with its partner. All are indices."""
        gone, come = set(before) - set(now), set(now) - set(before)
        rows = [[self.order[node], -1] for pair in sorted(gone) for node in pair]
        return rows + [
            [self.order[node], self.order[other]] for a, b in sorted(come) for node, other in ((a, b), (b, a))
        ]

    def changed_links(self, before: frozenset[Link], now: frozenset[Link]) -> list[list[int]]:
        """Returns the index of each link that is only in `now`, with 1, and of each link that is only in `before`, with
        0."""
        return [[self.index_of(link), int(link in now)] for link in sorted(before ^ now)]

    def index_of(self, link: Link) -> int:
        """Returns the index of a link in the list `links`. Appends the link if it is new."""
        if link not in self.index:
            self.index[link] = len(self.links)
            self.links.append(link)
        return self.index[link]

    def changed_open(self, links: list[OpenLink]) -> list[list[int]]:
        """Returns the changes of open links since the last call. Links with consecutive indices, the same witness and
        the same rule are one row: the first link's index, the number of links, the witness and its rule. A link that
        is no longer open has -1 in place of a witness."""
        now = {self.index_of((a, b)): (self.order[node], RULES.index(rule)) for a, b, node, rule in links}
        changed = sorted(link for link in now.keys() | self.open.keys() if now.get(link) != self.open.get(link))
        runs: list[list[int]] = []
        for link in changed:
            witness = [*now.get(link, (-1, 0))]
            if runs and runs[-1][0] + runs[-1][1] == link and runs[-1][2:] == witness:
                runs[-1][1] += 1
            else:
                runs.append([link, 1, *witness])
        self.open = now
        return runs

    def drawn_links(self, known: int = 0) -> list[list[int]]:
        """Returns the indices of the ends of all links in the list `links` after the first `known` ones. A page is sent
        these once, since rows name links by their index."""
        return [[self.order[a], self.order[b]] for a, b in self.links[known:]]


class Played:
    """The drawing and the rows of a run, for one or several pages."""

    def __init__(self, lab: Lab, frames: Iterable[Frame]) -> None:
        """Reads all frames of the lab's run, of which the first is the beginning. Makes the drawing of the first one,
        and the data with a row for each."""
        each = iter(frames)
        first = next(each)
        self.drawing = drawing_of(lab.without_house())
        # All frames may share one state, so the picture of the first is drawn before the next is read.
        self.picture, rows = self.drawing.svg(first.state, None), Frames(self.drawing)
        for frame in chain([first], each):
            rows.add(frame, len(frame.state.links))
        self.data = as_element(constant_data(self.drawing) | {"links": rows.drawn_links(), "frames": rows.rows})

    def page(self, title: str, history: str = "") -> str:
        """Returns the text of the HTML page with this title. `history` is a section of HTML beside the player."""
        return drawing_page("player", title, self.drawing, self.picture, self.data, {"MORE": history})[0]


def page_of(title: str, lab: Lab, frames: Iterable[Frame]) -> str:
    """Returns the text of the HTML page, with this title, of a run of `lab` with these frames."""
    return Played(lab, frames).page(title)


def live_page(title: str, drawing: Drawing, state: State, acts: bool) -> tuple[str, str]:
    """Returns the HTML page of a run that goes on, and the content policy to send with it. The page has this title and
    shows the drawing in this state, and its script then receives the present state and all changes. `acts` says whether
    the teacher can act on the page."""
    # The first message to the page has all links, and later ones have new links.
    own = {"links": [], "acts": acts, "buttons": {name: it.line for name, it in BUTTONS.items()}, "byLinks": BY_LINKS}
    parts = {name: button(it) for name, it in BUTTONS.items()}
    return drawing_page("live", title, drawing, drawing.svg(state, None), as_element(constant_data(drawing) | own), parts)


def button(it: Button) -> str:
    """Returns the HTML element of a button by which the teacher acts on a page."""
    more = "".join(f' {name}="{escape(value)}"' for name, value in (("type", it.kind), ("title", it.title)) if value)
    return f'<button id="{it.name}"{more}>{escape(it.text)}</button>'


def constant_data(drawing: Drawing) -> dict[str, Any]:
    """Returns the part of a page's data that doesn't change during the run, with two drawings: `drawing`, the one for a
    screen, and one for a phone. Both have the layout for the links of the lab, with which the run begins. Links that
    are added or removed later don't change the position of a node."""
    phone = drawing_of(drawing.lab, field=TALL)
    return {
        "nodes": [{"id": node.id, "owners": node.owners} for node in drawing.lab.nodes],
        "rules": RULES, "edits": EDITS, "witnessesMost": WITNESSES_MOST, "openMost": OPEN_MOST, "views": [drawing.data(), phone.data()],
    }


def network_in_words(drawing: Drawing) -> str:
    """Returns the kind and the size of a drawing's network in words."""
    kind = drawing.view.layout.kind
    kind = {"general": "network", "ellipse": "network", "complete": "complete network"}.get(kind, kind)
    return f"{kind} of {plural(len(drawing.lab.nodes), 'node')}, {plural(len(drawing.lab.students), 'student')}"


def drawing_page(name: str, title: str, drawing: Drawing, picture: str, data: str, more: dict[str, str]) -> tuple[str, str]:
    """Returns the HTML page of a drawing, with this title, and the content policy to send with it. `name` is that of
    the template and its script, `picture` the SVG element, `data` the element with the data, and `more` has further
    parts of the template."""
    header = fill_template("header", {"TITLE": escape(title), "SIZE": escape(network_in_words(drawing))})
    parts = more | {"TITLE": title, "DRAWING": picture, "HEADER": header, "DATA": data}
    return assembled(name, parts, "", ("drawing.css", "page.css"), ("picture.js", "chart.js", f"{name}.js"))


def assembled(name: str, parts: dict[str, str], more: str, styles: tuple[str, ...], programs: tuple[str, ...]) -> tuple[str, str]:
    """Returns a page made of the template `name`, and the content policy that allows only its own styles and scripts.
    `parts` has the texts for the names in the template, of which `TITLE` isn't yet escaped. `styles` and `programs` are
    the names of their files in this folder, and `more` is CSS that is added to the styles."""
    style = "".join((FOLDER / file).read_text("utf-8") for file in styles) + more
    program = "".join((FOLDER / file).read_text("utf-8") for file in programs)
    page = fill_template(name, parts | {"TITLE": escape(parts["TITLE"]), "STYLE": style, "PROGRAM": program, "LEGEND": legend()})
    return page, f"style-src {hashed(style)}; script-src {hashed(program)}"


def fill_template(name: str, parts: dict[str, str]) -> str:
    """Returns the text of the template `name`, in which each name in double braces is replaced by the part of that
    name."""
    head, *rest = (FOLDER / f"{name}.html").read_text("utf-8").split("{{")
    return head + "".join(parts[piece.split("}}", 1)[0]] + piece.split("}}", 1)[1] for piece in rest)


def hashed(text: str) -> str:
    """Returns the hash of a style or script in the form in which a content policy has it."""
    return f"'sha256-{base64.b64encode(hashlib.sha256(text.encode()).digest()).decode()}'"


def legend() -> str:
    """Returns the explanation of the signs in a drawing as HTML."""
    return (FOLDER / "legend.html").read_text("utf-8").replace("{{LETTERS}}", LETTERS)


def as_element(data: dict[str, Any]) -> str:
    """Returns the HTML element with a page's data."""
    return data_element(json.dumps(data, separators=(",", ":")))


def data_element(text: str) -> str:
    """Returns the HTML element with a JSON text, which is compressed if it is long. No part of the text can end the
    element."""
    if len(text) <= PLAIN_LIMIT:
        return f'<script id="data" type="application/json" data-form="plain">{text.replace("<", chr(92) + "u003c")}</script>'
    packed = base64.b64encode(zlib.compress(text.encode(), 9)).decode()
    return f'<script id="data" type="text/plain" data-form="packed">{packed}</script>'
