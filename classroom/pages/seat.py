"""The seat of a page on which a student plays: one connection to the class's server, and the contents of its replies,
with a picture. *Looks* have the values that the student may read at each of the student's nodes."""
from __future__ import annotations

import threading
from collections.abc import Callable
from dataclasses import asdict, dataclass
from typing import Any, TypeVar

from classroom.client import Client, Closed, Denied, Look, Moving, Refused
from classroom.core.journal import Event
from classroom.core.lab import Lab, Node, ordered
from classroom.pages.drawing import Drawing
from classroom.pages.frames import State
from classroom.pages.labels import view_of
from classroom.pages.layout import CELL

NEIGHBOUR = "a neighbour"  # shown in place of the owners of a neighbour, whom no reply names; no student can have this name
Told = TypeVar("Told")
Looks = dict[int, Look]  # the look at each node


@dataclass(frozen=True)
class Seen(Drawing):
    """The drawing of the part of the network that a student is shown. Of a node *beyond* that part only its number is
    known, because another node points at it."""

    beyond: frozenset[int] = frozenset()

    def pointer(self, node: int, state: State) -> str:
        """Returns the path element for a node's pointer in a state, or an empty text for a node beyond the part."""
        return "" if node in self.beyond else super().pointer(node, state)

    def node_in_words(self, node: int, owners: list[str], state: State) -> str:
        """Returns the description of a node with these owners in a state, for people who don't see the drawing. A
        neighbour's owners aren't known."""
        return super().node_in_words(node, owners, state).replace(f" of {NEIGHBOUR},", f", {NEIGHBOUR},", 1)

    def node(self, node: int, owners: list[str], state: State, event: Event | None) -> str:
        """Returns the SVG element of a node with these owners in a state, after an event. A node beyond the part is
        only a number, and a neighbour has a thin rim."""
        if node not in self.beyond:
            kind = "node near" if owners == [NEIGHBOUR] else "node"
            return super().node(node, owners, state, event).replace('class="node"', f'class="{kind}"', 1)
        (x, y), size = self.points[node], self.measures["identifier"]
        return (f'<g class="beyond" transform="translate({x:g} {y:g})"><title>node {node}, which is not shown to you</title>'
                f'<circle class="disc" r="{self.measures["radius"]:g}"/><text y="{0.36 * size:.3g}" font-size="{size:g}">{node}</text></g>')


def shown_part(name: str, looks: Looks) -> Lab:
    """Returns the part of the network that the looks of the student `name` show, as a lab. In it, the student owns the
    nodes of the looks, other neighbours have the owner NEIGHBOUR, and nodes beyond that part have no owner. A node
    beyond it is one at which a neighbour points, although the student isn't shown it."""
    near = {each.node: each.p for look in looks.values() for each in look.near}
    beyond = {p for p in [*near.values(), *(look.p for look in looks.values())] if p is not None} - near.keys() - looks.keys()
    nodes = [Node(node, [name] if node in looks else [] if node in beyond else [NEIGHBOUR])
             for node in sorted(looks.keys() | near.keys() | beyond)]
    links = sorted({ordered((look.node, each.node)) for look in looks.values() for each in look.near})
    return Lab(0, 0, ("", ""), {name: "", NEIGHBOUR: ""}, nodes, links)


def drawing_of_part(part: Lab, looks: Looks) -> Seen:
    """Returns the drawing of `part`, the part of the network that a student is shown. `looks` are the looks from which
    it was made. Each node beyond the part is drawn near the node that points at it."""
    beyond = frozenset(node.id for node in part.nodes if not node.owners)
    points_at = [(each.node, each.p) for look in looks.values() for each in look.near if each.p in beyond and each.p is not None]
    links = sorted({*part.links, *map(ordered, points_at)})
    return Seen(part, view_of({node.id: node.owners for node in part.nodes}, links, CELL), beyond)


def state_of(part: Lab, looks: Looks) -> State:
    """Returns the state of a part of the network for its picture: the registers, links, chosen moves and enabled rules
    that the looks show."""
    registers = {each.node: each for look in looks.values() for each in (*look.near, look)}
    state = State(0, max(look.at for look in looks.values()), frozenset(part.links))
    for node in part.nodes:
        if node.id in registers:
            state.pointers[node.id], state.ms[node.id] = registers[node.id].p, registers[node.id].m
    state.privileged = {node: look.rule for node, look in looks.items() if look.rule is not None}
    state.chosen = {node: look.chosen for node, look in looks.items() if look.chosen is not None}
    return state


class Seat:
    """A student's connection. The page's thread and the threads of its moves use it one at a time."""

    def __init__(self, client: Client, name: str, nodes: list[int]) -> None:
        """Begins without looks. `nodes` are those of the student `name`, and `client` is a connection on which this
        student has said hello."""
        self.client, self.name, self.nodes = client, name, nodes
        self.turn = threading.Lock()
        self.end_reason = ""  # why the connection has ended, or empty as long as it is open
        self.looks: Looks = {}  # the last look at each node
        self.drawing: Seen | None = None  # the drawing of the part of the network that the looks show
        self.shown: dict[str, Any] = {}  # what `present` returned last

    def ask_server(self, ask: Callable[[], Told]) -> Told:
        """Calls `ask`, which uses the connection, and returns its result. Raises `Closed` with the server's reason once
        the server has closed the connection or refuses as `busy`. Other refusals and all denials are raised as they
        come."""
        with self.turn:
            try:
                return ask()
            except Closed as closed:
                self.end_reason = self.end_reason or str(closed)
            except Refused as refused:
                if refused.word != "busy":
                    raise
                self.end_reason = str(refused)
        raise Closed(self.end_reason)

    def move(self, request: dict[str, Any]) -> dict[str, Any]:
        """Sends a request for a move, and returns the values of the reply, also of a denial or refusal. Raises `Closed`
        once the server has closed the connection."""
        try:
            return self.ask_server(lambda: self.client.ask(**request))
        except Denied as denied:
            return {"clause": denied.clause, "deny": denied.name, "text": denied.text}
        except Refused as refused:
            return {"refuse": refused.word}

    def present(self) -> dict[str, Any]:
        """Returns the values that the page shows now. Returns the same object as before if nothing has changed, if the
        nodes can't be read in one configuration at the moment, or if a look is refused. Raises `Closed` once the server
        has closed the connection, and `Denied` if a look is denied."""
        try:
            looks = self.ask_server(lambda: self.client.snapshot(self.nodes))
        except (Moving, Refused):
            return self.shown
        if looks != self.looks:
            self.looks, part = looks, shown_part(self.name, looks)
            if self.drawing is None or part != self.drawing.lab:
                self.drawing = drawing_of_part(part, looks)
            picture = self.drawing.svg(state_of(part, looks), None)
            self.shown = {"at": max(look.at for look in looks.values()), "nodes": [look_values(look) for look in looks.values()],
                          "picture": picture}
        return self.shown


def look_values(look: Look) -> dict[str, Any]:
    """Returns the values of a look as the page shows them, without the configuration's number, and with the neighbours
    that point at the node."""
    values = {name: value for name, value in asdict(look).items() if name != "at"}
    return values | {"pointing": [near.node for near in look.near if near.p == look.node]}
