"""A configuration as SVG. The page's script changes the same elements when it shows the next one.

A *place* is the number of events up to a configuration, and a *state* has all values at a place. A *privileged* node
has an enabled rule, and a granted move is *chosen* until a step applies it. An *open* link joins two nodes without a
partner, and its *witness* is a node near it that can move.
"""
from __future__ import annotations

import math
from collections.abc import Iterable
from dataclasses import dataclass
from html import escape
from typing import Any

from classroom.core.journal import RULES, Event
from classroom.core.lab import Lab
from classroom.pages import colours, labels
from classroom.pages.frames import OpenLink, State
from classroom.pages.labels import FULL, View, view_of
from classroom.pages.layout import RING, WIDE, Field
from classroom.pages.springs import Point

WITNESSES_MOST = 60  # up to this number of open links, the witness of each is named
OPEN_MOST = 2000  # above this number of open links, only their number is shown
FAINT_ABOVE = 8  # above this number of links per node, the lines become fainter with each further link
LETTERS = f"letters: {', '.join(f'{rule[:1].upper()} {rule}' for rule in RULES)}"
KEY_HIGH, KEY_SIZE = 26.0, 14.0  # the height and the letters' size of the line below a drawing that explains its letters
ANCHORS = ("start", "middle", "end")


@dataclass(frozen=True)
class Drawing:
    """The parts of a drawing that don't change during a run: the lab, and the positions of nodes and names."""

    lab: Lab
    view: View

    @property
    def points(self) -> dict[int, Point]:
        """Returns the point of each node."""
        return self.view.layout.points

    @property
    def measures(self) -> dict[str, float]:
        """Returns all sizes and line widths by their names. Most of them depend on the radius of a node, and those of
        names and rules on the size of their letters."""
        radius, form = self.view.layout.radius, self.view.form
        plain = {
            "radius": radius, "ring": 1.28 * radius, "ringLine": max(1.5, 0.14 * radius), "discLine": max(1.2, 0.1 * radius),
            "identifier": self.view.identifier_size, "link": max(1.0, 0.07 * radius), "pair": max(3.0, 0.42 * radius),
            "arrow": max(1.6, 0.15 * radius), "head": max(5.0, 0.6 * radius), "pill": form.pill,
            "pillHigh": labels.PILL_HIGH * form.pill, "name": form.size, "mark": max(form.size, 0.6 * radius), "markUp": 1.7 * radius,
        }
        return {name: round(value, 2) for name, value in plain.items()}

    @property
    def is_tiny(self) -> bool:
        """Returns whether nodes are too small for showing their rules."""
        return self.view.layout.radius < labels.LEAST_FRAMED

    def svg(self, state: State, event: Event | None) -> str:
        """Returns the SVG element that shows a state. `event` is the event that led to it, if there is one."""
        open_links = state.open if len(state.open) <= OPEN_MOST else []
        sizes, field = self.measures, self.view.layout.field
        return "\n".join([
            f'<svg xmlns="http://www.w3.org/2000/svg" id="drawing" viewBox="0 0 {field.width:g} {field.height:g}" role="group"'
            f' aria-label="the network" data-place="{state.place}" data-number="{state.number}"'
            f' data-privileged="{len(state.privileged)}" data-pairs="{len(state.pairs)}" class="{self.kind}">',
            f'<defs><marker id="arrow" viewBox="0 0 10 10" refX="9.5" refY="5" markerUnits="userSpaceOnUse" markerWidth="{sizes["head"]:g}"'
            f' markerHeight="{sizes["head"]:g}" orient="auto"><path d="M0 0L10 5L0 10z"/></marker></defs>',
            *self.rows("links", sizes["link"], [(a, self.line(a, b)) for a, b in sorted(state.links)], self.link_opacity(len(state.links))),
            *self.rows("open", 1.5 * sizes["link"], [(a, self.line(a, b)) for a, b, _, _ in open_links]),
            *self.rows("witness", 3 * sizes["link"], [(a, self.half(witness, b if witness == a else a))
                                                      for a, b, witness, _ in open_links if witness in (a, b)]),
            path("removed", self.line(*event.nodes) if event is not None and event.links < 0 else "", 2 * sizes["link"]),
            path("pairs", "".join(self.line(a, b) for a, b in state.pairs), sizes["pair"]),
            f'<g class="pointers" stroke-width="{sizes["arrow"]:g}">',
            *(self.pointer(node.id, state) for node in self.lab.nodes),
            "</g>",
            '<g class="witnesses">',
            *(self.witness(link) for link in open_links if len(open_links) <= WITNESSES_MOST),
            "</g>",
            '<g class="nodes">',
            *(self.node(node.id, node.owners, state, event) for node in self.lab.nodes),
            "</g>",
            self.mark(event),
            "</svg>",
        ])

    @property
    def kind(self) -> str:
        """Returns the CSS classes of the drawing. They say whether it has names, and whether it has room for rules."""
        return " ".join(["named" if self.view.labels else "bare", *["tiny"] * self.is_tiny])

    def link_opacity(self, links: int) -> float:
        """Returns the opacity of the line of each link if `links` of them are drawn. The more there are, the fainter is
        each."""
        return min(1.0, FAINT_ABOVE * len(self.lab.nodes) / max(links, 1))

    def rows(self, name: str, thick: float, drawn: list[tuple[int, str]], opacity: float = 1.0) -> list[str]:
        """Returns a group with the CSS class `name` as SVG, with one path for each node. `drawn` has the lines, each
        after the node to whose path it belongs, `thick` is their width, and `opacity` their opacity from 0 to 1. Since
        each path has the lines of one node, few paths change from one state to the next."""
        lines: dict[int, list[str]] = {node.id: [] for node in self.lab.nodes}
        for node, line in drawn:
            lines[node].append(line)
        paths = (f'<path d="{"".join(row)}"/>' for row in lines.values())
        return [f'<g class="{name}" stroke-width="{thick:g}" stroke-opacity="{opacity:.2g}">', *paths, "</g>"]

    def line(self, a: int, b: int) -> str:
        """Returns the line from node a to node b as path data."""
        (x, y), (u, v) = self.points[a], self.points[b]
        return f"M{x:g} {y:g}L{u:g} {v:g}"

    def half(self, a: int, b: int) -> str:
        """Returns the half of the line from node a to node b that is next to a, as path data."""
        (x, y), (u, v) = self.points[a], self.points[b]
        return f"M{x:g} {y:g}L{(x + u) / 2:g} {(y + v) / 2:g}"

    def witness(self, link: OpenLink) -> str:
        """Returns the text element with the witness of an open link and the witness's rule, in the middle of the
        link."""
        a, b, witness, rule = link
        (x, y), (u, v) = self.points[a], self.points[b]
        return f'<text x="{(x + u) / 2:g}" y="{(y + v) / 2:g}">{witness}: {self.view.form.word(rule)}</text>'

    def pointer(self, node: int, state: State) -> str:
        """Returns the path element for a node's pointer in a state. The element's path is empty if the node points at
        none or is married."""
        target = state.pointers[node]
        drawn = "" if target is None or married(node, state) else self.arrow(node, target)
        return f'<path class="pointer" data-of="{node}" d="{drawn}" marker-end="url(#arrow)"/>'

    def arrow(self, a: int, b: int) -> str:
        """Returns the path data of an arrow from the rim of node a to the ring around node b."""
        start, end = self.points[a], self.points[b]
        length = math.dist(start, end) or 1.0
        along = ((end[0] - start[0]) / length, (end[1] - start[1]) / length)
        near, far = self.view.layout.radius, length - RING * self.view.layout.radius
        return f"M{point_along(start, along, near)}L{point_along(start, along, far)}"

    def node(self, node: int, owners: list[str], state: State, event: Event | None) -> str:
        """Returns the SVG element of a node with these owners in a state: its values, its disc, its label and its rule.
        If `event` is a fault, link or cut at the node, the element has the class `hit`."""
        (x, y), sizes = self.points[node], self.measures
        pointer, rule = state.pointers[node], state.privileged.get(node, "")
        chosen, m = state.chosen.get(node, ""), true_or_false(state.ms[node])
        hit = " hit" if event is not None and event.is_edit and node in event.nodes else ""
        return "".join([
            f'<g class="node{hit}" data-node="{node}" data-p="{"" if pointer is None else pointer}" data-m="{m}"'
            f' data-married="{true_or_false(married(node, state))}" data-rule="{rule}" data-chosen="{chosen}"'
            f' transform="translate({x:g} {y:g})" role="img" aria-label="{escape(self.node_in_words(node, owners, state))}">',
            f"<title>node {node}, {escape(owners_in_words(owners))}</title>",
            f'<circle class="ring" r="{sizes["ring"]:g}" stroke-width="{sizes["ringLine"]:g}"/>',
            f'<circle class="disc" r="{sizes["radius"]:g}" stroke-width="{sizes["discLine"]:g}"/>',
            f'<text class="identifier" y="{0.36 * sizes["identifier"]:.3g}" font-size="{sizes["identifier"]:g}">{node}</text>',
            *self.label(node), self.pill(node, rule, chosen),
            "</g>",
        ])

    def label(self, node: int) -> list[str]:
        """Returns a list with the text element that shows the names of a node's owners. Returns an empty list if there
        is no room for names."""
        label = self.view.labels.get(node)
        if label is None:
            return []
        return [f'<text class="owner" x="{label.x:g}" y="{label.name_y:g}" text-anchor="{label.anchor}"'
                f' font-size="{self.view.form.size:g}">{escape(label.text)}</text>']

    def pill(self, node: int, rule: str, chosen: str) -> str:
        """Returns the SVG element of a node's rule in a frame. `rule` is its enabled rule, and `chosen` the rule of its
        chosen move, which is shown instead, with a tick. Each is empty if there is none."""
        form, word = self.view.form, chosen or rule
        width, high = form.pill_width(word, bool(chosen)), self.measures["pillHigh"]
        x, y = self.view.pill_at(node, width)
        text = FULL * bool(chosen) + form.word(word) if word else ""
        return (f'<g class="pill" transform="translate({x:g} {y:g})"><rect x="{-width / 2:g}" y="{-high / 2:g}" width="{width:g}"'
                f' height="{high:g}" rx="{high / 2:g}"/><text class="rule" y="{0.35 * form.pill:.3g}" font-size="{form.pill:g}">{text}</text></g>')

    def node_in_words(self, node: int, owners: list[str], state: State) -> str:
        """Returns the description of a node with these owners in a state, for people who don't see the drawing."""
        pointer = state.pointers[node]
        partner = next((a if node == b else b for a, b in state.pairs if node in (a, b)), None)
        return describe_node(node, owners, pointer, state.ms[node], partner, state.privileged.get(node, ""), state.chosen.get(node, ""))

    def mark(self, event: Event | None) -> str:
        """Returns the text element that names a fault, link or cut beside its nodes. The element is empty for any other
        event."""
        size = self.measures["mark"]
        if event is None or not event.is_edit:
            return f'<text class="mark" font-size="{size:g}"></text>'
        points = [self.points[node] for node in event.nodes]
        x, y = sum(x for x, _ in points) / len(points), sum(y for _, y in points) / len(points)
        up = self.measures["markUp"] if event.kind == "fault" else 0.5 * size
        return f'<text class="mark" x="{x:g}" y="{max(size, y - up):g}" font-size="{size:g}">⚡ {event.kind}</text>'

    def key(self) -> str:
        """Returns the text element below a drawing that explains the letters of rules. Returns an empty text if rules
        are shown as words or not at all."""
        if self.view.form.words or self.is_tiny:
            return ""
        return f'<text class="key" x="8" y="{self.view.layout.field.height + 17:g}" font-size="{KEY_SIZE:g}">{LETTERS}</text>'

    def data(self) -> dict[str, Any]:
        """Returns the data of the drawing that the page's script needs."""
        form, layout = self.view.form, self.view.layout
        rules = ("", *RULES)
        return {
            "width": layout.field.width, "height": layout.field.height, "kind": self.kind, "words": form.words, "tiny": self.is_tiny,
            "measures": self.measures, "widths": [[form.pill_width(rule, it) for it in (False, True)] for rule in rules],
            "points": [layout.points[node.id] for node in self.lab.nodes],
            "corners": [self.view.corners[node.id] for node in self.lab.nodes] if self.view.corners else [],
            "labels": [[label.text, ANCHORS.index(label.anchor), label.x, label.name_y, label.pill_y]
                       for node in self.lab.nodes if (label := self.view.labels.get(node.id)) is not None],
        }


def drawing_of(lab: Lab, links: Iterable[tuple[int, int]] | None = None, field: Field = WIDE) -> Drawing:
    """Returns the drawing of a lab's network for a field, the size of the area to draw into. The drawing has the links
    in `links`, or those of the lab if that is None."""
    owners = {node.id: node.owners for node in lab.nodes}
    return Drawing(lab, view_of(owners, sorted(lab.links if links is None else links), field))


def married(node: int, state: State) -> bool:
    """Returns whether a node is in one of the pairs of a state."""
    return any(node in pair for pair in state.pairs)


def describe_node(node: int, owners: list[str], pointer: int | None, m: bool, partner: int | None, rule: str, chosen: str) -> str:
    """Returns the description of a node with these values, in words. `pointer` and `m` are its registers, `rule` is its
    enabled rule, and `chosen` the rule of its chosen move, or empty if there is none. `partner` is the node to which it
    is married, or None. The page's script produces the same text."""
    return ", ".join([
        f"node {node} of {owners_in_words(owners)}", f"p {'null' if pointer is None else pointer}", f"m {true_or_false(m)}",
        *([f"married to {partner}"] if partner is not None else []), *([f"privileged: {rule}"] if rule else []),
        *([f"chosen: {chosen}"] if chosen else []),
    ])


def owners_in_words(owners: list[str]) -> str:
    """Returns the names of a node's owners as a text. A node of the house alone has no owners here, because
    `Lab.without_house` leaves the house out."""
    return " and ".join(owners) or "the house"


def true_or_false(value: bool) -> str:
    """Returns a truth value as the texts `true` and `false`, as the page's elements have it."""
    return "true" if value else "false"


def point_along(start: Point, along: Point, far: float) -> str:
    """Returns the point at the distance `far` from `start` in the direction of the unit vector `along`, as path
    data."""
    return f"{start[0] + along[0] * far:.1f} {start[1] + along[1] * far:.1f}"


def path(name: str, drawn: str, thick: float) -> str:
    """Returns a path element with the CSS class `name`, the path data `drawn` and the line width `thick`."""
    return f'<path class="{name}" stroke-width="{thick:g}" d="{drawn}"/>'


def standalone(drawing: Drawing, state: State, event: Event | None, theme: str = "light") -> str:
    """Returns the text of an SVG file that shows a state in a drawing, with its style inside. `event` is the event that
    led to the state, if there is one, and `theme` names the colours: `light` or `dark`."""
    key, field = drawing.key(), drawing.view.layout.field
    head, tail = drawing.svg(state, event).split("<defs>", 1)
    if key:  # The line that explains the letters needs more height.
        head = head.replace(f'{field.width:g} {field.height:g}"', f'{field.width:g} {field.height + KEY_HIGH:g}"', 1)
    tail = tail.removesuffix("</svg>")
    return (f'<?xml version="1.0" encoding="UTF-8"?>\n{head}{colours.style(theme=theme)}<rect class="ground" width="100%" height="100%"/>'
            f"<defs>{tail}{key}</svg>\n")
