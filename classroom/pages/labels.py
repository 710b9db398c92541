"""The positions of the name and the rule of each node: beside its disc, away from other discs, links and labels.

The widths of texts are estimated from their letters, and are at least those of the usual fonts. So each text has a
position before anything is drawn. A *label* consists of the names of a node's owners and, in a *frame*, the rule that
is enabled at the node.
"""
from __future__ import annotations

import math
import unicodedata
from collections.abc import Iterable, Iterator
from dataclasses import dataclass

from classroom.core.journal import RULES
from classroom.core.networks import neighbours
from classroom.pages.layout import RING, Field, Layout, Pads, fitted, shape_for
from classroom.pages.shapes import Near
from classroom.pages.springs import Point

MOST_NAMED, MOST_LINKS = 30, 450  # the most nodes and the most links of a network in which names are drawn
BOLD = 1.13  # the width of bold letters, as a multiple of the width of others
PILL_HIGH, PILL_PAD = 1.45, 0.9  # the height of a rule's frame and its extra width, as multiples of its letters' size
PILL = 0.92  # the size of a rule's letters, as a multiple of a name's
LINE = 1.25  # the height of a line, as a multiple of its letters' size
REACH = 1.42  # the distance of a label from its node's middle, as a multiple of the radius
SIDEWAYS = 0.3  # a label is beside its node from this cosine of its direction on, and above or below it from this sine on
ANGLES = (1, -1, 3, -3, 0, 4, 2, -2, 0.5, -0.5, 3.5, -3.5, 1.5, 2.5, -1.5, -2.5)  # the directions that are tried for a label, in eighths of a turn
GAP = 2.0  # the least distance between a label and anything else
LEAST = 13.0  # the size of the smallest letters
# The places of the middle of a rule's frame at a node without a label, in radii from the node's middle. The first free one is taken.
CORNERS = ((0.5, -1.15), (-0.5, -1.15), (0.5, 1.15), (-0.5, 1.15), (1.5, -0.6), (-1.5, -0.6), (1.5, 0.6), (-1.5, 0.6), (0.0, -1.5), (0.0, 1.5))
LEAST_FRAMED = 11.0  # the least radius of nodes at which rules have room
TURNS = 2  # how many rounds the search for the frames' places has
FULL = "✓ "  # the sign before the rule of a chosen move


def text_width(text: str, size: float, bold: bool = False) -> float:
    """Returns an upper estimate of the width of a text in letters of this size, which are bold if `bold` is set."""
    return size * sum(map(letter_width, text)) * (BOLD if bold else 1.0)


def letter_width(letter: str) -> float:
    """Returns an upper estimate of the width of a letter in a font of size 1."""
    if unicodedata.combining(letter):
        return 0.0
    if unicodedata.east_asian_width(letter) in "WF":
        return 1.0
    if letter in "ijlI.,:;'|!() -":
        return 0.36
    if letter in "frt":
        return 0.45
    return 0.95 if letter in "mwMW@✓" else 0.72 if letter.isupper() else 0.63


@dataclass(frozen=True)
class Form:
    """The form of names and rules in a drawing: the most letters of a name, their size, and whether rules are
    written as words."""

    letters: int
    size: float
    words: bool

    @property
    def pill(self) -> float:
        """Returns the size of the letters of a rule in its frame."""
        return max(LEAST, PILL * self.size)

    @property
    def high(self) -> float:
        """Returns the height of a label, which has two lines."""
        return LINE * self.size + PILL_HIGH * self.pill + GAP

    def name(self, owners: list[str]) -> str:
        """Returns the names of a node's owners as one text, which is cut if it has too many letters. The text is empty
        if the form has no room for names."""
        whole = ", ".join(owners)
        return whole if len(whole) <= self.letters else whole[:self.letters - 1] + "…" if self.letters else ""

    def word(self, rule: str) -> str:
        """Returns the text that stands for a rule in a drawing: its name, or only the first letter."""
        return rule if self.words else rule[:1].upper()

    def pill_width(self, rule: str, is_chosen: bool) -> float:
        """Returns the width of the frame of a rule. A chosen move also has a tick in the frame."""
        text = FULL * is_chosen + self.word(rule)
        return round(text_width(text, self.pill) + PILL_PAD * self.pill, 1)

    @property
    def widest_pill(self) -> float:
        """Returns the largest width of any rule's frame."""
        return max(self.pill_width(rule, True) for rule in RULES)


FORMS = (Form(18, 15, True), Form(18, 13.6, True), Form(12, 13, True), Form(12, 13, False))
BARE = Form(0, 13, False)


@dataclass(frozen=True)
class Box:
    """A rectangle with its edges parallel to those of the field. Its methods measure by how much it is too close to
    other things, which should be GAP away."""

    left: float
    top: float
    right: float
    bottom: float

    def shared_area(self, other: Box) -> float:
        """Returns the area of the intersection with another box, as if it were wider and higher by GAP. Returns 0 if
        the boxes are at least GAP apart."""
        across = min(self.right, other.right) - max(self.left, other.left) + GAP
        down = min(self.bottom, other.bottom) - max(self.top, other.top) + GAP
        return across * down if across > 0 and down > 0 else 0.0

    def length_outside(self, field: Field) -> float:
        """Returns how far the box reaches beyond the edges of a field, or into the margin GAP along them, added up for
        the four edges."""
        return sum(max(0.0, far) for far in (GAP - self.left, self.right - field.width + GAP, GAP - self.top, self.bottom - field.height + GAP))

    def depth_in_disc(self, middle: Point, radius: float) -> float:
        """Returns how far the box reaches into the disc with this middle, whose radius is `radius` and GAP more.
        Returns 0 if the box doesn't reach into it."""
        x, y = min(max(middle[0], self.left), self.right), min(max(middle[1], self.top), self.bottom)  # the box's nearest point
        return max(0.0, radius + GAP - math.dist((x, y), middle))

    def length_inside(self, a: Point, b: Point) -> float:
        """Returns the length of the part of the line from a to b that is inside the box, which is made larger by GAP at
        each edge."""
        begin, end = 0.0, 1.0  # The part between these shares of the way from a to b is inside, first across and then also down.
        for start, step, low, high in ((a[0], b[0] - a[0], self.left - GAP, self.right + GAP), (a[1], b[1] - a[1], self.top - GAP, self.bottom + GAP)):
            if not step:
                if not low < start < high:
                    return 0.0
                continue
            first, last = sorted(((low - start) / step, (high - start) / step))
            begin, end = max(begin, first), min(end, last)
            if begin >= end:
                return 0.0
        return math.dist(a, b) * (end - begin)


@dataclass(frozen=True)
class Label:
    """The label of a node: the positions of its name and of its rule's frame, relative to the node's middle.
    `anchor` is the end of both that is at `x`: start, middle or end."""

    text: str
    anchor: str
    x: float
    name_y: float
    pill_y: float
    box: Box

    def pill_x(self, width: float) -> float:
        """Returns the horizontal position of the middle of a frame with that width, relative to the node's middle."""
        return self.x + {"start": width / 2, "end": -width / 2, "middle": 0.0}[self.anchor]


@dataclass(frozen=True)
class View:
    """A layout with a label for each node. If there is no room for labels, each node has only the frame of its rule, at
    a corner."""

    layout: Layout
    form: Form
    labels: dict[int, Label]
    corners: dict[int, Point]

    @property
    def identifier_size(self) -> float:
        """Returns the size of the letters of the nodes' identifiers. It depends on the radius of a disc, and is at
        least that of the smallest other letters if the longest identifier then fits into a disc."""
        radius, digits = self.layout.radius, max(len(str(node)) for node in self.layout.points)
        plain = BARE.size if text_width("8" * digits, BARE.size, True) <= 1.95 * radius else 0.0
        return round(max(plain, 0.92 * radius), 1)

    def pill_at(self, node: int, width: float) -> Point:
        """Returns the middle of the frame of a node's rule, relative to the node's middle. `width` is that of the
        frame."""
        label = self.labels.get(node)
        return self.corners[node] if label is None else (label.pill_x(width), label.pill_y)


def view_of(owners: dict[int, list[str]], links: list[tuple[int, int]], field: Field) -> View:
    """Returns the layout of the network with these links in a field, with the largest labels for which there is room. A
    narrow field and a large network have none. Labels may cross links only in a network without a regular shape.
    `owners` has the owners of each node."""
    shape = shape_for(owners, links, field)
    near = neighbours(owners, links)
    if field.width >= 500 and len(owners) <= MOST_NAMED and len(links) <= MOST_LINKS:
        for form in FORMS:
            layout = fitted(shape, field, pads(shape.kind, field, form, owners))
            labels, hard, soft = placed(layout, form, owners, near)
            if not hard and (not soft or shape.kind in ("general", "ellipse")):
                return View(layout, form, labels, {})
    layout = fitted(shape, field, pads(shape.kind, field, BARE, owners))
    return View(layout, BARE, {}, corners_of(layout))


def corners_of(layout: Layout) -> dict[int, Point]:
    """Returns the middle of the frame of each node's rule, relative to the node's middle, for a layout without labels.
    Frames avoid other nodes and other frames if possible. If the nodes are too small for frames, all have the same
    corner."""
    radius, points = layout.radius, layout.points
    found, frames = {node: CORNERS[0] for node in points}, dict[int, Box]()
    # A frame is placed again in the next round, since later frames may have been placed upon it.
    for _ in range(TURNS if radius >= LEAST_FRAMED else 0):
        for node, middle in points.items():
            frames.pop(node, None)
            discs = [point for other, point in points.items() if other != node]
            found[node] = min(CORNERS, key=lambda corner: overlap(framed(middle, corner, radius), layout, discs, frames.values()))
            frames[node] = framed(middle, found[node], radius)
    return {node: (round(across * radius, 2), round(down * radius, 2)) for node, (across, down) in found.items()}


def framed(middle: Point, corner: Point, radius: float) -> Box:
    """Returns the box of the widest rule's frame at a corner of the node at `middle`, whose disc has this radius. The
    corner is relative to the node, in radii."""
    x, y = middle[0] + corner[0] * radius, middle[1] + corner[1] * radius
    width, high = BARE.widest_pill, PILL_HIGH * BARE.pill
    return Box(x - width / 2, y - high / 2, x + width / 2, y + high / 2)


def pads(kind: str, field: Field, form: Form, owners: dict[int, list[str]]) -> Pads:
    """Returns the margins that labels of this form need at the edges of a field, in a layout of a shape of this kind.
    `owners` has the owners of each node, whose names are in the labels."""
    most = field.most_radius
    if not form.letters:
        return Pads(1.7 * most, 1.9 * most, 1.7 * most, 1.5 * most)
    longest = max(form.widest_pill, *(text_width(form.name(each), form.size) for each in owners.values()))
    side = min(0.2 * field.width, 1.2 * most + 0.7 * form.size + longest)
    narrow = max(2.2 * most, longest / 2 + 2 * GAP)
    # A grid has its labels at the lower right, and a path or tree mostly above or below its nodes. Elsewhere they can be on either side.
    left, right = {"grid": (1.7 * most, side), "path": (narrow, narrow), "tree": (narrow, narrow)}.get(kind, (side, side))
    top = form.high + 1.5 * most if kind in ("cycle", "complete", "star", "tree", "path") else 1.5 * most
    return Pads(left, right, top, form.high + 1.5 * most)


def placed(layout: Layout, form: Form, owners: dict[int, list[str]], near: Near) -> tuple[dict[int, Label], float, float]:
    """Returns a label for each node of a layout, in this form. Labels of nodes with the most links are placed first.
    `owners` has the names of each node's owners, and `near` its neighbours. Also returns by how much all labels
    together overlap discs, other labels and the edges, and by how much they overlap links."""
    labels: dict[int, Label] = {}
    lines = [(layout.points[a], layout.points[b]) for a, others in near.items() for b in others if a < b]
    hard = soft = 0.0
    for node in sorted(near, key=lambda node: -len(near[node])):
        # `least` has for the best label so far its `overlap`, its overlap with links and a little for its order, and that with links alone.
        best, least = None, (math.inf, math.inf, 0.0)
        discs = [point for other, point in layout.points.items() if other != node]
        for order, label in enumerate(candidates(node, layout, form, form.name(owners[node]), near[node])):
            upon = overlap(label.box, layout, discs, [other.box for other in labels.values()])
            if upon <= least[0]:  # Overlaps with discs, labels and edges count first, and then those with links.
                along = sum(label.box.length_inside(*line) for line in lines)
                best, least = min((best, least), (label, (upon, along + 0.1 * order, along)), key=lambda it: it[1][:2])
            if least[0] == 0 and least[2] == 0:
                break
        assert best is not None
        labels[node] = best
        hard, soft = hard + least[0], soft + least[2]
    return labels, hard, soft


def overlap(box: Box, layout: Layout, discs: list[Point], others: Iterable[Box]) -> float:
    """Returns a measure of how much a label's box overlaps the discs around the points in `discs`, the boxes in
    `others`, and the edges of the layout's field. The measure is 0 if it overlaps none of them."""
    upon = 20 * box.length_outside(layout.field) + sum(map(box.shared_area, others))  # A length of 1 counts as an area of 20.
    return upon + 20 * sum(box.depth_in_disc(point, RING * layout.radius) for point in discs)


def candidates(node: int, layout: Layout, form: Form, text: str, others: list[int]) -> Iterator[Label]:
    """Yields possible labels with this text and form for a node of a layout, the best first. The first one is in the
    widest gap between the node's links to the nodes in `others`, or in a grid at the lower right. The next ones are all
    around the node."""
    first = math.pi / 4 if layout.kind == "grid" else widest_gap(layout, node, others)
    width = max(text_width(text, form.size), form.widest_pill)
    for angle in (first, *(eighths * math.pi / 4 for eighths in ANGLES)):
        yield label_at(layout.points[node], layout.radius, angle, form, text, width)


def widest_gap(layout: Layout, node: int, others: list[int]) -> float:
    """Returns the angle of the middle of the widest gap between a node's links to `others` in a layout. Gaps to the
    left and right count a little more, since texts are wide. Of two gaps that are otherwise equal the lower one is
    taken, and at the same height the one with the larger angle. Without links, returns the angle straight down."""
    x, y = layout.points[node]
    angles = sorted(math.atan2(layout.points[other][1] - y, layout.points[other][0] - x) for other in others)
    gaps = []
    for index, angle in enumerate(angles):
        following = angles[index + 1] if index + 1 < len(angles) else angles[0] + math.tau
        middle = (angle + following) / 2
        gaps.append(((following - angle) * (1 + 0.18 * abs(math.cos(middle))) + 0.02 * math.sin(middle), middle))
    return max(gaps, default=(0.0, math.pi / 2))[1]


def label_at(middle: Point, radius: float, angle: float, form: Form, text: str, width: float) -> Label:
    """Returns the label with this text and form beside the node at `middle`, whose disc has this radius. The label is
    in the direction of an angle, and `width` is that of the text or of the widest frame of a rule."""
    level, upright = math.cos(angle), math.sin(angle)
    x, y = level * REACH * radius, upright * REACH * radius
    anchor = "start" if level > SIDEWAYS else "end" if level < -SIDEWAYS else "middle"
    left = {"start": x, "end": x - width, "middle": x - width / 2}[anchor]
    # A label in a diagonal direction is moved a little towards the height of its node.
    tucked = 0.0 if anchor == "middle" else SIDEWAYS * form.size
    is_above = upright < -SIDEWAYS
    top = y - tucked if upright > SIDEWAYS else y - form.high + tucked if is_above else y - form.high / 2
    pill_high = PILL_HIGH * form.pill
    # The name is the lower line of a label above its node, and otherwise the upper one. Its position is that of the letters' base line.
    name_y = top + form.high - 0.35 * form.size if is_above else top + 0.95 * form.size
    pill_y = top + pill_high / 2 if is_above else top + form.high - pill_high / 2
    box = Box(middle[0] + left, middle[1] + top, middle[0] + left + width, middle[1] + top + form.high)
    return Label(text, anchor, round(x, 1), round(name_y, 1), round(pill_y, 1), box)
