"""The positions of the nodes of a network: its shape, fitted into a field."""
from __future__ import annotations

import math
from collections.abc import Iterable
from dataclasses import dataclass
from itertools import combinations

from classroom.pages.shapes import Shape, shape_of
from classroom.pages.springs import Point

SHARE = 0.33  # the largest radius, as a share of the distance of the nearest two nodes
LEAST_RADIUS, MOST_RADIUS = 2.0, 0.052  # the least radius of a node, and the largest as a share of the field's height
RING = 1.36  # how far the drawing of a node reaches from its middle, as a multiple of its radius
UNLIKE = {"grid": (1.7, 1.1)}  # by shape: the largest ratio of its horizontal to its vertical stretching, and of the vertical to the horizontal
EQUAL = (1.25, 1.25)
FREE = ("path", "tree")  # shapes that fill their field


@dataclass(frozen=True)
class Field:
    """The size of the area that is drawn into."""

    width: float
    height: float
    share: float = MOST_RADIUS  # the largest radius of a node, as a share of the height

    @property
    def most_radius(self) -> float:
        """Returns the largest radius of a node. In a narrow field it depends on the width and not on the height."""
        return self.share * min(self.height, 0.62 * self.width + 100)


@dataclass(frozen=True)
class Pads:
    """The margins at the edges of a field, for labels."""

    left: float
    right: float
    top: float
    bottom: float


WIDE = Field(1000, 560)  # for a screen, a projector or a document
TALL = Field(366, 340)  # for a phone
CELL = Field(340, 250)  # for one of several drawings side by side, or for a student's page
FLAT = Field(440, 200, 0.075)  # for one of several networks on a page


@dataclass(frozen=True)
class Layout:
    """The position of each node in a field, the kind of the network's shape, and the smallest distance of two nodes."""

    kind: str
    field: Field
    points: dict[int, Point]
    nearest: float

    @property
    def radius(self) -> float:
        """Returns the radius of a node's disc, which leaves a gap between the nearest two nodes."""
        return round(max(LEAST_RADIUS, min(self.field.most_radius, SHARE * self.nearest)), 1)


def lay_out(nodes: Iterable[int], links: Iterable[tuple[int, int]], field: Field = WIDE) -> Layout:
    """Returns a layout of the network with these nodes and links in a field, with margins for the nodes' discs but not
    for labels."""
    reach = 1.5 * field.most_radius
    return fitted(shape_for(nodes, links, field), field, Pads(reach, reach, reach, reach))


def shape_for(nodes: Iterable[int], links: Iterable[tuple[int, int]], field: Field) -> Shape:
    """Returns the shape of the network with these nodes and links for the proportions of a field. The points of a shape
    are in units of its own."""
    return shape_of(sorted(nodes), sorted(links), field.width / field.height)


def fitted(shape: Shape, field: Field, pads: Pads) -> Layout:
    """Returns the layout that results if a shape is moved and stretched into the part of a field between the margins
    `pads`. A path or tree fills this part. The ratio of the horizontal to the vertical stretching of other shapes is
    limited (UNLIKE and EQUAL)."""
    xs, ys = zip(*shape.points.values())
    wide, high = max(xs) - min(xs), max(ys) - min(ys)
    across = (field.width - pads.left - pads.right) / wide if wide > 1e-9 else 0.0
    down = (field.height - pads.top - pads.bottom) / high if high > 1e-9 else 0.0
    if shape.kind not in FREE and across and down:
        level, upright = UNLIKE.get(shape.kind, EQUAL)
        across, down = min(across, down * level), min(down, across * upright)
    left, top = (field.width + pads.left - pads.right) / 2, (field.height + pads.top - pads.bottom) / 2
    middle_x, middle_y = (max(xs) + min(xs)) / 2, (max(ys) + min(ys)) / 2
    points = {
        node: (round(left + (x - middle_x) * across, 1), round(top + (y - middle_y) * down, 1))
        for node, (x, y) in shape.points.items()
    }
    nearest = min((math.dist(a, b) for a, b in combinations(points.values(), 2)), default=200.0)  # 200 for a single node
    return Layout(shape.kind, field, points, nearest)
