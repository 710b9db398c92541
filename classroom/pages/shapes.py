"""The shape of a network, recognised from its links alone: a path, cycle, star, tree, grid, complete graph, or any
other.

A shape has a point for each node in units of its own, and `layout` fits it into a field. `near` has the neighbours of
each node, and `aspect` is the field's ratio of width to height.
"""
from __future__ import annotations

import math
from bisect import bisect_left
from collections.abc import Iterator
from dataclasses import dataclass
from functools import lru_cache
from itertools import accumulate, pairwise

from classroom.core.networks import Links, neighbours, steps_from
from classroom.pages.springs import Point, by_springs, stretched

TURNS = 1200  # the number of parts into which an ellipse is divided to measure its length
MOST_WIDE = 1.7  # how many times wider than high an ellipse is
ROW_APART = 1.6  # the distance between two rows of a path whose neighbouring nodes are 1 apart
LAYER_APART = 0.6  # the least distance between two layers of a tree
HUB_ROOM = 0.24  # the share of an ellipse around a hub that stays free on the right, for the hub's label
DENSE = 4  # the number of links for each node above which a network of no other shape is drawn on an ellipse
Near = dict[int, list[int]]
Points = dict[int, Point]


@dataclass(frozen=True)
class Shape:
    """The kind of a network, and a point for each node."""

    kind: str
    points: Points


def shape_of(nodes: list[int], links: Links, aspect: float) -> Shape:
    """Returns the shape of the network with these nodes and links, for a field with the ratio `aspect` of width to
    height."""
    return kept_shape(tuple(sorted(nodes)), tuple(sorted(links)), round(aspect, 2))


@lru_cache(maxsize=64)
def kept_shape(nodes: tuple[int, ...], links: tuple[tuple[int, int], ...], aspect: float) -> Shape:
    """Returns the shape of the network with these nodes and links, which are sorted, for a field with the ratio
    `aspect` of width to height. Computes the shape unless it is among the last results, which are cached."""
    near = {node: sorted(set(others)) for node, others in neighbours(nodes, links).items()}
    found = plain_shape(near, aspect) or grid_shape(near)
    if found is None and is_tree(near):
        found = Shape("tree", layers(near, aspect))
    if found is None and len(links) <= DENSE * len(nodes):
        found = Shape("general", stretched(by_springs(nodes, links), aspect))
    return found or Shape("ellipse", ellipse([*nodes], aspect))


def plain_shape(near: Near, aspect: float) -> Shape | None:
    """Returns the shape of a single node, a complete graph, path, cycle or star, or None for any other network. `near`
    has the neighbours of each node, and `aspect` is the field's ratio of width to height."""
    nodes, degrees = [*near], [len(others) for others in near.values()]
    count, links = len(nodes), sum(degrees) // 2
    if count == 1:
        return Shape("path", {nodes[0]: (0.0, 0.0)})
    if count > 2 and links == count * (count - 1) // 2:
        return Shape("complete", ellipse(nodes, aspect))
    if not is_joined(near):
        return None
    if links == count - 1 and max(degrees) <= 2:
        return Shape("path", snake(walk(near, next(node for node in nodes if len(near[node]) == 1)), aspect))
    if links == count and max(degrees) == 2:
        return Shape("cycle", ellipse(walk(near, nodes[0]), aspect))
    if links == count - 1 == max(degrees):
        hub = nodes[degrees.index(count - 1)]
        return Shape("star", ellipse([node for node in nodes if node != hub], aspect, HUB_ROOM) | {hub: (0.0, 0.0)})
    return None


def is_joined(near: Near) -> bool:
    """Returns whether all nodes are connected with each other. `near` has the neighbours of each node."""
    return len(steps_from(next(iter(near)), near)) == len(near)


def is_tree(near: Near) -> bool:
    """Returns whether a network is connected and has no cycle. `near` has the neighbours of each node."""
    return sum(map(len, near.values())) == 2 * (len(near) - 1) and is_joined(near)


def walk(near: Near, start: int) -> list[int]:
    """Returns the nodes of a path or cycle, whose neighbours are in `near`, in their order. The first node is `start`,
    and the next one its lowest neighbour."""
    order, seen = [start], {start}
    while True:
        others = [node for node in near[order[-1]] if node not in seen]
        if not others:
            return order
        order.append(others[0])
        seen.add(others[0])


def snake(order: list[int], aspect: float) -> Points:
    """Returns points for the nodes of a path, row by row, in this order. A long path turns back at the end of each row.
    `aspect` is the field's ratio of width to height."""
    rows = max(1, round(math.sqrt(len(order) / aspect / 3)))  # The wider the field, the fewer and longer are the rows.
    across = -(-len(order) // rows)
    points = {}
    for index, node in enumerate(order):
        row, column = divmod(index, across)
        points[node] = (float(across - 1 - column if row % 2 else column), row * ROW_APART)
    return points


def ellipse(order: list[int], aspect: float, room: float = 0.0) -> Points:
    """Returns points for the nodes on an ellipse in this order, at equal distances along it, beginning at the top.
    `aspect` is the field's ratio of width to height. If `room` isn't 0, this share of the ellipse stays free at its
    right, and the nodes begin after that."""
    wide = min(MOST_WIDE, max(1.0, aspect))
    angles = [math.tau * turn / TURNS - (0 if room else math.pi / 2) for turn in range(TURNS + 1)]
    fine = [(wide * math.cos(angle), math.sin(angle)) for angle in angles]
    # The lengths of the ellipse from its beginning to each point in `fine`, by which the nodes get equal distances.
    along = list(accumulate((math.dist(a, b) for a, b in pairwise(fine)), initial=0.0))
    room = max(room, 1 / len(order))
    # The angles begin at 0 if room was asked for. The nodes then begin after half of it.
    start, share = (room / 2, (1 - room) / max(1, len(order) - 1)) if angles[0] == 0 else (0.0, 1 / len(order))
    return {node: fine[bisect_left(along, along[-1] * (start + share * index))] for index, node in enumerate(order)}


def layers(near: Near, aspect: float) -> Points:
    """Returns points for the nodes of a tree, whose neighbours are in `near`. The node with the lowest identifier is
    the root, at the top. Each node is centred above its children. `aspect` is the field's ratio of width to height."""
    root = min(near)
    depths = steps_from(root, near)
    children = {node: [other for other in others if depths[other] > depths[node]] for node, others in near.items()}
    columns: dict[int, float] = {}
    for leaf, node in enumerate(node for node in preorder(root, children) if not children[node]):
        columns[node] = float(leaf)
    for node in sorted(near, key=lambda node: -depths[node]):
        if children[node]:
            columns[node] = (columns[children[node][0]] + columns[children[node][-1]]) / 2
    leaves = sum(not own for own in children.values())
    apart = max(LAYER_APART, 0.9 * leaves / aspect / max(depths.values()))
    return {node: (columns[node], depths[node] * apart) for node in near}


def preorder(root: int, children: Near) -> Iterator[int]:
    """Yields the nodes of a tree from its root on, each before its children, and from left to right. `children` has the
    children of each node."""
    stack = [root]
    while stack:
        node = stack.pop()
        yield node
        stack += reversed(children[node])


def grid_shape(near: Near) -> Shape | None:
    """Returns the shape of a grid, or None for another network. `near` has the neighbours of each node. The lowest
    corner is at the upper left, and the lower one of its neighbours is to its right."""
    corners = [node for node, others in near.items() if len(others) == 2]
    if len(near) < 4 or len(corners) != 4 or any(not 2 <= len(others) <= 4 for others in near.values()):
        return None
    first = steps_from(corners[0], near)
    found = [points for corner in corners[1:] if (points := lattice(near, first, steps_from(corner, near))) is not None]
    # Each of these results has another corner at the end of the first row. Its key is the neighbour of the first corner in that row.
    right = {min(near[corners[0]], key=lambda node: points[node][1]): points for points in found}
    return Shape("grid", right[min(right)]) if right else None


def lattice(near: Near, first: dict[int, int], second: dict[int, int]) -> Points | None:
    """Returns points with whole coordinates for the nodes of a grid, or None if the network isn't a grid. `near` has
    the neighbours of each node. `first` and `second` have the distances of each node to the two ends of the first
    row. In a grid, the difference of a node's two distances gives its column, and their sum its row. These points are
    then checked: they have to fill a rectangle, and the links have to be exactly those between adjacent points."""
    if len(first) != len(near):
        return None
    last = min(first[node] for node in second if not second[node])  # the distance of the two ends, and so the last column
    width, rest = last + 1, len(near) % (last + 1)
    cells = {node: ((first[node] - second[node] + last) / 2, (first[node] + second[node] - last) / 2) for node in near}
    wanted = {(float(column), float(row)) for column in range(width) for row in range(len(near) // width)}
    if rest or {*cells.values()} != wanted:
        return None
    steps = [math.dist(cells[node], cells[other]) for node, others in near.items() for other in others]
    height = len(near) // width
    lines = height * (width - 1) + width * (height - 1)
    return cells if len(steps) == 2 * lines and all(step == 1 for step in steps) else None
