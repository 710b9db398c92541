"""Layouts in which the distance of two nodes corresponds to the length of the shortest path between them.

Such layouts are computed by stress majorization (Gansner, Koren and North, 'Graph drawing by stress majorization',
2004), beginning with classical scaling. In a large network a node is pulled by its neighbours and by some *pivots*. A
pivot represents the nodes around it (Ortmann, Klimenta and Brandes, 'A sparse stress model', 2016). Nothing is random:
the same network always has the same layout. In the functions, `far` has the distances between all nodes, as `distances`
returns them.
"""
from __future__ import annotations

import math
from collections.abc import Iterable, Iterator, Sequence
from functools import lru_cache
from itertools import combinations, product
from operator import mul

from classroom.core.networks import Links, neighbours, steps_from

FEW_NODES = 80  # the most nodes of a network in which each node is pulled by each other one
PIVOTS = 40  # the number of nodes by which each node of a larger network is pulled
TURNS = 60  # the number of rounds of the power method, and of the majorization
APART = 0.05  # the distance by which nodes that are at one point are moved apart
LEAST = 0.62  # the least distance between two nodes, if a link is 1 long
PUSHES = 80  # the most rounds in which nodes that are too close are pushed apart
MOST_STRETCHED = 1.45  # how many times wider a drawing may be made to fill its field
Point = tuple[float, float]
Rows = list[list[float]]
Pull = tuple[int, float, float]  # the index of the node that pulls, the distance that it pulls to, and the weight of the pull
# The points of layouts that were computed earlier, by the nodes and links of a network.
KNOWN: dict[tuple[tuple[int, ...], tuple[tuple[int, int], ...]], dict[int, Point]] = {}


def by_springs(nodes: tuple[int, ...], links: tuple[tuple[int, int], ...]) -> dict[int, Point]:
    """Returns a point for each node of the network with these nodes, at least two, and these links: the layout in
    KNOWN, or a computed one."""
    return KNOWN.get((nodes, links)) or searched(nodes, links)


@lru_cache(maxsize=16)
def searched(nodes: tuple[int, ...], links: tuple[tuple[int, int], ...]) -> dict[int, Point]:
    """Returns a point for each node of the network with these nodes, at least two, and these links. Computes them
    unless they are among the last results, which are cached."""
    far = distances(nodes, links)
    ring = [math.tau * index / len(nodes) for index in range(len(nodes))]  # an angle for each node, at equal distances
    first, second = classical_scaling(far, [list(map(math.cos, ring)), list(map(math.sin, ring))])
    points = [(x + APART * math.cos(turn), y + APART * math.sin(turn)) for x, y, turn in zip(first, second, ring)]
    pulls = [[*pulls_of(index, far)] for index in range(len(nodes))] if len(nodes) <= FEW_NODES else sparse_pulls(far)
    for _ in range(TURNS):
        for index in range(len(points)):
            points[index] = new_place(points, pulls[index], index)
    points = pushed_apart(levelled(points))
    # The node with the lowest identifier is put in the upper left.
    across, down = (-1.0 if coordinate > 0 else 1.0 for coordinate in points[0])
    return {node: (across * x, down * y) for node, (x, y) in zip(nodes, points)}


def pulls_of(index: int, far: Rows) -> Iterable[Pull]:
    """Returns the pull of each other node on the node at `index`. `far` has the distances of all nodes. Near nodes pull
    more than distant ones."""
    return ((other, apart, 1 / (apart * apart)) for other, apart in enumerate(far[index]) if apart)


def sparse_pulls(far: Rows) -> list[list[Pull]]:
    """Returns the pulls on each node in a large network: by its neighbours, and by pivots with the weight of the nodes
    around them. `far` has the distances of all nodes."""
    pivots = pivots_of(far)
    regions: dict[int, list[float]] = {pivot: [] for pivot in pivots}
    for row in far:
        nearest = min(pivots, key=lambda pivot: row[pivot])
        regions[nearest].append(row[nearest])
    found = []
    for index, row in enumerate(far):
        near = [(other, 1.0, 1.0) for other, apart in enumerate(row) if apart == 1]
        # A pivot pulls for the nodes of its region that are at most half as far from it as this node.
        around = ((pivot, row[pivot], sum(apart <= row[pivot] / 2 for apart in regions[pivot])) for pivot in pivots if row[pivot] > 1)
        found.append(near + [(pivot, apart, max(1, count) / (apart * apart)) for pivot, apart, count in around])
    return found


def pivots_of(far: Rows) -> list[int]:
    """Returns the indices of PIVOTS nodes, or of all if they are fewer, that are as distant from each other as
    possible. The node with index 0 is one of them. `far` has the distances of all nodes."""
    pivots, nearest = [0], [*far[0]]
    while len(pivots) < min(PIVOTS, len(far)):
        pivots.append(max(range(len(far)), key=lambda index: nearest[index]))
        nearest = [min(pair) for pair in zip(nearest, far[pivots[-1]])]
    return pivots


def levelled(points: list[Point]) -> list[Point]:
    """Returns the points, moved so that their centre is at the origin, and rotated so that their longer axis is
    horizontal."""
    middle_x, middle_y = (sum(values) / len(points) for values in zip(*points))
    moved = [(x - middle_x, y - middle_y) for x, y in points]
    across, down = sum(x * x for x, _ in moved), sum(y * y for _, y in moved)
    # This is the angle of the principal axis, in whose direction the sum of squares is greatest.
    angle = math.atan2(2 * sum(x * y for x, y in moved), across - down) / 2
    return [(x * math.cos(angle) + y * math.sin(angle), y * math.cos(angle) - x * math.sin(angle)) for x, y in moved]


def pushed_apart(points: list[Point]) -> list[Point]:
    """Returns the points, of which those that were closer than LEAST are pushed apart, in at most PUSHES rounds."""
    now = [*points]
    for _ in range(PUSHES):
        close = [pair for pair in near_pairs(now) if math.dist(now[pair[0]], now[pair[1]]) < LEAST - 1e-6]
        if not close:
            break
        for a, b in close:
            (x, y), (u, v) = now[a], now[b]
            length = math.hypot(u - x, v - y)
            across, down = ((u - x) / length, (v - y) / length) if length > 1e-9 else (1.0, 0.0)
            push = max(0.0, LEAST - length) / 2
            now[a], now[b] = (x - across * push, y - down * push), (u + across * push, v + down * push)
    return now


def near_pairs(points: list[Point]) -> Iterator[tuple[int, int]]:
    """Yields the indices of all pairs of points that may be closer than LEAST: those in the same square of a grid, or
    in adjacent squares."""
    squares: dict[tuple[int, int], list[int]] = {}
    for index, (x, y) in enumerate(points):
        squares.setdefault((math.floor(x / LEAST), math.floor(y / LEAST)), []).append(index)
    for (column, row), own in squares.items():
        yield from combinations(own, 2)
        for across, down in ((1, 0), (-1, 1), (0, 1), (1, 1)):  # half of the adjacent squares; from the others this one is reached
            yield from product(own, squares.get((column + across, row + down), ()))


def stretched(points: dict[int, Point], aspect: float) -> dict[int, Point]:
    """Returns the points, with greater horizontal distances if the field is wider than they are. `aspect` is the
    field's ratio of width to height."""
    wide, high = (max(values) - min(values) for values in zip(*points.values()))
    times = min(MOST_STRETCHED, max(1.0, aspect * high / wide)) if wide > 1e-9 else 1.0
    return {node: (x * times, y) for node, (x, y) in points.items()}


def distances(nodes: Sequence[int], links: Iterable[tuple[int, int]]) -> Rows:
    """Returns, as a matrix, the number of links on the shortest path between each two nodes. If there is no path, it is
    one more than the longest distance."""
    near = neighbours(nodes, links)
    found = [steps_from(node, near) for node in nodes]
    longest = max(max(steps.values()) for steps in found)
    return [[float(steps.get(node, longest + 1)) for node in nodes] for steps in found]


def classical_scaling(far: Rows, axes: Rows) -> Rows:
    """Returns two rows, the first and the second coordinate of all nodes: the classical scaling of the distances `far`
    in two dimensions. Each row is an eigenvector of the centred squares times the root of its eigenvalue. It is found
    by power iteration, which begins at one of `axes` and in each turn removes the parts along the rows already
    found."""
    squares = [[each * each for each in row] for row in far]
    means = [sum(row) / len(row) for row in squares]
    mean = sum(means) / len(means)
    centred = [[(a + b - each - mean) / 2 for each, b in zip(row, means)] for row, a in zip(squares, means)]
    units: Rows = []
    coordinates: Rows = []
    for axis in axes:
        size = 0.0
        for _ in range(TURNS):
            for unit in units:
                share = sum(map(mul, axis, unit))
                axis = [each - share * part for each, part in zip(axis, unit)]
            length = math.hypot(*axis) or 1.0
            axis = [each / length for each in axis]
            unit, axis = axis, [sum(map(mul, row, axis)) for row in centred]
            size = math.hypot(*axis)
        units.append(unit)  # `unit` is from the last turn, and `size` is the eigenvalue.
        coordinates.append([each * math.sqrt(size) for each in unit])
    return coordinates


def new_place(points: list[Point], pulls: list[Pull], index: int) -> Point:
    """Returns the new point of the node at an index: the weighted mean of the points at which its pulls would have
    it."""
    x, y = points[index]
    sum_x = sum_y = weights = 0.0
    for other, apart, weight in pulls:
        other_x, other_y = points[other]
        drawn = math.hypot(x - other_x, y - other_y) or 1.0
        sum_x += weight * (other_x + apart * (x - other_x) / drawn)
        sum_y += weight * (other_y + apart * (y - other_y) / drawn)
        weights += weight
    return sum_x / weights, sum_y / weights


def tangles(points: dict[int, Point], links: Links, radius: float) -> int:
    """Returns how often two links cross, or a link passes through a node with that radius, in a drawing with these
    points."""
    crossed = sum(
        cross(points[a], points[b], points[c], points[d]) for (a, b), (c, d) in combinations(links, 2) if len({a, b, c, d}) == 4
    )
    return crossed + sum(
        distance_to_line(points[node], points[a], points[b]) < radius for a, b in links for node in points if node not in (a, b)
    )


def cross(a: Point, b: Point, c: Point, d: Point) -> bool:
    """Returns whether the line from a to b and the one from c to d cross."""
    return side(a, b, c) * side(a, b, d) < 0 and side(c, d, a) * side(c, d, b) < 0


def side(a: Point, b: Point, c: Point) -> float:
    """Returns 0 if c is on the line through a and b. Otherwise the sign of the result says on which side of this line c
    is."""
    return (b[0] - a[0]) * (c[1] - a[1]) - (b[1] - a[1]) * (c[0] - a[0])


def distance_to_line(point: Point, a: Point, b: Point) -> float:
    """Returns the distance of a point to the line from a to b."""
    across, down = b[0] - a[0], b[1] - a[1]
    square = across * across + down * down
    part = ((point[0] - a[0]) * across + (point[1] - a[1]) * down) / square if square else 0.0
    part = max(0.0, min(1.0, part))
    return math.dist(point, (a[0] + part * across, a[1] + part * down))
