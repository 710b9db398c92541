"""Transient faults for lessons: random registers, and a start with a long recovery. A node has the registers p, which
points at a neighbour or is null, and m. *Crowds* and *halves* are families of networks (docs/SELF-STABILISATION.md)."""
from __future__ import annotations

import random
from collections.abc import Collection, Iterable

from classroom.core.networks import links_of_family, neighbours
from classroom.core.program import Fault

Registers = tuple[int, int | None, bool]
LEAST = {"crowd": 4, "halves": 2}  # the least number of nodes of each such configuration


def pairs_of(links: Iterable[Collection[int]]) -> list[tuple[int, int]]:
    """Returns the links in rising order, each as a pair with its lower end first."""
    found = []
    for link in links:
        a, b = sorted(link)
        found.append((a, b))
    return sorted(found)


def shaken(nodes: list[int], links: Iterable[Collection[int]], word: str, seed: int | None) -> list[Registers]:
    """Returns random registers for random nodes of the network with these nodes and links, drawn with the seed. `word`
    is the number of nodes to draw, or `all`. Raises `Fault` if that number is 0, or greater than the number of
    nodes."""
    count = len(nodes) if word == "all" else int(word)
    if not 1 <= count <= len(nodes):
        raise Fault(f"shake {word}: this network has {len(nodes)} nodes. Write a number from 1 to {len(nodes)}, or all")
    chance = random.Random(seed)
    near = neighbours(nodes, pairs_of(links))
    drawn = sorted(chance.sample(sorted(nodes), count))
    return [(node, chance.choice([None, *sorted(near[node])]), chance.choice([True, False])) for node in drawn]


def longest_start(nodes: list[int], links: Iterable[Collection[int]]) -> list[Registers]:
    """Returns registers for all nodes of the network with these nodes and links. A run from these registers takes long:
    in a crowd it may take the most moves, and in halves the most rounds. In other networks m is true at each node. A
    node points at a higher neighbour if it has one. Otherwise the node points at a lower one that doesn't point back,
    or at none. No other registers have a greater potential, from which the bound on moves follows."""
    pairs, order = pairs_of(links), sorted(nodes)
    for word, pointers in (("crowd", of_crowd), ("halves", of_halves)):
        placed = [(order[a - 1], order[b - 1]) for a, b in links_of_family(word, len(order))]
        if len(order) >= LEAST[word] and pairs == sorted(placed):
            return [(node, None if p is None else order[p - 1], True) for node, p in zip(order, pointers(len(order)))]
    near = neighbours(nodes, pairs)
    up = {node: max((other for other in near[node] if other > node), default=None) for node in nodes}
    found: list[Registers] = []
    for node in order:
        lower = [other for other in near[node] if up[other] != node]
        found.append((node, up[node] if up[node] is not None else max(lower, default=None), True))
    return found


def of_crowd(count: int) -> list[int | None]:
    """Returns the pointers of the nodes 1 to `count` of a crowd. The first half point at the last nodes in reverse
    order, each later one at the next, and the last at the second."""
    return [count + 1 - node if 2 * node <= count else node + 1 if node < count else 2 for node in range(1, count + 1)]


def of_halves(count: int) -> list[int | None]:
    """Returns the pointers of the nodes 1 to `count` of halves, which are all null."""
    return [None] * count
