"""Families of networks, and networks from a file, as lists of links. A *family*, such as `cycle` or `grid:3x2`, has
networks of one form and different sizes."""
from __future__ import annotations

import itertools
import math
import random
import re
from collections import deque
from collections.abc import Iterable
from pathlib import Path

from classroom.core import limits
from classroom.core.program import Fault

Links = list[tuple[int, int]]
STARTS = ("clean", "random", "hurt", "worst")
STARTED = ("the registers at the beginning: with clean, p is null and m is false at each node; with random, all are random; "
           "with hurt, those of one node in three are random; with worst, a run takes many moves")
NAMED = "path, cycle, star, complete, tree, crowd, halves, grid:WxH, random:N:LINKS"


class UnknownFamily(Fault):
    """Raised if a name isn't that of a family of networks. The text lists the families."""


def neighbours(nodes: Iterable[int], links: Iterable[tuple[int, int]]) -> dict[int, list[int]]:
    """Returns the neighbours of each of these nodes. Ignores links to other nodes."""
    near: dict[int, list[int]] = {node: [] for node in nodes}
    for a, b in links:
        if a in near and b in near:
            near[a].append(b)
            near[b].append(a)
    return near


def steps_from(start: int, near: dict[int, list[int]]) -> dict[int, int]:
    """Returns the distance in links from the node `start` to each node that can be reached, itself included. `near` has
    the neighbours of each node."""
    steps, queue = {start: 0}, deque([start])
    while queue:
        here = queue.popleft()
        for other in near[here]:
            if other not in steps:
                steps[other] = steps[here] + 1
                queue.append(other)
    return steps


def random_links(count: int, links: int, chance: random.Random) -> Links:
    """Returns the links of a random connected network with `count` nodes: a tree, and more links until there are
    `links`. `chance` makes the random choices. Raises `Fault` if no connected network has this number of links."""
    every = count * (count - 1) // 2
    if not count - 1 <= links <= every:
        raise Fault(f"--family random:{count}:{links}: a connected network of {count} nodes can't have {links} links. "
                    f"Write a number of links from {count - 1} to {every}")
    tree = [(chance.randint(1, node - 1), node) for node in range(2, count + 1)]
    rest = sorted(set(itertools.combinations(range(1, count + 1), 2)) - set(tree))
    return sorted(tree + chance.sample(rest, links - len(tree)))


def family(word: str, count: int | None, students: int, chance: random.Random) -> tuple[int, Links]:
    """Returns the number of nodes and the links of the network that the argument `word` names, such as `cycle` or
    `grid:3x2`. The network's nodes are numbered from 1. If the argument has no size, there are `count` nodes, or as
    many as `students` if `count` is None. `chance` makes random choices. Raises `Fault` if there is no such network, or
    if the argument has another size than `count`."""
    sized = re.fullmatch(r"grid:(?P<width>\d{1,3})x(?P<height>\d{1,3})|random:(?P<nodes>\d{1,3}):(?P<links>\d{1,5})", word)
    if sized and sized["width"]:
        width, height = int(sized["width"]), int(sized["height"])
        nodes, links = width * height, []
        for node in range(1, nodes + 1):
            links += [(node, node + 1)] if node % width else []
            links += [(node, node + width)] if node + width <= nodes else []
    elif sized:
        nodes = within(int(sized["nodes"]))
        links = random_links(nodes, int(sized["links"]), chance)
    else:
        nodes = within(count if count is not None else students)
        links = links_of_family(word, nodes)
    if sized and count not in (None, nodes):
        raise Fault(f"--family {word} has {nodes} nodes, but --nodes says {count}. Leave out --nodes")
    return within(nodes), links


def within(nodes: int) -> int:
    """Returns `nodes`, a number of nodes. Raises `Fault` if a lab can't have this number of nodes, or if the program
    isn't built, since it prints that limit."""
    most = limits.allowed().nodes
    if not 1 <= nodes <= most:
        raise Fault(f"this network would have {nodes} nodes, but a lab can have 1 to {most}. Choose a network of another size")
    return nodes


def links_of_family(word: str, nodes: int) -> Links:
    """Returns the links of the network of the family `word` with this number of nodes. `word` is a family without a
    size in its name, such as `path`. The families `crowd` and `halves` have long runs (docs/SELF-STABILISATION.md).
    Raises `UnknownFamily` for any other word, and `Fault` if a cycle would have fewer than three nodes."""
    row = [(node, node + 1) for node in range(1, nodes)]
    if word == "path":
        return row
    if word == "cycle":
        if nodes < 3:
            raise Fault(f"this cycle would have {nodes} nodes, but a cycle has at least three. Write --nodes 3 or more, or choose another network by --family")
        return [*row, (nodes, 1)]
    if word == "star":
        return [(1, node) for node in range(2, nodes + 1)]
    if word == "complete":
        return list(itertools.combinations(range(1, nodes + 1), 2))
    if word == "tree":
        return [(node // 2, node) for node in range(2, nodes + 1)]
    if word == "crowd":
        return [(a, b) for a, b in itertools.combinations(range(1, nodes + 1), 2) if a + b > nodes]
    if word == "halves":
        return [(a, b) for a, b in links_of_family("crowd", nodes) if 2 * a <= nodes + 1 < 2 * b]
    raise UnknownFamily(f"--family {word}: there is no such family of networks. The families are: {NAMED}")


def from_file(path: Path, count: int | None) -> tuple[list[int], Links]:
    """Returns the identifiers of nodes and the links in a file with one link per line, such as `1 2`, `1,2` or `1-2`. A
    `#` begins a comment. If `count` is given, the identifiers from 1 to `count` are included. Raises `Fault` if the
    file can't be read, has a wrong line, or has no or too many nodes."""
    links: Links = []
    seen: dict[frozenset[int], int] = {}
    try:
        lines = path.read_text(encoding="utf-8-sig").splitlines()
    except OSError as error:
        raise Fault(f"{path}: {error.strerror}", 4) from None
    except UnicodeDecodeError:
        raise Fault(f"{path}: this file isn't a text in UTF-8. Save it as UTF-8") from None
    for number, line in enumerate(lines, 1):
        words = line.partition("#")[0].replace(",", " ").replace("-", " ").split()
        if not words:
            continue
        what = wrong_link(words, seen)
        if what:
            raise Fault(f"{path}: line {number} is wrong: {line.strip()} ({what})")
        links.append((int(words[0]), int(words[1])))
        seen[frozenset(links[-1])] = number
    identifiers = sorted({end for link in links for end in link} | set(range(1, (count or 0) + 1)))
    if not identifiers:
        raise Fault(f"{path}: there are no links in this file. Write each link on a line of its own, such as 1 2")
    within(len(identifiers))
    return identifiers, links


def wrong_link(words: list[str], seen: dict[frozenset[int], int]) -> str | None:
    """Returns what is wrong with the words of a line with a link, or None if nothing is. `seen` has the links of
    earlier lines, with the numbers of these lines. Raises `Fault` if the program isn't built, since it prints the
    greatest number of a node."""
    if len(words) != 2 or not all(word.isascii() and word.isdecimal() for word in words):
        return "a link is written as the numbers of two nodes, such as 1 2"
    (a, b), most = map(int, words), limits.allowed().identifier
    if not (1 <= a <= most and 1 <= b <= most):
        return f"the number of a node has to be from 1 to {most}"
    if a == b:
        return "a node can't be linked to itself"
    return f"line {seen[frozenset((a, b))]} has the same link already" if frozenset((a, b)) in seen else None


def option_for(word: str, nodes: int) -> str:
    """Returns the option of the command `new` for a network of the family `word` that has at least this number of
    nodes. A grid keeps its width, and a random network gets one more link for each node that is added."""
    if grid := re.fullmatch(r"grid:(?P<width>\d+)x\d+", word):
        width = int(grid["width"])
        return f"--family grid:{width}x{math.ceil(nodes / width)}"
    if drawn := re.fullmatch(r"random:(?P<nodes>\d+):(?P<links>\d+)", word):
        added = nodes - int(drawn["nodes"])
        return f"--family random:{nodes}:{int(drawn['links']) + added}"
    return f"--nodes {nodes}"
