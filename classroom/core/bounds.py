"""The most moves, rounds and events of a run, which are proved bounds, as the program prints them
(docs/JOURNAL.md: the line `bounds`)."""
from __future__ import annotations

import functools
import itertools

from classroom.core import lab as labs
from classroom.core import tally
from classroom.core.program import Fault, host
from classroom.core.tally import Bounds

MOVES = "3n + 2 min(L, n²/4)"
NAME = "teacher", "teacher"  # the name and the key of the teacher in a lab that is only made for its bounds


@functools.cache
def of(nodes: int, links: int) -> Bounds:
    """Returns the bounds for a network with this number of nodes and links, which are the same for all such networks.
    Asks the program only once for each of these pairs of numbers. Raises `Fault` if the program isn't built or prints
    no bounds."""
    found = tally.of_texts(labs.text(lab_of_size(nodes, links)), "").bounds
    if not found.moves:
        raise Fault("the program mml is of an older version, which prints no bounds. Type `./mml build` to build the present version", 4)
    return found


def lab_of_size(nodes: int, links: int) -> labs.Lab:
    """Returns a lab with this number of nodes and links. The links join any nodes, since the bounds depend on these
    numbers only."""
    every = range(1, nodes + 1)
    joined = list(itertools.islice(itertools.combinations(every, 2), links))
    return labs.Lab(1, 1, NAME, {"student": "student"}, [labs.Node(node, ["student"]) for node in every], joined)


def known(nodes: int, links: int) -> Bounds | None:
    """Returns the bounds for a network with this number of nodes and links, or None if the program isn't built
    or doesn't print them. A run continues without the bounds."""
    try:
        host()  # Raises `Fault` if the program isn't there any longer. `of` may return a result that it has kept.
        return of(nodes, links)
    except (Fault, OSError):
        return None


def of_lab(lab: labs.Lab) -> Bounds:
    """Returns the bounds for a lab's network as it is at the beginning of a run. Raises `Fault` if the program isn't
    built or prints no bounds."""
    return of(len(lab.nodes), len(lab.links))
