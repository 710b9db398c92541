"""Random labs: families of networks, owners, registers and limits."""
import json
from collections.abc import Callable
from dataclasses import dataclass
from random import Random
from typing import Optional

from tests.common.limits import MOST

Link = tuple[int, int]
GREATEST = MOST["identifier"]


def path(rng: Random, nodes: list[int]) -> list[Link]:
    """Returns the links of a path."""
    return list(zip(nodes, nodes[1:]))


def cycle(rng: Random, nodes: list[int]) -> list[Link]:
    """Returns the links of a cycle, or of a path if there are fewer than three nodes."""
    return path(rng, nodes) + ([(nodes[-1], nodes[0])] if len(nodes) > 2 else [])


def star(rng: Random, nodes: list[int]) -> list[Link]:
    """Returns the links of a star."""
    return [(nodes[0], other) for other in nodes[1:]]


def complete(rng: Random, nodes: list[int]) -> list[Link]:
    """Returns the links between each two nodes."""
    return [(a, b) for at, a in enumerate(nodes) for b in nodes[at + 1 :]]


def bipartite(rng: Random, nodes: list[int]) -> list[Link]:
    """Returns the links between each node of one part and each node of the other."""
    half = rng.randrange(len(nodes) + 1)
    return [(a, b) for a in nodes[:half] for b in nodes[half:]]


def tree(rng: Random, nodes: list[int]) -> list[Link]:
    """Returns the links of a random tree, which join each node to an earlier one."""
    return [(rng.choice(nodes[:at]), nodes[at]) for at in range(1, len(nodes))]


def grid(rng: Random, nodes: list[int]) -> list[Link]:
    """Returns the links of a grid with a random width."""
    width = rng.randint(1, len(nodes))
    right = [(at, at + 1) for at in range(len(nodes) - 1) if (at + 1) % width]
    below = [(at, at + width) for at in range(len(nodes) - width)]
    return [(nodes[a], nodes[b]) for a, b in right + below]


def drawn_links(rng: Random, nodes: list[int]) -> list[Link]:
    """Returns a random number of random links, at most four per node."""
    links = complete(rng, nodes)
    count = rng.randint(0, min(len(links), 4 * len(nodes)))
    return rng.sample(links, count)


def empty(rng: Random, nodes: list[int]) -> list[Link]:
    """Returns no links, for a network of single nodes."""
    return []


FAMILIES: list[Callable[[Random, list[int]], list[Link]]] = [
    path, cycle, star, complete, bipartite, tree, grid, drawn_links, drawn_links, drawn_links, empty,
]


def identifiers(rng: Random, count: int) -> list[int]:
    """Returns `count` different random identifiers, in the order in which the lab's file lists them."""
    kind = rng.randrange(4)
    if kind == 0:
        return list(range(1, count + 1))
    if kind == 1:
        return list(range(GREATEST, GREATEST - count, -1))
    return rng.sample(range(1, count + 1) if kind == 2 else range(1, GREATEST + 1), count)


def name(rng: Random) -> str:
    """Returns a random name: mostly a short one, and sometimes the longest possible."""
    length = rng.choice([1, 3, 3, 5, 32])
    return rng.choice("abc") + "".join(rng.choice("abcxyz0189-") for _ in range(length - 1))


def key(rng: Random) -> str:
    """Returns a random key of printable ASCII characters, including quotes and backslashes."""
    return "".join(chr(rng.randint(33, 126)) for _ in range(rng.choice([1, 4, 8, 64])))


@dataclass
class Registers:
    """The registers of the nodes in a lab's file."""

    p: dict[int, Optional[int]]
    m: dict[int, bool]


def drawn_registers(rng: Random, nodes: list[int], links: list[Link]) -> Registers:
    """Returns registers as a fault may leave them: all null and false, or random pointers, some of them mutual."""
    near: dict[int, list[int]] = {i: [] for i in nodes}
    for a, b in links:
        near[a].append(b)
        near[b].append(a)
    found = Registers({i: None for i in nodes}, {i: False for i in nodes})
    if rng.random() < 0.3:
        return found
    for i in nodes:
        if near[i] and rng.random() < 0.6:
            j = rng.choice(near[i])
            found.p[i] = j
            if rng.random() < 0.4:
                found.p[j] = i
        found.m[i] = rng.random() < 0.3
    return found


def size(rng: Random) -> int:
    """Returns a random number of nodes, mostly a small one."""
    if rng.random() < 0.02:
        return rng.choice([64, 65, 255, 256])
    return rng.choice([1, 2, 2, 3, 3, 3, 4, 4, 5, 6, 8, 12, 20])


def quoted(text: str) -> str:
    """Returns a text as a TOML string. For ASCII it is the same as in JSON."""
    return json.dumps(text)


def node_line(rng: Random, i: int, owners: list[str], registers: Registers) -> str:
    """Returns the line of node i in a lab's file. A single owner is mostly written as `owner`. Otherwise the owners are
    written as a list, `owners`. Registers that are null or false are left out, except sometimes a false."""
    is_short = len(owners) == 1 and rng.random() < 0.8
    owner = f"owner = {quoted(owners[0])}" if is_short else f"owners = {json.dumps(owners)}"
    p = "" if registers.p[i] is None else f", p = {registers.p[i]}"
    m = f", m = {json.dumps(registers.m[i])}" if registers.m[i] or rng.random() < 0.2 else ""
    return f"  {{ id = {i}, {owner}{p}{m} }},\n"


def document(rng: Random, nodes: list[int], links: list[Link], registers: Registers, events: int, sessions: int) -> str:
    """Returns the text of a lab for a network with its registers, with random owners, names and keys."""
    people = list(dict.fromkeys(name(rng) for _ in range(rng.choice([2, 2, 3, 4, 6]))))
    # If all names are the same, there is only the teacher. Then a student with another name is added.
    students = people[1:] or [people[0] + "x" if len(people[0]) < 32 else "x"]
    ends = [[a, b] if rng.random() < 0.5 else [b, a] for a, b in links]
    rng.shuffle(ends)
    text = f"events = {events}\nsessions = {sessions}\nlinks = {json.dumps(ends)}\n"
    text += f"teacher = {{ name = {quoted(people[0])}, key = {quoted(key(rng))} }}\nstudent = [\n"
    for student in students:
        text += f"  {{ name = {quoted(student)}, key = {quoted(key(rng))} }},\n"
    text += "]\nnode = [\n"
    for i in nodes:
        owners = rng.sample(students, min(len(students), rng.choice([1, 1, 1, 2])))
        text += node_line(rng, i, owners, registers)
    return text + "]\n"


def drawn_lab(rng: Random) -> str:
    """Returns the text of a random lab of any family."""
    nodes = identifiers(rng, size(rng))
    links = rng.choice(FAMILIES)(rng, nodes)
    events = rng.choice([1, 2, 5, 20, 100, 1000, 100000])
    return document(rng, nodes, links, drawn_registers(rng, nodes, links), events, rng.randint(1, MOST["sessions"]))
