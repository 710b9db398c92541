"""The lab file: the first network, who takes part, who owns which nodes, and two limits; and each error of such a file.

The file is read by `tomllib`, which knows TOML 1.0. The proved program also reads what TOML 1.1 added, such as a line
break in an inline table. The model refuses such a file.
"""
import re
import tomllib
from collections.abc import Iterator
from copy import deepcopy
from dataclasses import dataclass
from typing import Any, NamedTuple

from model.fault import Fault
from model.world import World

NAME = "[a-z][a-z0-9-]{0,31}"
KEY = "[!-~]{1,64}"
DEEPEST = 80
GREATEST_ID = 65535
MOST_NODES, MOST_STUDENTS, MOST_EVENTS, MOST_SESSIONS = 256, 256, 100_000, 16
MISSING = object()
Account = tuple[str, str]  # a name and its key
Link = tuple[int, int]


@dataclass
class Lab:
    """The first world, the key of each name, the owners of each node, and the limits of events and sessions."""

    world: World
    teacher: str
    keys: dict[str, str]
    owners: dict[int, list[str]]
    events: int
    sessions: int

    def opening(self) -> World:
        """Returns a new copy of the world at the beginning of a run."""
        return deepcopy(self.world)

    def students(self) -> list[str]:
        """Returns the names of the students in the order of the file."""
        return [name for name in self.keys if name != self.teacher]

    def shared(self) -> dict[int, list[str]]:
        """Returns the nodes with two owners in rising order, each with its owners in the order of the students."""
        both = {i: owners for i, owners in sorted(self.owners.items()) if len(owners) == 2}
        return {i: [name for name in self.students() if name in owners] for i, owners in both.items()}


class Node(NamedTuple):
    """A node as the file has it."""

    id: int
    owners: list[str]
    has_both: bool  # whether it has both `owner` and `owners`
    p: int | None
    m: bool


def fault(text: str) -> Fault:
    """Returns the error to raise for a file that isn't a lab, with its text."""
    return Fault(f"lab: {text}", 2)


def is_within(value: Any, depth: int = 0) -> bool:
    """Returns whether all integers in a value have at most 64 bits, and its values aren't nested deeper than DEEPEST. `depth` is the value's own depth."""
    if isinstance(value, (dict, list)):
        inner = value.values() if isinstance(value, dict) else value
        return depth <= DEEPEST and all(is_within(item, depth + 1) for item in inner)
    return not isinstance(value, int) or -(2**63) <= value < 2**63


def document(content: bytes) -> dict[str, Any]:
    """Returns the table of a TOML document. Raises `Fault` if it isn't one, or a value is too great or too deep."""
    try:
        found = tomllib.loads(content.decode("utf-8").removeprefix("\ufeff"))
        if is_within(found):
            return found
    except (ValueError, RecursionError):
        pass
    raise fault("not a TOML document")


def of_kind(value: Any, key: str, kind: type) -> Any:
    """Returns the value if its type is exactly `kind`; so a truth value isn't an integer. Raises `Fault`, which calls it `key`, for MISSING or another type."""
    if value is MISSING:
        raise fault(f"{key} is missing")
    if type(value) is not kind:
        raise fault(f"{key} is of the wrong kind")
    return value


def account_of(table: dict[str, Any], key: str) -> Account:
    """Returns the name and the key in the table of a teacher or student. Raises `Fault` if they aren't texts. `key` is what errors call the table."""
    name, secret = table.get("name", MISSING), table.get("key", MISSING)
    return of_kind(name, f"{key}.name", str), of_kind(secret, f"{key}.key", str)


def node_of(value: Any) -> Node:
    """Returns the node in a table of `node`. Raises `Fault` if the table has another form."""
    table = of_kind(value, "node", dict)
    number = of_kind(table.get("id", MISSING), "node.id", int)
    # First both keys are tested for their kinds, and then that one of the two is there, since errors are reported in this order.
    owner = of_kind(table.get("owner", ""), "node.owner", str)
    owners = of_kind(table.get("owners", [owner]), "node.owners", list)
    if not all(isinstance(name, str) for name in owners) or len(owners) not in (1, 2):
        raise fault("node.owners is of the wrong kind")
    if "owner" not in table and "owners" not in table:
        raise fault("node.owner is missing")
    p = of_kind(table["p"], "node.p", int) if "p" in table else None
    m = of_kind(table.get("m", False), "node.m", bool)
    return Node(number, owners, "owner" in table and "owners" in table, p, m)


def link_of(value: Any) -> Link:
    """Returns the two ends of a link in an element of `links`. Raises `Fault` if the element has another form."""
    ends = of_kind(value, "link", list)
    if len(ends) != 2:
        raise fault("link is of the wrong kind")
    return of_kind(ends[0], "link", int), of_kind(ends[1], "link", int)


def repeated(values: list[Any]) -> list[int]:
    """Returns the indices of values that occur earlier in the list too."""
    first: dict[Any, int] = {}
    return [x for x, value in enumerate(values) if first.setdefault(value, x) != x]


def faults_of(people: list[Account], nodes: list[Node], links: list[Link], events: int, sessions: int) -> Iterator[str]:
    """Yields the errors of a lab in the order of `docs/LAB.md`, of which the first is reported. The first of `people` is the teacher."""
    yield from (f"node {x}: owner and owners" for x, node in enumerate(nodes) if node.has_both)
    if not nodes:
        yield "no nodes"
    if len(nodes) > MOST_NODES:
        yield "too many nodes"
    yield from (f"node {x}: identifier out of range" for x, node in enumerate(nodes) if not 1 <= node.id <= GREATEST_ID)
    yield from (f"node {x}: identifier stands twice" for x in repeated([node.id for node in nodes]))
    for x, (name, key) in enumerate(people):
        if not re.fullmatch(NAME, name) or not re.fullmatch(KEY, key):
            yield f"principal {x}: bad name or key"
    yield from (f"principal {x}: name stands twice" for x in repeated([name for name, _ in people]))
    students = {name for name, _ in people[1:]}
    yield from (f"node {x}: no such owner" for x, node in enumerate(nodes) if not students.issuperset(node.owners))
    yield from (f"node {x}: owner stands twice" for x, node in enumerate(nodes) if repeated(node.owners))
    ids = {node.id for node in nodes}
    yield from (f"link {x}: no such node" for x, ends in enumerate(links) if not ids.issuperset(ends))
    yield from (f"link {x}: a loop" for x, (a, b) in enumerate(links) if a == b)
    pairs = [frozenset(ends) for ends in links]
    yield from (f"link {x}: stands twice" for x in repeated(pairs))
    linked = set(pairs)
    for x, node in enumerate(nodes):
        if node.p is not None and frozenset((node.id, node.p)) not in linked:
            yield f"node {x}: p is not a neighbour"
    counts = [("events", events, 1, MOST_EVENTS), ("sessions", sessions, 1, MOST_SESSIONS), ("student", len(people) - 1, 0, MOST_STUDENTS)]
    yield from (f"{key} is out of its limits" for key, count, least, most in counts if not least <= count <= most)


def read_lab(content: bytes) -> Lab:
    """Returns the lab in the bytes of a file. Raises `Fault` with its first error, in the order of `docs/LAB.md`."""
    table = document(content)
    events, sessions = (of_kind(table.get(key, MISSING), key, int) for key in ("events", "sessions"))
    people = [account_of(of_kind(table.get("teacher", MISSING), "teacher", dict), "teacher")]
    for value in of_kind(table.get("student", MISSING), "student", list):
        people.append(account_of(of_kind(value, "student", dict), "student"))
    nodes = [node_of(value) for value in of_kind(table.get("node", MISSING), "node", list)]
    links = [link_of(value) for value in of_kind(table.get("links", []), "links", list)]
    for text in faults_of(people, nodes, links, events, sessions):
        raise fault(text)
    near: dict[int, set[int]] = {node.id: set() for node in nodes}
    for a, b in links:
        near[a].add(b)
        near[b].add(a)
    world = World(near, {node.id: node.p for node in nodes}, {node.id: node.m for node in nodes})
    return Lab(world, people[0][0], dict(people), {node.id: node.owners for node in nodes}, events, sessions)
