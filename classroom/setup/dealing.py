"""Dealing students to networks, and nodes to students. Students may have a *room*, in a column of the class list. The
*house* is a student without a person, who may own each node together with a student. A *seat* is one of the connections
that a server can have at the same time."""
from __future__ import annotations

import itertools
from collections import Counter
from collections.abc import Iterator
from dataclasses import dataclass

from classroom.core import lab as labs
from classroom.core import limits
from classroom.core.counts import plural
from classroom.core.lists import Person
from classroom.core.printable import printable
from classroom.core.program import Fault

People = dict[str, Person]


@dataclass(frozen=True)
class Part:
    """The students of one network, and their room, or an empty text."""

    names: list[str]
    room: str = ""


def in_groups(people: list[str], count: int) -> list[list[str]]:
    """Returns the people in `count` groups, whose sizes differ by at most one. Raises `Fault` if `count` is less than 1
    or more than the number of people."""
    require_students(count, len(people))
    return [people[index::count] for index in range(count)]


def require_students(count: int, students: int) -> None:
    """Raises `Fault` unless this number of students can be divided into `count` groups with at least one student
    each."""
    if not 1 <= count <= students:
        raise Fault(f"--groups {count}: each of the groups needs a student. Write a number from 1 to {students}")


def parts(people: People, count: int | None, column: str | None) -> list[Part]:
    """Returns the students of each network. Without a `column` there are `count` networks, or one if that is None. If
    `column` names the column with rooms, each room has networks of its own. In this case there are `count` in all, or
    enough to give each student a seat. `people` are the students by their names in the lab. Raises `Fault` if there are
    fewer students than networks, or fewer networks than rooms, or if a student has no room."""
    if column is None:
        return [Part(names) for names in in_groups([*people], count or 1)]
    lost = [person.written for person in people.values() if not person.group]
    if lost:
        raise Fault(f"--groups-by {column}: this column is empty for these students: {', '.join(lost)}. Write a room for each of them")
    rooms: dict[str, list[str]] = {}
    for name, person in people.items():
        rooms.setdefault(person.group, []).append(name)
    shares = networks_of(rooms, count, column)
    return [Part(names, room) for room, each in rooms.items() for names in in_groups(each, shares[room])]


def networks_of(rooms: dict[str, list[str]], count: int | None, column: str) -> dict[str, int]:
    """Returns the number of networks of each room. `rooms` has the students of each. If `count` is None, each room has
    as many networks as give all its students a seat. Otherwise there are `count` in total: one for each room, and each
    further one goes to the room with the most students per network. Raises `Fault` if `count` is less than the number
    of rooms or more than that of students. `column` is the name of the rooms' column, for the message."""
    if count is None:
        seats = limits.allowed().seats
        return {room: -(-len(names) // seats) for room, names in rooms.items()}
    if count < len(rooms):
        raise Fault(f"--groups {count}: the column {column} has {len(rooms)} rooms, and each needs at least one group. The rooms are: {', '.join(rooms)}")
    require_students(count, sum(map(len, rooms.values())))
    shares = dict.fromkeys(rooms, 1)
    for _ in range(count - len(rooms)):
        shares[max(rooms, key=lambda room: len(rooms[room]) / shares[room])] += 1
    return shares


def deal(identifiers: list[int], students: list[str], each: int) -> list[labs.Node]:
    """Returns nodes with these identifiers, each with `each` owners, who are taken from the students in rotation. The
    numbers of nodes of two students differ by at most one. Raises `Fault` if there are fewer students than `each`."""
    if len(students) < each:
        raise Fault(f"with --pairs each node has {each} owners, so each network needs at least {each} students, but one has only {len(students)}. "
                    "Make fewer networks, or leave out --pairs")
    turns = itertools.cycle(students)
    return [labs.Node(node, [next(turns) for _ in range(each)]) for node in identifiers]


def counts(made: labs.Lab) -> str:
    """Returns how many students of a lab have how many nodes, as a text. The house isn't counted."""
    shown = made.without_house()
    found = Counter(len(shown.nodes_of(name)) for name in shown.students)
    told = (f"{students} with {plural(nodes, 'node')}" for nodes, students in sorted(found.items(), reverse=True))
    return f"{plural(len(shown.students), 'student')}: {', '.join(told)}"


def table(labs_of: dict[str, labs.Lab], rooms: dict[str, str]) -> Iterator[str]:
    """Yields the lines of a table with all students but the house: their names in the list and in the lab, network,
    room and nodes. `labs_of` has the lab of each network, and `rooms` its room. If no network has a room, the table has
    no column for rooms."""
    has_rooms = any(rooms.values())
    lines = [["student", "name", "network", *(["room"] if has_rooms else []), "nodes"]]
    for network, made in labs_of.items():
        shown = made.without_house()
        for name in shown.students:
            person = made.people.get(name, Person(name))
            nodes = ", ".join(map(str, shown.nodes_of(name))) or "none"
            lines.append([f"{person.written}{f' ({person.id})' if person.id else ''}", name, network, *([rooms[network]] if has_rooms else []), nodes])
    cells = [[*map(printable, line)] for line in lines]
    wide = [max(map(len, column)) for column in zip(*cells, strict=True)]
    for line in cells:
        yield "  ".join(cell.ljust(width) for cell, width in zip(line, wide, strict=True)).rstrip()
