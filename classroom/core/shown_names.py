"""The names that pages show for students: short ones from the class list, or only numbers."""
from __future__ import annotations

import re
from collections import Counter
from collections.abc import Mapping
from dataclasses import replace

from classroom.core.journal import Event
from classroom.core.lab import Lab
from classroom.core.printable import printable

MOST = 24  # the most characters of a name that is shown


def short(written: str) -> str:
    """Returns the short form of a name in a class list: `Zoë M.` for `Zoë Müller` or `Müller, Zoë`. A single word stays
    as it is. The result has at most MOST characters, all of which can be printed."""
    last, comma, first = written.partition(",")
    words = f"{first} {last}".split() if comma else written.split()
    whole = " ".join(words) if len(words) < 2 else f"{words[0]} {words[-1][0]}."
    return printable(whole)[:MOST]


def display_names(lab: Lab) -> dict[str, str]:
    """Returns the name to show for each student, by the name in the lab. The name to show is the short form of the name
    in the class list, with a number if several students have the same. A student without a written name keeps the name
    in the lab."""
    found = {name: short(lab.people[name].written) if name in lab.people and lab.people[name].written != name else name
             for name in lab.students}
    count = Counter(found.values())
    number: Counter[str] = Counter()
    for name, shown in found.items():
        if count[shown] > 1 and shown != name:
            number[shown] += 1
            found[name] = f"{shown} {number[shown]}"
    return found


def numbers(lab: Lab) -> dict[str, str]:
    """Returns the number to show for each student, such as `#3`, by the name in the lab. The order is that of the
    lab."""
    return {name: f"#{number}" for number, name in enumerate(lab.students, 1)}


class ShownNames:
    """A replacement of the names of a lab's students by the names that are shown."""

    def __init__(self, names: Mapping[str, str]) -> None:
        """`names` has the name to show for each name in the lab. Names that it lacks aren't replaced."""
        self.names = {name: shown for name, shown in names.items() if name != shown}
        longest = sorted((re.escape(name) for name in self.names), key=len, reverse=True)
        self.pattern = re.compile(rf"(?<![\w-])(?:{'|'.join(longest)})(?![\w-])") if longest else None

    @staticmethod
    def of(lab: Lab, anonymous: bool) -> ShownNames:
        """Returns the replacement of a lab's names: by numbers if `anonymous` is set, and otherwise by short names. The
        house, a player for absent students, keeps its name."""
        students = lab.without_house()
        return ShownNames(numbers(students) if anonymous else display_names(students))

    def name(self, name: str) -> str:
        """Returns the name that is shown for a student."""
        return self.names.get(name, name)

    def line(self, line: str) -> str:
        """Returns a line in which each student's name is replaced. A part of a longer word isn't a name."""
        return self.pattern.sub(lambda found: self.names[found[0]], line) if self.pattern else line

    def event(self, event: Event) -> Event:
        """Returns an event in which the student's name is replaced."""
        if event.student is None or event.student not in self.names:
            return event
        return replace(event, words=(event.words[0], self.names[event.student], *event.words[2:]))

    def lab(self, lab: Lab) -> Lab:
        """Returns a lab in which each student's name is replaced, also that of an owner. It lacks `people`, which has
        the names in the class list."""
        nodes = [replace(node, owners=[self.name(owner) for owner in node.owners]) for node in lab.nodes]
        return replace(lab, students={self.name(name): key for name, key in lab.students.items()}, nodes=nodes, people={})
