"""The totals of several runs: one row for each person, in the order of a class list or by the names in the labs.

A *rule* is a teacher's file that computes grades from the totals. The *record* of a run has all lines of its
connections, and shows what was denied.
"""
from __future__ import annotations

import csv
import sys
from collections import Counter
from dataclasses import dataclass, field

from classroom.core.journal import RULES
from classroom.core.lab import Lab
from classroom.core.lists import People, Person
from classroom.core.printable import guarded, printable
from classroom.core.tally import DENIED, Marks, RecordCounts
from classroom.marks.columns import MORE, rule_values
from classroom.marks.rule import Rule, Value

HEADS = ["granted", "applied", *RULES, "steps", "shared", "runs", *DENIED, "recorded", *MORE]


@dataclass
class Total:
    """The marks of a person over all runs."""

    granted: int = 0
    applied: Counter[str] = field(default_factory=Counter)
    steps: int = 0
    shared: int = 0
    runs: int = 0
    denied: Counter[str] = field(default_factory=Counter)
    recorded: int = 0  # the number of runs whose record is complete, so that denials are known
    nodes: int = 0
    networks: dict[str, None] = field(default_factory=dict)  # the networks whose labs have the person, in order

    def add(self, marks: Marks, denied: Counter[str], is_whole: bool, nodes: int, network: str) -> None:
        """Adds a person's marks in a run of this network. `denied` has the number of this person's lines that were
        denied or malformed in the run, by the names in DENIED, as far as the run's record has them. `is_whole` says
        whether that record is complete, and `nodes` is the number of the person's nodes."""
        self.nodes += nodes
        self.networks[network] = None
        self.granted += marks.granted.total()
        self.applied += marks.applied
        self.steps += marks.steps
        self.shared += marks.shared
        self.runs += 1
        self.denied += denied
        self.recorded += is_whole

    def row(self) -> list[str]:
        """Returns the cells of the total for a table, in the order of HEADS."""
        rules = [self.applied[rule] for rule in RULES]
        numbers = [self.granted, self.applied.total(), *rules, self.steps, self.shared, self.runs,
                   *(self.denied[clause] for clause in DENIED), self.recorded]
        return [*map(str, numbers), str(self.nodes), guarded(self.network)]

    @property
    def network(self) -> str:
        """Returns the names of the networks that the person was in, as one text."""
        return "; ".join(self.networks)

    def values(self, name: str) -> dict[str, Value]:
        """Returns the values of a person's columns for a rule, by their names. Denials are known only if the record of
        each run is complete."""
        is_whole = self.recorded == self.runs
        counts = {"granted": self.granted, "applied": self.applied.total(), **{rule: self.applied[rule] for rule in RULES},
                  "steps": self.steps, "shared": self.shared, "nodes": self.nodes, "runs": self.runs, "recorded": self.recorded}
        return rule_values({"student": name, "network": self.network, "whole": is_whole}, counts,
                           {each: self.denied[each] if is_whole else None for each in DENIED})


@dataclass(frozen=True)
class Marked:
    """A run with marks: its lab, its network, the marks of each student, and the counts of its record."""

    lab: Lab
    network: str
    students: dict[str, Marks]
    asked: RecordCounts | None


Runs = list[Marked]


def summed(runs: Runs) -> dict[str, tuple[Person, Total]]:
    """Returns each person with the totals over all runs, by a text that identifies the person. Leaves out the house,
    the player for absent students. Two students of different labs are the same person if they have the same identifier,
    or without one the same name in the lab."""
    found: dict[str, tuple[Person, Total]] = {}
    for run in runs:
        lab, asked = run.lab, run.asked
        is_whole = asked is not None and asked.whole
        persons = lab.without_house().students
        for name, marks in run.students.items():
            if name not in persons:
                continue
            person = lab.people.get(name, Person(name))
            found.setdefault(f"id {printable(person.id)}" if person.id else f"name {name}", (person, Total()))[1].add(
                marks, asked.denied.get(name, Counter()) if asked else Counter(), is_whole, len(lab.nodes_of(name)), run.network)
    return found


def ruled(rule: Rule | None, total: Total, name: str) -> list[str]:
    """Returns the results of a rule for a person with this total and name, as cells. Returns an empty list if there is
    no rule."""
    return rule.cells(total.values(name)) if rule else []


def by_labs(runs: Runs, rule: Rule | None = None) -> list[list[str]]:
    """Returns the table of totals over these runs: a row of heads, and a row for each person in the labs. The results
    of a rule come after the totals."""
    return [["student", "id", *HEADS, *(rule.names if rule else [])],
            *([guarded(person.written), guarded(person.id), *total.row(), *ruled(rule, total, person.written)]
              for person, total in summed(runs).values())]


def by_roster(runs: Runs, roster: People, rule: Rule | None = None) -> tuple[list[list[str]], list[str]]:
    """Returns the class list `roster` as a table. To each of its rows, cells are added with the person's totals over
    these runs and the results of a rule, if there is one. The totals of a person whom no lab has are 0. A row without a
    person gets empty cells. Also returns the names, as in the labs' own class lists, of the persons in the labs whom
    `roster` lacks."""
    left = summed(runs)
    heads, names = roster.heads or ["name"], rule.names if rule else []
    rows = [[*heads, *HEADS, *names]]
    for cells, person in roster.rows:
        if person is None:
            rows.append([*cells, *[""] * (len(HEADS) + len(names))])
            continue
        key = next((key for key, (other, _) in left.items() if is_same_person(person, other)), None)
        total = left.pop(key)[1] if key is not None else Total()
        rows.append([*(cells or [guarded(person.written)]), *total.row(), *ruled(rule, total, person.written)])
    return rows, [person.written for person, _ in left.values()]


def is_same_person(person: Person, other: Person) -> bool:
    """Returns whether two entries are one person: by their identifiers if both have one, and otherwise by their names.
    Characters that aren't printable are compared in escaped form, because labs of version 1.0.0 have them so."""
    return printable(person.id) == printable(other.id) if person.id and other.id else printable(person.written) == printable(other.written)


def write(rows: list[list[str]], delimiter: str = ",") -> None:
    """Prints a table, a list of rows, as CSV with this delimiter."""
    csv.writer(sys.stdout, delimiter=delimiter, lineterminator="\n").writerows(rows)
