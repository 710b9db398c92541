"""The tally of a journal, the numbers from which marks are made: the lines that the command `tally` of the server's
program prints (docs/JOURNAL.md). The *journal* of a run lists its events. The *record* of a run has the requests of its
connections with their replies, also those that were denied."""
from __future__ import annotations

import os
from collections import Counter
from collections.abc import Iterator
from contextlib import contextmanager
from dataclasses import dataclass, field
from pathlib import Path

from classroom.core.journal import RULES
from classroom.core.program import Fault, host_call


@dataclass
class Marks:
    """The marks of a student in a journal. `granted` and `applied` have the number of moves of each rule."""

    granted: Counter[str] = field(default_factory=Counter)
    applied: Counter[str] = field(default_factory=Counter)
    steps: int = 0  # the closes that applied a move of the student
    first: int | None = None  # the places of the first and the last granted move
    last: int | None = None
    shared: int = 0  # the applied moves at nodes that others own too


@dataclass(frozen=True)
class Bounds:
    """The most moves, rounds and events until a run is stable, if no fault, link or cut comes."""

    moves: int
    rounds: int
    events: int


DENIED = ("clause1", "clause2", "clause3", "clause4", "malformed")


@dataclass
class RecordCounts:
    """The numbers that the record of a run adds to its tally."""

    # How many lines of each student each clause denied, and how many were malformed.
    denied: dict[str, Counter[str]] = field(default_factory=dict)
    # The moves that each owner of a shared node asked for, by node.
    moves: dict[int, dict[str, Counter[str]]] = field(default_factory=dict)
    # Whether the record is complete.
    whole: bool = True
    # The names of the students, and the teacher's, whose lines are all recorded; None if the program prints none.
    all_of: frozenset[str] | None = None

    def add(self, other: RecordCounts) -> None:
        """Adds the numbers of a further record of the same run. The result is whole only if both records are.
        Afterwards `all_of` has only the names that both records have there. But if it is None in one of the two, it
        becomes that of `other`, so that the first record can be added to a new `RecordCounts`."""
        for name, counts in other.denied.items():
            self.denied.setdefault(name, Counter()).update(counts)
        for node, owners in other.moves.items():
            for name, counts in owners.items():
                self.moves.setdefault(node, {}).setdefault(name, Counter()).update(counts)
        self.whole = self.whole and other.whole
        self.all_of = other.all_of if self.all_of is None or other.all_of is None else self.all_of & other.all_of


@dataclass
class Tally:
    """The numbers of a run by its journal, and in `asked` those by its record if one is given. `shared` has the granted
    moves at nodes with two owners, by node, owner and rule."""

    events: int = 0
    configuration: int = 0
    stable: bool = False
    closes: int = 0
    faults: int = 0
    links: int = 0
    cuts: int = 0
    moves: int = 0
    since: tuple[int, int] = (0, 0)  # the moves and the closes since the last fault, link or cut
    # The rounds since the last fault, link or cut; None if the program is of an older version, which prints none.
    rounds: int | None = None
    bounds: Bounds = Bounds(0, 0, 0)
    students: dict[str, Marks] = field(default_factory=dict)
    shared: dict[int, dict[str, Counter[str]]] = field(default_factory=dict)
    asked: RecordCounts | None = None


def of(lab: Path, journal: Path, files: tuple[int, ...] = (), record: Path | None = None) -> Tally:
    """Returns the tally of the journal of a lab, and of its record if one is given. The program inherits the open files
    with the descriptors `files`. Raises `Fault` if the journal doesn't pass the audit or the record its check, if a
    file can't be read, or if the program isn't built."""
    answer = host_call("tally", lab, journal, *([] if record is None else [record]), files=files)
    if answer.status != 0:
        raise Fault(answer.error, answer.status)
    return read(answer.output)


@contextmanager
def in_memory(text: str) -> Iterator[int]:
    """Yields the descriptor of an open file with this text. The file has no name and is kept in memory, so that a full
    disk is no obstacle."""
    file = os.memfd_create("text")
    try:
        with open(file, "wb", closefd=False) as it:
            it.write(text.encode())
        yield file
    finally:
        os.close(file)


def of_texts(lab: str, journal: str) -> Tally:
    """Returns the tally of a journal of a lab, both given as texts. Raises `Fault` if the journal doesn't pass the
    audit, or if the program isn't built."""
    with in_memory(lab) as first, in_memory(journal) as second:
        return of(Path(f"/dev/fd/{first}"), Path(f"/dev/fd/{second}"), (first, second))


def read(text: str) -> Tally:
    """Returns the tally that the program's output has, line by line. Ignores lines whose first word isn't known."""
    tally, asked = Tally(), RecordCounts()
    for line in text.splitlines():
        word, *rest = line.split(" ")
        if word == "student":
            tally.students[rest[0]] = marks(rest[1:])
        elif word == "node":
            tally.shared[int(rest[0])] = by_owner(rest[1:])
        elif word == "denied":
            asked.denied[rest[0]] = Counter(dict(zip(DENIED, map(int, rest[1:]), strict=True)))
        elif word == "asked":
            asked.moves[int(rest[0])] = by_owner(rest[1:])
        elif word == "record":
            tally.asked, asked.whole = asked, rest[2] == "whole"  # The words before it are the numbers of sessions and of lines.
        elif word == "whole":
            asked.all_of = frozenset(rest)
        elif word == "bounds":
            tally.bounds = Bounds(*map(int, rest))
        elif word == "run":
            take_run(tally, rest)
        elif word == "rounds":
            tally.rounds = int(rest[0])
    return tally


def by_owner(words: list[str]) -> dict[str, Counter[str]]:
    """Returns the number of moves of each rule, by owner, from the words of a line. The words are a name and four
    numbers for each owner."""
    return {words[at]: by_rule(words[at + 1 : at + 5]) for at in range(0, len(words), 5)}


def marks(words: list[str]) -> Marks:
    """Returns the marks in a student's line, from its words after the name. They are the granted moves of each rule,
    the applied moves of each rule, the steps, the first and the last granted move, and the shared moves."""
    steps, first, last, shared = words[8:]
    return Marks(by_rule(words[:4]), by_rule(words[4:8]), int(steps), place(first), place(last), int(shared))


def by_rule(words: list[str]) -> Counter[str]:
    """Returns the number of moves of each rule, from four numbers in the rules' order."""
    return Counter(dict(zip(RULES, map(int, words), strict=True)))


def place(word: str) -> int | None:
    """Returns the number of an event that a word spells, or None if the word is `-`."""
    return None if word == "-" else int(word)


def take_run(tally: Tally, words: list[str]) -> None:
    """Copies the values of the line `run` into the tally. `words` are the words of that line after `run`. Removes one of
    them from the list."""
    tally.stable = words.pop(2) == "stable"  # All other words are numbers.
    (tally.events, tally.configuration, tally.closes, tally.faults, tally.links, tally.cuts, tally.moves, *since) = map(int, words)
    tally.since = (since[0], since[1])
