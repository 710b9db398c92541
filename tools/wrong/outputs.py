"""The prover's output about each function. A *goal* is a condition that the prover has to show for a function, and it
is *open* if the prover didn't show it."""
from __future__ import annotations

import re
from dataclasses import dataclass, field

LINE = re.compile(r"fn (\S+): (.*)")
OPEN = re.compile(r"`search` did not prove ((?:`[^`]+`(?:, )?)+)")
RESTS = re.compile(r"it (?:calls|passes) [^;]*which (?:is|are) not proved")
ERROR = re.compile(r"\S+?(?::\d+:\d+)?: error\b.*|error\b.*")
GOAL = re.compile(r"(?:\./)?proofs/(?P<folder>\S+)/(?:Answers|Invariants|Proof)\.antt:\d+:\d+: error: `(?P<goal>[^`]+)`: (?P<why>.*)")
CYCLE = re.compile(r"\+\w+$")
LOST = re.compile(r"has no field|is not in scope|has no `|was not admitted")
# The line about proofs that weren't checked because they cite an answer with an error.
RESTS_ON_ANSWER = re.compile(r"error: \d+ declarations? that depends? on `[^`]+`, which was rejected, (?:was|were) not checked")
ENDING = re.compile(r"only=(\d+) proved=(\d+)")


@dataclass
class Told:
    """The contents of a check's output. These are the functions with a line, the proved ones, the open goals by
    function, the functions that depend on unproved ones (`resting`), and errors that belong to no goal. `ending` has
    the two numbers with which a check ends: of the functions that it had to prove, and of those that it proved. It is
    None if the check didn't finish. `last` is the last line that isn't empty."""

    functions: set[str] = field(default_factory=set)
    proved: set[str] = field(default_factory=set)
    open_goals: dict[str, list[str]] = field(default_factory=dict)
    resting: set[str] = field(default_factory=set)
    errors: list[str] = field(default_factory=list)
    ending: tuple[int, int] | None = None
    last: str = ""

    def add_goal(self, function: str, goal: str) -> None:
        """Adds an open goal to those of a function."""
        goals = self.open_goals.setdefault(function, [])
        if goal not in goals:
            goals.append(goal)

    def add_function(self, name: str, said: str) -> None:
        """Adds the line of a function, which has `said` after the function's name."""
        self.functions.add(name)
        # A function that may wait for others has "proved, may wait", and a closure "proved if its callers give what it
        # asks".
        if re.match(r"(proved|assumed)\b", said):
            self.proved.add(name)
        found = OPEN.search(said)
        for goal in re.findall(r"`([^`]+)`", found[1]) if found else ():
            self.add_goal(name, goal)
        if RESTS.search(said):
            self.resting.add(name)

    def add_error(self, line: str) -> None:
        """Adds the line of an error. If the line is about a goal of which the proof fails, adds an open goal instead. A
        proof that names something that doesn't exist stays an error. Does nothing for a line about proofs that weren't
        checked because they depend on a rejected one."""
        found = GOAL.fullmatch(line)
        if RESTS_ON_ANSWER.search(line):
            return
        if found and not LOST.search(found["why"]):
            # The goals of functions that call each other are listed together, in a folder whose name begins with `+`. Each
            # begins with its function's name.
            self.add_goal(CYCLE.sub(found["goal"].partition("-")[0], found["folder"]).replace("/", "::"), found["goal"])
        else:
            self.errors.append(line)


def read_output(crate: str, output: str) -> Told:
    """Sorts the lines of the output of a check of a crate. Returns what they say, with the names of functions without
    the crate's name."""
    told = Told()
    for line in output.splitlines():
        if found := LINE.fullmatch(line):
            told.add_function(found[1].removeprefix(f"{crate}::"), found[2])
        elif ERROR.fullmatch(line):
            told.add_error(line)
        elif found := ENDING.fullmatch(line):
            told.ending = int(found[1]), int(found[2])
        if line.strip():
            told.last = line
    return told
