"""Judges whether a check refused each wrong body of a round at its own goal, and nothing else. A *round* is a check of
a crate with several edits, each of which has to be refused at certain goals of certain functions. The functions here
get the contents of the check's output as a `Told`."""
from __future__ import annotations

from collections.abc import Iterable
from dataclasses import dataclass, field

from tools.wrong.edits import Edit, Refusal
from tools.wrong.outputs import Told

LONGEST = 300  # the most characters of a line of the prover's output in an error text


@dataclass
class Judged:
    """The faults of a round as a whole, and of each of its edits."""

    of_round: list[str] = field(default_factory=list)
    of_edit: dict[str, list[str]] = field(default_factory=dict)

    def failed(self, edits: Iterable[Edit]) -> list[str]:
        """Returns the names of those edits that have failed: those with faults, or all if the round has a fault."""
        return [it.name for it in edits if self.of_round or it.name in self.of_edit]


def right_lines(function: str, told: Told) -> str:
    """Returns, as a text, the lines that an edit's file could have for a function, by the goals that a check left open
    there. Goals of the function's contract are first. Returns an empty text if no goal is open."""
    goals = sorted(told.open_goals.get(function, ()), key=lambda goal: (not goal.startswith("returns"), "clause" not in goal))
    return " or ".join(f"'{Refusal(function, goal).line()}'" for goal in goals[:3])


def fault_of(wanted: Refusal, told: Told) -> str | None:
    """Returns why the wanted refusal isn't in the output of a check, or None if it is."""
    if wanted.goal in told.open_goals.get(wanted.function, ()):
        return None
    if wanted.function in told.proved:
        return f"{wanted.function} is still proved: this body means the same, or no clause tells the two apart"
    if wanted.function not in told.functions:
        return f"the output of the check has no line about {wanted.function}"
    lines = right_lines(wanted.function, told)
    if lines:
        return f"{wanted.function} is not refused at {wanted.goal}; the correct line would be: {lines}"
    return f"{wanted.function} is not refused at {wanted.goal}, and at no other goal of its own"


def judge_edits(edits: Iterable[Edit], told: Told) -> dict[str, list[str]]:
    """Returns the faults of each edit that has some, by its name, from the output of the check with these edits."""
    faults = {it.name: [fault for wanted in it.wanted if (fault := fault_of(wanted, told))] for it in edits}
    return {name: found for name, found in faults.items() if found}


def judge_others(named: set[str], told: Told) -> list[str]:
    """Returns error texts about the functions that a check didn't prove although they aren't in `named`, the functions
    that edits name. A function that isn't proved only because it depends on an unproved one isn't reported."""
    faults = []
    for function in sorted(told.functions - told.proved - named):
        if function in told.open_goals:
            faults.append(f"{function} is refused, and no edit names it; the correct line would be: {right_lines(function, told)}")
        elif function not in told.resting:
            faults.append(f"{function} is not proved, and no edit names it")
    return faults


def is_closure(function: str) -> bool:
    """Returns whether a line of the prover's output, which names `function`, is about a closure, which the counts don't
    include."""
    return "fn" in function.split("::")


def judge_counts(named: set[str], told: Told) -> list[str]:
    """Returns error texts about the counts in a check's output. The check must have ended, and its counts must match
    its lines. Each function in `named` must have a line."""
    if told.ending is None:
        return [f"the check didn't finish: {told.last[:LONGEST]}"]
    asked, proved = told.ending
    functions = {it for it in told.functions if not is_closure(it)}
    refused = {it for it in functions - told.proved if it in told.open_goals or it in told.resting}
    if asked != len(functions) or proved != len(functions & told.proved) or asked != proved + len(refused):
        return [
            f"the counts don't fit: only={asked} proved={proved}, where {len(functions)} functions have a line, "
            f"{len(functions & told.proved)} of them proved and {len(refused)} refused"
        ]
    return [] if named <= told.functions else ["the counts don't fit: a function that an edit names has no line"]


def judge(edits: list[Edit], status: int, told: Told) -> Judged:
    """Returns the verdict on a round with these edits, from its check's status and output. The check has to end with
    status 1, as it does if the prover refuses a function."""
    named = {function for edit in edits for function in edit.functions()}
    faults = [f"an error that belongs to no goal: {line[:LONGEST]}" for line in told.errors]
    faults += judge_others(named, told)
    # If the prover couldn't read the crate, it is no further fault that lines are missing in its output.
    if not told.errors or told.functions:
        faults += judge_counts(named, told)
    if status != 1 and not faults:
        faults.append(f"the check ended with status {status}, and not 1")
    return Judged(faults, judge_edits(edits, told) if told.functions else {})
