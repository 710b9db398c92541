"""The columns of the table of marks, each with one line that explains it, and their values for a *rule*, a teacher's
file that computes grades from columns. A *clause* is one of the numbered conditions under which a request is granted,
and the *record* of a run has the lines of its connections."""
from __future__ import annotations

from collections.abc import Mapping, Sequence
from fractions import Fraction

from classroom.core.journal import RULES
from classroom.core.lab import Lab
from classroom.core.tally import DENIED, Marks
from classroom.marks.rule import Value

# The names of the clauses' columns in rules, and in the table for people.
CLAUSES = {"clause1": "access_denials", "clause2": "stale_denials", "clause3": "chosen_denials", "clause4": "guard_denials"}
MORE = ("nodes", "network")  # the columns after those of earlier versions
COLUMNS = {
    "journal": "the journal from which the row was counted",
    "student": "the student's name in the lab",
    "id": "the student's id in the class list (only with --total)",
    "granted": "how many moves were granted",
    "applied": "how many moves were applied when a step was closed; a fault, a change of the links or the command release drops some granted moves",
    **{rule: f"how many moves by the rule {rule} were applied" for rule in RULES},
    "steps": "how many steps applied a move of the student",
    "first": "the number of the event that was the first granted move; 5 is the fifth event of the journal",
    "last": "the number of the event that was the last granted move",
    "shared": "how many moves were applied at nodes that have a second owner",
    "clause1": "how many requests clause 1 denied: the node isn't the student's own or isn't visible, only the teacher "
               "may ask for this, or it was a second hello",
    "clause2": "how many requests clause 2 denied: the move was asked for in an older configuration",
    "clause3": "how many requests clause 3 denied: the node had a granted move already",
    "clause4": "how many requests clause 4 denied: the guard of the rule didn't hold",
    "malformed": "how many lines of the student weren't requests",
    "nodes": "how many nodes the student owns, alone or with others",
    "network": "the name of the network, which is that of its lab",
    "runs": "how many runs have a lab with this student (only with --total and --roster)",
    "recorded": "in how many of these runs the student's record is complete (only with --total and --roster)",
}
FOR_RULES = {
    "access_denials": "another name of clause1", "stale_denials": "another name of clause2", "chosen_denials": "another name of clause3",
    "guard_denials": "another name of clause4", "denials": "the sum of clause1 to clause4",
    "granted_per_node": "granted divided by nodes, or 0 if the student has no node",
    "applied_per_node": "applied divided by nodes, or 0 if the student has no node",
    "whole": "yes if the record has all lines of the student, so that denials are known",
}
ONLY_RUNS = ("first", "last")  # the columns that only the table of one run has
ONLY_TOTALS = ("runs", "recorded")


def listing() -> str:
    """Returns the text of `mark --columns`: one line for each column, and for each other name that rules can use."""
    wide = max(map(len, [*COLUMNS, *FOR_RULES]))
    columns = "\n".join(f"{name:{wide}}  {what}" for name, what in COLUMNS.items())
    return f"{columns}\nA rule (mark --rule FILE) can also use these names:\n" + "\n".join(f"{name:{wide}}  {what}" for name, what in FOR_RULES.items()) + "\n"


def for_rules(is_total: bool) -> list[str]:
    """Returns the names that a rule can use: those of totals over runs if `is_total` is set, and otherwise those of a
    single run."""
    left_out = {"journal", "id", *(ONLY_RUNS if is_total else ONLY_TOTALS)}
    return [name for name in [*COLUMNS, *FOR_RULES] if name not in left_out]


def row(marks: Marks, lab: Lab, name: str, network: str, denied: Sequence[int | None], is_whole: bool) -> dict[str, Value]:
    """Returns the values of a student's columns in one run, by the columns' names, from the student's marks, the lab,
    and the network's name. `denied` has the number of the student's lines that each clause denied, in the order of
    DENIED, or None if it isn't known. `is_whole` says whether the record has all lines of the student."""
    first = {"student": name, "network": network, "first": known(marks.first), "last": known(marks.last), "whole": is_whole}
    counts = {"granted": marks.granted.total(), "applied": marks.applied.total(), **{rule: marks.applied[rule] for rule in RULES},
              "steps": marks.steps, "shared": marks.shared, "nodes": len(lab.nodes_of(name))}
    return rule_values(first, counts, dict(zip(DENIED, denied)))


def rule_values(first: dict[str, Value], counts: Mapping[str, int], denied: Mapping[str, int | None]) -> dict[str, Value]:
    """Returns all values that a rule can use, by their names. They are those in `first`, `counts` and `denied`, and
    others that are computed from them. The counts of the clauses appear again under the names in CLAUSES, and their sum
    as `denials`. There are also the granted and applied moves per node. `counts` must have `granted`, `applied` and
    `nodes`, and `denied` must have each clause in CLAUSES. A value that isn't known is None."""
    each = {name: known(count) for name, count in denied.items()}
    clauses = [denied[clause] for clause in CLAUSES]
    sums = {"denials": None if None in clauses else Fraction(sum(clause or 0 for clause in clauses))}
    nodes = counts["nodes"]
    per_node = {f"{name}_per_node": Fraction(counts[name], nodes) if nodes else Fraction(0) for name in ("granted", "applied")}
    return {**first, **{name: Fraction(count) for name, count in counts.items()}, **each,
            **{name: each[clause] for clause, name in CLAUSES.items()}, **sums, **per_node}


def known(count: int | None) -> Fraction | None:
    """Returns a count as a value of a rule. Returns None if the count is None, that is, unknown."""
    return None if count is None else Fraction(count)
