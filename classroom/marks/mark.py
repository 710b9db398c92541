"""`./class mark`: the marks of each student from the journals of runs.

A *journal* has the granted events of a run, and a *record* all lines and replies of its connections. A *rule* is a
teacher's file that computes grades from marks. The *tally* is what the proved program counts in a journal. A *shared*
node has two owners, and a *clause* is one of the numbered conditions under which a request is granted.
"""
from __future__ import annotations

import argparse
import csv
import json
import re
import sys
from collections import Counter
from dataclasses import dataclass, replace
from pathlib import Path
from typing import Any

from classroom.core import lab as labs
from classroom.core import classes, folders, lists, record, tally
from classroom.core.counts import plural
from classroom.core.journal import RULES, events, split
from classroom.core.printable import guarded, printable
from classroom.core.program import Fault
from classroom.core.statuses import LAB, WARNED
from classroom.core.tally import DENIED, RecordCounts
from classroom.marks import columns, second, totals
from classroom.marks.columns import CLAUSES, MORE
from classroom.marks.comeback import recoveries
from classroom.marks.rule import Rule, Value
from classroom.marks.rule import read as read_rule
from classroom.marks.vouched import Vouched, vouched
from classroom.pages import replay

NETWORK = 9 + len(RULES) + len(DENIED)  # the column that the table for people leaves out
UNTOLD = (
    "A journal doesn't say when a line was written, nor who used a name. Denials are counted from the record.",
    "A granted move is applied when the step is closed. Before that, the command release, a fault or a change of the links may drop it.",
)


@dataclass(frozen=True)
class Recorded:
    """The verdict on a record as a line, and the counts of its lines unless the record is refused."""

    line: str
    asked: RecordCounts | None = None

    @property
    def is_refused(self) -> bool:
        """Returns whether this is the verdict on a record that was refused, rather than NONE."""
        return self.asked is None and self != NONE


NONE = Recorded("this run has no record, so requests and denials aren't known")


@dataclass(frozen=True)
class Run:
    """A journal that the audit accepts, with its lab, its tally, the pairs at its end, and the verdicts on its
    records."""

    lab_file: Path
    journal: Path
    lab: labs.Lab
    pairs: list[list[int]]
    tally: tally.Tally
    records: list[Recorded]

    @property
    def asked(self) -> RecordCounts | None:
        """Returns the counts of all records of the run together. Returns None if there is no record or one is
        refused."""
        together = RecordCounts()
        for it in self.records:
            if it.asked is None:
                return None
            together.add(it.asked)
        return together

    @property
    def network(self) -> str:
        """Returns the name of the network. If the journal is in the run's folder, it is the name of the lab with which
        the run was begun, and otherwise that of the lab's file."""
        if self.journal.name != "journal" or not (self.journal.parent / "lab.toml").is_file():
            return self.lab_file.stem
        found = folders.Record.read(self.journal.parent)
        return Path(found.lab).stem if found else self.lab_file.stem

    def is_whole(self, name: str) -> bool:
        """Returns whether the records have all lines of the student with that name."""
        asked = self.asked
        return asked is not None and name in (asked.all_of or ())

    def values(self, name: str) -> dict[str, Value]:
        """Returns the values of a student's columns, by their names."""
        return columns.row(self.tally.students[name], self.lab, name, self.network, self.denied(name), self.is_whole(name))

    def denied(self, name: str) -> list[int | None]:
        """Returns the number of lines of the student `name` that each clause denied, and of malformed lines, in the
        order of DENIED. Each is None if there is no record or one is refused."""
        asked = self.asked
        return [None if asked is None else asked.denied.get(name, Counter())[clause] for clause in DENIED]

    def by_column(self, name: str) -> dict[str, int | None]:
        """Returns how many lines of the student `name` each clause denied, and how many were malformed, by the names of
        the columns. Each number is None if there is no record or one is refused."""
        return dict(zip(DENIED, self.denied(name)))

    def table(self, rule: Rule | None = None) -> dict[str, Any]:
        """Returns the run as an object of `--json`. If a rule is given, each student also has the rule's results."""
        asked = self.asked
        students = {
            name: {
                "granted": {word: marks.granted[word] for word in RULES},
                "applied": {word: marks.applied[word] for word in RULES},
                "steps": marks.steps, "first": marks.first, "last": marks.last, "shared": marks.shared,
                **self.by_column(name), "whole": self.is_whole(name),
                **{named: self.by_column(name)[clause] for clause, named in CLAUSES.items()},
                "nodes": len(self.lab.nodes_of(name)), "network": self.network,
                **({"rule": dict(zip(rule.names, rule.values(self.values(name))))} if rule else {}),
            }
            for name, marks in self.tally.students.items()
        }
        return {
            "journal": str(self.journal), "events": self.tally.events, "configuration": self.tally.configuration,
            "stable": self.tally.stable, "pairs": self.pairs, "closes": self.tally.closes, "faults": self.tally.faults,
            "links": self.tally.links, "cuts": self.tally.cuts, "students": students,
            "shared": by_node(self.tally.shared), "asked": None if asked is None else by_node(asked.moves),
            "records": [it.line for it in self.records], "whole": asked is not None and asked.whole,
        }


def by_node(shared: dict[int, dict[str, Counter[str]]]) -> dict[str, dict[str, dict[str, int]]]:
    """Returns `shared`, the counts of moves by node, owner and rule, in the form that JSON needs: its keys are
    texts."""
    return {str(node): {name: dict(moves) for name, moves in owners.items()} for node, owners in shared.items()}


def run_of_journal(lab_file: Path, journal: Path) -> Run:
    """Returns the run of the journal of a lab, with its tally and the verdicts on its records. Raises `Fault` if the
    lab or the journal is refused, if the journal grows between its two readings here, or if `tally` and `report` of
    `mml` disagree on whether the network is stable. Also raises it as `record_verdicts` does."""
    try:
        told = tally.of(lab_file, journal)
    except Fault as fault:
        if fault.status == LAB:
            raise Fault(f"{lab_file}: {fault}" + ". Name the lab before its journals" * (journal.name != "journal"), LAB) from None
        raise Fault(refusal(journal, str(fault)), fault.status) from None
    lab = labs.read(lab_file)
    found = split(journal.read_text(encoding="ascii"))
    if len(found) != told.events:
        raise Fault(f"{journal}: this run is still going on, and its journal has just grown. End the run before you mark it", 4)
    report = replay.report(lab, found)
    if report["stable"] != told.stable:
        raise Fault(f"{journal}: two counts of mml, `tally` and `report`, disagree, which is an error of the program. Don't use these marks, "
                    "and report this error to its developers", 4)
    return Run(lab_file, journal, lab, report["pairs"], told, record_verdicts(journal))


def record_verdicts(journal: Path) -> list[Recorded]:
    """Returns the verdicts on the records in the folder of a run, which has the journal. If the journal isn't in the
    folder of a run with a record, returns only NONE, the verdict that there is no record. Raises `Fault` if a file of
    the run can't be read, or if the program can't count the lines of a record."""
    if journal.name != "journal" or not record.kept(journal.parent):
        return [NONE]
    with vouched(journal.parent) as parts:
        return [Recorded(f"{part.record.name}: {part.line}", asked_in(part)) for part in parts]


def asked_in(part: Vouched) -> RecordCounts | None:
    """Returns the counts of the lines in the record `part`, or None if the record is refused. If the record's server
    hasn't ended, the counts are marked as incomplete for all students. Raises `Fault` if the program can't count
    them."""
    asked = tally.of(part.lab, part.journal, record=part.copy).asked if part.status == 0 else None
    if asked is None or part.has_ended:
        return asked
    return replace(asked, whole=False, all_of=frozenset())


def refusal(journal: Path, error: str) -> str:
    """Returns the audit's `error` about a journal as a text. If the error names a line of the journal, that line is
    added."""
    line = re.match(r"audit: line (\d+)", error)
    if line is None:
        return f"{journal}: {error}"
    lines = journal.read_bytes().split(b"\n")
    return f"{journal}: {error}: {lines[int(line[1]) - 1].decode(errors='replace')}"


def rows(runs: list[Run], rule: Rule | None = None) -> list[list[str]]:
    """Returns the table of marks: a row of heads, and a row for each student and run. The results of a rule come after
    the marks."""
    names = rule.names if rule else []
    table = [["journal", "student", "granted", "applied", *RULES, "steps", "first", "last", "shared", *DENIED, *MORE, *names]]
    for run in runs:
        for name, marks in run.tally.students.items():
            numbers = [marks.granted.total(), marks.applied.total(), *(marks.applied[word] for word in RULES), marks.steps,
                       marks.first, marks.last, marks.shared, *run.denied(name)]
            more = [str(len(run.lab.nodes_of(name))), guarded(run.network), *(rule.cells(run.values(name)) if rule else [])]
            table.append([guarded(str(run.journal)), name, *("-" if number is None else str(number) for number in numbers), *more])
    return table


def sentence(run: Run) -> str:
    """Returns the line with the counts of a run."""
    told = run.tally
    pairs = " ".join(f"{a}-{b}" for a, b in run.pairs) or "none"
    return (f"{run.journal}: {plural(told.events, 'event')}, among them {plural(told.closes, 'closed step')}, {plural(told.faults, 'fault')}, "
            f"{plural(told.links, 'added link')} and {plural(told.cuts, 'removed link')}; last configuration: {told.configuration}, "
            f"{'stable' if told.stable else 'not stable'}; pairs: {pairs}")


def of_owner(name: str, granted: Counter[str], asked: Counter[str] | None) -> str:
    """Returns the text about the owner `name` of a shared node: `granted` has the owner's granted moves there by rule,
    and `asked` the requested ones, or None if they aren't known."""
    rules = ", ".join(f"{number} {rule}" for rule, number in granted.items() if number)
    asked_for = "" if asked is None else f" asked for {plural(asked.total(), 'move')}, and"
    return f"{name}{asked_for} got {plural(granted.total(), 'granted move')}" + (f" ({rules})" if rules else "")


def shared(run: Run) -> list[str]:
    """Returns a line for each shared node of a run at which moves were granted or asked for, with the counts of its
    owners."""
    asked = run.asked
    lines = []
    for node, owners in sorted(run.tally.shared.items()):
        there = {name: None if asked is None else asked.moves.get(node, {}).get(name, Counter()) for name in owners}
        if any(granted.total() for granted in owners.values()) or any(moves.total() for moves in there.values() if moves):
            lines.append(f"node {node}: " + "; ".join(of_owner(name, granted, there[name]) for name, granted in owners.items()))
    return lines


def text(runs: list[Run], rule: Rule | None = None) -> str:
    """Returns the marks as text for people: for each run a line about it, the verdicts on its records, its table, its
    shared nodes and its recoveries. The table has the results of the rule if one is given. At the end are the notes in
    UNTOLD. Raises `Fault` if the recoveries can't be counted."""
    lines = []
    for run in runs:
        # The columns of the journal and the network are left out, since their values are the same in each row.
        table = [[*row[1:NETWORK], *row[NETWORK + 1:]] for row in rows([run], rule)]
        table[0] = [CLAUSES.get(head, head).replace("_", " ") for head in table[0]]
        widths = [max(len(row[column]) for row in table) for column in range(len(table[0]))]
        lines += [sentence(run), *(it.line for it in run.records), *("  " + "  ".join(map(str.rjust, row, widths)) for row in table)]
        lines += [*shared(run), *recoveries(run.lab, events(run.journal.read_text(encoding="ascii"))), ""]
    return "\n".join([*lines, *UNTOLD]) + "\n"


def as_json(runs: list[Run], rule: Rule | None = None) -> str:
    """Returns all runs as one JSON document, with the results of the rule if one is given."""
    return json.dumps({"runs": [run.table(rule) for run in runs]}, indent=1) + "\n"


def mark(words: argparse.Namespace) -> int:
    """Prints the marks of all runs that the arguments name, in the chosen form, or only explains the columns. Returns
    the exit status. The status is WARNED if a record is refused, if the class list lacks a student, or if the plain
    model gets other counts (`--second`). Raises `Fault` if a run can't be marked."""
    if words.columns:
        print(columns.listing(), end="")
        return 0
    if not words.runs:
        raise Fault("mark: name the folders of runs or of classes, or a lab and its journals")
    is_total = words.total or words.roster is not None
    rule = read_rule(Path(words.rule), columns.for_rules(is_total)) if words.rule else None
    roster = lists.read(Path(words.roster), words) if words.roster else None
    given = classes.given(words.runs)
    differ = words.second and second.compare(given)
    runs = [run_of_journal(lab, journal) for lab, journal in given]
    students = [totals.Marked(run.lab, run.network, run.tally.students, run.asked) for run in runs]
    refused = [f"{run.journal}: {it.line}" for run in runs for it in run.records if it.is_refused]
    for line in refused:
        print(printable(f"class: {line}"), file=sys.stderr)
    if roster is not None:
        rows_of, left = totals.by_roster(students, roster, rule)
        totals.write(rows_of, roster.delimiter)
        for name in left:
            print(printable(f"class: {words.roster} has no row for the student {name}, so the table lacks these marks"), file=sys.stderr)
        return WARNED if left or refused or differ else 0
    if words.total:
        totals.write(totals.by_labs(students, rule))
    elif words.json:
        print(as_json(runs, rule), end="")
    elif words.csv:
        csv.writer(sys.stdout, lineterminator="\n").writerows(rows(runs, rule))
    else:
        print(text(runs, rule), end="")
    return WARNED if refused or differ else 0
