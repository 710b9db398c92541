"""`./class mark`: counts that are checked by hand, its forms, and refused journals. The *journal* of a run has its
events, and the *record* all lines and replies of its connections. A move is *granted*, and *applied* when its step is
closed. A *roster* is a list of students for which `mark` adds up their marks. Many tests use the lab
`GOOD.replace(*PAIR)`, a path of the nodes 11, 12 and 17: ana owns node 11, jonas owns 17, and both own 12."""
from __future__ import annotations

import csv
import io
import json
import re
import subprocess
import sys
import unittest
from pathlib import Path
from typing import Any
from unittest import mock

from classroom.core import lab as labs
from classroom.core import program
from classroom.core.answering import replies_to
from classroom.core.printable import printable
from classroom.core.tally import DENIED
from classroom.marks.mark import run_of_journal
from classroom.pages import replay
from model import read_lab
from tests.classroom.help import EXAMPLES, LIMIT, InRoom, call_class
from tests.classroom.test_check import GOOD, PAIR
from tests.record.recording import Recording

# For each student in three runs: the applied updates, marriages, seductions and abandonments, the number of steps that
# applied one, the places of the first and the last granted move, and the number of applied moves at shared nodes.
CYCLE = {"gus": (2, 0, 0, 1, 3, 2, 18, 0), "hana": (2, 1, 0, 1, 4, 8, 19, 0), "ines": (2, 1, 0, 1, 3, 1, 10, 0),
         "jonas": (1, 1, 0, 1, 3, 3, 11, 0)}
SHARED = {"ana": (0, 0, 2, 1, 2, 1, 18, 1), "ben": (3, 1, 2, 1, 5, 3, 16, 3), "cyd": (1, 1, 0, 0, 2, 6, 9, 0)}
PATH = {"ana": (0, 0, 1, 1, 2, 1, 9, 0), "ben": (1, 0, 1, 0, 2, 2, 6, 0), "cyd": (1, 1, 0, 0, 2, 4, 7, 0)}
BUILT_IN = """events = 100
sessions = 4
links = [[1, 2], [2, 3]]
teacher = { name = "tess", key = "chalk" }
student = [{ name = "ana", key = "a-key" }, { name = "ben", key = "b-key" }, { name = "cyd", key = "c-key" }]
node = [{ id = 1, owner = "ana" }, { id = 2, owner = "ben" }, { id = 3, owner = "cyd" }]
"""


class Mark(InRoom):
    """Journals that scripts make."""

    def journal(self, lab: Path, script: Path) -> Path:
        """Runs a script, a file of requests, with this lab. Writes the run's journal, and returns its path. Fails if
        the program does."""
        path = self.room / f"{script.stem}.journal"
        answer = program.call("script", lab, script, path)
        self.assertEqual(answer.status, 0, answer.error)
        return path

    def marks(self, lab: Path, *journals: Path) -> list[dict[str, Any]]:
        """Returns the runs in the output of `./class mark --json` for this lab and these journals. Fails if the command
        does."""
        done = call_class("mark", "--json", lab, *journals)
        self.assertEqual(done.returncode, 0, done.stderr)
        runs: list[dict[str, Any]] = json.loads(done.stdout)["runs"]
        return runs

    def test_the_marks_of_three_runs_are_those_that_were_counted_by_hand(self) -> None:
        """In these runs all granted moves were applied."""
        built_in = self.file("built-in.toml", BUILT_IN)
        cases = (
            (EXAMPLES / "cycle.toml", self.journal(EXAMPLES / "cycle.toml", EXAMPLES / "cycle-run.script"), CYCLE,
             [[2, 3], [4, 5], [6, 7]], (20, 6, 6)),
            (EXAMPLES / "shared.toml", self.journal(EXAMPLES / "shared.toml", EXAMPLES / "shared-run.script"), SHARED,
             [[2, 3], [4, 5]], (19, 7, 7)),
            (built_in, EXAMPLES / "whole-run.journal", PATH, [[2, 3]], (10, 4, 4)),
        )
        for lab, journal, wanted, pairs, (events, configuration, closes) in cases:
            run, = self.marks(lab, journal)
            self.assertEqual(run["pairs"], pairs)
            self.assertEqual((run["events"], run["configuration"], run["closes"], run["stable"]),
                             (events, configuration, closes, True))
            found = {
                name: (*(it["applied"][rule] for rule in ("update", "marriage", "seduction", "abandonment")),
                       it["steps"], it["first"], it["last"], it["shared"])
                for name, it in run["students"].items()
            }
            self.assertEqual(found, wanted)
            self.assertTrue(all(it["granted"] == it["applied"] for it in run["students"].values()))

    def test_moves_that_are_released_or_dropped_by_a_fault_are_granted_but_not_applied(self) -> None:
        """Ana's first move is released. The fault at node 11 drops the marriage that jonas has chosen, since a fault
        drops all chosen moves. The move of jonas at node 12 is also counted there, as a move at a shared node."""
        lab = self.file("lab.toml", GOOD.replace(*PAIR))
        journal = self.file("journal", "1 0 grant ana 11 seduction\n2 0 release 11\n3 0 grant ana 11 seduction\n"
                                       "4 0 grant jonas 12 seduction\n5 0 close\n6 1 grant jonas 17 marriage 12\n"
                                       "7 1 fault 11 - false\n8 2 cut 11 12\n9 3 link 12 11\n")
        run, = self.marks(lab, journal)
        ana, jonas = run["students"]["ana"], run["students"]["jonas"]
        self.assertEqual((ana["granted"]["seduction"], ana["applied"]["seduction"], ana["shared"], ana["steps"]), (2, 1, 0, 1))
        self.assertEqual((jonas["granted"]["marriage"], jonas["applied"]["marriage"], jonas["last"]), (1, 0, 6))
        self.assertEqual((jonas["applied"]["seduction"], jonas["shared"]), (1, 1))
        self.assertEqual((run["closes"], run["faults"], run["links"], run["cuts"], run["stable"]), (1, 1, 1, 1, False))
        none = {"update": 0, "marriage": 0, "seduction": 0, "abandonment": 0}
        owners, = (it for it in run["shared"].values() if "jonas" in it)
        self.assertEqual({name: granted for name, granted in owners.items() if name == "jonas"}, {"jonas": none | {"seduction": 1}})
        said = call_class("mark", lab, journal).stdout
        self.assertEqual(len(re.findall(r"(?m)^node \d+: .*jonas got 1 granted move \(1 seduction\)", said)), 1, said)

    def test_a_student_without_moves_and_without_a_record_has_zeros_and_nulls(self) -> None:
        run, = self.marks(self.file("lab.toml", GOOD.replace(*PAIR)), self.file("journal", ""))
        none = {"update": 0, "marriage": 0, "seduction": 0, "abandonment": 0}
        self.assertEqual(run["students"]["jonas"],
                         {"granted": none, "applied": none, "steps": 0, "first": None, "last": None, "shared": 0, "whole": False, "nodes": 2, "network": "lab",
                          **dict.fromkeys((*DENIED, "access_denials", "stale_denials", "chosen_denials", "guard_denials"))})

    def test_each_of_30_000_events_is_counted(self) -> None:
        """Each second event is a fault. The events between them remove the link of the nodes 11 and 12 and add it
        again, in turn."""
        lab = self.file("lab.toml", GOOD.replace(*PAIR).replace("events = 1000", "events = 100000"))
        lines = [f"{2 * k + 1} {2 * k} {'cut' if k % 2 == 0 else 'link'} 11 12\n{2 * k + 2} {2 * k + 1} fault 12 17 true\n"
                 for k in range(15_000)]
        run, = self.marks(lab, self.file("journal", "".join(lines)))
        self.assertEqual((run["events"], run["links"], run["cuts"], run["faults"]), (30_000, 7_500, 7_500, 15_000))

    def test_a_run_isn_t_marked_if_replies_to_its_replayed_events_differ_from_its_journal(self) -> None:
        """`mark` replays the journal: it asks the program for the same events again. Here one reply is changed on its
        way."""
        lab = self.file("lab.toml", GOOD.replace(*PAIR))
        journal = self.file("journal", "1 0 grant ana 11 seduction\n2 0 close\n")
        self.assertEqual(run_of_journal(lab, journal).tally.events, 2)
        for old, new, error in (
            ('"ok":"move"', '"deny":"guard"', '"rule":"seduction"} by {"at":0,'),
            ('"place":2', '"place":3', "the program counted its event 2 as event 3"),
            ('"stable":false', '"stable":true', "`tally` and `report`, disagree"),
        ):
            def another(made: labs.Lab, script: list[str]) -> str:
                """Returns the program's replies with `old`, which they have once, replaced by `new`."""
                replies = replies_to(made, script)
                self.assertEqual(replies.count(old), 1)
                return replies.replace(old, new)

            with mock.patch.object(replay, "replies_to", another), self.assertRaises(program.Fault) as fault:
                run_of_journal(lab, journal)
            self.assertIn(error, str(fault.exception))

    def test_illegal_journals_arguments_in_the_wrong_order_and_missing_files_are_refused(self) -> None:
        """So is a folder without a run."""
        lab = self.file("lab.toml", GOOD.replace(*PAIR))
        done = call_class("mark", lab, self.file("journal", "1 0 grant jonas 11 seduction\n"))
        self.assertEqual(done.returncode, 3)
        self.assertIn("audit: line 1: illegal, not-owner: 1 0 grant jonas 11 seduction", done.stderr)
        done = call_class("mark", self.file("journal", "1 0 close\n"), lab)
        self.assertEqual((done.returncode, done.stderr),
                         (2, f"class: {self.room / 'journal'}: lab: not a TOML document. Name the lab before its journals\n"))
        folder = self.room / "empty"
        folder.mkdir()
        self.assertEqual(call_class("mark", folder).returncode, 1)
        self.assertEqual(call_class("mark", lab, self.room / "none").returncode, 4)

    def test_with_total_each_person_has_a_row_with_the_marks_of_all_runs_together(self) -> None:
        """The table has the columns of the roster, and keeps its rows without a person. A person is found in another
        roster by the identifier. A missing row is reported."""
        students = self.file("class.csv", 'Student;SIS User ID;Section\nPoints Possible;;\n"Müller, Zoë";s1;A\nBen;s2;B\nEva;s3;B\n')
        made = call_class("new", self.room / "lab.toml", "--students", students, "--family", "path", "--groups", "1", "--nodes", "3")
        self.assertEqual(made.returncode, 0, made.stderr)
        lab = self.room / "lab.toml"
        one = self.file("one", "1 0 grant zoe-mueller 1 seduction\n2 0 close\n3 1 grant ben 2 marriage 1\n4 1 close\n")
        two = self.file("two", "1 0 grant zoe-mueller 1 seduction\n2 0 release 1\n")
        done = call_class("mark", lab, one, two, "--roster", students, "--total")
        self.assertEqual((done.returncode, done.stderr), (0, ""))
        self.assertEqual(done.stdout.splitlines(), [
            "Student;SIS User ID;Section;granted;applied;update;marriage;seduction;abandonment;steps;shared;runs;"
            "clause1;clause2;clause3;clause4;malformed;recorded;nodes;network",
            "Points Possible;;;;;;;;;;;;;;;;;;;", "Müller, Zoë;s1;A;2;1;0;0;1;0;1;0;2;0;0;0;0;0;0;2;lab",
            "Ben;s2;B;1;1;0;1;0;0;1;0;2;0;0;0;0;0;0;2;lab",
            "Eva;s3;B;0;0;0;0;0;0;0;0;2;0;0;0;0;0;0;2;lab",
        ])
        shorter = self.file("shorter.csv", "Name,ID\nZoë M.,s1\nBen,s2\nNew,s9\n")
        done = call_class("mark", lab, one, "--roster", shorter)
        self.assertEqual((done.returncode, done.stderr), (5, f"class: {shorter} has no row for the student Eva, so the table lacks these marks\n"))
        self.assertEqual([line.split(",")[:3] for line in done.stdout.splitlines()[1:]], [["Zoë M.", "s1", "1"], ["Ben", "s2", "1"], ["New", "s9", "0"]])
        self.assertEqual(call_class("mark", lab, one, two, "--total").stdout.splitlines()[1], '"Müller, Zoë",s1,2,1,0,0,1,0,1,0,2,0,0,0,0,0,0,2,lab')

    def recorded(self) -> Path:
        """Makes the folder of a run with a record, and returns it. In this run ana's first hello, with a wrong key, is
        denied. Then she is denied a move at the node of another student, and is granted one at her own node. The
        teacher closes the step."""
        folder = self.room / "run"
        (folder / "record").mkdir(parents=True)
        run = Recording(read_lab(BUILT_IN.encode()))
        for seat, line in ((1, b'{"do":"hello","name":"ana","key":"wrong"}'), (1, b'{"do":"hello","name":"ana","key":"a-key"}'),
                           (1, b'{"do":"move","node":2,"rule":"seduction","at":0}'), (1, b'{"do":"move","node":1,"rule":"seduction","at":0}'),
                           (2, b'{"do":"hello","name":"tess","key":"chalk"}'), (2, b'{"do":"close"}'), (2, b'{"do":"bye"}')):
            run.answer(seat, line)
        run.leave(1)
        (folder / "lab.toml").write_text(BUILT_IN, encoding="ascii")
        (folder / "record" / "lab").write_text(BUILT_IN, encoding="ascii")
        (folder / "record" / "begun").write_text("0\n", encoding="ascii")
        (folder / "journal").write_bytes(run.journal)
        for number, text in run.texts.items():
            (folder / "record" / f"{number}.record").write_bytes(text)
        return folder

    def test_with_second_the_plain_model_counts_too_and_a_different_count_is_reported(self) -> None:
        """The marks are printed nevertheless."""
        folder = self.recorded()
        first = call_class("mark", folder)
        self.assertEqual((first.returncode, first.stderr), (0, ""))
        done = call_class("mark", "--second", folder)
        self.assertEqual((done.returncode, done.stderr), (0, "class: the plain model gets the same counts\n"))
        self.assertEqual(done.stdout, first.stdout)
        # Programs whose output differs in one line, and how the difference is reported.
        for other, of, told in (
            ("s/^student ana 0 0 1/student ana 0 0 2/", "journal", "the two programs disagree about `tally`: mml prints 'student ana 0 0 2 "),
            ("s/^denied ana 1/denied ana 2/", "record", "the two programs disagree about `tally`: mml prints 'denied ana 2 "),
            ("s/, 7 lines/, 8 lines/", "record", "the two programs disagree about `verify`: mml prints 'ok: 2 sessions, 8 lines, 2 events', "
                                                 "and the plain model prints 'ok: 2 sessions, 7 lines, 2 events'. One of them has an error: "
                                                 "report this to the developers\n"),
        ):
            lying = self.file("lying", f"#!/bin/sh\n{program.host()} \"$@\" | sed '{other}'\n")
            lying.chmod(0o755)
            done = call_class("mark", "--second", "--json", folder, MML_HOST=str(lying))
            self.assertEqual(done.returncode, 5, done.stderr)
            self.assertIn(f"class: {folder / of}: {told}", done.stderr)
            self.assertEqual(len(json.loads(done.stdout)["runs"]), 1)

    def test_students_with_unprintable_letters_in_their_names_are_found_in_the_roster(self) -> None:
        """`new` prints such letters in an escaped form, and writes them into the lab so that each character there is
        printable. `mark` finds the students in two rosters, of which the second one lacks the fourth student, and in a
        lab of version 1.0.0, which has the letters in the form in which they are printed. The first and the third
        student are granted a move each."""
        names = ["Zoë\u00a0Müller", "می\u200cخواهم", "क्\u200dष", "Ben\x7f \"B\" \\ \u2028"]
        # The first two students also have IDs, with letters of this kind.
        students = self.file("class.csv", "Name,ID\n" + "".join(
            '"{}",{}\n'.format(name.replace('"', '""'), f"\u00a0s\u200d{number}" if number < 2 else "") for number, name in enumerate(names)))
        lab = self.room / "lab.toml"
        made = call_class("new", lab, "--students", students, "--family", "path")
        self.assertEqual(made.returncode, 0, made.stderr)
        table = made.stdout.split("\n\n")[1].split("\n")  # The students' table is the second paragraph.
        self.assertRegex(table[1], r"^Zoë\\xa0Müller \(s\\u200d0\) +zoe-mueller +lab +1$")
        # The names of the network, `lab`, are below the head of their column.
        self.assertEqual({line.index("lab ") for line in table[1:]}, {table[0].index("network ")})
        self.assertTrue(all(map(str.isprintable, lab.read_text(encoding="utf-8").split("\n"))))
        people = labs.read(lab).people
        self.assertEqual([person.written for person in people.values()], [name.strip() for name in names])
        # The second grant is at node 3, since the third student owns this node.
        journal = self.file("journal", "".join(f"{place} 0 grant {name} {place} seduction\n" for place, name in enumerate(list(people)[::2], 1))
                            .replace(" 2 seduction", " 3 seduction"))
        for roster, more in ((students, ()), (self.file("names", "\n".join(names[:3]) + "\n"), ("--total",))):
            done = call_class("mark", lab, journal, "--roster", roster, *more)
            lacks = f"class: {roster} has no row for the student {printable(names[3].strip())}, so the table lacks these marks\n"
            self.assertEqual(done.stderr, lacks if more else "")
            rows = list(csv.reader(io.StringIO(done.stdout)))
            granted = rows[0].index("granted")
            self.assertEqual([(row[0], row[granted]) for row in rows[1:]], [*zip(names, ("1", "0", "1", "0"))][:len(rows) - 1])
        totals = list(csv.reader(io.StringIO(call_class("mark", lab, journal, "--total").stdout)))
        self.assertEqual([row[0] for row in totals[1:]], [name.strip() for name in names])
        older = lab.read_text(encoding="utf-8").replace("\\u00a0", "\\\\xa0").replace("\\u200", "\\\\u200")
        old = self.file("old.toml", older)
        done = call_class("mark", old, journal, "--roster", students)
        self.assertEqual((done.returncode, done.stderr), (0, ""))
        self.assertEqual([row.split(",")[2] for row in done.stdout.splitlines()[1:3]], ["1", "0"])

    def test_cells_that_a_spreadsheet_would_take_for_formulas_begin_with_an_apostrophe(self) -> None:
        """Such cells have names of students, also of a roster without columns, or the name of a journal."""
        students = self.file("names.csv", "Name\n=1+1\n@cmd\n+49\n-2\n")
        lab = self.room / "lab.toml"
        self.assertEqual(call_class("new", lab, "--students", students, "--family", "path").returncode, 0)
        journal = self.file("=1+1", "")
        done = subprocess.run([sys.executable, program.TOP / "class", "mark", "--csv", lab, journal.name], cwd=self.room,
                              capture_output=True, text=True, check=False, timeout=LIMIT)
        self.assertEqual([row[0] for row in csv.reader(io.StringIO(done.stdout))], ["journal", *["'=1+1"] * 4], done.stderr)
        heads, *rows = csv.reader(io.StringIO(call_class("mark", "--total", lab, journal).stdout))
        self.assertEqual([row[0] for row in rows], ["'=1+1", "'@cmd", "'+49", "'-2"])
        plain = self.file("names", "=1+1\n@cmd\n+49\n-2\n")
        heads, *rows = csv.reader(io.StringIO(call_class("mark", "--total", "--roster", plain, lab, journal).stdout))
        self.assertEqual([row[0] for row in rows], ["'=1+1", "'@cmd", "'+49", "'-2"])

    def test_a_roster_with_a_cell_that_is_too_long_is_refused_with_its_line(self) -> None:
        roster = self.file("roster.csv", f"Name\nAna\n{'B' * 131_073}\n")  # One character more than Python's csv reads.
        for done in (call_class("new", self.room / "lab.toml", "--students", roster),
                     call_class("mark", self.file("lab.toml", BUILT_IN), self.file("journal", ""), "--roster", roster)):
            self.assertEqual((done.returncode, done.stdout), (1, ""))
            self.assertEqual(done.stderr, f"class: {roster}: line 3 isn't CSV: field larger than field limit (131072)\n")

    def test_csv_has_a_row_for_each_student_and_the_text_says_what_a_journal_lacks(self) -> None:
        lab = self.file("lab.toml", GOOD.replace(*PAIR))
        journal = self.file("journal", "1 0 grant ana 11 seduction\n2 0 close\n")
        rows = list(csv.reader(io.StringIO(call_class("mark", "--csv", lab, journal).stdout)))
        self.assertEqual([row[1:4] for row in rows], [["student", "granted", "applied"], ["ana", "1", "1"], ["jonas", "0", "0"]])
        self.assertIn("A journal doesn't say when a line was written", call_class("mark", lab, journal).stdout)


if __name__ == "__main__":
    unittest.main()
