"""The limits that `./class` reads from the program, and what it does without them."""
from __future__ import annotations

import os
import re
import shlex
import tomllib
import unittest
import unittest.mock
from dataclasses import astuple, fields
from pathlib import Path
from types import SimpleNamespace
from typing import Any

from classroom.core import limits
from classroom.core.program import Fault
from classroom.core.statuses import FAILED
from classroom.run.announcing import Announcer
from tests.classroom.help import InRoom, call_class
from tests.common.limits import LIMITS, MOST, TEXT

BEGIN = "the program mml is of another version than ./class: `mml limits` prints "
SESSIONS = f"sessions {MOST['sessions']} count"  # a line that the program prints


class Reads(unittest.TestCase):
    """Texts that a program may print as its limits. TEXT is what `mml limits` prints."""

    def refuses(self, text: str, what: str) -> None:
        """Checks that reading this text raises the fault about `what`."""
        with self.assertRaises(Fault) as raised:
            limits.parsed(text)
        self.assertEqual((str(raised.exception), raised.exception.status), (f"{BEGIN}{what}. Type `./mml build` to build the present version", FAILED))

    def test_each_limit_is_read_from_its_line(self) -> None:
        """Of the sessions, one is for the teacher, and the others are the students' seats."""
        found = limits.parsed(TEXT)
        self.assertEqual(astuple(found), tuple(MOST.values()))
        self.assertEqual([it.name for it in fields(found)], [name.replace("-", "_") for name in LIMITS])
        self.assertEqual(found.seats, MOST["sessions"] - 1)
        self.assertEqual(limits.UNIT_OF, {name: unit for name, (_, unit) in LIMITS.items()})

    def test_lines_may_be_in_any_order_and_lines_with_other_names_are_ignored(self) -> None:
        """A later version may print more limits, of other units too."""
        lines = TEXT.splitlines()
        self.assertEqual(limits.parsed("\n".join(["colours 3 kinds", *lines[::-1], ""])), limits.parsed(TEXT))

    def test_a_text_without_one_of_the_lines_is_refused(self) -> None:
        """So is a text whose last line has no end."""
        lines = TEXT.splitlines()
        for index, name in enumerate(LIMITS):
            self.refuses("".join(f"{line}\n" for line in lines[:index] + lines[index + 1:]), f"no line {name}")
        self.refuses("", "no line nodes")
        self.refuses(TEXT[:-1], "no line write")

    def test_a_number_in_another_form_or_of_more_than_19_digits_is_refused(self) -> None:
        for number in ("", "0", "-16", "+16", "016", "16.0", "1e2", "16 ", "0x10", "sixteen", "١٦", "16_000", "9" * 20):
            line = f"sessions {number} count"
            self.refuses(TEXT.replace(SESSIONS, line), f"the unknown line {line!r}")

    def test_a_line_in_another_form_with_another_unit_or_with_a_repeated_name_is_refused(self) -> None:
        for line in ("", " ", "sessions", "sessions 16", "sessions 16 seconds", "sessions 16 count more", "Sessions 16 count", "sessions  16 count",
                     "sessions 16 count\r", "nodes 256 count"):
            self.refuses(TEXT.replace(SESSIONS, line), f"the unknown line {line!r}")


class Asks(InRoom):
    """Calls of a program that prints its limits. A shell script takes its place."""

    def setUp(self) -> None:
        """Forgets the limits that this process has read, before the test and after it."""
        super().setUp()
        self.addCleanup(limits.allowed.cache_clear)
        limits.allowed.cache_clear()

    def program(self, name: str, text: str, status: int = 0) -> str:
        """Writes a program that prints this text as its limits and then exits with `status`. It accepts each lab, and
        appends its first argument to the file `calls`. Returns its path."""
        note = shlex.quote(str(self.room / "calls"))
        path = self.file(name, f"""#!/bin/sh
            echo "$1" >> {note}
            [ "$1" = limits ] || exec echo "ok: 9 nodes, 9 students"
            printf %s {shlex.quote(text)}
            exit {status}
        """)
        path.chmod(0o755)
        return str(path)

    def test_the_program_is_called_only_for_the_first_of_several_requests(self) -> None:
        with unittest.mock.patch.dict(os.environ, {"MML_HOST": self.program("host", TEXT)}):
            self.assertEqual((limits.allowed(), limits.allowed(), limits.known()), (limits.parsed(TEXT),) * 3)
        self.assertEqual((self.room / "calls").read_text(encoding="utf-8"), "limits\n")

    def test_if_the_program_is_missing_prints_nothing_or_fails_no_limit_is_known(self) -> None:
        """`known` returns None then, and `allowed` raises a fault."""
        for path, what in ((str(self.room / "none"), "the program mml isn't built. "), (self.program("silent", ""), f"{BEGIN}no line nodes. "),
                           (self.program("failing", TEXT, 1), f"{BEGIN}nothing. ")):
            with unittest.mock.patch.dict(os.environ, {"MML_HOST": path}):
                self.assertIsNone(limits.known())
                with self.assertRaisesRegex(Fault, f"^{what}"):
                    limits.allowed()

    def test_new_and_experiment_obey_the_limits_that_the_program_prints(self) -> None:
        """The program prints smaller limits than usual. Nine students in one room need three labs of four students at
        most, since one of five sessions is the teacher's. The labs get the students in turn. Names are cut to four
        characters, with a number if the name is taken."""
        text = TEXT
        for name, most in (("nodes", 9), ("sessions", 5), ("events", 500), ("name", 4), ("identifier", 99)):
            text = re.sub(rf"(?m)^{name} \d+", f"{name} {most}", text)
        it = self.program("it", text)
        table = self.file("table.csv", "Name,Room\n" + "".join(f"student{number},A\n" for number in range(9)))
        links = self.file("links", "1 100\n")
        cases: tuple[tuple[list[str | Path], int, str], ...] = (
            (["new", self.room / "it.toml", "--students", table, "--groups-by", "Room"], 0, "it-3.toml: 9 nodes"),
            (["new", self.room / "more.toml", "--students", table, "--nodes", "10"], 1,
             "class: this network would have 10 nodes, but a lab can have 1 to 9. Choose a network of another size\n"),
            (["new", self.room / "far.toml", "--students", table, "--links", links], 1,
             f"class: {links}: line 1 is wrong: 1 100 (the number of a node has to be from 1 to 99)\n"),
            (["experiment", "--nodes", "4..10"], 1, "4..10: write a number of nodes, A..B or A..B/STEP, with numbers from 1 to 9;"),
        )
        for given, status, what in cases:
            done = call_class(*given, MML_HOST=it, MML_PROGRAM=it)
            self.assertEqual(done.returncode, status, done.stderr)
            self.assertIn(what, done.stdout + done.stderr)
        made = tomllib.loads((self.room / "it-1.toml").read_text(encoding="utf-8"))
        self.assertEqual((made["sessions"], made["events"]), (5, 500))
        self.assertEqual([each["name"] for each in made["student"]], ["stud", "st-4", "st-7"])
        self.assertFalse((self.room / "it-4.toml").exists())

    def test_the_remedy_for_a_full_lab_names_the_limit_of_events_if_it_is_known(self) -> None:
        """A lab is full if its run has as many events as the lab allows. With the greatest number that a lab can have,
        the only remedy is a new lab."""
        most, go_on = MOST["events"], ". Raise `events` in here/lab.toml"
        for path, events, said in ((self.program("host", TEXT), most - 1, f"{go_on} (to at most {most}), and then continue the run by resume --again"),
                                   (self.program("host", TEXT), most, ". No lab can allow more, so continue with a new lab"),
                                   (str(self.room / "none"), most, f"{go_on}, and then continue the run by resume --again")):
            limits.allowed.cache_clear()
            run: Any = SimpleNamespace(lab=SimpleNamespace(events=events), folder="here", go_on="resume")
            with unittest.mock.patch.dict(os.environ, {"MML_HOST": path}):
                self.assertEqual(Announcer.why_full(run), said)


if __name__ == "__main__":
    unittest.main()
