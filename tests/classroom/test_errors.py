"""Failures while bots are tried: full disks, missing labs, no browser, programs that misbehave. Grading has *records*,
the folders with the files of its cases, and *tables*, files with the results."""
from __future__ import annotations

import argparse
import json
import os
import shutil
import subprocess
import sys
import threading
import unittest
import unittest.mock
from pathlib import Path

from classroom.bots import grade, suites
from classroom.bots.bots import Bot
from classroom.core.program import TOP
from tests.classroom.help import CLASS, EXAMPLES, LIMIT, InRoom, call_class
from tests.classroom.leaving import Leaving

# A command of a shell that mounts a disk at $1, fills it, and then runs the other words.
FULL = 'mount -t tmpfs -o size=64k none "$1" && head -c 1000000 /dev/zero > "$1/filler" 2> /dev/null; shift; exec "$@"'


def full_disk(test: InRoom) -> tuple[Path, tuple[str, ...]]:
    """Makes a folder. Returns it, and the words to put before a call, so that in this call the folder is a full disk.
    Skips the test if nothing can be mounted."""
    disk = test.room / "disk"
    disk.mkdir()
    for way in (["unshare", "-m"], ["unshare", "-rm"]):
        before = (*way, "sh", "-c", FULL, "sh", str(disk))
        if shutil.which("unshare") and subprocess.run([*before, "mountpoint", "-q", disk], check=False, stderr=subprocess.DEVNULL).returncode == 0:
            return disk, before
    test.skipTest("not tried: a full disk, since nothing can be mounted")


class Disks(InRoom):
    """Records and tables for which there is no room."""

    def setUp(self) -> None:
        """Makes a folder with a single lab."""
        super().setUp()
        (self.room / "labs").mkdir()
        shutil.copy(EXAMPLES / "path.toml", self.room / "labs")

    def grades(self, before: tuple[str, ...], *more: str | Path) -> subprocess.CompletedProcess[str]:
        """Grades a correct bot and one that doesn't exist, each in one case. `before` are words before the call, and
        `more` further options. Returns the result of the call."""
        given = ("grade", EXAMPLES / "bot.py", "no-such-bot", "--labs", self.room / "labs", "--daemon", "synchronous", "--timeout", "100")
        call: list[str | Path] = [*before, sys.executable, TOP / "class", *given, *more]
        return subprocess.run(call, stdin=subprocess.DEVNULL, capture_output=True, text=True, check=False, timeout=LIMIT)

    def test_results_are_printed_although_records_do_not_fit_on_the_disk(self) -> None:
        disk, before = full_disk(self)
        table = self.room / "cases.json"
        done = self.grades(before, "--into", disk, "--json", table)
        self.assertEqual(done.returncode, 5, done.stdout + done.stderr)
        self.assertRegex(done.stdout, "(?m)^class: .*: the record of this case can't be written: No space left on device; name another folder by --into$")
        self.assertIn("bot.py: 1 of 1 cases passed\nno-such-bot: not tried: the bot can't be started\n", done.stdout)
        self.assertEqual([each["passed"] for each in json.loads(table.read_text(encoding="utf-8"))], [True, False])

    def test_a_table_is_written_although_another_one_does_not_fit_on_its_disk(self) -> None:
        disk, before = full_disk(self)
        junit = self.room / "cases.xml"
        done = self.grades(before, "--into", self.room / "grades", "--json", disk / "cases.json", "--junit", junit)
        self.assertEqual(done.returncode, 4, done.stdout + done.stderr)
        self.assertIn(f"class: {disk}/cases.json: No space left on device; nothing was written to this file: make room on the disk, or name another "
                      "file\n", done.stdout)
        self.assertIn("bot.py: 1 of 1 cases passed\n", done.stdout)
        self.assertIn("</testsuites>", junit.read_text(encoding="utf-8"))

    def test_an_experiment_names_the_file_that_does_not_fit_and_how_to_continue(self) -> None:
        """First the table is on the full disk, and then the chart. In the latter case, all runs are made."""
        disk, before = full_disk(self)
        call: list[str | Path] = [*before, sys.executable, TOP / "class", "experiment", "--family", "path", "--nodes", "4", "--runs", "2"]
        rows: tuple[tuple[tuple[str | Path, ...], str], ...] = (
            (("--csv", disk / "runs.csv"), "runs.csv: No space left on device; make room on the disk and run the same command again to continue this table, or "
                                           "name another file by --csv to begin a new table"),
            (("--csv", self.room / "runs.csv", "--plot", disk / "runs.svg"), "runs.svg: No space left on device; make room on the disk and run the same "
                                                                             "command again, or name another file by --plot"),
        )
        for given, why in rows:
            done = subprocess.run([*call, *given], capture_output=True, text=True, check=False, timeout=LIMIT)
            self.assertEqual((done.returncode, done.stderr.count("\n")), (4, 1), done.stderr)
            self.assertIn(f"class: {disk}/{why}", done.stderr)
        self.assertIn("4 of 4 runs are done, all within the proved bounds", done.stdout)
        self.assertEqual(len((self.room / "runs.csv").read_text(encoding="utf-8").splitlines()), 5)

    def test_practise_on_a_full_disk_suggests_another_folder(self) -> None:
        disk, before = full_disk(self)
        done = subprocess.run([*before, sys.executable, TOP / "class", "practise", EXAMPLES / "bot.py", "--into", disk],
                              capture_output=True, text=True, check=False, timeout=LIMIT)
        self.assertEqual((done.returncode, done.stderr.count("\n")), (4, 1), done.stderr)
        self.assertRegex(done.stderr, f"^class: {disk}/2.*-practise: No space left on device; name another folder by --into$")

    def test_a_bot_whose_slip_can_not_be_written_is_not_tried(self) -> None:
        """Here each attempt to write a text fails, as on a full disk. Both bots get a result with the reason."""
        told = argparse.Namespace(timeout=20.0, memory=512, own_rule=False, at_once=2)
        plan = suites.SMALL[0]
        case = suites.planned(plan, 1, plan.daemon)
        with unittest.mock.patch.object(Path, "write_text", side_effect=OSError(28, "No space left on device", "/tmp/slip")):
            found = list(grade.results_of([Bot.of("true"), Bot.of("false")], [case], told, self.room, threading.Event()))
        self.assertEqual([result.why for result in found],
                         ["this case wasn't tried: /tmp/slip: No space left on device; name another folder for temporary files by the environment "
                          "variable TMPDIR"] * 2)
        self.assertFalse(any(result.passed for result in found))


class AtHome(Leaving):
    """Programs that misbehave while a student practises."""

    def practises(self, bot: str, seconds: str = "3") -> str:
        """Practises with a bot that hangs or ends. The run is given up if nothing happens for `seconds` seconds.
        Returns the output, and fails if the status isn't 5."""
        done = call_class("practise", bot, "--family", "path", "--nodes", "3", "--start", "clean", "--daemon", "synchronous", "--timeout", seconds,
                          "--into", self.room / "runs")
        self.assertEqual(done.returncode, 5, done.stdout + done.stderr)
        self.assertRegex(done.stdout, r"(?m)^page: .*/run.html; all lines and replies: .*/conversation.txt$")
        return done.stdout

    def test_practise_says_that_a_bot_sent_bytes_or_that_nothing_has_happened(self) -> None:
        self.assertIn("\nyou: a line is refused as malformed: the line isn't UTF-8 at byte 1; the line is \\x80\\x81",
                      self.practises(f"python3 {self.faulty} binary", "15"))
        for fault in ("pretends", "hangs"):
            self.assertRegex(self.practises(f"python3 {self.faulty} {fault}"),
                             r"(?m)^the run is given up, since nothing has happened for 3 seconds; it waits for \w+ at node 1 \(")

    def test_when_practise_has_ended_no_process_of_the_bot_is_left(self) -> None:
        """The bot starts a program in a session of its own, and ends."""
        told = self.practises(f"python3 {self.faulty} forks", str(LIMIT))
        self.assertIn("\nyou: the bot ended by itself, with status 0\n", told)
        self.check_nothing_left()

    def test_practise_needs_no_browser(self) -> None:
        """In this environment no browser is found, and the page is written into its file all the same."""
        (self.room / "bin").mkdir()
        (self.room / "bin/python3").symlink_to(sys.executable)
        done = call_class("practise", EXAMPLES / "bot.py", "--nodes", "4", "--into", self.room / "runs", PATH=str(self.room / "bin"),
                          BROWSER="/no/such/browser", DISPLAY="")
        self.assertEqual((done.returncode, done.stderr.count("rror")), (0, 0), done.stdout + done.stderr)
        page = next(line for line in done.stdout.splitlines() if line.startswith("page: ")).removeprefix("page: ").partition(";")[0]
        self.assertIn("</html>", Path(page).read_text(encoding="utf-8"))


class Folders(InRoom):
    """Folders without correct labs."""

    def test_for_a_missing_folder_no_labs_or_a_wrong_one_a_line_says_what_to_do(self) -> None:
        """The status is 4 if the folder can't be read, and 2 if it has no lab or a lab is refused. Nothing is
        graded."""
        (self.room / "empty").mkdir()
        (self.room / "wrong").mkdir()
        (self.room / "wrong/one.toml").write_bytes(os.urandom(50))
        rows = (
            ("none", 4, "none: No such file or directory; --labs has to name a folder with labs, which are files NAME.toml"),
            ("empty", 2, "empty: this folder has no labs, which are files NAME.toml; ./class new makes them"),
            ("wrong", 2, f"one.toml: the lab is refused (lab: not a TOML document). Type `{CLASS} check"),
        )
        for name, status, why in rows:
            done = call_class("grade", EXAMPLES / "bot.py", "--labs", self.room / name, "--into", self.room / "grades")
            self.assertEqual(done.returncode, status, done.stderr)
            self.assertEqual(done.stderr.count("\n"), 1)
            self.assertIn(why, done.stderr)
        self.assertFalse((self.room / "grades").exists())


if __name__ == "__main__":
    unittest.main()
