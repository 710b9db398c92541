"""A class of several networks: one desk, at which the teacher types commands for all of them, one folder, and a server
(host) for each network, whose end the other networks don't notice."""
from __future__ import annotations

import json
import os
import re
import signal
import unittest
from dataclasses import replace
from datetime import datetime
from pathlib import Path

from classroom.client import Client
from classroom.core import lab as labs
from classroom.core.class_state import NetworkState
from classroom.core.classes import Class, Network, name_of
from classroom.core.program import host
from classroom.run.addressed import addressed
from classroom.run.member import DIED, Member, News
from classroom.run.network_table import now_table, start_table
from classroom.run.several import Several, write_class
from tests.classroom.help import CLASS, LIMIT, InRoom, a_port, call_class, wait_until
from tests.classroom.several import Classes, GoingClass
from tests.common.limits import MOST

NAMES = ["maths-1", "maths-2", "close"]


class Lines(unittest.TestCase):
    """Lines that are typed at the desk of a class, the tables that it prints, and the name of a class."""

    def test_a_typed_line_is_for_the_networks_that_it_names(self) -> None:
        """A line names a network by its number or name, before or after a command. A line without a name is for all
        networks. The third network is called `close`, like a command, which comes first."""
        every = [0, 1, 2]
        for line, indices, rest in (
            ("2 close", [1], "close"), ("2: close", [1], "close"), ("2:close", [1], "close"), ("maths-2 close", [1], "close"),
            ("maths-2: fault 4 - true", [1], "fault 4 - true"), ("all close", every, "close"), ("all: shake all", every, "shake all"),
            ("close", every, "close"), ("close 2", [1], "close"), ("close all", every, "close"), ("close maths-1", [0], "close"),
            ("end 3", [2], "end"), ("resume 1", [0], "resume"), ("close: end", every, "close: end"), ("shake all", every, "shake all"),
            ("shake 3", every, "shake 3"), ("1 shake 3 7", [0], "shake 3 7"), ("daemon every:2", every, "daemon every:2"),
            ("", every, ""), ("  2 :  report ", [1], "report"), ("report close", [2], "report"),
        ):
            self.assertEqual(addressed(line, NAMES), (indices, rest), line)
        for line, name in (("4 close", "4"), ("0: close", "0"), ("maths-9: close", "maths-9"), ("end 7", "7"), ("resume zoe", "zoe")):
            with self.assertRaisesRegex(ValueError, f"^this class has no network {name}. Its networks are: 1 maths-1, 2 maths-2, 3 close$"):
                addressed(line, NAMES)

    def test_the_tables_have_aligned_columns_and_a_dash_for_each_unknown_value(self) -> None:
        """These are the table at the start, and the one of the present states."""
        one = NetworkState(1, "maths-1", "A 104", 4711, "http://127.0.0.1:4781/x/", 15, 11, "runs", "", {
            "configuration": 12, "stable": False, "privileged": [[4, "update"]], "moves": 5, "most": 35, "events": 20, "limit": 100,
            "missing": ["Ana L.", "Ben R.", "Cyd S.", "Dora E."]})
        two = NetworkState(10, "maths-10", "", None, "", 15, 9, "down", "its server has ended")
        self.assertEqual(start_table([one, two], ["", ""]), [
            "    network   room   port  students  seats  page",
            " 1  maths-1   A 104  4711  11        15     http://127.0.0.1:4781/x/",
            "10  maths-10  -      -     9         15     -",
        ])
        self.assertEqual(now_table([one, two]).split("\n"), [
            "    network   room   status        configuration  moves            events     missing",
            " 1  maths-1   A 104  1 privileged  12             5 of at most 35  20 of 100  4 students: Ana L., Ben R., Cyd S. and 1 more",
            "10  maths-10  -      DOWN          -              -                -          -",
        ])
        assert one.state is not None
        one.state["missing"] = None  # Without a record it isn't known who is missing.
        self.assertRegex(now_table([one]).split("\n")[1], "20 of 100 +-$")

    def test_lines_that_say_why_a_network_is_down_are_recognised(self) -> None:
        """Such lines of a network's run match the pattern DIED. The alarm about the network has the line."""
        for line in ("the server has ended, by the signal SIGKILL", "nothing more is granted: the journal's file was changed. Undo it",
                     "the desk can't be used, because no connection to it can be made: no answer in 30 seconds"):
            self.assertIsNotNone(DIED.fullmatch(line), line)

    def test_the_name_of_a_class_is_what_the_names_of_its_labs_have_in_common(self) -> None:
        for stems, name in (("maths-1 maths-2", "maths"), ("maths-10 maths-11", "maths"), ("a b", "class"), ("one one-2", "one"),
                            ("year2026-1 year2026-2", "year2026")):
            self.assertEqual(name_of([Path(f"{stem}.toml") for stem in stems.split()]), name)


class Hung(InRoom):
    """A desk whose terminal was closed."""

    def test_a_closed_terminal_is_noted_in_the_file_of_the_class_even_if_the_file_is_damaged_or_missing(self) -> None:
        network, lab = Network("maths-1", "A 104", "maths-1.toml"), labs.Lab(1000, 4, ("tess", "chalk"), {"ana": "a-key"}, [], [])
        several = Several(self.room, [Member(1, network, self.room / "maths-1", lab, [], News())], News(), False)
        write_class(several, datetime(2026, 11, 30, 10, 45), None)
        written = Class.read(self.room)
        assert written is not None
        self.assertEqual((written.networks, written.left, written.ends), ([network], False, "2026-11-30T10:45:00"))
        for content in ("x", "{}", None):
            (self.room / "class.json").unlink()
            if content is not None:
                self.file("class.json", content)
            several.note_hung()
            self.assertEqual(Class.read(self.room), replace(written, left=True))


@unittest.skipUnless(host(), "not tried: no host is built")
class OneDesk(Classes):
    """Two networks at one desk."""

    def test_a_killed_host_is_an_alarm_until_it_is_resumed(self) -> None:
        """The other network continues meanwhile, and gets commands from the same desk."""
        desk = self.begin("--rooms", "A 104, B 7", "--close", "by-hand")
        self.check_table(desk)
        desk.kill("maths-2")
        desk.until(r"^ALARM maths-2 is down: the server has ended, by the signal SIGKILL; type `resume 2` to continue it, or `end 2` to give it up$")
        desk.type("networks")
        desk.until(r"^1  maths-1  A 104  \d+ privileged|^1  maths-1  A 104  stable")
        desk.until(r"^2  maths-2  B 7    DOWN ")
        desk.type("1 shake all 3")  # with the seed 3: a fault at each of the four nodes
        desk.until("^maths-1: configuration 4: 4 faults at nodes 1, 2, 3, 4; ")
        desk.type("2 close")
        desk.until("^maths-2: not done: the server has ended, by the signal SIGKILL; type `resume 2")
        before = len(desk.lines)
        desk.type("resume 2")
        desk.until("^maths-2: the class continues at configuration 0; ")
        desk.type("maths-2: fault 1 null true")
        desk.until("^maths-2: configuration 1: ")
        self.assertFalse([line for line in desk.lines[before:] if line.startswith("maths-1: ") or "ALARM" in line])
        desk.type("resume 2")
        desk.until("^maths-2 isn't down, so there is nothing to resume$")
        desk.type("9: close")
        desk.until("^not done: this class has no network 9. Its networks are: 1 maths-1, 2 maths-2$")
        desk.type("end all\nend")
        desk.until(f"^the class is ended, and all its files are in {desk.folder} . To print the marks, type: .* mark {desk.folder}$")
        self.assertEqual(desk.wait_for_end(), 0, desk.lines)
        self.assertEqual((desk.marks("maths-1")["faults"], desk.marks("maths-2")["faults"]), (4, 1))
        self.check_subcommands(desk)

    def check_table(self, desk: GoingClass) -> None:
        """Checks the table at the start, and that no line before its first row begins with a network's name. Each of
        the two networks has four students, and all its seats but the desk's."""
        rows, seats = [line.split() for line in desk.lines if re.match(r"\d  ", line)], str(MOST["sessions"] - 1)
        self.assertEqual(rows, [["1", "maths-1", "A", "104", str(desk.record("maths-1").port), "4", seats],
                                ["2", "maths-2", "B", "7", str(desk.record("maths-2").port), "4", seats]])
        first = next(index for index, line in enumerate(desk.lines) if re.match(r"\d  ", line))
        self.assertEqual([line for line in desk.lines[:first] if line.startswith(("maths-1", "maths-2"))], [], desk.lines)

    def check_subcommands(self, desk: GoingClass) -> None:
        """Checks that `mark`, `history` and `key`, which take the folder of a run, also take that of a class, here the
        ended class of `desk`. Changes the key of jose-garcia."""
        done = call_class("mark", "--csv", *(self.room / "runs").glob("*-maths"))
        self.assertEqual(done.returncode, 0, done.stderr)
        # Each of the eight students has a row, which names the journal.
        self.assertEqual(done.stdout.count(str(desk.folder / "maths-1/journal")), 4)
        self.assertEqual(done.stdout.count(str(desk.folder / "maths-2/journal")), 4)
        said = call_class("history", desk.folder, "jose-garcia")
        self.assertEqual((said.returncode, said.stderr), (0, ""))
        self.assertIn("event 1: ", said.stdout)
        self.assertIn("Name the folder of one network: ", call_class("history", desk.folder, "teacher").stderr)
        self.assertIn("no network of this class has a student called zoe", call_class("history", desk.folder, "zoe").stderr)
        before = labs.read(desk.folder / "maths-2/lab.toml").students
        self.assertEqual(call_class("key", desk.folder, "jose-garcia").returncode, 0)
        after = labs.read(desk.folder / "maths-2/lab.toml").students
        self.assertEqual([name for name in before if before[name] != after[name]], ["jose-garcia"])

    def test_a_command_for_a_student_is_for_the_student_s_network(self) -> None:
        """`key` finds the network by the student's name. It refuses a student whom no network has, or not the one that
        the line names."""
        desk = self.begin("--close", "by-hand")
        students = [list(labs.read(lab).students) for lab in self.labs]
        desk.type(f"key {students[1][0]}")
        desk.until(f"^maths-2: {students[1][0]} has a new key. The new slip is ")
        desk.until("^maths-2: the class continues at port ")
        before = len(desk.lines)
        desk.type("key zoe\nnetworks")
        desk.until("^1  maths-1 ")
        # The last two lines are the head of the table and its first row. The run of maths-2, which has the new key, may
        # still print lines.
        said = [line for line in desk.lines[before:-2] if not line.startswith("maths-2: ")]
        self.assertEqual(said, ["there is no student zoe in this class"])
        desk.type(f"1 key {students[1][0]}")
        desk.until(f"^maths-1: there is no student {students[1][0]}. The students are: {students[0][0]}, ")
        desk.type("end all\nend")
        self.assertEqual(desk.wait_for_end(), 0, desk.lines)

    def test_a_network_whose_host_was_killed_can_be_given_up(self) -> None:
        """The class then ends with status 4. Only the marks of this network say that its record may be incomplete. The
        class counts as ended, so that it is only resumed with `--again`."""
        desk = self.begin("--close", "by-hand")
        desk.kill("maths-1")
        desk.until("^ALARM maths-1 is down: ")
        desk.type("end 1")
        desk.until(f"^maths-1: this network is given up. Its files are in {desk.folder / 'maths-1'}$")
        desk.type("end 2\nend 2")
        self.assertEqual(desk.wait_for_end(), 4, desk.lines)
        said = [call_class("mark", desk.folder / name).stdout for name in ("maths-1", "maths-2")]
        wanted = "the server is still running or was killed, so the last entries of this record may be missing; no student caused this\n"
        self.assertEqual([wanted in text for text in said], [True, False], said)
        again = call_class("run", "--resume", desk.folder)
        self.assertEqual((again.returncode, again.stderr), (1, f"class: {desk.folder}: all runs of this class were ended. To continue them, "
                                                               f"type: {CLASS} run --resume {desk.folder} --again\n"))

    def broken(self) -> str:
        """Writes a stand-in for the server's program, and returns its path. It is the program, except that it removes
        `run.json` and ends whenever it is to resume a run."""
        program = self.file("broken", f'#!/bin/bash\n[ "$1" != resume ] || {{ rm "${{2%/*}}/run.json"; exit 4; }}\nexec {host()} "$@"\n')
        program.chmod(0o755)
        return str(program)

    def test_the_alarm_for_a_resumed_network_without_run_json_offers_only_end(self) -> None:
        """The run of this network can't be resumed again. The command `resume` would begin a new run, so the alarm
        doesn't offer it any longer."""
        desk = GoingClass(self, "run", *self.labs, "--into", self.room / "runs", "--port", str(a_port()), "--close", "by-hand", MML_HOST=self.broken())
        desk.kill("maths-2")
        desk.until("^ALARM maths-2 is down: .*; type `resume 2` to continue it, or `end 2` to give it up$")
        desk.type("resume 2")
        self.assertRegex(desk.until("^ALARM maths-2 is down: class: the server can't be started"), "; type `end 2` to give it up$")
        desk.type("end 2\nend 1\nend 1")
        self.assertEqual(desk.wait_for_end(), 4, desk.lines)

    def test_in_a_resumed_class_too_the_alarm_for_a_network_without_run_json_offers_only_end(self) -> None:
        """The desk and both servers are killed, and neither of the networks can be resumed."""
        desk = self.begin("--close", "by-hand")
        desk.process.kill()
        desk.process.wait(LIMIT)
        for name in ("maths-1", "maths-2"):
            desk.kill(name)
        wait_until(lambda: not any(desk.record(name).goes_on() for name in ("maths-1", "maths-2")))
        again = GoingClass(self, "run", "--resume", desk.folder, MML_HOST=self.broken())
        alarms = sorted(line for line in again.lines if "ALARM" in line)
        self.assertEqual(len(alarms), 2, again.lines)
        for number, line in enumerate(alarms, 1):
            self.assertRegex(line, f"^ALARM maths-{number} is down: class: the server can't be started.*; type `end {number}` to give it up$")
        again.type("end 1\nend 2")
        self.assertEqual(again.wait_for_end(), 4, again.lines)

    def test_a_signal_ends_a_class_with_a_page_and_a_network_that_is_down(self) -> None:
        """The page, on which this network could be resumed, doesn't keep the class from ending."""
        desk = self.begin("--close", "by-hand", "--page", str(a_port()))
        desk.kill("maths-2")
        desk.until("^ALARM maths-2 is down: ")
        desk.process.send_signal(signal.SIGTERM)
        self.assertEqual(desk.wait_for_end(), 4, desk.lines)

    def test_attach_takes_over_a_class_whose_desk_was_killed(self) -> None:
        """One of the two servers is killed too, so `attach` prints an alarm. A second `attach` is refused. The taken
        class can be resumed and ended as before."""
        desk = self.begin("--close", "by-hand")
        servers = [desk.record(name).server for name in ("maths-1", "maths-2")]
        desk.process.kill()
        desk.process.wait(LIMIT)
        desk.kill("maths-2")
        wait_until(lambda: not desk.record("maths-2").goes_on())
        again = GoingClass(self, "attach", desk.folder)
        self.assertEqual([line for line in again.lines if "ALARM" in line],
                         ["ALARM maths-2 is down: its server has ended; type `resume 2` to continue it, or `end 2` to give it up"])
        self.assertEqual(again.record("maths-1").server, servers[0])
        held = call_class("attach", desk.folder)
        who = f"another process (number {again.process.pid}) controls this class"
        self.assertEqual((held.returncode, held.stderr), (1, f"class: {desk.folder}: {who}. "
                                                             "Type your commands in its terminal. Or close that terminal (don't type `end` there: "
                                                             "that ends the class), and then type this command again\n"))
        again.type("resume 2\n1 fault 1 null true")
        again.until_each("^maths-2: the class continues at ", "^maths-1: configuration 1: ")
        again.process.send_signal(signal.SIGTERM)
        self.assertEqual(again.wait_for_end(), 0, again.lines)
        self.assertEqual(again.marks("maths-1")["faults"], 1)

    def test_the_class_writes_the_state_of_each_network_into_its_folder(self) -> None:
        """With `--anonymous` students are numbers in it. Here `#3` is ana-lima."""
        desk = self.begin("--close", "by-hand", "--anonymous")
        wait_until(lambda: desk.state("maths-1").get("missing") == ["#1", "#2", "#3", "#4"])
        lab = labs.read(self.labs[0])
        with Client(desk.record("maths-1").port, "ana-lima", lab.students["ana-lima"]) as ana:
            wait_until(lambda: desk.state("maths-1")["missing"] == ["#1", "#2", "#4"])
            look = next(look for look in map(ana.look, lab.nodes_of("ana-lima")))
            desk.type(f"1 fault {look.node} null true")
            wait_until(lambda: desk.state("maths-1")["configuration"] == 1)
            state = desk.state("maths-1")
            self.assertEqual((state["events"], state["limit"], state["moves"], state["closing"]), (1, 100000, 0, "by-hand"))
            self.assertIn({"node": look.node, "owners": ["#3"], "rule": dict(state["privileged"])[look.node]}, state["waiting"])
        desk.type("end\nend")
        self.assertEqual(desk.wait_for_end(), 0, desk.lines)

    def test_labs_that_make_no_class_and_damaged_class_files_are_refused(self) -> None:
        other = self.room / "more"
        other.mkdir()
        (other / "maths-1.toml").write_bytes(self.labs[0].read_bytes())
        cases: tuple[tuple[list[str | Path], str], ...] = (
            ([*self.labs, "--rooms", "A"], "--rooms names 1 room, but there are 2 networks. Name one room for each network"),
            ([self.labs[0], "--rooms", "A"], "run: --rooms can only be used with several labs"),
            ([self.labs[0], other / "maths-1.toml"], "several of these labs are called maths-1. Rename their files, so that the names differ"),
            ([self.labs[0], self.room / "none.toml"], f"{self.room / 'none.toml'}: No such file or directory"),
        )
        for given, error in cases:
            done = call_class("run", *given, "--into", self.room / "runs")
            self.assertEqual(done.stderr, f"class: {error}\n")
        self.assertFalse((self.room / "runs").exists())
        folder = self.room / "broken"
        folder.mkdir()
        for text in ("{}", "[]", "x", json.dumps({"networks": [{"name": "..", "room": "", "lab": ""}], "desk": {"number": 1, "start": ""}})):
            self.file("broken/class.json", text)
            done = call_class("mark", folder)
            self.assertEqual((done.returncode, done.stderr), (4, f"class: {folder / 'class.json'}: this file is damaged, so the networks of the "
                                                                "class aren't known. Name the folder of each network instead\n"))

    def test_the_folder_of_a_class_names_its_networks_and_its_desk(self) -> None:
        """While the class is going on, another run of one of its labs is refused. SIGINT ends the class."""
        desk = self.begin("--close", "by-hand")
        kept = Class.read(desk.folder)
        assert kept is not None
        self.assertEqual([network.name for network in kept.networks], ["maths-1", "maths-2"])
        self.assertEqual(kept.desk.number, desk.process.pid)
        self.assertEqual(desk.folder.stat().st_mode & 0o777, 0o700)
        second = call_class("run", self.labs[1], "--into", self.room / "runs")
        where = f"at port {desk.record('maths-2').port} and in the folder {desk.folder / 'maths-2'}"
        self.assertIn(f"a run of {self.labs[1]} is still going on, {where}", second.stderr)
        os.kill(desk.process.pid, signal.SIGINT)
        self.assertEqual(desk.wait_for_end(), 0, desk.lines)


if __name__ == "__main__":
    unittest.main()
