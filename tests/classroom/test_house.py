"""Absent students: the house plays in its own name, and changes no student's marks. The *house* is a player inside
`run`, and is the second owner of each node. It plays the nodes of the students whom the command `play` names, and with
`--stand-in TIME` each node for which the class has waited so long. The class waits for a node that has an enabled rule
and no granted move."""
from __future__ import annotations

import csv
import io
import json
import os
import re
import subprocess
import sys
import time
import unittest
import urllib.request
from pathlib import Path

from classroom.client import Client
from classroom.core.journal import events
from classroom.core.lab import HOUSE, Lab, read
from classroom.core.program import host
from classroom.run.house import House
from tests.classroom.help import CYCLE, EXAMPLES, Going, InRoom, a_port, call_class

NAMES = "Name\nAna Lima\nGus Roy\nHouse\nEva Sol\n"


class Alone(unittest.TestCase):
    """A house without a server. `due` is called with the nodes for which the class waits and the time in seconds, and
    returns the nodes that the house may play."""

    def setUp(self) -> None:
        """Makes the house the second owner of each node of the cycle. `printed` gets the lines that a house prints."""
        lab = read(CYCLE)
        lab.students[HOUSE] = "key"
        for node in lab.nodes:
            node.owners.append(HOUSE)
        self.lab = lab
        self.printed: list[str] = []

    def house(self, seconds: float | None) -> House:
        """Returns a house that plays each node for which the class has waited for `seconds` seconds, or only nodes of
        students named by `play` if `seconds` is None. A first student has come already. Port 1 isn't used."""
        house = House(self.lab, 1, seconds, self.printed.append)
        house.student_came = True
        return house

    def test_the_house_may_play_a_node_after_twenty_seconds_and_a_move_begins_the_time_anew(self) -> None:
        """The time also begins anew if the class doesn't wait for a node in between. The node that waits longest comes
        first."""
        house = self.house(20)
        self.assertEqual(house.due([1, 2], 100), [])
        self.assertEqual(house.due([1, 2, 3], 119.9), [])
        self.assertEqual(house.due([2, 3, 1], 120), [1, 2])
        house.note(events("1 0 grant gus 1 update\n")[0])
        self.assertEqual(house.due([1, 2, 3], 121), [2])
        self.assertEqual(house.due([1, 3], 122), [])  # The class doesn't wait for node 2, so its time is forgotten.
        self.assertEqual(house.due([1, 2, 3], 139.9), [3])
        self.assertEqual(house.due([1, 2, 3], 141), [3, 1])
        self.assertEqual(self.house(None).due([1, 2, 3], 1e9), [])

    def test_no_time_is_counted_before_a_first_student_has_come(self) -> None:
        """Until then the house only plays nodes of students named by `play`."""
        house = House(self.lab, 1, 20, self.printed.append)
        self.assertEqual((house.due([1, 2], 100), house.due([1, 2], 200)), ([], []))
        self.assertTrue(house.played_line().endswith("; the house begins when the first student has said hello"))
        house.play("gus")
        self.assertEqual(house.due([1, 2], 201), [1])
        house.stop("gus")
        house.student_came = True
        self.assertEqual((house.due([1, 2], 202), house.due([1, 2], 220.9)), ([], []))  # The house checked at second 201, before he came.
        self.assertEqual(house.due([1, 2], 221), [1, 2])
        self.assertFalse(house.waits())

    def test_the_house_plays_for_a_named_student_at_once_until_it_is_stopped(self) -> None:
        """`play` refuses a name that no student with a node has, and the name of the house itself."""
        house = House(self.lab, 1, None, self.printed.append)
        gus = self.lab.nodes_of("gus")
        self.assertEqual(house.play("gus"), f"the house now plays for gus, at nodes {', '.join(map(str, gus))}")
        self.assertEqual(house.due([1, 2, 3, 4, 5, 6, 7], 0), gus)
        self.assertEqual(house.played_line(), "the house plays for gus")
        with self.assertRaisesRegex(ValueError, "^there is no student zoe with a node. The students are: gus, hana, ines, jonas$"):
            house.play("zoe")
        with self.assertRaisesRegex(ValueError, "^there is no student house "):
            house.play(HOUSE)
        self.assertEqual(house.stop("gus"), "the house no longer plays for gus")
        with self.assertRaisesRegex(ValueError, "^there is nothing to stop: the house doesn't play for gus$"):
            house.stop("gus")
        self.assertEqual(house.due([1, 2, 3, 4, 5, 6, 7], 1e9), [])

    def test_an_owner_called_house_that_owns_a_node_alone_is_an_ordinary_student(self) -> None:
        """`house_nodes` returns the nodes at which the house may play. It may play nowhere in the changed lab."""
        self.assertEqual(self.lab.house_nodes(), [1, 2, 3, 4, 5, 6, 7])
        self.assertEqual(self.lab.without_house(), read(CYCLE))
        self.lab.nodes[0].owners.remove("gus")
        self.assertEqual((self.lab.house_nodes(), self.lab.without_house()), ([], self.lab))


@unittest.skipUnless(host(), "not tried: no host is built")
class Standing(InRoom):
    """Runs of a class with four students, one of whom is called House. In the lab this student is `house-2`, since
    `house` is the name of the player."""

    def setUp(self) -> None:
        """Makes the lab and the slips by `./class new --stand-in`. `output` is what the command prints."""
        super().setUp()
        self.list = self.file("names.csv", NAMES)
        self.made = self.room / "maths.toml"
        done = call_class("new", self.made, "--students", self.list, "--nodes", "8", "--start", "random", "--seed", "3", "--stand-in")
        self.assertEqual((done.returncode, done.stderr), (0, ""))
        self.output = done.stdout
        self.lab: Lab = read(self.made)

    def bot(self, going: Going, name: str) -> None:
        """Starts the bot of a student in a run."""
        slip = self.file(f"{name}.slip", re.sub(r"port \d+", f"port {going.port}", self.slip(name).read_text(encoding="utf-8")))
        bot = subprocess.Popen([sys.executable, EXAMPLES / "bot.py", slip], stdin=subprocess.DEVNULL, stdout=subprocess.DEVNULL,
                               stderr=subprocess.DEVNULL)
        self.addCleanup(bot.wait)
        self.addCleanup(bot.kill)

    def slip(self, name: str) -> Path:
        """Returns the path of the slip that `./class new` made for a student."""
        return self.room / "maths-slips" / f"{name}.slip"

    def grants(self, folder: Path) -> dict[str, set[int]]:
        """Returns for each name the nodes at which it was granted moves, by the journal in a folder."""
        found: dict[str, set[int]] = {}
        for event in events((folder / "journal").read_text(encoding="ascii")):
            if event.kind == "grant":
                found.setdefault(event.words[1], set()).add(event.nodes[0])
        return found

    def test_each_node_has_two_owners_and_the_house_no_slip(self) -> None:
        """The slips for printing don't have the key of the house. Each of the four says that the house may play."""
        self.assertEqual(list(self.lab.students), ["ana-lima", "gus-roy", "house-2", "eva-sol", HOUSE])
        self.assertTrue(all(node.owners[1] == HOUSE and len(node.owners) == 2 for node in self.lab.nodes))
        self.assertFalse(self.slip(HOUSE).exists())
        printed = (self.room / "maths-slips.html").read_text(encoding="utf-8")
        self.assertNotIn(self.lab.students[HOUSE], printed)
        self.assertNotIn("shared", printed)
        self.assertEqual(printed.count("If a node of yours waits too long for you, a program, the house, may play it."), 4)
        checked = call_class("check", self.made)
        self.assertEqual((checked.returncode, checked.stdout.count("warning")), (0, 0), checked.stdout)
        self.assertEqual(checked.stdout.splitlines()[0], "ok: 8 nodes, 8 links, 4 students and the house")
        self.assertIn("toml: 8 nodes, 8 links, 4 students and the house; slips for printing: ", self.output)

    def test_the_house_plays_for_absent_students_and_its_moves_are_in_nobody_else_s_marks(self) -> None:
        """Two of the four students are absent. After the network is stable, `shake` sets its registers to random
        values, so that the house and the bots have to move again."""
        going = Going(self, self.made, "--daemon", "synchronous", "--stand-in", "0.5s")
        for name in ("ana-lima", "eva-sol"):
            self.bot(going, name)
        going.until("^stable after ")
        going.type("who")
        going.until("^the house plays at each node for which the class has waited 0.5 seconds$")
        going.type("shake all 7")
        going.until("^the registers of 8 nodes were set$")
        going.until("^stable again after ")
        going.type("end")
        self.assertEqual(going.wait_for_end(), 0, going.lines)
        folder, found = going.folder, self.grants(going.folder)
        self.assertEqual(set(found) - {"ana-lima", "eva-sol"}, {HOUSE})
        absent = {*self.lab.nodes_of("gus-roy"), *self.lab.nodes_of("house-2")}
        self.assertTrue(found[HOUSE] & absent)
        self.assertTrue(any(re.search(r"^configuration \d+: .*\d \(house\): ", line) for line in going.lines), going.lines)
        self.assertFalse(any("and house)" in line for line in going.lines), going.lines)
        marks = json.loads((folder / "marks.json").read_text(encoding="utf-8"))["runs"][0]["students"]
        for name in ("gus-roy", "house-2"):
            self.assertEqual(sum(marks[name]["granted"].values()), 0)
        self.assertEqual(sum(marks[HOUSE]["granted"].values()),
                         sum(event.student == HOUSE for event in events((folder / "journal").read_text(encoding="ascii"))))
        self.assertRegex((folder / "marks.txt").read_text(encoding="utf-8"), r"(?m)^ +house +[1-9]")
        table = call_class("mark", folder, "--roster", self.list, "--total")
        self.assertEqual((table.returncode, table.stderr), (0, ""))
        rows = {row["Name"]: int(row["granted"]) for row in csv.DictReader(io.StringIO(table.stdout))}
        self.assertEqual((list(rows), rows["House"], rows["Gus Roy"]), (["Ana Lima", "Gus Roy", "House", "Eva Sol"], 0, 0))

    def greet(self, going: Going, name: str = "ana-lima") -> None:
        """Connects as a student, and disconnects without a move. The house counts seconds only after a student has said
        hello."""
        with Client(going.port, name, self.lab.students[name]):
            pass

    def test_the_house_makes_no_move_before_the_first_student_has_said_hello(self) -> None:
        """The hello of the teacher doesn't count. After that of a student, the house plays the whole network."""
        going = Going(self, self.made, "--daemon", "synchronous", "--stand-in", "0.2s", "--until", "stable")
        self.assertIn("the house begins when the first student has said hello", going.lines)
        with Client(going.port, *self.lab.teacher):
            going.until("^connected: teacher$")
        time.sleep(1)  # Five times the 0.2 seconds after which the house would play.
        going.type("who")
        going.until("^the house plays at each node for which the class has waited 0.2 seconds; the house begins when the first student has said hello$")
        self.assertEqual((going.folder / "journal").read_bytes(), b"")
        self.greet(going)
        self.assertEqual(going.wait_for_end(), 0, going.lines)
        self.assertIn("the network is stable, so the run is ended", going.lines)
        self.assertEqual(set(self.grants(going.folder)), {HOUSE})

    def test_after_play_the_house_plays_a_student_s_nodes_and_after_stop_it_no_longer_does(self) -> None:
        """The house moves at no other nodes than those of gus-roy, and makes no move after `stop`."""
        going = Going(self, self.made, "--daemon", "by-hand")
        going.type("play gus-roy")
        nodes = self.lab.nodes_of("gus-roy")
        going.until(f"^the house now plays for gus-roy, at nodes? {', '.join(map(str, nodes))}$")
        self.let_house_play(going, nodes)
        going.type("stop gus-roy")
        going.until("^the house no longer plays for gus-roy$")
        going.type("stop gus-roy")
        going.until("^there is nothing to stop: the house doesn't play for gus-roy$")
        going.type("play nobody")
        going.until("^there is no student nobody with a node. The students are: ana-lima, gus-roy, house-2, eva-sol$")
        before = self.grants(going.folder)
        self.assertEqual(set(before), {HOUSE})
        self.assertLessEqual(before[HOUSE], set(nodes))
        self.assertEqual(going.end(), 0, going.lines)
        self.assertEqual(self.grants(going.folder), before)

    def let_house_play(self, going: Going, nodes: list[int]) -> None:
        """Lets the house play these nodes, which belong to gus-roy, until no rule is enabled at any of them. Closes a
        step whenever each of the nodes with an enabled rule has a granted move. If no rule was enabled from the
        beginning, enables one by a fault."""
        with Client(going.port, "gus-roy", self.lab.students["gus-roy"]) as me:
            moved = 0
            while True:
                looks = [me.look(node) for node in nodes]
                if all(look.rule is None for look in looks) and moved:
                    return
                if all(look.rule is None or look.chosen for look in looks):
                    going.type("close" if any(look.chosen for look in looks) else f"fault {nodes[0]} null true")
                    going.until("^configuration ")
                    moved += 1

    def test_no_process_no_page_and_no_file_but_the_lab_contains_the_key_of_the_house(self) -> None:
        """Looks at the command line and the environment of each process."""
        key = self.lab.students[HOUSE].encode()
        going = Going(self, self.made, "--stand-in", "0.1s", "--daemon", "when-idle:0.3", "--page", str(a_port()))
        address = going.until("^page for the projector http").removeprefix("page for the projector ")
        acts = going.until("^page on which you can act http").removeprefix("page on which you can act ")
        self.greet(going)
        going.type("play gus-roy\nshake all 2")
        # The class may have become stable before, too. Only after the new registers it is stable `again`.
        going.until("^the registers of 8 nodes were set$")
        going.until("^stable again after ")
        for each in Path("/proc").iterdir():  # A process may end meanwhile, or its files can't be read.
            for name in ("cmdline", "environ"):
                try:
                    self.assertNotIn(key, (each / name).read_bytes() if each.name.isdecimal() else b"")
                except OSError:
                    continue
        for page in (address, acts):
            with urllib.request.urlopen(page, timeout=60) as it:
                self.assertNotIn(key, it.read())
            with urllib.request.urlopen(f"{page}events", timeout=60) as it:
                self.assertNotIn(key, it.readline())
        going.type("end")
        self.assertEqual(going.wait_for_end(), 0, going.lines)
        for file in going.folder.iterdir():
            if file.is_file() and not file.name.startswith(("lab.toml", "journal.lab")):
                self.assertNotIn(key, file.read_bytes(), file.name)
        self.assertNotIn(">house<", (going.folder / "run.html").read_text(encoding="utf-8"))

    def test_a_resumed_run_has_a_house_that_plays_for_the_same_students_after_the_same_time(self) -> None:
        """Of the two students who were named by `play`, one was stopped before the server was killed."""
        going = Going(self, self.made, "--stand-in", "0.3s", "--daemon", "by-hand")
        self.greet(going)
        for line, told in (("play eva-sol", "for eva-sol, at "), ("play gus-roy", "for gus-roy, at "), ("stop eva-sol", "no longer plays for eva-sol")):
            going.type(line)
            going.until(f"^the house .*{told}")
        os.kill(going.server(), 9)
        self.assertEqual(going.wait_for_end(), 4, going.lines)
        again = Going(self, None, "run", "--resume", going.folder, "--daemon", "synchronous")
        self.assertIn("the house plays for gus-roy and at each node for which the class has waited 0.3 seconds; "
                      "the house begins when the first student has said hello",
                      again.lines)
        self.assertIn("the house begins when the first student has said hello", again.lines)  # Everyone greets again.
        self.greet(again)
        again.until("^stable after ")
        again.type("end")
        self.assertEqual(again.wait_for_end(), 0, again.lines)
        self.assertEqual(set(self.grants(again.folder)), {HOUSE})

    def test_a_house_that_finds_no_free_seat_says_so_once(self) -> None:
        """The lab has a seat for the desk and one for all others. The house plays when the student has left."""
        lab = self.file("one.toml", re.sub(r"(?m)^sessions = \d+", "sessions = 2", self.made.read_text(encoding="utf-8")))
        going = Going(self, lab, "--stand-in", "0.1s", "--daemon", "synchronous")
        with Client(going.port, "ana-lima", self.lab.students["ana-lima"]):
            going.until("^the house would play now, but no seat is free for it; type `who` to see which students have the seats$")
        going.until("^stable after ")
        first = next(at for at, line in enumerate(going.lines) if line.startswith("configuration "))  # From then on the house has a seat now and then.
        self.assertEqual(sum("no seat is free" in line for line in going.lines[:first]), 1)


class Refused(InRoom):
    """Labs and options with which the house can't play."""

    def test_in_a_lab_without_a_house_the_errors_say_how_to_get_one(self) -> None:
        done = call_class("run", CYCLE, "--stand-in", "20s", "--into", self.room / "runs")
        self.assertEqual((done.returncode, done.stdout), (1, ""))
        self.assertEqual(done.stderr, f"class: {CYCLE}: the house can't play in this lab, since no node has `house` as its second owner. "
                                      "With --stand-in, `./class new` makes a lab in which the house is the second owner of each node\n")
        self.assertFalse((self.room / "runs").exists())
        going = Going(self, CYCLE, "--close", "by-hand")
        for word in ("play", "stop"):
            going.type(f"{word} gus")
            going.until("^the house can't play for gus, because it owns no node in this lab. With --stand-in, `./class new` makes a lab "
                        "in which the house is the second owner of each node$")

    def test_new_refuses_a_house_beside_two_owners_of_each_node(self) -> None:
        students = self.file("students", "Ana\nBen\n")
        done = call_class("new", self.room / "lab.toml", "--students", students, "--pairs", "--stand-in")
        self.assertEqual((done.returncode, done.stdout), (1, ""))
        self.assertIn("a node has at most two", done.stderr)
        self.assertFalse((self.room / "lab.toml").exists())

    def test_the_time_of_stand_in_has_to_be_a_number_of_seconds_above_zero(self) -> None:
        for word in ("0s", "x", "-1", "20m"):
            done = call_class("run", CYCLE, "--stand-in", word, "--into", self.room / "runs")
            self.assertEqual(done.returncode, 1)
            self.assertIn("isn't a number of seconds above 0", done.stderr)


if __name__ == "__main__":
    unittest.main()
