"""`./class run` with the built host, the server of a class. Each *seat* of the host serves one connection after
another. The *desk* is the port for the teacher, with one seat, which `run` itself takes."""
from __future__ import annotations

import json
import os
import re
import time
import unittest
from pathlib import Path

from classroom.client import Client, Closed, Refused
from classroom.core.lab import read
from classroom.core.program import host
from tests.classroom.help import CYCLE, KEYS, LIMIT, Cycle, Going, InTerminal, call_class

TEACHER = read(CYCLE).teacher


@unittest.skipUnless(host(), "not tried: no host is built")
class Hosted(Cycle):
    """Runs of the cycle of `examples/` with at most eight seats, one of which is the desk's."""

    def begin(self, sessions: int, *more: str) -> Going:
        """Starts a run of the cycle with this number of seats and these options. Checks that one seat is the desk's."""
        text = re.sub(r"(?m)^sessions = \d+", f"sessions = {sessions}", CYCLE.read_text(encoding="utf-8"))
        going = Going(self, self.file("cycle.toml", text), *more)
        self.assertTrue(any(f"for at most {sessions - 1} students at once; folder" in line for line in going.lines), going.lines)
        return going

    def check_end(self, going: Going) -> None:
        """Waits until a run ends. Checks that it was ended by the bye at its desk, and that its folder is complete."""
        self.assertEqual(going.wait_for_end(), 0, going.lines)
        events = self.check_complete(going.folder)
        self.assertRegex((going.folder / "server.txt").read_text(encoding="utf-8"),
                         rf"^listening on port \d+, desk on port \d+\ndone: {events} events, configuration \d+\n$")

    def let_in(self, port: int, name: str, key: str) -> Client:
        """Connects and says hello, again and again until a seat is free. Returns the connection."""
        while True:
            try:
                return Client(port, name, key)
            except Refused as refused:
                self.assertEqual(refused.word, "busy")
                time.sleep(0.01)

    def desk_port(self, going: Going) -> int:
        """Returns the desk's port."""
        return next(int(found[1]) for line in going.lines if (found := re.match(r"desk at port (\d+), ", line)))

    def test_a_run_becomes_stable_although_bots_are_killed_and_others_connect_in_their_place(self) -> None:
        """More connections come than there are seats."""
        going = self.begin(8, "--close", "when-idle:0.3", "--until", "stable")
        for name in KEYS:
            for _ in range(3):
                self.bot(going, name).kill()
        for _ in range(20):
            gus = self.let_in(going.port, "gus", KEYS["gus"])
            gus.look(4)
            gus.__exit__(OSError, None, None)  # Closes the connection without a bye, as after an error.
        for name in KEYS:
            self.bot(going, name)
        self.check_end(going)
        self.assertIn(", stable", (going.folder / "audit.txt").read_text(encoding="utf-8"))

    def test_newcomers_are_refused_while_all_seats_are_taken_and_a_killed_bot_frees_its_seat(self) -> None:
        """The run reports only once that all seats are taken, though three newcomers are refused."""
        going = self.begin(3, "--close", "by-hand")
        gus = self.bot(going, "gus")
        going.until("^connected: gus$")
        self.bot(going, "hana")
        going.until_each("^connected: hana$", "^all seats are taken, so newcomers are turned away; type `who` to see which students have the seats$")
        going.type("who")
        going.until("^connected: gus, hana \\(2 of 2 seats are taken\\)$")
        for _ in range(3):
            with self.assertRaises(Refused) as refused:
                Client(going.port, "ines", KEYS["ines"])
            self.assertEqual(refused.exception.word, "busy")
        gus.kill()
        going.until("^disconnected: gus$")
        with self.let_in(going.port, "ines", KEYS["ines"]) as ines:
            self.assertEqual(ines.look(3).at, 0)
            going.until("^connected: ines$")
        going.until("^disconnected: ")
        self.bot(going, "jonas")
        going.until("^connected: jonas$")
        going.type("end\nend")
        self.check_end(going)
        self.assertEqual(sum("all seats are taken" in line for line in going.lines), 1)

    def test_run_has_the_only_seat_of_the_desk_and_the_teacher_can_use_the_students_port(self) -> None:
        """A second connection to the desk gets `busy`. At the students' port the teacher closes a step."""
        going = self.begin(4, "--close", "by-hand")
        with self.assertRaises(Refused) as refused:
            Client(self.desk_port(going), *TEACHER)
        self.assertEqual(refused.exception.word, "busy")
        with Client(going.port, *TEACHER) as program, Client(going.port, "gus", KEYS["gus"]) as gus:
            gus.move(gus.look(4))
            self.assertEqual(program.close().moved, (4,))
        going.until("^configuration 1: node 4 \\(gus\\): update")
        going.type("fault 1 2 true")
        going.until("^configuration 2: fault at node 1: p 2, m true")
        going.type("end\nend")
        self.check_end(going)

    def test_if_run_is_killed_its_server_runs_until_the_teacher_says_bye_at_the_desk(self) -> None:
        """Then the journal can be marked."""
        going = self.begin(3, "--close", "by-hand")
        server = Path(f"/proc/{going.server()}/stat")
        with Client(going.port, "gus", KEYS["gus"]) as gus:
            gus.move(gus.look(4))
            going.process.kill()
            going.process.wait()
            teacher = self.let_in(self.desk_port(going), *TEACHER)
            self.assertEqual(teacher.close().moved, (4,))
            self.assertEqual(gus.look(4).at, 1)
            teacher.bye()
            with self.assertRaises(Closed):
                while True:  # The host hangs up after it has answered the bye.
                    gus.look(4)
        # After its end the server may stay a zombie (Z), since `run`, which would take its exit status, was killed.
        until = time.monotonic() + LIMIT
        while server.exists() and server.read_text(encoding="ascii").rpartition(") ")[2][0] != "Z":
            self.assertLess(time.monotonic(), until)
            time.sleep(0.01)
        marks = call_class("mark", going.folder / "lab.toml", going.folder / "journal", "--json")
        self.assertEqual(marks.returncode, 0, marks.stderr)
        self.assertEqual(json.loads(marks.stdout)["runs"][0]["events"], 2)

    def test_ctrl_c_in_the_terminal_of_a_run_ends_it_with_status_0(self) -> None:
        """The folder of the run is complete then."""
        terminal = InTerminal(self)
        terminal.type(b"fault 1 2 true\n", b"fault at node 1: p 2, m true;")
        terminal.type(b"\x03", b"all files of the run are in ")
        self.assertEqual(terminal.process.wait(LIMIT), 0)
        os.close(terminal.ours)
        folder = next((self.room / "runs").iterdir())
        self.assertEqual(self.check_complete(folder), 1)
        self.assertRegex((folder / "server.txt").read_text(encoding="utf-8"), r"\ndone: 1 events, configuration 1\n$")


if __name__ == "__main__":
    unittest.main()
