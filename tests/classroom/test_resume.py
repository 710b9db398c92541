"""A class continues from its journal after its server was killed or has ended: `./class run --resume`. The *host* is
the server's process, and *run* is the process of `./class run`, which has the desk."""
from __future__ import annotations

import json
import os
import random
import re
import shutil
import signal
import threading
import time
import unittest
from collections import Counter
from pathlib import Path

from classroom.client import Client, Closed, Denied, Refused, Slip, enter
from classroom.core.folders import Process
from classroom.core.lab import Node, read
from classroom.core.program import call, host
from tests.classroom.help import CLASS, CYCLE, KEYS, Cycle, Going, call_class

KINDS = ("host", "run and host")  # the processes that a test kills
KILLS = 10  # the number of kills of each kind, at random points; tests/resume kills hosts alone more often


class Players:
    """The students of the cycle and a second teacher who disturbs them, played by one thread."""

    def __init__(self, port: int, disturbs: bool = True) -> None:
        """Starts to play at the students' port. If `disturbs` is set, the second teacher causes faults."""
        self.port, self.disturbs = port, disturbs
        self.over, self.last_place = threading.Event(), 0
        self.thread = threading.Thread(target=self.play)
        self.thread.start()

    def play(self) -> None:
        """Says hello as each student and as the second teacher, and plays until the server closes a connection or `end`
        is called. Runs in the thread."""
        lab = read(CYCLE)
        clients: dict[str, Client] = {}
        try:
            for name, key in [*KEYS.items(), lab.teacher]:
                clients[name] = enter(Slip(self.port, name, key, ()))
            while not self.over.is_set():
                self.turn(lab.nodes, clients, clients[lab.teacher[0]])
        except Closed:
            pass
        for client in clients.values():
            client.hang_up()

    def turn(self, nodes: list[Node], students: dict[str, Client], teacher: Client) -> None:
        """Asks for the enabled move of each node, as its first owner. `students` has the connections by their names. If
        no node has an enabled move, and `disturbs` is set, the second teacher, whose connection is `teacher`, causes a
        fault at node 1."""
        is_idle = True
        for node in nodes:
            student = students[node.owners[0]]
            look = student.look(node.id)
            is_idle = is_idle and look.rule is None
            if look.rule and not look.chosen:
                try:
                    self.last_place = student.move(look).place
                except Denied:  # A step was closed since the look.
                    pass
        if is_idle and self.disturbs:
            self.last_place = teacher.fault(1, None, True).place

    def end(self) -> int:
        """Ends the thread. Returns the number of the last event that a reply named."""
        self.over.set()
        self.thread.join()
        return self.last_place


@unittest.skipUnless(host(), "not tried: no host is built")
class Resume(Cycle):
    """Runs of the cycle of `examples/`."""

    def kill(self, going: Going, what: str, number: int = 0) -> None:
        """Kills the server of a run, and waits until it has ended. If `what` is `host`, checks that `run` then ends
        with status 4, and prints how to continue. Otherwise kills `run` first. `number` is the number of the server's
        process. If it is 0, the server is the child of `run`."""
        server = Process.of(number or going.server())
        if what != "host":
            going.process.kill()
            going.process.wait()
        os.kill(server.number, signal.SIGKILL)
        if what == "host":
            self.assertEqual(going.wait_for_end(), 4, going.lines)
            self.assertIn(f"to continue the run: {CLASS} run --resume {going.folder}", going.lines)
        while server.lives():
            pass

    def counted(self, folder: Path) -> dict[str, int]:
        """Returns the number of moves of each student that the journal's closes applied, counted by the test itself.
        Leaves out students without such moves."""
        chosen: dict[str, str] = {}
        applied: Counter[str] = Counter()
        for line in (folder / "journal").read_text(encoding="ascii").splitlines():
            word, *rest = line.split(" ")[2:]
            if word == "grant":
                chosen[rest[1]] = rest[0]
            elif word == "release":
                del chosen[rest[0]]
            else:
                applied.update(chosen.values() if word == "close" else [])
                chosen.clear()
        return dict(applied)

    def marks(self, folder: Path) -> dict[str, int]:
        """Returns the number of applied moves of each student, from the marks in the folder. Leaves out students
        without such moves."""
        students = json.loads((folder / "marks.json").read_text(encoding="utf-8"))["runs"][0]["students"]
        return {name: total for name, it in students.items() if (total := sum(it["applied"].values()))}

    def test_a_class_whose_server_is_killed_while_bots_ask_continues_to_its_end(self) -> None:
        """Until it is resumed, another run of the lab is refused. The resumed class has the same ports, and all
        complete lines of the journal. The marks are those that the test counts. The bot of gus comes only after the
        kill. Without gus the class makes at least six steps, and then waits for node 1, so it can't end before the
        kill."""
        for what in KINDS:
            with self.subTest(what=what):
                going = Going(self, CYCLE, "--close", "every:0.2", "--beside", "--until", "stable")
                for name in ("hana", "ines", "jonas"):  # A bot that has greeted greets again after the class continues.
                    self.bot(going, name)
                for _ in range(random.randint(1, 4)):
                    going.until("^configuration ")
                self.kill(going, what)
                offered = call_class("run", CYCLE, "--into", self.room / "runs")
                self.assertEqual((offered.returncode, offered.stderr),
                                 (1, f"class: the last run of {CYCLE} was interrupted. To continue it, type: {CLASS} run --resume {going.folder} "
                                     ". To start another run instead, add --beside to the command that you typed\n"))
                before = (going.folder / "journal").read_bytes()
                again = Going(self, None, "run", "--resume", going.folder)
                self.assertEqual((again.port, again.folder), (going.port, going.folder))
                self.assertTrue(any(re.match(r"the class continues at configuration \d+; events: \d+ of 1000$", line) for line in again.lines), again.lines)
                # A bot that hadn't greeted before the kill has ended, and it isn't known which ones had. So each student
                # starts one: gus the first one, and the others perhaps a second one, which does no harm.
                for name in KEYS:
                    self.bot(again, name)
                self.assertEqual(again.wait_for_end(), 0, again.lines)
                self.assertIn("the network is stable, so the run is ended", again.lines)
                self.check_complete(going.folder)
                self.assertTrue((going.folder / "journal").read_bytes().startswith(before[:before.rfind(b"\n") + 1]))
                self.assertEqual(self.marks(going.folder), self.counted(going.folder))
                # Each line of `run.txt` begins with the time in six characters. No configuration is printed twice.
                told = [line[6:] for line in (going.folder / "run.txt").read_text(encoding="utf-8").splitlines() if line[6:].startswith("configuration ")]
                self.assertEqual(len({line.partition(":")[0] for line in told}), len(told), told)

    def test_no_event_in_a_reply_is_lost_by_kills_at_random_points(self) -> None:
        """In random order `run` is killed ten times, and both processes ten times. After a kill of `run` the desk is
        taken over by `attach`, and after a kill of both the journal is resumed."""
        lab = self.file("cycle.toml", re.sub(r"(?m)^events = \d+", "events = 100000", CYCLE.read_text(encoding="utf-8")))
        chance = random.Random(47)
        kinds = ["run", "run and host"] * KILLS
        chance.shuffle(kinds)
        going = Going(self, lab, "--close", "every:0.1")
        server, folder, told = going.server(), going.folder, 0
        for kind in kinds:
            players = Players(going.port)
            time.sleep(chance.uniform(0.02, 0.4))
            if kind == "run":
                going.process.kill()
                going.process.wait()
            else:
                self.kill(going, kind, server)
            told = max(told, players.end())
            lines = (folder / "journal").read_bytes().count(b"\n")
            self.assertGreaterEqual(lines, told)
            again: list[str | Path] = ["attach", folder] if kind == "run" else ["run", "--resume", folder]
            going = Going(self, None, *again)
            server = server if kind == "run" else going.server()
            self.assertTrue(any(line.startswith("the class continues at configuration ") for line in going.lines), going.lines)
        players = Players(going.port, disturbs=False)
        # The class may be stable since the last kill. After this fault it isn't, so the line that is awaited comes later.
        going.type("fault 2 null true")
        going.until(r"^configuration \d+: fault at node 2: p null, m true; ")
        going.until("; stable; ")
        players.end()
        self.assertEqual(going.end(), 0, going.lines)
        self.assertGreater(self.check_complete(folder), KILLS)
        self.assertEqual(self.marks(folder), self.counted(folder))
        self.assertIn(", stable", (folder / "audit.txt").read_text(encoding="utf-8"))
        lines_told = [line.split(" ", 1)[1] for line in (folder / "run.txt").read_text(encoding="utf-8").splitlines()]
        numbers = [line.partition(":")[0] for line in lines_told if line.startswith("configuration ")]
        self.assertEqual(len(set(numbers)), len(numbers))

    def limited(self, kilobytes: int) -> Path:
        """Writes a script that starts the host with a limit of this many kilobytes on each file, also on its copy of
        the lab. For the host this is a full disk. Returns the script's path."""
        # Without the signal XFSZ, a write beyond the limit fails, as on a full disk.
        limited = self.file("host", f'#!/bin/bash\ntrap "" XFSZ\nulimit -f {kilobytes}\nexec "{host()}" "$@"\n')
        limited.chmod(0o755)
        return limited

    def test_a_run_that_a_full_disk_has_ended_continues_when_there_is_room(self) -> None:
        """110 faults are typed, and the journal of 2 kB has room for over 80 of them, but not for all. No line says
        that the server has ended by itself."""
        going = Going(self, CYCLE, "--close", "by-hand", MML_HOST=str(self.limited(2)))
        going.type("\n".join(["fault 1 2 true"] * 110))
        line = going.until("^nothing more is granted: ")
        self.assertEqual(line, "nothing more is granted: no line can be written to the journal. Make room on the disk, and then continue "
                               f"the run by {CLASS} run --resume {going.folder}")
        self.assertEqual(going.wait_for_end(), 4, going.lines)
        self.assertFalse(any("by itself" in line for line in going.lines), going.lines)
        events = (going.folder / "journal").read_bytes().count(b"\n")
        self.assertGreater(events, 80)
        again = Going(self, None, "run", "--resume", going.folder, "--close", "every:0.2")
        self.assertIn(f"the class continues at configuration {events}; events: {events} of 1000", again.lines)
        for name in KEYS:
            self.bot(again, name)
        again.until("; stable; ")
        again.type("end")
        self.assertEqual(again.wait_for_end(), 0, again.lines)
        self.assertGreater(self.check_complete(going.folder), events)
        self.assertEqual(self.marks(going.folder), self.counted(going.folder))

    def test_a_run_ends_if_its_journal_stops_after_a_part_of_a_line(self) -> None:
        """The journal has no room for a further line, so a student's move is refused. The desk learns this from the
        journal's incomplete line, as no move is chosen and no step is closed."""
        going = Going(self, CYCLE, "--close", "by-hand", MML_HOST=str(self.limited(2)))
        journal, count = going.folder / "journal", 0
        with Client(going.port, "gus", KEYS["gus"]) as gus:
            while journal.stat().st_size <= 2048 - 23:  # A grant of gus takes 23 bytes at least.
                going.type("fault 1 2 true")
                count += 1
                going.until(f"^configuration {count}: ")
            with self.assertRaisesRegex(Refused, "journal"):
                gus.move(gus.look(4))
            with journal.open("ab") as it:
                it.write(b"9")  # A full disk leaves the beginning of a line; a limit on the file's size leaves nothing.
            going.until("^nothing more is granted: no line can be written to the journal. ")
        self.assertEqual(going.wait_for_end(), 4, going.lines)

    def test_after_a_change_of_a_key_the_resumed_run_accepts_only_the_new_one(self) -> None:
        """`key` changes the run's lab and the lab from which it was started, here a copy of the example. The student's
        granted move is still there."""
        going = Going(self, CYCLE, "--close", "by-hand")
        with Client(going.port, "gus", KEYS["gus"]) as gus:
            gus.move(gus.look(4))
        lab = going.folder / "lab.toml"
        self.assertEqual(going.end(), 0, going.lines)
        shutil.copy(CYCLE, self.room / "mine.toml")
        record = json.loads((going.folder / "run.json").read_text(encoding="utf-8"))
        (going.folder / "run.json").write_text(json.dumps({**record, "lab": str(self.room / "mine.toml")}), encoding="utf-8")
        done = call_class("key", going.folder, "gus")
        self.assertEqual((done.returncode, done.stderr), (0, ""))
        self.assertIn(f"to continue the run: {CLASS} run --resume {going.folder} --again\n", done.stdout)
        slip = Slip.read(self.room / "mine-slips/gus.slip")
        self.assertEqual((slip.port, slip.nodes), (going.port, (1, 4)))
        for file in (lab, self.room / "mine.toml"):
            self.assertEqual(read(file).students, {**KEYS, "gus": slip.key})
        again = Going(self, None, "run", "--resume", going.folder, "--again", "--close", "by-hand")
        with self.assertRaisesRegex(Denied, "unknown"):
            Client(again.port, "gus", KEYS["gus"])
        with Client.of(slip) as gus:
            self.assertEqual(gus.look(4).chosen, "update")
        self.assertEqual(again.end(), 0, again.lines)

    def test_a_run_that_used_all_its_events_continues_after_its_limit_is_raised(self) -> None:
        """The lab allows two events, a move and its close. The limit is raised in the lab in the run's folder."""
        lab = self.file("cycle.toml", re.sub(r"(?m)^events = \d+", "events = 2", CYCLE.read_text(encoding="utf-8")))
        going = Going(self, lab, "--close", "by-hand")
        with Client(going.port, "gus", KEYS["gus"]) as gus:
            gus.move(gus.look(4))
        going.type("close")
        line = going.until("^nothing more is granted: all 2 events that the lab allows are used. ")
        self.assertTrue(line.endswith(f"then continue the run by {CLASS} run --resume {going.folder} --again"))
        self.assertEqual(going.wait_for_end(), 5, going.lines)
        kept = going.folder / "lab.toml"
        kept.write_text(kept.read_text(encoding="utf-8").replace("events = 2\n", "events = 100\n"), encoding="utf-8")
        again = Going(self, None, "run", "--resume", going.folder, "--again", "--close", "by-hand")
        again.type("fault 1 2 true")
        again.until("^configuration 2: fault at node 1: p 2, m true; .*; events: 3 of 100$")
        self.assertEqual(again.end(), 0, again.lines)
        self.assertEqual(self.check_complete(going.folder), 3)

    def test_a_run_that_was_ended_is_only_resumed_with_the_option_again(self) -> None:
        """Without the option nothing changes. A run that was resumed and whose server was then killed needs no option,
        since it wasn't ended again."""
        going = Going(self, CYCLE, "--close", "by-hand")
        going.type("fault 1 2 true")
        going.until("^configuration 1: ")
        self.assertEqual(going.end(), 0, going.lines)
        folder = going.folder
        before = {file.name: file.read_bytes() for file in folder.iterdir() if file.is_file()}
        done = call_class("run", "--resume", folder)
        self.assertEqual((done.returncode, done.stdout, done.stderr),
                         (1, "", f"class: {folder}: this run was ended. If you want to continue it, add --again; "
                                 "its audit, page and marks are then made again\n"))
        self.assertEqual({file.name: file.read_bytes() for file in folder.iterdir() if file.is_file()}, before)
        again = Going(self, None, "run", "--resume", folder, "--again")
        self.assertIn("the class continues at configuration 1; events: 1 of 1000", again.lines)
        os.kill(again.server(), signal.SIGKILL)
        self.assertEqual(again.wait_for_end(), 4, again.lines)
        again = Going(self, None, "run", "--resume", folder)  # This one wasn't ended, but its server died.
        self.assertEqual(again.end(), 0, again.lines)
        self.assertEqual(call_class("run", CYCLE, "--again").stderr, "class: run: --again can only be used together with --resume FOLDER\n")

    def test_an_incomplete_last_line_is_dropped_and_a_changed_lab_is_refused(self) -> None:
        """The journal ends in the middle of a line, as after a power failure. The lab is changed by another owner of a
        node, and then restored. A second `run --resume` is refused while the first one is going on."""
        going = Going(self, CYCLE, "--close", "by-hand")
        going.type("fault 1 2 true")
        going.until("^configuration 1: ")
        self.kill(going, "run and host")
        with (going.folder / "journal").open("ab") as it:
            it.write(b"2 1 fau")
        kept = going.folder / "lab.toml"
        text = kept.read_text(encoding="utf-8")
        kept.write_text(re.sub(r'(?m)^owner = "gus"', 'owner = "hana"', text, count=1), encoding="utf-8")
        done = call_class("run", "--resume", going.folder)
        self.assertEqual(done.returncode, 2, done.stdout + done.stderr)
        self.assertIn("another lab", done.stderr)
        kept.write_text(text, encoding="utf-8")
        again = Going(self, None, "run", "--resume", going.folder)
        self.assertIn("the class continues at configuration 1; events: 1 of 1000", again.lines)
        self.assertRegex(call_class("run", "--resume", going.folder).stderr, f"this run is still going on. To control it, type: {CLASS} attach ")
        self.assertEqual(again.end(), 0, again.lines)
        self.assertEqual(call("audit", kept, going.folder / "journal").status, 0)

    def test_run_needs_either_a_lab_or_the_folder_of_a_run(self) -> None:
        both: list[str | Path] = [CYCLE, "--resume", self.room]
        for asked in (both[:0], both):  # neither of the two, and then both
            done = call_class("run", *asked)
            self.assertEqual((done.returncode, done.stderr), (1, "class: run: name either one or more labs, or the folder of a run by --resume FOLDER\n"))
        # This folder isn't that of a run.
        self.assertEqual(call_class("run", "--resume", self.room).returncode, 1)


if __name__ == "__main__":
    unittest.main()
