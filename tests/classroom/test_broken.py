"""Failures of a run: kills, full disks, changed journals, missing seats, bots that race and guess. A client takes a
*seat*, one of the connections that the server serves at a time."""
from __future__ import annotations

import json
import os
import re
import resource
import secrets
import shutil
import signal
import socket
import subprocess
import sys
import threading
import time
import unittest
import unittest.mock
from collections import Counter
from collections.abc import Callable
from pathlib import Path

from classroom.client import Client, Closed, Refused
from classroom.core.program import host
from classroom.run import connected, ending
from classroom.run.connected import Connected
from tests.classroom.help import CLASS, CYCLE, EXAMPLES, KEYS, LIMIT, Cycle, Going

# A command of a shell that mounts a small disk at $1, and then runs the other words.
MOUNT = "mount -t tmpfs -o size=128k tmpfs \"$1\" && shift && exec \"$@\""


class Broken(Cycle):
    """Runs that fail in some way, and runs with clients that fail or misbehave."""

    def lab(self, name: str, sessions: int) -> Path:
        """Writes a copy of the lab of `examples/` with this file name, and returns its path. In the copy, the desk and
        the clients can have `sessions` connections at a time."""
        text = (EXAMPLES / name).read_text(encoding="utf-8")
        return self.file(name, re.sub(r"(?m)^sessions = \d+", f"sessions = {sessions}", text))

    def test_a_run_whose_server_is_killed_keeps_each_event(self) -> None:
        """The server is killed after none of nine events, after one, and so on. Each time the run ends with status 4,
        and its folder has the events from before."""
        def typed(line: str, told: str) -> Callable[[Going], None]:
            """Returns a function that types a line at a run's desk, and waits for the printed configuration that
            matches `told`."""
            def act(going: Going) -> None:
                going.type(line)
                going.until(f"^configuration \\d+: {told}")
            return act

        def move(name: str, node: int) -> Callable[[Going], None]:
            """Returns a function that asks for the enabled move of a node, as its owner `name`."""
            def act(going: Going) -> None:
                with Client(going.port, name, KEYS[name]) as student:
                    student.move(student.look(node))
            return act

        acts = [move("gus", 4), move("ines", 3), typed("release 3", "dropped the granted move of node 3"), typed("close", r"node \d+ \("),
                typed("fault 1 2 true", "fault at node 1: p 2, m true"), typed("link 1 3", "added the link between 1 and 3"), move("jonas", 7),
                typed("cut 1 3", "removed the link between 1 and 3"), typed("link 2 4", "added the link between 2 and 4")]
        for moment in range(10):
            with self.subTest(moment=moment):
                going = Going(self, self.lab("cycle.toml", 16), "--close", "by-hand", "--beside")
                for act in acts[:moment]:
                    act(going)
                os.kill(going.server(), signal.SIGKILL)
                self.assertEqual(going.wait_for_end(), 4, going.lines)
                self.assertEqual(self.check_complete(going.folder), moment)
                self.assertTrue(any(line.startswith("the server") for line in going.lines))

    def test_a_run_whose_server_is_killed_while_bots_play_keeps_at_least_the_printed_events(self) -> None:
        """Each printed configuration has at least one event. A run of the cycle has at least six steps, so three
        configurations are printed however many moves a step has."""
        going = Going(self, CYCLE, "--close", "every:0.05")
        for name in KEYS:
            self.bot(going, name)
        for _ in range(3):
            going.until("^configuration ")
        os.kill(going.server(), signal.SIGKILL)
        self.assertEqual(going.wait_for_end(), 4, going.lines)
        self.assertGreaterEqual(self.check_complete(going.folder), 3)

    def mounted(self) -> tuple[str, ...]:
        """Makes the folder of runs. Returns the words to put before a call, so that in this call the folder is a small
        disk. Skips the test if nothing can be mounted."""
        (self.room / "runs").mkdir()
        for way in (["unshare", "-m"], ["unshare", "-rm"]):
            words = (*way, "sh", "-c", MOUNT, "sh", str(self.room / "runs"))
            if shutil.which("unshare") and subprocess.run([*words, "true"], capture_output=True, check=False).returncode == 0:
                return words
        self.skipTest("not tried: a full disk, since nothing can be mounted")

    def fill(self, folder: Path) -> None:
        """Fills the disk on which a folder is."""
        for turn in range(3):  # The run's check for free space writes some bytes itself, and removes them again.
            with (folder / f"filler{turn}").open("wb", buffering=0) as it:
                try:
                    while True:
                        it.write(bytes(4096))
                except OSError:
                    time.sleep(0.01)

    def test_on_a_full_disk_nothing_is_granted_and_the_run_ends(self) -> None:
        """A student's move and a command of the teacher are refused with `journal`, and no event happens."""
        going = Going(self, CYCLE, "--close", "by-hand", before=self.mounted())
        self.fill(Path(f"/proc/{going.process.pid}/root{going.folder}"))  # Only the run and its server see the small disk.
        going.until("^the disk is full. Make room now: if a line of the journal can't be written, the server grants nothing more$")
        with Client(going.port, "gus", KEYS["gus"]) as gus:
            with self.assertRaises(Refused) as refused:
                gus.move(gus.look(4))
            self.assertEqual((refused.exception.word, gus.look(4).chosen), ("journal", None))
        going.type("fault 1 2 true")
        going.until("^the server refused this command: journal")
        going.until("^nothing more is granted: .*journal")
        self.assertEqual(going.wait_for_end(), 4, going.lines)
        self.assertTrue(any(line.startswith("ok: 0 events") for line in going.lines), going.lines)
        self.assertTrue(any("No space left on device. The journal is" in line for line in going.lines), going.lines)

    @unittest.skipUnless(host(), "not tried: no host is built")
    def test_a_run_ends_when_its_journal_has_reached_the_limit_on_the_size_of_files(self) -> None:
        """The limit is reached exactly at the end of a line, so no byte of the next line is written. The run ends
        although nothing is typed at the desk."""
        going = Going(self, CYCLE, "--close", "by-hand")
        going.type("\n".join(["fault 1 2 true"] * 60))
        going.until("^configuration 60: ")
        journal = going.folder / "journal"
        size = journal.stat().st_size
        resource.prlimit(going.server(), resource.RLIMIT_FSIZE, (size, size))
        going.until("^the journal has reached the limit on the size of files \\(ulimit -f\\), so the server grants nothing more. ")
        with Client(going.port, "gus", KEYS["gus"]) as gus, self.assertRaises(Refused) as refused:
            gus.move(gus.look(4))
        self.assertEqual((refused.exception.word, journal.stat().st_size), ("journal", size))
        going.until("^nothing more is granted: .*journal")
        self.assertEqual(going.wait_for_end(), 4, going.lines)
        self.assertEqual(self.check_complete(going.folder), 60)

    def run_until_journal_lost(self, act: Callable[[Path], object], status: int = 4) -> Going:
        """Starts a run, and makes three events. Then calls `act`, which damages the journal, with the journal's path.
        Checks that the run ends by itself with this status, and returns it."""
        going = Going(self, CYCLE, "--close", "by-hand", "--beside")
        for number in range(1, 4):
            going.type("fault 1 2 true")
            going.until(f"^configuration {number}: ")
        act(going.folder / "journal")
        going.until("^nothing more is granted: the journal's file ")
        self.assertEqual(going.wait_for_end(), status, going.lines)
        return going

    @unittest.skipUnless(host(), "not tried: no host is built")
    def test_a_run_ends_when_its_journal_is_removed_moved_or_replaced_and_saves_its_lines(self) -> None:
        """It ends although no client sends a request. After the saved file is put back, the run can be resumed."""
        for act in (self.remove, self.move, self.replace):
            going = self.run_until_journal_lost(act)
            told = "the journal's file was removed, moved or replaced. Wait for the line that says where its lines are saved, " \
                   f"and then continue the run by {CLASS} run --resume {going.folder}"
            self.assertIn(f"nothing more is granted: {told}", going.lines)
            kept = going.folder / ("journal.saved" if act == self.replace else "journal")
            why = "another file is in the journal's place" if act == self.replace else "the journal's file was missing"
            then = f". Rename this file to {going.folder / 'journal'} before you continue the run" if act == self.replace else ""
            self.assertIn(f"{why}, so the journal's old lines are saved in {kept}{then}", going.lines)
            self.assertEqual(kept.read_bytes().count(b"\n"), 3)
            kept.replace(going.folder / "journal")
            again = Going(self, None, "run", "--resume", going.folder)
            self.assertIn("the class continues at configuration 3; events: 3 of 1000", again.lines)
            self.assertEqual(again.end(), 0, again.lines)

    def remove(self, journal: Path) -> None:
        """Removes a journal."""
        journal.unlink()

    def move(self, journal: Path) -> None:
        """Moves a journal out of its folder."""
        journal.rename(self.room / "moved")

    def replace(self, journal: Path) -> None:
        """Replaces a journal by another file with its name, as some editors do when they save a file."""
        other = journal.with_name("other")
        other.write_text("1 0 fault 1 2 true\n", encoding="ascii")
        other.replace(journal)

    @unittest.skipUnless(host(), "not tried: no host is built")
    def test_a_run_ends_when_its_journal_is_shortened_or_lengthened(self) -> None:
        """A journal of which only the first line (19 bytes) is left passes the audit. One with a close of a step
        without moves doesn't, so that the status is 3."""
        def lengthen(journal: Path) -> None:
            """Appends a close to the journal."""
            with journal.open("ab") as it:
                it.write(b"4 3 close\n")

        acts: list[tuple[Callable[[Path], object], int]] = [(lambda journal: os.truncate(journal, 19), 4), (lengthen, 3)]
        for act, status in acts:
            going = self.run_until_journal_lost(act, status)
            self.assertTrue(any(line.startswith("nothing more is granted: the journal's file was changed. Undo the change, and then ")
                                for line in going.lines), going.lines)

    def test_a_run_ends_when_all_events_that_its_lab_allows_are_used(self) -> None:
        """The lab allows a single event. This is the granted move, so no step can be closed any more. The run ends with
        status 5."""
        lab = self.lab("cycle.toml", 8)
        lab.write_text(re.sub(r"(?m)^events = \d+", "events = 1", lab.read_text(encoding="utf-8")), encoding="utf-8")
        going = Going(self, lab, "--close", "every:0.1")
        with Client(going.port, "gus", KEYS["gus"]) as gus:
            look = gus.look(4)
            try:
                self.assertEqual(gus.move(look).place, 1)
            except Closed:  # The event ends the class, and replies that aren't sent by then are lost.
                pass
        self.assertEqual(going.wait_for_end(), 5, going.lines)
        self.assertTrue(any(line.startswith("nothing more is granted: all 1 events that the lab allows are used. ") for line in going.lines), going.lines)
        self.assertEqual(self.check_complete(going.folder), 1)
        self.assertEqual((going.folder / "journal").read_text(encoding="ascii"), "1 0 grant gus 4 update\n")

    def test_finishing_a_run_fails_with_status_4_if_a_file_can_not_be_written(self) -> None:
        """The file with the marks is a link to `/dev/full`, a device that is always full."""
        going = Going(self, CYCLE)
        going.type("end\nend")
        self.assertEqual(going.wait_for_end(), 0)
        (going.folder / "marks.txt").unlink()
        (going.folder / "marks.txt").symlink_to("/dev/full")
        lines: list[str] = []
        self.assertEqual(ending.finish(going.folder, lines.append), 4)
        self.assertRegex(lines[-1], "No space left on device. The journal is .*/journal$")

    def test_a_run_whose_printed_lines_nobody_reads_continues_to_its_end(self) -> None:
        """The journal gets both events, the fault and the new link. `end` is typed twice, since the network isn't
        stable."""
        going = Going(self, CYCLE, "--close", "by-hand")
        assert going.process.stdout is not None
        going.process.stdout.close()
        for line in ("fault 1 2 true", "link 1 3", "end", "end"):
            going.type(line)
        self.assertEqual(going.process.wait(LIMIT), 0)
        self.assertEqual(self.check_complete(going.folder), 2)
        self.assertIn("added the link between 1 and 3", (going.folder / "run.txt").read_text(encoding="utf-8"))

    def test_a_client_that_is_answered_by_busy_raises_refused(self) -> None:
        """The test is the server. It sends `busy` in place of the reply to the hello."""
        with socket.create_server(("127.0.0.1", 0)) as full:
            def turn_away() -> None:
                """Answers the next connection with `busy`."""
                connection, _ = full.accept()
                with connection:
                    connection.sendall(b'{"refuse":"busy"}\n')

            away = threading.Thread(target=turn_away)
            away.start()
            port = full.getsockname()[1]
            with self.assertRaises(Refused) as refused:
                Client(port, "gus", "key")
            self.assertEqual(refused.exception.word, "busy")
            away.join()

    def test_bots_connect_again_if_their_connection_is_ended_by_busy(self) -> None:
        """The server ends a connection so if its seat goes to a newcomer. On the second connection the bots get `over`,
        and end."""
        for bot in (EXAMPLES.parent / "student/bot.py", EXAMPLES / "bot.py"):
            with self.subTest(bot=bot.name), socket.create_server(("127.0.0.1", 0)) as port:
                ends = [b'{"refuse":"busy"}\n', b'{"refuse":"over"}\n']

                def serve() -> None:
                    """Grants the hello on each of two connections, and answers the next line with `busy`, then with
                    `over`."""
                    for last in ends:
                        connection, _ = port.accept()
                        with connection, connection.makefile("rb") as lines:
                            lines.readline()
                            connection.sendall(b'{"ok":"hello","who":"gus"}\n')
                            lines.readline()
                            connection.sendall(last)

                threading.Thread(target=serve, daemon=True).start()
                slip = self.file("gus.slip", f"port {port.getsockname()[1]}\nname gus\nkey heron-31\nnodes 1\n")
                said = subprocess.run([sys.executable, bot, slip], env={**os.environ, "PYTHONPATH": str(EXAMPLES.parent / "classroom")}, capture_output=True,
                                      text=True, timeout=LIMIT, check=False)
                self.assertEqual((said.returncode, said.stderr), (0, "bot.py: the run is over\n"))

    def test_example_programs_print_their_arguments_when_asked_for_help(self) -> None:
        """They do so as for a missing argument: on the standard error, and with status 1."""
        for name in ("bot.py", "teacher.py"):
            said = subprocess.run([sys.executable, EXAMPLES / name, "--help"], capture_output=True, text=True, timeout=LIMIT, check=False)
            self.assertEqual((said.returncode, said.stdout), (1, ""))
            self.assertIn(f"{name} SLIP", said.stderr)
            self.assertNotIn("Traceback", said.stderr)

    def test_a_client_is_turned_away_while_bots_have_all_seats(self) -> None:
        """The lab allows three connections: that of the desk and those of two bots."""
        going = Going(self, self.lab("cycle.toml", 3), "--close", "by-hand")
        gus = self.bot(going, "gus")
        going.until("^connected: gus$")
        self.bot(going, "hana")
        # Only then hana has greeted. Before, her connection could be closed for a newcomer.
        going.until_each("^connected: hana$", "^all seats are taken")
        with self.assertRaises(Refused if host() else Closed):
            Client(going.port, "ines", KEYS["ines"])
        gus.kill()
        going.until("^disconnected: gus$")
        self.assertEqual(going.end(), 0, going.lines)
        self.check_complete(going.folder)

    def test_lines_about_connections_are_returned_once_for_each_that_begins_or_ends(self) -> None:
        """The server at port 4711 has two seats, and the desk's own end is at port 7. A socket is given by its own
        port, that of the other end, its state (`0A` if it listens, `01` in a connection), and its number."""
        listens = (4711, 0, "0A", "1")
        served = [(4711, port, "01", "2") for port in (5, 6, 7)]
        found = Connected(4711, 2, 7)
        self.assertEqual(found.changes([listens, served[2]]), [])
        self.assertEqual(found.changes([listens, *served[1:]]), ["connected: a program of another user"])
        lines = found.changes([listens, *served])
        self.assertEqual((lines[0], lines[1][:20]), ("connected: a program of another user", "all seats are taken,"))
        self.assertEqual(found.changes([listens, *served]), [])
        self.assertEqual(found.changes([listens, *served[1:]]), ["disconnected: a program of another user"])
        self.assertEqual(found.changes([listens, *served]), ["connected: a program of another user"])
        # Without a socket that listens, the server accepts no more connections.
        self.assertEqual(Connected(4711, 2, 7).changes(served[1:])[1][:44], "this server has accepted as many connections")
        found.known = {6: "first", 5: "second"}  # the clients by their ports, in the order in which they came
        self.assertEqual(found.who(), "first, second (2 of 2 seats are taken)")

    def test_a_newcomer_whose_own_end_is_read_later_is_named(self) -> None:
        """The system may list the server's end of a connection before the client's. The list is read a few times until
        it has both. If it never has, the client counts as a program of another user. Sockets are given as in the test
        above. The client's end is a socket of this process."""
        listens, served = (4711, 0, "0A", "1"), (4711, 5, "01", "2")
        with socket.create_server(("127.0.0.1", 0)) as it:
            own = (5, 4711, "01", re.sub(r"\D", "", os.readlink(f"/proc/self/fd/{it.fileno()}")))
            for late in range(connected.READINGS):  # how many readings lack the client's end
                readings = [[listens, served]] * late + [[listens, served, own]]
                with unittest.mock.patch.object(connected, "rows", side_effect=readings):
                    self.assertEqual(Connected(4711, 2, 7).news()[0], f"connected: process {os.getpid()}")
        with unittest.mock.patch.object(connected, "rows", side_effect=[[listens, served]] * connected.READINGS):
            self.assertEqual(Connected(4711, 2, 7).news(), ["connected: a program of another user"])

    def test_while_two_bots_of_each_student_play_and_a_client_guesses_no_move_is_granted_twice(self) -> None:
        """The client guesses keys, and gets denials only. The run becomes stable, and the marks have no other people
        than the students."""
        lab = self.lab("cycle.toml", 16)
        going = Going(self, lab, "--close", "when-idle:0.3", "--until", "stable")
        guesses: Counter[str] = Counter()
        guesser = threading.Thread(target=self.guess, args=[going.port, guesses])
        guesser.start()
        # The bots are started after both kinds of denials, since the guesser's connection may be closed for a newcomer.
        while len(guesses) < 2 and guesser.is_alive():
            time.sleep(0.01)
        for name in (*KEYS, *KEYS):
            self.bot(going, name)
        self.assertEqual(going.wait_for_end(), 0, going.lines)
        guesser.join()
        self.assertEqual(set(guesses), {"unknown", "not-greeted"})
        self.check_complete(going.folder)
        lines = (going.folder / "journal").read_text(encoding="ascii").splitlines()
        # A line is `PLACE CONFIGURATION grant NAME NODE RULE`, and these are the configuration and the node.
        grants = Counter(tuple(line.split(" ")[1:5:3]) for line in lines if " grant " in line)
        self.assertEqual(set(grants.values()), {1})
        marks = json.loads((going.folder / "marks.json").read_text(encoding="utf-8"))["runs"][0]
        self.assertEqual(set(marks["students"]), set(KEYS))

    def guess(self, port: int, guesses: Counter[str]) -> None:
        """Guesses the teacher's key two hundred times, each time with a request after the denied hello. Counts the
        names of all denials in `guesses`. Returns earlier if its connection is closed."""
        with socket.create_connection(("127.0.0.1", port), timeout=LIMIT) as it, it.makefile("rb") as replies:
            for _ in range(200):
                hello = {"do": "hello", "name": "tess", "key": secrets.token_hex(4)}
                it.sendall(json.dumps(hello).encode() + b'\n{"do":"close"}\n')
                for line in (replies.readline(), replies.readline()):
                    if not line or line.startswith(b'{"refuse":"'):  # The connection is closed for a newcomer, or at the end of the class.
                        return
                    guesses[json.loads(line)["deny"]] += 1


if __name__ == "__main__":
    unittest.main()
