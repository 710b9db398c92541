"""The desk of `./class run`: its commands, its lines about limits and slow servers, and its terminal. The desk is the
process that connects to the server as the teacher, runs the teacher's commands, and prints lines about the run."""
from __future__ import annotations

import contextlib
import io
import os
import re
import resource
import signal
import socket
import subprocess
import sys
import threading
import time
import unittest
import unittest.mock
import urllib.error
import urllib.request
from collections.abc import Callable
from itertools import chain, repeat
from pathlib import Path

from classroom.client import Client, Closed, Refused, Report
from classroom.core import lab as labs
from classroom.core.printable import printable
from classroom.core.program import host
from classroom.run import server
from classroom.run.attend import DiskRoom, attend
from classroom.run.daemons import Daemon
from classroom.run.desk import Desk
from classroom.run.holding import Running, renew
from classroom.run.taking import greet
from classroom.run.teller import Teller
from classroom.run.typed import FORMS, LEAVE, NOW, Terminal, Typed, parse_command
from tests.classroom.help import CYCLE, EXAMPLES, KEYS, LIMIT, Cycle, Going, InRoom, InTerminal, a_port, call_class, stop
from tests.common.limits import MOST

ROOM_AGAIN = "the disk has room again. If a line of the journal couldn't be written meanwhile, the server refuses all moves with `journal`"


class Forms(unittest.TestCase):
    """Commands by themselves."""

    def test_a_command_has_one_form_and_for_any_other_line_the_error_says_what_to_write(self) -> None:
        """An empty line counts as `wait`. A number in digits that aren't ASCII is refused too."""
        for line in ("close", "fault 1 2 true", "fault 1 null false", "fault 1 - false", "link 1 2", "cut 1 2", "release 3", "report",
                     "wait", "who", "every 5", "every 0.5", "when-idle 2", "by-hand", "help", "end"):
            self.assertEqual(parse_command(line), line.split())
        self.assertEqual(parse_command(""), ["wait"])
        for line in ("close 3", "fault 1 2", "fault 1 2 yes", "link 1", "cut 1 2 3", "release", "release x", "report 1", "who ana",
                     "every", "every x", "every -1", "by-hand 2", "end now", "release ٣"):
            with self.assertRaises(ValueError) as error:
                parse_command(line)
            self.assertEqual(str(error.exception), f"the command {line.split()[0]} was written in a wrong form. Write: {FORMS[line.split()[0]]}")
        with self.assertRaisesRegex(ValueError, "^clsoe isn't a command. Did you mean close\\? The commands are: close, fault NODE"):
            parse_command("clsoe")

    def test_control_characters_in_printed_texts_are_escaped(self) -> None:
        self.assertEqual(printable("Zoë\x1b[2J\nk\x07 \u202e"), "Zoë\\x1b[2J\nk\\x07 \\u202e")


class Completed(unittest.TestCase):
    """Completion by the tab key."""

    def offers(self, line: str) -> list[str]:
        """Returns the completions at the end of a typed line. The nodes are 1, 12 and 7."""
        terminal = object.__new__(Terminal)  # without `__init__`, which needs a real terminal
        terminal.words, terminal.readline = ["1", "12", "7"], unittest.mock.Mock()
        terminal.readline.get_line_buffer.return_value = line
        terminal.readline.get_begidx.return_value = line.rfind(" ") + 1
        # The line editor asks for one completion after another, by their numbers, until it gets None.
        found = [terminal.complete(line.rpartition(" ")[2], state) for state in range(len(FORMS) + 1)]
        return [each for each in found if each is not None]

    def test_the_first_word_is_completed_to_a_command_and_others_to_a_node(self) -> None:
        """A number and a colon before the command name a network of a class of several."""
        self.assertEqual(self.offers("cl"), ["close "])
        self.assertEqual(self.offers("2: cl"), ["close "])
        self.assertEqual(self.offers(""), [f"{word} " for word in FORMS])
        self.assertEqual(self.offers("link 1"), ["1 ", "12 "])
        self.assertEqual(self.offers("2: link 7 "), ["1 ", "12 ", "7 "])
        self.assertEqual(self.offers("link cl"), [])


class Words(Cycle):
    """Runs in which commands are typed."""

    def test_while_the_network_is_not_stable_only_two_ends_in_a_row_end_the_run(self) -> None:
        """Another line between them, even a wrong one, makes the next `end` the first one again."""
        going = Going(self, CYCLE, "--close", "by-hand")
        going.type("end")
        going.until("^the network isn't stable yet \\(privileged nodes: 3\\). Type `end` once more to end the run anyway$")
        going.type("close 3")
        going.until("^the command close was written in a wrong form. Write: close$")
        going.type("end")
        going.until("^the network isn't stable yet \\(privileged nodes: 3\\)")
        going.type("end")
        self.assertEqual(going.wait_for_end(), 0, going.lines)

    def test_the_commands_who_report_and_help_print_lines(self) -> None:
        going = Going(self, CYCLE, "--close", "by-hand")
        with Client(going.port, "gus", KEYS["gus"]) as gus:
            gus.move(gus.look(4))
            going.until("^connected: gus$")
            going.type("who")
            going.until(r"^connected: gus \(1 of \d+ seats are taken\)$")
            going.until("^students without a granted move so far: hana, ines, jonas$")
            going.type("report")
            going.until(r"^configuration 0 is not stable; .*; events: 1 of \d+$")
            going.type("help")
            for form in FORMS.values():
                going.until(f"^  {re.escape(form)} ")

    def test_a_client_without_a_hello_is_shown_only_as_a_connection_or_a_process_number(self) -> None:
        """The second run has the option `--serve`, and no record that names students. Its desk shows a client by the
        number of its process, and not by the process's arguments, one of which is the name of a student."""
        going = Going(self, CYCLE, "--close", "by-hand")
        with socket.create_connection(("127.0.0.1", going.port)):
            going.type("who")
            going.until(r"^connected: 1 connection without a hello \(1 of \d+ seats are taken\)$")
        by_number = Going(self, CYCLE, "--close", "by-hand", "--serve", "--beside")
        held = subprocess.Popen(
            [sys.executable, "-c", f"import socket; it = socket.create_connection(('127.0.0.1', {by_number.port})); it.recv(1)", "hana"],
        )
        self.addCleanup(held.wait)
        self.addCleanup(held.kill)
        self.assertEqual(by_number.until("^connected: "), f"connected: process {held.pid}")

    def test_events_are_counted_and_a_warning_comes_before_the_last(self) -> None:
        """The lab allows ten events. After them the run ends with status 5."""
        lab = self.file("cycle.toml", re.sub(r"(?m)^events = \d+", "events = 10", CYCLE.read_text(encoding="utf-8")))
        going = Going(self, lab, "--close", "by-hand")
        for number in range(1, 11):
            going.type("fault 1 2 true")
            going.until(f"^configuration {number}: .*; events: {number} of 10$")
            if number == 9:
                going.until("^the lab allows 10 events, and 9 of them are used. After the last one the server grants nothing more$")
        line = going.until("^nothing more is granted: ")
        self.assertRegex(line, "all 10 events that the lab allows are used")
        self.assertEqual(going.wait_for_end(), 5, going.lines)
        self.assertEqual(self.check_complete(going.folder), 10)

    def test_in_a_class_of_two_networks_a_number_before_a_command_names_its_network(self) -> None:
        """A command for network 9 is refused, since there is none. The desk also prints a row for each network, with
        its port and the address of its page."""
        students = self.file("students", "".join(f"S {number}\n" for number in range(6)))
        self.assertEqual(call_class("new", self.room / "lab.toml", "--students", students, "--groups", "2", "--start", "random").returncode, 0)
        process = subprocess.Popen(
            [sys.executable, EXAMPLES.parent / "class", "run", self.room / "lab-1.toml", self.room / "lab-2.toml", "--into",
             self.room / "runs", "--port", "28100", "--page", "28200", "--close", "by-hand", "--typed"],
            stdin=subprocess.PIPE, stdout=subprocess.PIPE, stderr=subprocess.STDOUT, text=True, bufsize=1,
        )
        assert process.stdout is not None and process.stdin is not None
        self.addCleanup(process.stdin.close)
        told: list[str] = []
        with process.stdout:
            for line in process.stdout:
                told.append(line)
                if line.startswith("commands: "):
                    process.stdin.write("2: fault 1 null true\n9: close\n")
                if "lab-2: configuration 1: fault at node 1: p null, m true" in line:
                    process.stdin.write("end\nend\n")
        self.assertEqual(process.wait(LIMIT), 0, told)
        self.assertIn("not done: this class has no network 9. Its networks are: 1 lab-1, 2 lab-2\n", told)
        self.assertFalse(any(line.startswith("lab-1: configuration 1: ") for line in told))
        # Each row has the network's number and name, its port, and the numbers of its students and seats.
        row = rf"\d  lab-\d +28\d\d\d +3 +{MOST['sessions'] - 1} +http://127.0.0.1:282\d\d/"
        self.assertEqual([bool(re.match(row, line)) for line in told if line[:1].isdigit()], [True, True])


class InATerminal(Cycle):
    """Runs in their own terminal."""

    def test_lines_can_be_completed_repeated_and_edited_and_ctrl_d_does_not_end_the_run(self) -> None:
        terminal = InTerminal(self)
        terminal.type(b"fau\t1 2 true\n", b"fault at node 1: p 2, m true; ")
        terminal.type(b"\x1b[A\n", b"configuration 2: fault at node 1: p 2, m true; ")  # the key for the line before
        # After the key for a move to the left, two letters are removed, so that `close` is left.
        terminal.type(b"clossse\x1b[D\x7f\x7f\n", b"the server denied this command: empty")
        terminal.type(b"\x04", b"to end the run, type `end`")  # Ctrl-D
        terminal.type(b"end\n", b"Type `end` once more to end the run")
        terminal.type(b"end\n", b"all files of the run are in ")
        self.assertEqual(terminal.process.wait(LIMIT), 0)
        os.close(terminal.ours)


@unittest.skipUnless(host(), "not tried: no host is built")
class Late(Cycle):
    """Slow servers, and runs that are going on already."""

    def test_the_desk_connects_again_to_a_server_that_is_late_and_runs_the_next_command(self) -> None:
        """The server is stopped when a command comes, and continues after the desk has lost its connection."""
        lab = labs.read(CYCLE)
        it = server.start(self.room, CYCLE, 29000, self.room / "journal")
        self.addCleanup(lambda: it.has_ended() or it.stop())
        lines: list[str] = []
        desk = Desk(lab, self.room / "journal", greet(it, lab.teacher), Daemon("by-hand"), lines.append)
        typed, found = Typed(), []
        room = DiskRoom(self.room)
        self.addCleanup(room.close)
        holding = threading.Thread(target=lambda: found.append(attend(desk, it, False, typed, room, lambda: None)))
        stop(it.process.number)
        desk.client.limit = 0.5  # Seconds for a reply. The new connection has a longer limit, so that a slow reply isn't late.
        patient = unittest.mock.patch("classroom.run.desk.Client", lambda port, name, key, limit: Client(port, name, key))
        patient.start()
        self.addCleanup(patient.stop)
        holding.start()
        typed.put("fault 1 2 true")
        lost = "the connection to the server's desk is lost; trying to connect again: no answer in 0.5 seconds"
        self.until(lambda: any(line.startswith(lost) for line in lines))
        os.kill(it.process.number, signal.SIGCONT)
        self.until(lambda: "connected to the server's desk again" in lines)
        typed.put("link 1 3")
        self.until(lambda: any("the link between 1 and 3" in line for line in lines))
        self.assertTrue(any("configuration 1: fault at node 1: p 2, m true" in line for line in lines), lines)
        typed.put(NOW)  # the text that ends the run at once
        holding.join(LIMIT)
        desk.known.journal.close()
        self.assertEqual(found, ["end"])
        desk.client.bye()
        self.assertTrue(it.has_ended(LIMIT))

    def until(self, holds: Callable[[], object]) -> None:
        """Waits until the function `holds` returns a true value. Fails after LIMIT seconds."""
        end = time.monotonic() + LIMIT
        while not holds():
            self.assertLess(time.monotonic(), end)
            time.sleep(0.01)

    def test_a_server_whose_end_is_late_is_not_killed(self) -> None:
        """It is stopped for a second while the run ends. The status is 0, and no line says that the server has ended by
        itself."""
        going = Going(self, CYCLE, "--close", "by-hand")
        number = going.server()
        with Client(going.port, "gus", KEYS["gus"]):
            stop(number)
            going.process.send_signal(signal.SIGTERM)
            time.sleep(1)
            os.kill(number, signal.SIGCONT)
        self.assertEqual(going.wait_for_end(), 0, going.lines)
        self.assertFalse(any("by itself" in line for line in going.lines), going.lines)

    def test_the_secret_address_of_the_page_to_act_is_not_printed_into_a_file(self) -> None:
        """The output has the address of the page for the projector, and no other."""
        for more in ((), ("--typed",)):
            told = self.room / "told"
            with told.open("w", encoding="utf-8") as it:
                run = subprocess.Popen(
                    [sys.executable, EXAMPLES.parent / "class", "run", CYCLE, "--close", "by-hand", "--into", self.room / "runs", "--beside",
                     "--port", str(a_port()), "--page", str(a_port()), *more],
                    stdin=subprocess.DEVNULL, stdout=it, stderr=it,
                )
            try:
                end = time.monotonic() + LIMIT
                while "\npage on which you can act" not in told.read_text(encoding="utf-8"):
                    self.assertLess(time.monotonic(), end)
                    time.sleep(0.05)
            finally:
                run.send_signal(signal.SIGTERM)
                self.assertEqual(run.wait(LIMIT), 0)
            text = told.read_text(encoding="utf-8")
            self.assertIn("\npage on which you can act: its address is secret, and is printed only in a terminal\n", text)
            self.assertEqual(text.count("http://"), 1, text)

    def test_a_resumed_run_has_the_same_page_for_the_projector_and_another_one_to_act(self) -> None:
        """The page on which the teacher can act has a token in its address, which isn't kept in the run's folder. After
        the server was killed, the run is resumed."""
        going = Going(self, CYCLE, "--close", "by-hand", "--page", str(a_port()))
        looks, acts = (going.until(f"^{word} http").removeprefix(f"{word} ") for word in ("page for the projector", "page on which you can act"))
        os.kill(going.server(), signal.SIGKILL)
        self.assertEqual(going.wait_for_end(), 4, going.lines)
        self.assertIn("the server has ended, by the signal SIGKILL", going.lines)
        self.assertNotIn(acts.split("/")[3], (going.folder / "run.json").read_text(encoding="utf-8"))
        self.assertEqual({(going.folder / name).stat().st_mode & 0o777 for name in ("lab.toml", "journal.lab", "journal")}, {0o600})
        again = Going(self, None, "run", "--resume", going.folder)
        self.assertEqual(again.until("^page for the projector http"), f"page for the projector {looks}")
        with urllib.request.urlopen(looks, timeout=LIMIT) as it:
            self.assertEqual(it.status, 200)
        with self.assertRaises(urllib.error.HTTPError):
            urllib.request.urlopen(acts, timeout=LIMIT)

    def test_a_second_run_of_a_lab_is_refused_unless_it_is_started_beside_the_first(self) -> None:
        """The error line names the port and the folder of the first run. After its end, a run can be started again."""
        going = Going(self, CYCLE, "--close", "by-hand")
        second = call_class("run", CYCLE, "--into", self.room / "runs")
        self.assertEqual((second.returncode, second.stdout), (1, ""))
        self.assertEqual(second.stderr, f"class: a run of {CYCLE} is still going on, at port {going.port} and in the folder {going.folder}. "
                                        "To start another run beside it, add --beside\n")
        self.assertEqual(len(list((self.room / "runs").iterdir())), 1)
        beside = Going(self, CYCLE, "--close", "by-hand", "--beside")
        for run in (beside, going):
            run.type("end\nend")
            self.assertEqual(run.wait_for_end(), 0)
        third = Going(self, CYCLE, "--close", "by-hand")
        third.type("end\nend")
        self.assertEqual(third.wait_for_end(), 0)


class Kept(InRoom):
    """The lines of a run in its folder."""

    def test_each_kept_line_has_its_hour_and_minute_and_lines_for_the_terminal_are_not_kept(self) -> None:
        """The functions in `also` get each kept line too. `print_only` prints a line only in the terminal."""
        tell, heard = Teller(self.room), list[str]()
        tell.also.append(heard.append)
        with contextlib.redirect_stdout(io.StringIO()) as printed:
            tell("one\x1b")
            tell.print_only("for the terminal")
            tell("two\nthree")
        self.assertEqual(printed.getvalue(), "one\\x1b\nfor the terminal\ntwo\nthree\n")
        self.assertEqual(heard, ["one\\x1b", "two\nthree"])
        kept = (self.room / "run.txt").read_text(encoding="utf-8")
        self.assertRegex(kept, r"\A\d\d:\d\d one\\x1b\n\d\d:\d\d two\n\d\d:\d\d three\n\Z")


class Disk(InRoom):
    """Lines about the room on the disk, and about the limit on the size of files."""

    def test_a_line_is_printed_when_the_disk_is_nearly_full_full_or_has_room_again(self) -> None:
        """The disk is nearly full if fewer than 65,536 bytes are free, and full if none is. A line is printed only when
        this changes."""
        told = self.lines_about(self.disk(), 10**9, 65536, 65535, 4096, 0, 0, 10**9, 10**9)
        self.assertEqual(told, [[], [], ["the disk is nearly full"], [], ["the disk is full"], [], [ROOM_AGAIN], []])

    def disk(self) -> DiskRoom:
        """Returns the object that watches the disk of the test's folder."""
        room = DiskRoom(self.room)
        self.addCleanup(room.close)
        return room

    def lines_about(self, room: DiskRoom, *free: int) -> list[list[str]]:
        """Checks the disk once for each of these numbers of free bytes. Returns for each check the beginnings of its
        lines, up to a colon or to a period that `If` doesn't follow."""
        told = []
        for left in free:
            room.due = 0.0  # so that the check is made at once
            with unittest.mock.patch.object(room, "left", return_value=left):
                told.append([re.split(r": |\. (?!If)", line)[0] for line in room.news()])
        return told

    def test_a_disk_that_can_not_be_written_though_bytes_are_free_counts_as_full(self) -> None:
        """The limit on the size of this process's files makes the write fail by which the disk is checked. In a folder
        that doesn't exist nothing is checked."""
        room = self.disk()
        self.assertEqual(self.lines_about(room, 10**9), [[]])
        before = resource.getrlimit(resource.RLIMIT_FSIZE)
        resource.setrlimit(resource.RLIMIT_FSIZE, (0, before[1]))
        try:
            self.assertEqual(self.lines_about(room, 10**9, 10**9), [["the disk can't be written to (File too large)"], []])
        finally:
            resource.setrlimit(resource.RLIMIT_FSIZE, before)
        self.assertEqual(self.lines_about(room, 10**9), [[ROOM_AGAIN]])
        self.assertEqual(list(self.room.iterdir()), [])
        self.assertEqual(self.lines_about(DiskRoom(self.room / "none"), 10**9), [[]])

    def test_a_line_is_printed_when_the_journal_is_near_the_limit_on_the_server_s_files_and_at_it(self) -> None:
        """The stand-in for the server is a process with a limit of 100,000 bytes. The journal is near the limit if it
        can grow by fewer than 65,536 bytes. Without a limit, no line is printed."""
        server = subprocess.Popen(["sleep", "1000"], preexec_fn=lambda: resource.setrlimit(resource.RLIMIT_FSIZE, (100_000, 100_000)))
        self.addCleanup(server.wait)
        self.addCleanup(server.kill)
        journal, room = self.file("journal", ""), DiskRoom(self.room, server.pid)
        self.addCleanup(room.close)
        told = []
        for size in (34_464, 34_465, 50_000, 99_900, 100_000):
            journal.write_bytes(bytes(size))
            told.append([line.partition(". ")[0] for line in room.limit_news()])
        self.assertEqual(told, [[], ["the journal can only grow by 65535 more bytes, because of a limit on the size of files (ulimit -f)"], [],
                                ["the journal has reached the limit on the size of files (ulimit -f), so the server grants nothing more"], []])
        unbounded = DiskRoom(self.room, os.getpid())
        self.addCleanup(unbounded.close)
        self.assertEqual(unbounded.limit_news(), [])


class Memory(InRoom):
    """A server that is out of memory."""

    def test_a_report_that_is_refused_as_memory_is_asked_for_again(self) -> None:
        """The first report is needed at once, so it is asked for until it comes. A later one is asked for at each read
        of the journal, and meanwhile the desk has the old one. Any other refusal is raised."""
        reports = [Report(at, at == 1, (), (), (), ()) for at in (0, 1)]
        client = unittest.mock.Mock()
        client.report.side_effect = [Refused("memory"), reports[0], Refused("memory"), Refused("memory"), reports[1], Refused("journal")]
        lines: list[str] = []
        journal = self.file("journal", "")
        desk = Desk(labs.read(CYCLE), journal, client, Daemon("by-hand"), lines.append)
        self.addCleanup(desk.known.journal.close)
        self.assertEqual(desk.known.report, reports[0])
        journal.write_text("1 0 fault 1 2 true\n", encoding="ascii")
        for is_old in (True, True, False):
            desk.read()
            self.assertEqual(desk.known.is_old, is_old)
        self.assertEqual(desk.known.report, reports[1])
        self.assertEqual(len(lines), 1)  # the line about the fault
        with self.assertRaises(Refused):
            desk.known.ask_report()


class NewKey(InRoom):
    """A desk that can't connect to the server again after the command `key`, which restarts the server."""

    def end_after(self, signal_word: str, error: Exception) -> tuple[str, list[str]]:
        """Types `key gus` at a desk, and then queues `signal_word`, the text by which the desk learns of a signal. Each
        attempt of the desk to connect to the server fails by `error`. Returns the reason for which the desk ends the
        run, and the lines that it prints."""
        lab, it, client, lines = labs.read(CYCLE), unittest.mock.Mock(), unittest.mock.Mock(), list[str]()
        it.has_ended.side_effect = chain(repeat(False, 20), repeat(True))  # If the signal is lost, the reason is `died`.
        client.report.return_value = Report(0, False, (), (), (), ())
        client.limit = 1.0
        desk = Desk(lab, self.file("journal", ""), client, Daemon("by-hand"), lines.append)
        self.addCleanup(desk.known.journal.close)
        run = Running(self.room, CYCLE, lab, desk.closing, None, None, False, Teller(self.room))
        desk.another_key = lambda name: renew(run, it, desk, name)
        for line in ("key gus", signal_word):
            run.typed.put(line)
        room = DiskRoom(self.room)
        self.addCleanup(room.close)
        patches = (unittest.mock.patch("classroom.run.renewing.renew"),  # the restart, which is left out
                   unittest.mock.patch("classroom.run.taking.Client", side_effect=error),
                   unittest.mock.patch("classroom.run.desk.Client", side_effect=error))
        with patches[0], patches[1], patches[2], contextlib.redirect_stdout(io.StringIO()):
            return attend(desk, it, False, run.typed, room, lambda: None), lines

    def test_another_process_can_take_the_desk_then(self) -> None:
        """LEAVE stands for the signal by which another process asks for the desk."""
        for error in (Refused("busy"), Closed("no answer in 30 seconds")):
            self.assertEqual(self.end_after(LEAVE, error)[0], "left")

    def test_a_signal_then_ends_the_run_after_one_more_try_to_connect(self) -> None:
        """NOW stands for the signal that ends the run at once. The printed line is about the one more try."""
        for error in (Refused("busy"), Closed("no answer in 30 seconds")):
            why, lines = self.end_after(NOW, error)
            self.assertEqual(why, "end")
            self.assertIn(f"the connection to the server's desk is lost; trying to connect again: {error}", lines)


class NotDone(Cycle):
    """Commands that fail print a line, and leave no folder."""

    def says(self, status: int, line: str, *asked: str | Path) -> None:
        """Runs `./class` with the arguments `asked`. Checks the status, and that it prints only one line, on the
        standard error, which matches `line`."""
        done = call_class(*asked)
        self.assertEqual((done.returncode, done.stdout), (status, ""), done.stderr)
        self.assertRegex(done.stderr, f"^{line}\n$")

    def test_a_wrong_port_lab_or_folder_gets_an_error_line(self) -> None:
        """The status is 1 for a wrong command line, and 4 for a file or folder that can't be used. No run makes a
        folder."""
        into = self.room / "runs"
        for word, port in (("--port", "65536"), ("--port", "0"), ("--page", "70000"), ("--page", "x")):
            self.says(1, f"class run: argument {word}: {port} isn't a port: write a number from 1 to 65535; class run --help prints what to type",
                      "run", CYCLE, word, port, "--into", into)
        self.says(4, f"class: {self.room}/none.toml: No such file or directory", "run", self.room / "none.toml", "--into", into)
        self.says(4, f"class: {self.room}: .*", "run", self.room, "--into", into)
        self.says(1, "class: the following arguments are required: .*; class --help prints what to type")
        file = self.file("file", "")
        self.says(4, f"class: {file}/.*: this folder can't be made: Not a directory. Name another place for it by --into FOLDER", "run", CYCLE, "--into", file)
        self.says(4, "class: /proc/none/.*: this folder can't be made: .*. Name another place for it by --into FOLDER", "run", CYCLE, "--into", "/proc/none")
        self.assertFalse(into.exists() and list(into.iterdir()))

    def test_no_folder_is_left_if_the_server_does_not_start(self) -> None:
        broken = self.file("broken", "#!/bin/sh\necho no >&2\nexit 4\n")
        broken.chmod(0o755)
        with unittest.mock.patch.dict(os.environ, {"MML_HOST": str(broken)}):
            self.says(4, "class: the server can't be started. It ended with status 4, and printed: no", "run", CYCLE, "--into", self.room / "runs")
        self.assertEqual(list((self.room / "runs").iterdir()), [])

    def test_the_help_of_each_subcommand_has_an_example_and_that_of_run_all_commands_of_the_desk(self) -> None:
        everything = call_class("--help").stdout
        self.assertIn("exit status: 0 done; ", " ".join(everything.split()))
        for word in ("new", "check", "run", "attach", "mark", "play", "demo"):
            self.assertIn(f"    {word} ", everything)
            said = " ".join(call_class(word, "--help").stdout.split())
            self.assertRegex(said, f"Examples?: class {word}")
            for form in FORMS.values() if word in ("run", "attach") else ():
                self.assertIn(form, said)

    def test_new_accepts_names_of_labs_with_dots_but_not_of_dots_alone(self) -> None:
        students = self.file("students", "Ana\nBen\nCyd\n")
        for name in ("..", "..."):
            self.says(1, "class: .* isn't a file name of the form NAME.toml", "new", f"{self.room}/x/{name}", "--students", students)
        for name, made in (("maths.2026", "maths.2026.toml"), ("a.b.toml", "a.b.toml")):
            self.assertEqual(call_class("new", self.room / name, "--students", students).returncode, 0)
            self.assertTrue((self.room / made).is_file())

    def test_a_command_whose_output_nobody_reads_ends_with_status_4_and_no_error_line(self) -> None:
        journal = self.file("journal", "")
        ours, theirs = os.pipe()
        os.close(ours)  # Nobody can read the pipe any more.
        done = subprocess.run([sys.executable, EXAMPLES.parent / "class", "mark", CYCLE, journal], stdout=theirs,
                              stderr=subprocess.PIPE, check=False, timeout=LIMIT)
        os.close(theirs)
        self.assertEqual((done.returncode, done.stderr), (4, b""))


if __name__ == "__main__":
    unittest.main()
