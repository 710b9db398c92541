"""A scripted lesson: late students, a wrong key, faults, a crash, a full disk, a closed terminal. The *desk* is the
teacher's connection, which `run` has, and later `attach`. Its typed lines, such as `fault`, change the network."""
from __future__ import annotations

import csv
import io
import os
import re
import signal
import subprocess
import sys
import time
import unittest
from collections import Counter
from pathlib import Path

from classroom.core.folders import Process, Record
from classroom.core.lab import Lab, read
from classroom.core.program import TOP, call, host
from tests.classroom.help import CLASS, LIMIT, Going, InRoom, InTerminal, a_port, call_class

BOT = TOP / "examples/bot.py"
NAMES = ("Zoë,Müller", "Jonas,Ek", "Ana,Lima", "Gus,Roy", "Ida,Berg", "Tim,Ode", "Eva,Sol", "Bo,Dahl", "Kim,Vo", "Pia,Rot", "Leo,Wolf", "Uma,Das")
LATE = ("pia-rot", "leo-wolf", "uma-das")


@unittest.skipUnless(host(), "not tried: no host is built")
class Lesson(InRoom):
    """Twelve students on a grid."""

    def setUp(self) -> None:
        """Makes the lab and the slips from a list of the students. At the beginning one node in three has random
        registers."""
        super().setUp()
        self.list = self.file("names.csv", "First name,Surname,ID number\n" + "".join(f"{name},{number}\n" for number, name in enumerate(NAMES, 101)))
        self.file_of_lab, self.port = self.room / "maths.toml", a_port()
        made = call_class("new", self.file_of_lab, "--students", self.list, "--family", "grid:4x3", "--start", "hurt", "--port", str(self.port))
        self.assertEqual(made.returncode, 0, made.stderr)
        self.assertEqual(call_class("check", self.file_of_lab).returncode, 0)
        self.lab: Lab = read(self.file_of_lab)

    def bots(self, names: list[str]) -> list[subprocess.Popen[str]]:
        """Starts the bots of these students with their slips. Returns their processes."""
        started = [
            subprocess.Popen([sys.executable, BOT, self.slip(name)], stdin=subprocess.DEVNULL, stdout=subprocess.DEVNULL,
                             stderr=subprocess.PIPE, text=True)
            for name in names
        ]
        for bot in started:
            self.addCleanup(bot.communicate)
            self.addCleanup(bot.kill)
        return started

    def slip(self, name: str) -> Path:
        """Returns the path of the slip that `./class new` made for a student."""
        return self.room / "maths-slips" / f"{name}.slip"

    def check_end(self, bots: list[subprocess.Popen[str]], *statuses: int) -> None:
        """Waits until these bots end. Checks that each ends with one of these statuses and the line for it: 0 if the
        run is over, 4 if there is no server, and 6 if nothing is granted any longer."""
        for bot in bots:
            said = bot.communicate(timeout=LIMIT)[1]
            why = {0: "the run is over\n", 4: f"no server at port {self.port}", 6: "nothing is granted any longer: tell your teacher"}
            self.assertIn(bot.returncode, statuses, said)
            self.assertIn(why[bot.returncode], said)

    def journal(self, folder: Path) -> list[str]:
        """Returns the complete lines of the journal in a folder."""
        return [line.decode("ascii") for line in (folder / "journal").read_bytes().split(b"\n")[:-1]]

    def applied(self, folder: Path) -> Counter[str]:
        """Returns the number of applied moves of each student in the journal of a folder, counted without the
        program."""
        chosen: dict[str, str] = {}
        found: Counter[str] = Counter()
        for line in self.journal(folder):
            word, *rest = line.split(" ")[2:]
            if word == "grant":
                chosen[rest[1]] = rest[0]
            elif word == "close":
                found.update(chosen.values())
            if word != "grant":  # A close or a fault. The lesson has no `release`, which would drop a single move.
                chosen.clear()
        return found

    def test_after_a_crash_a_full_disk_and_a_closed_terminal_the_marks_match_the_journal(self) -> None:
        """The run is begun, and continued twice. Each part of it is in a method of its own."""
        folder = self.run_first_half()
        self.run_on_full_disk(folder)
        self.run_second_half(folder)
        self.check_marks(folder)

    def run_first_half(self) -> Path:
        """Starts the run with most of the bots and one bot with a wrong key, makes two faults, starts the late bots,
        and kills the server. Returns the run's folder."""
        going = Going(self, self.file_of_lab, "--close", "every:0.3", "--port", str(self.port))
        self.assertEqual(going.port, self.port)
        bots = self.bots([name for name in self.lab.students if name not in LATE])
        wrong = self.file("wrong.slip", self.slip("gus-roy").read_text(encoding="utf-8").replace("key ", "key x"))
        done = subprocess.run([sys.executable, BOT, wrong], capture_output=True, text=True, check=False, timeout=LIMIT)
        self.assertEqual((done.returncode, done.stderr), (2, "bot.py: name and key don't match: take both from your slip\n"))
        going.until("^configuration ")
        going.type("fault 1 2 true")
        going.until("fault at node 1: p 2, m true")
        bots += self.bots(list(LATE))
        going.until("^connected: ")
        going.type("fault 6 null true")
        going.until("fault at node 6: p null, m true")
        going.until("^configuration ")
        os.kill(going.server(), signal.SIGKILL)
        self.assertEqual(going.wait_for_end(), 4, going.lines)
        self.assertIn(f"to continue the run: {CLASS} run --resume {going.folder}", going.lines)
        for bot in bots:  # The bot would greet again, but here each student ends it and starts another.
            bot.terminate()
        return going.folder

    def run_on_full_disk(self, folder: Path) -> None:
        """Continues the run in a folder with a limit on the size of the server's files, which stands for a full disk.
        Makes faults until the journal reaches the limit and the run ends. At first all files are below the limit. The
        largest one may be the desk's record, which has each denied close."""
        journal = folder / "journal"
        most = max(file.stat().st_size for file in (journal, *(folder / "record").iterdir())) // 1024 + 1
        # Without the signal XFSZ, a write beyond the limit fails, as on a full disk.
        limited = self.file("host", f'#!/bin/bash\ntrap "" XFSZ\nulimit -f {most}\nexec "{host()}" "$@"\n')
        limited.chmod(0o755)
        going = Going(self, None, "run", "--resume", folder, MML_HOST=str(limited))
        self.assertEqual(going.port, self.port)
        bots = self.bots(list(self.lab.students))
        # Each fault adds at least twenty bytes to the journal.
        going.type("\n".join(["fault 11 null true"] * (60 + (1024 * most - journal.stat().st_size) // 20)))
        going.until("^nothing more is granted: no line can be written to the journal. Make room on the disk, and then .*class run --resume ")
        self.assertEqual(going.wait_for_end(), 4, going.lines)
        self.check_end(bots, 0, 4, 6)

    def run_second_half(self, folder: Path) -> None:
        """Continues the run in a folder in a terminal, closes the terminal, and takes over the desk by `./class
        attach`. Ends the run when each student has an applied move and the network is stable. Checks that all programs
        end."""
        terminal = InTerminal(self, "run", "--resume", folder)
        terminal.type(b"fault 3 null true\n", b": fault at node 3: p null, m true; ")
        bots = self.bots(list(self.lab.students))
        os.close(terminal.ours)
        self.wait_for_line(folder, "the terminal was closed, and the run continues. "
                                   f"To control it again, type: {CLASS} attach {folder}")
        self.assertIsNone(terminal.process.poll())
        record = Record.read(folder)
        assert record is not None
        self.assertTrue(record.left)  # It says that the terminal was closed.
        going = Going(self, None, "attach", folder)
        self.assertEqual(terminal.process.wait(LIMIT), 4)
        for name in self.lab.students:  # Students who had nothing to do get a privileged node.
            if self.applied(folder)[name] == 0:
                going.type(f"fault {self.lab.nodes_of(name)[0]} null true")
                going.until("^configuration .*: fault ")
        end = time.monotonic() + LIMIT
        while any(self.applied(folder)[name] == 0 for name in self.lab.students):
            self.assertLess(time.monotonic(), end)
            time.sleep(0.1)
        going.type("fault 5 null true")
        going.until("fault at node 5: p null, m true")
        going.until("; stable; ")
        going.type("end")
        self.assertEqual(going.wait_for_end(), 0, going.lines)
        self.assertFalse(Process.of(record.server.number) == record.server)  # The server has ended.
        self.check_end(bots, 0, 4)

    def wait_for_line(self, folder: Path, line: str) -> None:
        """Waits until the file `run.txt` of a run's folder has a line with the time and the text `line`. Fails after a
        time limit."""
        end = time.monotonic() + LIMIT
        while not re.search(rf"(?m)^\d\d:\d\d {re.escape(line)}$", (folder / "run.txt").read_text(encoding="utf-8")):
            self.assertLess(time.monotonic(), end)
            time.sleep(0.05)

    def check_marks(self, folder: Path) -> None:
        """Checks the marks of the run in a folder: those of all students are in the order and form of the list, and
        match the journal. Also checks that the desk's lines about faults are in `run.txt`."""
        self.assertRegex(call("audit", folder / "lab.toml", folder / "journal").output, "^ok: .*, stable\n$")
        done = call_class("mark", folder, "--roster", self.list, "--total")
        self.assertEqual((done.returncode, done.stderr), (0, ""))
        rows = list(csv.DictReader(io.StringIO(done.stdout)))
        self.assertEqual([f"{row['First name']},{row['Surname']}" for row in rows], list(NAMES))
        self.assertEqual([row["ID number"] for row in rows], [str(number) for number in range(101, 113)])
        applied = self.applied(folder)
        self.assertEqual([int(row["applied"]) for row in rows], [applied[name] for name in self.lab.students])
        self.assertGreater(min(int(row["applied"]) for row in rows), 0)
        kept = (folder / "run.txt").read_text(encoding="utf-8").splitlines()
        self.assertTrue(all(re.match(r"\d\d:\d\d ", line) for line in kept), kept)
        for line in ("fault at node 1: p 2, m true", "fault at node 6: p null, m true", "fault at node 3: p null, m true"):
            self.assertTrue(any(line in each for each in kept), line)


if __name__ == "__main__":
    unittest.main()
