"""`./class attach`: a class that continues after the process that ran its desk was killed, or after its terminal was
closed. The server is a process of its own, and goes on."""
from __future__ import annotations

import argparse
import json
import os
import shutil
import signal
import time
import unittest
from dataclasses import replace
from pathlib import Path

from classroom.client import Client
from classroom.core.folders import Process, Record
from classroom.core.program import Fault, host
from classroom.run.attach import attach
from tests.classroom.help import CLASS, CYCLE, KEYS, LIMIT, Cycle, Going, InRoom, InTerminal, call_class, stop


@unittest.skipUnless(host(), "not tried: no host is built")
class Attach(Cycle):
    """Runs of the cycle of `examples/`."""

    def killed(self, *more: str) -> Going:
        """Starts a run with these options, and kills the process of its desk after a move, a close and a fault. Returns
        the run, whose server is still running and is killed at the end of the test."""
        going = Going(self, CYCLE, "--close", "by-hand", *more)
        server = going.server()
        self.addCleanup(self.end, server)
        with Client(going.port, "gus", KEYS["gus"]) as gus:
            gus.move(gus.look(4))
        going.type("close")
        going.until("^configuration 1: node 4 ")
        going.type("fault 1 2 true")
        going.until("^configuration 2: fault at node 1: p 2, m true")
        going.process.kill()
        going.process.wait()
        self.assertTrue(Process.of(server).lives())
        return going

    def end(self, server: int) -> None:
        """Kills the process of a server, which a test may have left running."""
        if Process.of(server).lives():
            os.kill(server, signal.SIGKILL)

    def marks(self, folder: Path) -> dict[str, int]:
        """Returns the number of applied moves of each student, from the marks in the folder."""
        students = json.loads((folder / "marks.json").read_text(encoding="utf-8"))["runs"][0]["students"]
        return {name: sum(it["applied"].values()) for name, it in students.items()}

    def test_attach_continues_a_run_whose_desk_was_killed(self) -> None:
        """The events from before are counted, and their lines aren't printed again."""
        going = self.killed()
        again = Going(self, None, "attach", going.folder)
        self.assertEqual((again.port, again.folder), (going.port, going.folder))
        self.assertIn("the class continues at configuration 2; events: 3 of 1000", again.lines)
        self.assertFalse(any(line.startswith("configuration ") for line in again.lines), again.lines)
        with Client(again.port, "gus", KEYS["gus"]) as gus:
            gus.move(gus.look(1))
        again.type("close")
        again.until("^configuration 3: node 1 \\(gus\\): update; .* moves: 1 of at most 35; events: 5 of 1000$")
        self.assertEqual(again.end(), 0, again.lines)
        self.assertEqual(self.check_complete(going.folder), 5)
        self.assertEqual(self.marks(going.folder), {"gus": 2, "hana": 0, "ines": 0, "jonas": 0})
        told = (going.folder / "run.txt").read_text(encoding="utf-8")
        for line in ("configuration 1: node 4 (gus): update", "configuration 2: fault", "configuration 3: node 1 (gus): update"):
            self.assertEqual(told.count(line), 1, line)

    def test_attach_serves_the_page_for_the_projector_again(self) -> None:
        going = self.killed("--page", "29500")  # at this port or the next free one
        again = Going(self, None, "attach", going.folder)
        self.assertRegex(again.until("^page for the projector "), "^page for the projector http://127.0.0.1:295")
        again.type("link 1 3")
        again.until("^configuration 3: added the link between 1 and 3")
        self.assertEqual(again.end(), 0, again.lines)

    def test_a_second_run_of_the_lab_is_refused_and_the_error_line_names_attach(self) -> None:
        going = self.killed()
        done = call_class("run", CYCLE, "--into", self.room / "runs")
        self.assertEqual(done.returncode, 1)
        self.assertEqual(done.stderr, f"class: a run of {CYCLE} is still going on, at port {going.port} and in the folder {going.folder}. "
                                      f"To control it, type: {CLASS} attach {going.folder} . To start another run beside it, add --beside\n")

    def test_a_run_continues_without_its_terminal_until_attach_takes_its_desk(self) -> None:
        """The terminal is closed, and then the process of its desk waits until `attach` takes the desk. The two events
        of the run are the fault and the link."""
        terminal = InTerminal(self)
        terminal.type(b"fault 1 2 true\n", b" moves: 0 of at most 35;")
        os.close(terminal.ours)
        folder = next((self.room / "runs").iterdir())
        self.wait_for_line(folder, f"the terminal was closed, and the run continues. To control it again, type: {CLASS} attach {folder}\n")
        self.assertIsNone(terminal.process.poll())
        again = Going(self, None, "attach", folder)
        terminal.process.wait(LIMIT)
        again.type("link 1 3")
        again.until("^configuration 2: added the link between 1 and 3")
        self.assertEqual(again.end(), 0, again.lines)
        self.assertEqual(self.check_complete(folder), 2)

    def test_the_desk_can_stop_waiting_for_the_end_of_a_server_that_does_not_answer(self) -> None:
        """The desk sends its bye to a stopped server, waits, and is ended by a command. The server ends when it runs
        again, and then the run's marks can be printed."""
        going = Going(self, CYCLE, "--close", "by-hand")
        server = going.server()
        going.type("fault 1 2 true")
        going.until("^configuration 1: ")
        stop(server)
        self.addCleanup(self.end, server)
        going.process.send_signal(signal.SIGTERM)
        going.until("^the connection to the server's desk is lost: no answer in ")
        going.until(rf"^waiting for the end of the server \(process {server}\)\. Type `end` to stop waiting$")
        going.type("end")
        self.assertEqual(going.wait_for_end(), 4, going.lines)
        self.assertTrue(going.lines[-1].startswith(f"the server (process {server}) keeps running, but nobody controls it. "), going.lines)
        self.assertTrue(Process.of(server).lives())
        os.kill(server, signal.SIGCONT)
        end = time.monotonic() + LIMIT
        while Process.of(server).lives():  # The server has received the bye.
            self.assertLess(time.monotonic(), end)
            time.sleep(0.05)
        self.assertIn("1 event, among them 0 closed steps, 1 fault, 0 added links and 0 removed links; last configuration: 1, ",
                      call_class("mark", going.folder).stdout)

    def wait_for_line(self, folder: Path, line: str) -> None:
        """Waits until the file `run.txt` in a run's folder, which has the printed lines, contains this line."""
        end = time.monotonic() + LIMIT
        while line not in (folder / "run.txt").read_text(encoding="utf-8"):
            self.assertLess(time.monotonic(), end)
            time.sleep(0.05)

    def test_attach_refuses_a_run_that_has_a_desk_or_has_ended_and_a_missing_folder(self) -> None:
        """The error line says what to do instead. An ended run can only be continued by `run --resume`."""
        going = Going(self, CYCLE, "--close", "by-hand")
        done = call_class("attach", going.folder)
        self.assertEqual((done.returncode, done.stderr), (1, f"class: {going.folder}: another process (number {going.process.pid}) controls this run. "
                                                               "Type your commands in its terminal. Or close that terminal (don't type `end` there: "
                                                               "that ends the run), and then type this command again\n"))
        self.assertEqual(going.end(), 0, going.lines)
        done = call_class("attach", going.folder)
        self.assertEqual((done.returncode, done.stderr), (
            1, f"class: {going.folder}: the server of this run has ended. To continue the run, type: {CLASS} run --resume {going.folder} --again\n"))
        self.assertEqual(call_class("attach", self.room / "none").returncode, 1)


class Ended(InRoom):
    """Folders of runs whose server has ended."""

    def test_the_named_command_has_the_option_again_only_if_the_run_was_ended_on_purpose(self) -> None:
        """`run --resume` refuses such a run without this option. A run whose server died, and one without `run.json`,
        don't need the option."""
        shutil.copy(CYCLE, self.room / "lab.toml")
        self.file("journal", "")
        resume = r"the server of this run has ended\. To continue the run, type: \S+ run --resume \S+"
        for ended, option in ((None, ""), (False, ""), (True, " --again")):
            if ended is not None:
                replace(Record.default(self.room, 4711), ended=ended).write(self.room)
            with self.subTest(ended=ended), self.assertRaisesRegex(Fault, f"{resume}{option}$"):
                attach(argparse.Namespace(folder=str(self.room)))


if __name__ == "__main__":
    unittest.main()
