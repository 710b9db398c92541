"""`./class run` and `./class demo` with the built program, and the bots and clients that connect to them."""
from __future__ import annotations

import shutil
import signal
import socket
import subprocess
import sys
import unittest
from pathlib import Path

from classroom.client import Client, Closed, Denied, Refused
from tests.classroom.help import CYCLE, EXAMPLES, KEYS, LIMIT, Cycle, Going, call_class, no_server


class Run(Cycle):
    """Runs of the cycle of `examples/`."""

    def test_a_run_until_stable_ends_by_itself_with_all_its_files(self) -> None:
        """A run from this lab's start has more than ten events, that is, granted moves and closed steps."""
        going = Going(self, CYCLE, "--close", "when-idle:0.3", "--until", "stable")
        for name in KEYS:
            self.bot(going, name)
        self.assertEqual(going.wait_for_end(), 0, going.lines)
        self.assertIn("ok: ", (going.folder / "audit.txt").read_text(encoding="utf-8"))
        self.assertIn(", stable", (going.folder / "audit.txt").read_text(encoding="utf-8"))
        self.assertGreater(self.check_complete(going.folder), 10)

    def test_the_desk_prints_a_line_for_each_typed_command_and_a_denied_client_gets_the_reason(self) -> None:
        """In this run steps are closed by hand. A bot that is killed disturbs nothing. The printed bounds are
        3n + 2 min(L, n²/4) for n nodes and L links: 35 at first, and 33 after a link is removed."""
        going = Going(self, CYCLE, "--close", "by-hand")
        going.type("wait")
        self.assertIn("node 7 (jonas): abandonment", going.until("^waiting for "))
        with Client(going.port, "gus", KEYS["gus"]) as gus:
            look = gus.snapshot([1, 4])[4]
            gus.move(look)
            with self.assertRaises(Denied) as denied:
                gus.move(look)
            self.assertEqual((denied.exception.clause, denied.exception.name), (3, "chosen"))
            with self.assertRaises(Refused):
                gus.ask(do="dance")
            going.type("close")
            self.assertIn("node 4 (gus): update", going.until("^configuration 1"))
            with self.assertRaises(Denied) as denied:
                gus.move(look)
            self.assertEqual((denied.exception.name, denied.exception.at), ("stale", 1))
        bot = self.bot(going, "jonas")
        going.type("fault 1 2 true")
        going.until("fault at node 1: p 2, m true; .* moves: 0 of at most 35")
        bot.kill()
        going.type("cut 1 2")
        going.until("removed the link between 1 and 2; .* moves: 0 of at most 33")
        going.type("dance")
        going.until("^dance isn't a command. The commands are: close, fault NODE")
        going.type("fault 1 7 yes")
        going.until(r"^the command fault was written in a wrong form. Write: fault NODE NEIGHBOUR\|null true\|false$")
        going.type("report")
        going.until(r"^configuration \d+ is not stable; .*privileged nodes: .*\((seduction|abandonment|marriage|update)\)")
        going.type("link 1 1")
        going.until("^the server denied this command: loop")
        self.assertEqual(going.end(), 0, going.lines)
        self.assertGreaterEqual(self.check_complete(going.folder), 4)

    def test_a_bot_in_java_plays_beside_bots_in_python(self) -> None:
        """All four owners have a bot, so the run ends by itself once the network is stable."""
        if shutil.which("java") is None:
            self.skipTest("not tried: java")
        going = Going(self, CYCLE, "--close", "when-idle:0.5", "--until", "stable")
        self.bot(going, "gus", "java", EXAMPLES / "Bot.java")
        for name in ("hana", "ines", "jonas"):
            self.bot(going, name)
        self.assertEqual(going.wait_for_end(), 0, going.lines)
        self.assertGreater(self.check_complete(going.folder), 10)

    def test_sigint_and_sigterm_end_a_run_with_all_its_files(self) -> None:
        for number in (signal.SIGINT, signal.SIGTERM):
            going = Going(self, CYCLE, "--close", "by-hand")
            going.process.send_signal(number)
            self.assertEqual(going.wait_for_end(), 0, going.lines)
            self.assertEqual(self.check_complete(going.folder), 0)

    def test_a_server_whose_port_is_in_use_takes_another_and_says_so(self) -> None:
        with socket.create_server(("127.0.0.1", 0)) as taken:
            port = taken.getsockname()[1]
            going = Going(self, CYCLE, "--port", str(port))
            self.assertGreater(going.port, port)
            self.assertIn(f"port {port} is in use, so the server has port {going.port}; students have to use this one, whatever their slips say", going.lines)
            going.type("end\nend")
            self.assertEqual(going.wait_for_end(), 0)

    def test_without_the_program_run_says_how_to_build_it(self) -> None:
        done = call_class("run", CYCLE, "--into", self.room / "runs", MML_PROGRAM=str(self.room / "none"))
        self.assertEqual(done.returncode, 1)
        self.assertIn("the program mml isn't built. Type `./mml build` to build it", done.stderr)
        self.assertFalse((self.room / "runs").exists())

    def test_without_the_host_s_program_only_a_run_with_serve_starts(self) -> None:
        """Without it a run fails with a message about how to build it. With `--serve` the server is another program,
        but at the end a line says that the host's program isn't built, and the status is 1."""
        none = str(self.room / "none")
        asked: tuple[list[str | Path], ...] = (["run", CYCLE], ["demo"])
        for given in asked:
            done = call_class(*given, "--into", self.room / "runs", MML_HOST=none)
            self.assertEqual(done.returncode, 1)
            self.assertIn("the program mml isn't built. Type `./mml build` to build it", done.stderr)
        self.assertFalse((self.room / "runs").exists())
        going = Going(self, CYCLE, "--close", "by-hand", "--serve", MML_HOST=none)
        self.assertTrue(any("connections in all" in line for line in going.lines), going.lines)
        with Client(going.port, "gus", KEYS["gus"]) as gus:
            gus.move(gus.look(4))
        going.type("close")
        going.until("^configuration 1: node 4 \\(gus\\): update")
        self.assertEqual(going.end(), 1, going.lines)
        self.assertTrue(any("mml isn't built" in line for line in going.lines), going.lines)
        self.assertTrue((going.folder / "run.html").is_file())
        self.assertIn("2 events, among them 1 closed step, 0 faults, 0 added links and 0 removed links; last configuration: 1, ",
                      call_class("mark", going.folder).stdout)

    def test_a_client_at_a_port_without_a_server_raises_closed(self) -> None:
        with no_server() as port, self.assertRaises(Closed):
            Client(port, "gus", "key")

    def test_a_client_whose_server_says_nothing_raises_closed_after_its_time_limit(self) -> None:
        with socket.create_server(("127.0.0.1", 0)) as silent, self.assertRaises(Closed):
            Client(silent.getsockname()[1], "gus", "key", limit=0.1)

    def test_demo_ends_stable_and_leaves_the_files_of_a_run(self) -> None:
        done = call_class("demo", "--into", self.room)
        self.assertEqual(done.returncode, 0, done.stdout + done.stderr)
        self.assertIn("the network is stable, so the run is ended", done.stdout)
        folder = next(self.room.iterdir())
        self.check_complete(folder)
        self.assertLess((folder / "run.html").stat().st_size, 1_000_000)

    def test_two_labs_run_side_by_side_until_a_signal(self) -> None:
        """SIGINT is sent after the last row of the table at the start. `mark` takes the folder of both runs."""
        students = self.file("students", "".join(f"S {number}\n" for number in range(6)))
        self.assertEqual(call_class("new", self.room / "lab.toml", "--students", students, "--groups", "2").returncode, 0)
        labs = [self.room / "lab-1.toml", self.room / "lab-2.toml"]
        process = subprocess.Popen(
            [sys.executable, EXAMPLES.parent / "class", "run", *labs, "--into", self.room / "runs", "--port", "27100"],
            stdin=subprocess.DEVNULL, stdout=subprocess.PIPE, stderr=subprocess.STDOUT, text=True,
        )
        assert process.stdout is not None
        with process.stdout:
            for line in process.stdout:
                if line.startswith("2  lab-2  "):
                    process.send_signal(signal.SIGINT)
        self.assertEqual(process.wait(LIMIT), 0)
        folder, = (self.room / "runs").iterdir()
        self.assertEqual(call_class("mark", folder).returncode, 0)


if __name__ == "__main__":
    unittest.main()
