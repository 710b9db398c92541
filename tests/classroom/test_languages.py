"""The example bots in other languages than Python. Each is tested if its compiler or interpreter is installed. Some
tests also try the example in Python."""
from __future__ import annotations

import os
import shutil
import signal
import socket
import struct
import subprocess
import sys
import tempfile
import time
import unittest
from functools import cache
from pathlib import Path

from tests.classroom.help import CYCLE, EXAMPLES, LIMIT, Cycle, Going, InRoom, call_class, no_server

Command = tuple[str | Path, ...]
COMPILERS = {"bot.c": ("cc", "-Wall", "-Wextra", "-Werror", "-O1"), "bot.rs": ("rustc", "--edition", "2021", "-D", "warnings", "-O")}
PROGRAMS = {"Bot.java": "java", "bot.js": "node", "bot.c": "cc", "bot.rs": "rustc"}
ROOM = tempfile.TemporaryDirectory()  # the folder of compiled bots, which is removed at the end of this process


def tearDownModule() -> None:
    """Removes the compiled programs."""
    ROOM.cleanup()


@cache
def bots() -> dict[str, Command]:
    """Returns the command of each example bot that can run here, by the name of its file. Compiles some of them.
    Raises an error if a compiler fails."""
    found: dict[str, Command] = {}
    for name, program in PROGRAMS.items():
        if shutil.which(program) is None:
            continue
        made = Path(ROOM.name) / name.replace(".", "_")
        if name in COMPILERS:
            subprocess.run([*COMPILERS[name], "-o", made, EXAMPLES / name], check=True, timeout=LIMIT)
            found[name] = (made,)
        else:
            found[name] = (program, EXAMPLES / name)
    return found


class Languages(unittest.TestCase):
    """The files themselves."""

    def test_each_bot_has_less_than_80_lines(self) -> None:
        """The other tests leave out bots whose compiler or interpreter isn't installed. So that this is noticed, this
        test then counts as skipped, with the missing programs as the reason."""
        for name in PROGRAMS:
            self.assertLess(len((EXAMPLES / name).read_text(encoding="utf-8").splitlines()), 80, name)
        missing = [program for name, program in PROGRAMS.items() if name not in bots()]
        if missing:
            self.skipTest(f"not tried: {' '.join(missing)}")


class Bots(Cycle):
    """The behaviour of the bots in a run."""

    def test_bots_in_several_languages_make_a_network_stable_together(self) -> None:
        """If fewer than four bots can run here, the example in Python plays for the other students. A run from this
        lab's start has more than ten events, that is, granted moves and closed steps."""
        going = Going(self, CYCLE, "--close", "when-idle:0.5", "--until", "stable")
        for number, name in enumerate(("gus", "hana", "ines", "jonas")):
            others = [*bots().values()]
            self.bot(going, name, *(others[number] if number < len(others) else ()))
        self.assertEqual(going.wait_for_end(), 0, going.lines)
        self.assertGreater(self.check_complete(going.folder), 10)

    def test_each_bot_ends_with_one_line_and_the_status_for_what_is_wrong_in_its_slip(self) -> None:
        """The statuses are 1 for a slip that can't be read, 2 for a wrong key, 3 for a node of another student, and 4
        for a port without a server."""
        going = Going(self, CYCLE, "--close", "by-hand")
        good = self.slip(going.port, "gus")
        slip = good.read_text(encoding="utf-8")
        none = self.enterContext(no_server())
        for name, command in bots().items():
            # The wrong key begins with a backslash and a quotation mark, which a bot has to escape in its hello.
            for status, text in ((1, ""), (1, slip.replace("nodes 1", "nodes x")), (2, slip.replace("key ", "key \\\"")),
                                 (3, slip.replace("nodes 1", "nodes 2")), (4, slip.replace(f"port {going.port}", f"port {none}"))):
                said = subprocess.run([*command, self.file("bad.slip", text)], capture_output=True, text=True, check=False, timeout=LIMIT)
                self.assertEqual((said.returncode, said.stderr.count("\n")), (status, 1), (name, text, said.stderr))

    def greeted_bots(self, going: Going) -> list[tuple[str, subprocess.Popen[str]]]:
        """Starts a bot in each language, all for one student. Returns the names of their files and their processes
        after all have greeted."""
        every: dict[str, Command] = {"bot.py": (sys.executable, EXAMPLES / "bot.py"), **bots()}
        playing = []
        for name, command in every.items():
            bot = subprocess.Popen([*command, self.slip(going.port, "gus")], stdin=subprocess.DEVNULL, stdout=subprocess.DEVNULL,
                                   stderr=subprocess.PIPE, text=True)
            self.addCleanup(bot.communicate)
            self.addCleanup(bot.kill)
            playing.append((name, bot))
            going.until("^connected: gus")
        return playing

    def check_end(self, playing: list[tuple[str, subprocess.Popen[str]]], status: int, why: str) -> None:
        """Waits until each of these bots ends. Checks its status, and the reason in the line that it prints."""
        for name, bot in playing:
            said = bot.communicate(timeout=LIMIT)[1]
            self.assertEqual((bot.returncode, said.partition(": ")[2].partition(" (")[0].rstrip()), (status, why), (name, said))

    def test_bots_whose_server_is_killed_greet_again_when_the_run_is_resumed(self) -> None:
        going = Going(self, CYCLE, "--close", "by-hand")
        playing = self.greeted_bots(going)
        os.kill(going.server(), signal.SIGKILL)
        self.assertEqual(going.wait_for_end(), 4, going.lines)
        again = Going(self, None, "run", "--resume", going.folder, "--close", "by-hand")
        all_are_in = f"connected: gus, {len(playing)} connections" if len(playing) > 1 else "connected: gus"
        if all_are_in not in again.lines:
            again.until(f"^{all_are_in}$")
        self.assertEqual(again.end(), 0, again.lines)
        self.check_end(playing, 0, "the run is over")

    def test_bots_whose_server_is_killed_try_for_a_minute_and_end_with_status_7(self) -> None:
        """They must not take the lost connection for the end of the run."""
        going = Going(self, CYCLE, "--close", "by-hand")
        playing = self.greeted_bots(going)
        begun = time.monotonic()
        os.kill(going.server(), signal.SIGKILL)
        self.assertEqual(going.wait_for_end(), 4, going.lines)
        self.check_end(playing, 7, "the connection was lost: start again")
        self.assertGreater(time.monotonic() - begun, 55)


class Reset(InRoom):
    """A server that resets a connection in place of a reply, as the system does after a kill."""

    def test_each_bot_connects_again_after_a_reset_and_ends_when_the_run_is_over(self) -> None:
        """The test itself is the server. It resets the first connection after the hello and another request, and
        answers `over` to the second."""
        every: dict[str, Command] = {"bot.py": (sys.executable, EXAMPLES / "bot.py"), **bots()}
        for name, command in every.items():
            with self.subTest(name), socket.create_server(("127.0.0.1", 0)) as listener:
                listener.settimeout(LIMIT)
                slip = self.file("gus.slip", f"port {listener.getsockname()[1]}\nname gus\nkey heron\nnodes 1\n")
                bot = subprocess.Popen([*command, slip], stdin=subprocess.DEVNULL, stdout=subprocess.DEVNULL, stderr=subprocess.PIPE, text=True)
                self.addCleanup(bot.kill)
                for is_reset in (True, False):
                    its, _ = listener.accept()
                    with its, its.makefile("rb") as lines:
                        lines.readline()
                        its.sendall(b'{"ok":"hello","who":"gus"}\n')
                        lines.readline()
                        # With a linger time of 0 seconds, closing resets the connection.
                        its.setsockopt(socket.SOL_SOCKET, socket.SO_LINGER, struct.pack("ii", is_reset, 0))
                        its.sendall(b"" if is_reset else b'{"refuse":"over"}\n')
                said = bot.communicate(timeout=LIMIT)[1]
                self.assertEqual((bot.returncode, said.partition(": ")[2]), (0, "the run is over\n"), said)


class Graded(InRoom):
    """The grades of the bots in each language."""

    def test_each_bot_passes_all_twelve_cases_of_the_suite_small(self) -> None:
        """The bots in Java and Python are graded in `test_grade.py`."""
        given = [command[-1] for name, command in bots().items() if name != "Bot.java"]
        if not given:
            self.skipTest("not tried: node cc rustc")
        done = call_class("grade", *given, "--timeout", "120", "--into", self.room / "grades")
        self.assertEqual(done.returncode, 0, done.stdout + done.stderr)
        self.assertEqual(done.stdout.count(": 12 of 12 cases passed\n"), len(given), done.stdout)


if __name__ == "__main__":
    unittest.main()
