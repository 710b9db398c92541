"""`./class grade` with bots that read files, copy or disturb other bots, and use up the disk. If the system allows it,
bots are *kept apart*: each has its own namespaces. Otherwise one bot is tried after another. All bots are
`bots/faulty.py`, or copies of it. A bot's *fault* is its first argument, which says how the bot behaves. The fault
`right` is none: the bot is correct."""
from __future__ import annotations

import json
import re
import shutil
import socket
import subprocess
import sys
import unittest
from pathlib import Path

from classroom.bots.bots import namespaces_refusal
from classroom.core.program import TOP
from tests.classroom.help import EXAMPLES, LIMIT, InRoom

FAULTY = TOP / "tests/classroom/bots/faulty.py"
# A copy of `faulty.py` outside the repository needs the path of the repository in place of this expression.
IMPORTED_FROM = "Path(__file__).resolve().parents[3]"
HIDDEN = bytes(range(97, 123)) * 20  # the text of a file that no bot may see
# Words before a command, so that it runs without the right to make namespaces.
WITHOUT = ("unshare", "-U", "--map-root-user", "sh", "-c", 'echo 0 > /proc/sys/user/max_user_namespaces && exec "$@"', "sh")


def can_be_without() -> bool:
    """Returns whether a command can be run here without the right to make namespaces."""
    return shutil.which("unshare") is not None and subprocess.run([*WITHOUT, "true"], capture_output=True, check=False).returncode == 0


def spelled(*words: str | Path) -> str:
    """Returns words in hexadecimal digits, in which `faulty.py` expects them. So `grade` doesn't take them for the
    names of files, which it would show to the bot."""
    return " ".join(str(word).encode().hex() for word in words)


class Grades(InRoom):
    """Bots that are graded together."""

    def setUp(self) -> None:
        """Makes a folder with a single lab, `path.toml` of `examples/`."""
        super().setUp()
        (self.room / "labs").mkdir()
        shutil.copy(EXAMPLES / "path.toml", self.room / "labs")

    def grades(self, *faults: str, before: tuple[str, ...] = (), more: tuple[str | Path, ...] = ()) -> str:
        """Grades the bots with these faults in three cases each: the lab under each of the three usual daemons.
        `before` are words before the call, and `more` are options. Returns the output. Fails if the standard error
        isn't empty, or the status is neither 0 nor 5, the one for cases that aren't passed."""
        bots = [f"python3 {FAULTY} {fault}" for fault in faults]
        call: list[str | Path] = [*before, sys.executable, TOP / "class", "grade", *bots, "--labs", self.room / "labs", "--timeout", "60",
                                  "--memory", "200", "--into", self.room / "grades", "--json", self.room / "cases.json", *more]
        done = subprocess.run(call, stdin=subprocess.DEVNULL, capture_output=True, text=True, check=False, timeout=LIMIT)
        self.assertIn(done.returncode, (0, 5), done.stdout + done.stderr)
        self.assertEqual(done.stderr, "")
        return done.stdout

    def passed(self, output: str, fault: str) -> int:
        """Returns the number of cases that the bot with a fault passed. Raises an error if the output doesn't have
        it."""
        found = re.search(rf"(?m)^python3 faulty.py {fault}: (\d) of 3 cases passed$", output)
        assert found is not None, output
        return int(found[1])


@unittest.skipIf(namespaces_refusal(), f"bots can't be kept apart here: {namespaces_refusal()}")
class Apart(Grades):
    """Each bot has its own namespaces."""

    def test_a_bot_that_disturbs_others_spoils_no_result(self) -> None:
        """It also passes its own cases, since it plays correctly and finds no other bot."""
        output = self.grades("right", "spoils")
        self.assertEqual([self.passed(output, fault) for fault in ("right", "spoils")], [3, 3], output)
        self.assertNotIn("class: ", output)  # No line says that the bots aren't isolated.

    def test_a_bot_finds_no_program_of_another_to_copy(self) -> None:
        """The bot `copies` passes none of its cases, since it ends if it finds no other bot. The correct bot passes its
        three."""
        output = self.grades("right", "copies")
        self.assertEqual([self.passed(output, fault) for fault in ("right", "copies")], [3, 0], output)

    def test_a_bot_reads_files_in_its_own_folder_but_no_others_of_the_user_and_changes_none(self) -> None:
        """It also can't connect to a port of this machine, make namespaces, or read about other processes."""
        own, other = self.room / "own", self.room / "other"
        for folder in (own, other):
            folder.mkdir()
            shutil.copy(FAULTY, folder / "bot.py")
            (folder / f"of-{folder.name}").write_bytes(HIDDEN)
        beside = self.file("beside", "beside")
        text = FAULTY.read_text(encoding="utf-8").replace(IMPORTED_FROM, repr(str(TOP)))
        (own / "bot.py").write_text(text, encoding="utf-8")
        with socket.create_server(("127.0.0.1", 0)) as listener:
            files = (own / "of-own", other / "of-other", beside, Path.home() / ".bashrc", self.room / "cases.json")
            words = spelled(str(listener.getsockname()[1]), *files)
            output = self.peeked(f"python3 {own / 'bot.py'} peeks {words}", f"python3 {other / 'bot.py'} right")
        seen = dict(each.split(": ") for each in output.split("; "))
        # It sees two processes, itself and its keeper. The program that it started has ended by then.
        self.assertEqual(seen.pop("processes"), "2", output)
        self.assertEqual({word for word, is_so in seen.items() if is_so == "True"}, {"read of-own"}, output)
        self.assertEqual(len(seen), 2 * len(files) + 3)  # reading and writing of each file, and three other attempts

    def peeked(self, *bots: str, more: tuple[str | Path, ...] = ()) -> str:
        """Grades these bots, with the options `more`. The first one has the fault `peeks`: it prints what it could read
        and do, and ends. Returns the line that it printed, which the reason for its first failed case contains."""
        call: list[str | Path] = [sys.executable, TOP / "class", "grade", *bots, "--labs", self.room / "labs", "--daemon", "central",
                                  "--into", self.room / "grades", "--json", self.room / "cases.json", "--timeout", "60", *more]
        done = subprocess.run(call, stdin=subprocess.DEVNULL, capture_output=True, text=True, check=False, timeout=LIMIT)
        why: str = json.loads((self.room / "cases.json").read_text(encoding="utf-8"))[0]["why"]
        self.assertRegex(why, "^the bot ended by itself, with status 3; the last line of its output is: ", done.stdout)
        return why.partition("; the last line of its output is: ")[2]

    def test_of_bots_in_one_folder_none_sees_another(self) -> None:
        """The first bot can read its own file, and the file of the other bot isn't there for it."""
        text = FAULTY.read_text(encoding="utf-8").replace(IMPORTED_FROM, repr(str(TOP)))
        for name in ("one.py", "two.py"):
            self.file(name, text)
        words = spelled("1", self.room / "one.py", self.room / "two.py")  # a port that isn't used, and the files
        output = self.peeked(f"python3 {self.room / 'one.py'} peeks {words}", f"python3 {self.room / 'two.py'} right")
        self.assertIn("read one.py: True; read two.py: False; write one.py: False; ", output)

    def test_a_folder_that_the_option_show_names_can_be_read(self) -> None:
        for name in ("library", "other"):
            (self.room / name).mkdir()
            (self.room / name / f"of-{name}").write_bytes(HIDDEN)
        words = spelled("1", self.room / "library/of-library", self.room / "other/of-other")  # a port that isn't used, and the files
        output = self.peeked(f"python3 {FAULTY} peeks {words}", more=("--show", self.room / "library"))
        self.assertIn("read of-library: True; read of-other: False; write of-library: False; ", output)

    def test_files_and_memory_that_belong_to_no_process_are_limited(self) -> None:
        """Each of the first three bots is ended in its three cases. The last one makes folders nested so deeply that no
        path names them, and fails too."""
        output = self.grades("fills", "hides-memory", "shares-memory", "digs")
        self.assertEqual(output.count("\n        the bot was ended: it had more than 64 megabytes in files\n"), 3, output)
        self.assertEqual(output.count("\n        the bot was ended: it used more than 200 megabytes of memory\n"), 6, output)
        self.assertEqual(self.passed(output, "digs"), 0)


class Together(Grades):
    """The system has no namespaces, or they aren't used because of `--not-apart`."""

    @unittest.skipUnless(can_be_without(), "a program can't be run here so that it gets no namespaces")
    def test_without_namespaces_bots_are_tried_one_after_another_and_a_line_says_why(self) -> None:
        """So a bot that wants to copy another finds none that is running, and fails."""
        output = self.grades("right", "spoils", "copies", before=WITHOUT)
        self.assertEqual([self.passed(output, fault) for fault in ("right", "copies")], [3, 0], output)
        self.assertTrue(output.startswith("class: bots aren't isolated (unshare: No space left on device): they run one after another, with your rights, "
                                          "and can read your files (see docs/COURSE.md)\n"), output)

    def test_limits_on_files_and_memory_also_hold_if_bots_are_not_kept_apart(self) -> None:
        """Each of the two bots is ended in its three cases, for its own reason."""
        output = self.grades("fills", "hides-memory", more=("--not-apart",))
        self.assertEqual(output.count("\n        the bot was ended: it had more than 64 megabytes in files\n"), 3, output)
        self.assertEqual(output.count("\n        the bot was ended: it used more than 200 megabytes of memory\n"), 3, output)
        self.assertTrue(output.startswith("class: bots aren't isolated (--not-apart): "), output)

    def test_no_link_of_a_bot_is_followed_and_nothing_of_it_is_left(self) -> None:
        """A bot replaces its output file by a link to the file `secret`, another its folder by a link to the secret's
        folder. Neither the secret nor its folder changes, and no file of the grade has the secret's text."""
        kept, rooms = self.room / "kept", self.room / "rooms"
        for folder in (kept, rooms):
            folder.mkdir()
        (kept / "secret").write_bytes(HIDDEN)
        kept.chmod(0o500)
        self.addCleanup(kept.chmod, 0o700)
        faults = (f"links {spelled(kept / 'secret')}", f"moves-out {spelled(kept)}", "digs")
        output = self.grades(*faults, before=("env", f"TMPDIR={rooms}"), more=("--not-apart",))
        # The first two bots end so in three cases each. The third may be ended before, while it makes folders.
        self.assertLessEqual(6, output.count("the bot ended by itself, with status 3"), output)
        self.assertEqual((kept.stat().st_mode & 0o777, (kept / "secret").read_bytes()), (0o500, HIDDEN))
        found = [file for file in (self.room / "grades").rglob("*") if file.is_file() and HIDDEN in file.read_bytes()]
        self.assertEqual(found, [])
        # Only folders that bots have renamed may be left.
        self.assertEqual([each.name for each in rooms.iterdir() if not each.name.endswith("-moved")], [])


if __name__ == "__main__":
    unittest.main()
