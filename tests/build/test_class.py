"""Commands of `./class` in a clone whose program isn't built. Such commands build the program, and leave nothing half
done."""
from __future__ import annotations

import os
import shutil
import signal
import subprocess

from tests.build.clone import TOP, InClone
from tests.common.limits import TEXT

# A program that prints the limits, and accepts every lab that has no student called `refused`.
PROGRAM = f"""#!/bin/sh
[ "$1" != limits ] || exec printf %s '{TEXT}'
! grep -q refused "$2" || {{ echo "lab fault: 3" >&2; exit 2; }}
echo "ok: 4 nodes, 4 students"
"""
# The first arguments of each `./class new`, and the files and the folder that it makes if they are the only ones.
WORDS = ("maths.toml", "--students", "names.txt")
FIRST = ("maths.toml", "maths-slips.html", "maths-slips", "maths-slips.csv", "maths-teacher.slip")


class SetsUp(InClone):
    """Calls of `./class` in a clone whose `rt` is a stand-in."""

    def setUp(self) -> None:
        """Adds `./class` and a list of four students to the clone, and lets the stand-in for `rt` build PROGRAM."""
        super().setUp()
        shutil.copy(TOP / "class", self.clone / "class")
        shutil.copytree(TOP / "classroom", self.clone / "classroom", ignore=shutil.ignore_patterns("__pycache__"))
        (self.clone / "names.txt").write_text("ana\nben\ncyd\ndan\n", encoding="utf-8")
        self.set("program", PROGRAM)

    def made(self) -> list[str]:
        """Returns the names of the files and folders that `./class new` has made. All of them begin with `maths`."""
        return sorted(it.name for it in self.clone.glob("maths*"))

    def new(self, *words: str, **more: str) -> subprocess.CompletedProcess[str]:
        """Runs `./class new` with the arguments WORDS and `words`, and with `more` in its environment. Returns its
        result."""
        return self.call("./class", "new", *WORDS, *words, **more)

    def test_a_command_builds_the_program_and_then_does_its_work(self) -> None:
        """The expected time and the progress are printed on standard error only. The next call builds nothing."""
        done = self.new()
        self.assertEqual(done.returncode, 0, done.stderr)
        self.assertTrue(done.stdout.startswith("maths.toml: 4 nodes, 4 students; slips for printing: "), done.stdout)
        self.assertRegex(done.stderr, r"^mml: building mml_host, after proving 4 crates; .*\nmml: if nothing is proved yet, that takes ")
        self.assertIn("\nmml: 4 of 4 crates proved\n", done.stderr)
        self.assertEqual(self.made(), sorted(FIRST))
        # `./class new` doesn't overwrite files.
        for name in set(FIRST) - {"maths-slips"}:
            (self.clone / name).unlink()
        shutil.rmtree(self.clone / "maths-slips")
        done = self.new()
        self.assertEqual((done.returncode, done.stderr), (0, ""))

    def test_help_the_version_and_wrong_arguments_build_nothing(self) -> None:
        for words in (("--help",), ("--version",), ("new", "--help"), ("new",), ("demo", "more")):
            self.assertNotIn("building", self.call("./class", *words).stderr, words)
        self.assertFalse((self.room / "words").exists())  # The stand-in for `rt` makes this file if it is called.

    def test_if_the_build_fails_no_command_does_anything(self) -> None:
        """Each command that needs the program tries to build it first. If that fails, the command prints an error, and
        no file is left except the log of the build."""
        self.set("fails", "low")
        before = sorted(self.clone.rglob("*"))
        for words in (("new", *WORDS), ("check", "it.toml"), ("run", "it.toml"), ("attach", "it"), ("slips", "it.toml"), ("key", "it.toml", "ana"),
                      ("mark", "it"), ("history", "it", "ana"), ("play", "it"), ("practise", "true"), ("grade", "true"), ("experiment",), ("demo",)):
            done = self.call("./class", *words)
            self.assertEqual((done.returncode, done.stdout), (1, ""), words)
            self.assertIn("\nmml: the build failed, see ", done.stderr, words)
            self.assertTrue(done.stderr.endswith("class: this command needs the program mml, and building it failed. The lines above say why\n"), done.stderr)
            (self.clone / "crates/mml_host/build.log").unlink()
        self.assertEqual(sorted(self.clone.rglob("*")), before)

    def test_without_rt_a_command_recommends_a_release(self) -> None:
        """The message names the requirements of a release, and the command that makes one."""
        done = self.new(PATH="/usr/bin:/bin")
        self.assertEqual((done.returncode, done.stdout, self.made()), (1, "", []))
        self.assertIn("mml: a release runs without it, on x86_64 Linux with Bash, and Python 3.11 for ./class", done.stderr)
        self.assertIn("./release makes one in a clone where rt is", done.stderr)

    def test_a_signal_ends_the_build_and_the_command_leaves_nothing(self) -> None:
        """The signal comes while the stand-in waits before the proof of `right`. It ends the build and the command, and
        no file is left. The next command continues the build."""
        for number, is_group in ((signal.SIGINT, True), (signal.SIGINT, False), (signal.SIGTERM, False)):
            self.set("waits", "right")
            going = self.start("./class", "new", *WORDS)
            (os.killpg if is_group else os.kill)(going.pid, number)
            self.wait_for_end(going)
            self.assertEqual((going.returncode, self.made()), (128 + number, []))
            self.wait_until(lambda: not [*self.temporary.iterdir()])
        self.set("waits", "")
        done = self.new()
        self.assertEqual(done.returncode, 0, done.stderr)
        self.assertIn("\nmml: 4 of 4 crates proved, 2 of them earlier\n", done.stderr)
        self.assertEqual(self.made(), sorted(FIRST))

    def test_programs_that_the_environment_names_are_not_built(self) -> None:
        """If MML_PROGRAM and MML_HOST name programs, nothing is built. Here one of these programs doesn't exist, so the
        command prints an error and makes no file."""
        done = self.new(MML_PROGRAM=str(self.room / "none"), MML_HOST="/bin/true")
        self.assertEqual((done.returncode, done.stdout, self.made()), (1, "", []))
        self.assertIn("mml isn't built", done.stderr)
        self.assertFalse((self.room / "words").exists())  # The stand-in for `rt` makes this file if it is called.

    def test_if_one_of_several_labs_is_refused_none_is_left(self) -> None:
        """`./class new` makes two labs. PROGRAM refuses the one that has the student `refused`."""
        (self.clone / "names.txt").write_text("".join(f"student{number}\n" for number in range(7)) + "refused\n", encoding="utf-8")
        done = self.new("--groups", "2")
        self.assertEqual((done.returncode, done.stdout, self.made()), (2, "", []))
        self.assertIn("no lab can be made from this list and these options (lab fault: 3)", done.stderr)

    def test_on_a_full_disk_new_leaves_no_file(self) -> None:
        """If a file can't be written completely, neither it nor the others are left. A limit on file sizes stands for a
        full disk. With 40 students the lab is larger than the limit of 1 KiB. Of all files, only the page with the
        slips is larger than the limit of 8 KiB."""
        (self.clone / "names.txt").write_text("".join(f"student{number}\n" for number in range(40)), encoding="utf-8")
        self.assertEqual(self.call("./mml", "build").returncode, 0)
        for most, full in ((1, "maths.toml"), (8, "maths-slips.html")):
            limited = f'ulimit -f {most} && trap "" XFSZ && exec ./class new "$@"'
            done = self.call("bash", "-c", limited, "bash", *WORDS)
            self.assertEqual((done.returncode, done.stderr, self.made()), (4, f"class: {full}: File too large\n", []))
        self.assertEqual(self.new().returncode, 0)
        self.assertEqual(self.made(), sorted(FIRST))
