"""The subcommands of `./class`: their help, their completion by bash, the version, the subcommand `key`, and a release
whose program can't be started."""
from __future__ import annotations

import os
import re
import shutil
import subprocess
import sys
import unittest
from pathlib import Path

from classroom.client import Slip
from classroom.core.lab import document, read
from classroom.core.program import TOP
from classroom.run.daemons import FORMS
from classroom.setup.rekey import changed
from classroom.words import parser
from tests.classroom.help import LIMIT, InRoom, call_class

# Calls the completion function as bash does after these words, of which the last is incomplete, and prints its offers.
COMPLETE = """
source operate/class.bash
COMP_WORDS=(./class "$@") COMP_CWORD=$#
_class_words ./class "${!#}"
printf '%s\\n' "${COMPREPLY[@]}"
"""


def all_words() -> list[str]:
    """Returns all subcommands of `./class`: the choices of the only argument of its parser that has choices."""
    found: dict[str, object] = next(action for action in parser()._actions if action.dest == "work" or action.choices).choices  # type: ignore[assignment]
    return list(found)


class Helped(InRoom):
    """The help of subcommands, and completion by bash."""

    def completed(self, *typed: str) -> set[str]:
        """Returns what bash offers for the last of these words, after the others. Fails if the completion prints an
        error."""
        done = subprocess.run(["bash", "-c", COMPLETE, "bash", *typed], cwd=TOP, capture_output=True, text=True, check=True, timeout=LIMIT)
        self.assertEqual(done.stderr, "")
        return set(done.stdout.split())

    def test_the_help_of_each_subcommand_has_an_example(self) -> None:
        """There are more than eight subcommands. If `all_words` found none, the rest would check nothing."""
        self.assertGreaterEqual(len(all_words()), 8)
        for word in all_words():
            said = " ".join(call_class(word, "--help").stdout.split())
            self.assertRegex(said, f"Examples?: class {word}")

    def test_bash_completes_subcommands_options_daemons_and_students(self) -> None:
        """For files it offers nothing, so that bash offers files itself. Students are those of the lab or folder that
        is named before."""
        self.assertEqual(self.completed(""), set(all_words()))
        self.assertEqual(self.completed("de"), {"demo"})
        self.assertEqual(self.completed("run", "--"), set(re.findall(r"--[a-z-]+", call_class("run", "--help").stdout)))
        self.assertEqual(self.completed("run", "--res"), {"--resume"})
        self.assertEqual(self.completed("run", "maths"), set())
        for option in ("--daemon", "--close"):
            self.assertEqual(self.completed("run", option, ""), {re.sub("[A-Z]+$", "", form) for form in FORMS.split(", ")})
        self.assertEqual(self.completed("practise", "--daemon", "ad"), {"adversary"})
        self.assertEqual(self.completed("history", "runs", ""), set())
        self.assertEqual(self.completed("key", "examples/cycle.toml", ""), {"gus", "hana", "ines", "jonas"})
        folder = self.room / "run"
        folder.mkdir()
        (folder / "lab.toml").write_bytes((TOP / "examples/cycle.toml").read_bytes())
        self.assertEqual(self.completed("history", str(folder), "h"), {"hana"})


class Version(InRoom):
    """The option `--version`."""

    def test_version_prints_what_mml_prints_but_with_the_name_class(self) -> None:
        printed = subprocess.run([TOP / "mml", "--version"], capture_output=True, text=True, check=True, timeout=LIMIT).stdout
        self.assertRegex(printed, r"^Cenduwa \d+\.\d+\.\d+, commit ([0-9a-f]{7}\+?|unknown), rattle-kit-\S+ logic [0-9a-f]{16}")
        for more in ((), ("run",)):
            done = call_class("--version", *more)
            self.assertEqual((done.returncode, done.stdout), (0, printed.replace("Cenduwa", "class")))


class Release(InRoom):
    """The subcommands of a release whose program can't be started."""

    def test_a_c_library_that_is_too_old_is_named_in_an_error_line(self) -> None:
        """The file PROVED names the version of the C library that the release's program needs. If this machine's is
        older, `mml` and each subcommand that starts the program print a line about it and do nothing else. If it isn't
        older, no line names the library."""
        for name in ("class", "mml", "VERSION"):
            shutil.copy(TOP / name, self.room)
        shutil.copytree(TOP / "classroom", self.room / "classroom", ignore=shutil.ignore_patterns("__pycache__"))
        (self.room / "bin").mkdir()
        self.file("bin/mml", "#!/bin/sh\necho started\nexit 1\n").chmod(0o755)
        (self.room / "examples").mkdir()
        lab = Path(shutil.copy(TOP / "examples/cycle.toml", self.room / "examples"))
        asked: tuple[list[str | Path], ...] = (["run", lab], ["demo"], ["check", lab], ["mark", lab, lab], ["practise"])
        own = {name: value for name, value in os.environ.items() if name not in ("MML_PROGRAM", "MML_HOST")}
        for wanted, here in (("2.999", r"2\.\d+"), ("3.0", r"2\.\d+")):
            self.file("PROVED", f"# Cenduwa 1.0.0\n# wants glibc {wanted}\n# The files:\n")
            line = f"this release needs the GNU C library {re.escape(wanted)} or later, and this machine has {here}\\. " \
                   "Use a newer system; Debian 12, for example, has 2.36\n"
            said = subprocess.run([self.room / "mml", "check", lab], capture_output=True, text=True, check=False, timeout=LIMIT)
            self.assertEqual(said.returncode, 127)
            self.assertRegex(said.stderr, f"^mml: {line}$")
            for given in asked:
                done = subprocess.run([sys.executable, self.room / "class", *given], cwd=self.room, stdin=subprocess.DEVNULL,
                                      capture_output=True, text=True, check=False, timeout=LIMIT, env=own)
                self.assertEqual((done.returncode, done.stdout), (4, ""), given)
                self.assertRegex(done.stderr, f"^class: (\\S+: )?{line}$", given)
            self.assertFalse((self.room / "runs").exists())
        self.file("PROVED", "# wants glibc 2.9\n")
        done = subprocess.run([sys.executable, self.room / "class", "check", lab], capture_output=True, text=True, check=False, timeout=LIMIT)
        self.assertNotIn("C library", done.stderr)


class Rekeyed(InRoom):
    """`./class key`, which gives a student another key during a course."""

    def setUp(self) -> None:
        """Makes a lab of three students by `./class new`, with slips as files and for printing."""
        super().setUp()
        self.lab = self.room / "maths.toml"
        students = self.file("students", "Ana Lima\nBen Roy\nCyd Sol\n")
        self.assertEqual(call_class("new", self.lab, "--students", students, "--port", "4799").returncode, 0)
        self.folder = self.room / "maths-slips"

    def test_key_replaces_the_key_of_one_student_in_the_lab_and_on_the_slips(self) -> None:
        """Nothing else in these files changes. The new key isn't printed on standard output, and only the teacher's
        user can read the files."""
        before, text = document(self.lab), self.lab.read_text(encoding="utf-8")
        others = {file.name: file.read_bytes() for file in self.folder.iterdir()}
        done = call_class("key", self.lab, "ben-roy")
        self.assertEqual((done.returncode, done.stderr), (0, ""))
        after, slip = document(self.lab), Slip.read(self.folder / "ben-roy.slip")
        old, new = before["student"][1]["key"], after["student"][1]["key"]
        self.assertNotEqual(old, new)
        self.assertRegex(new, "^([a-z]{3,7}-){3}[0-9]{2}$")
        self.assertEqual(self.lab.read_text(encoding="utf-8"), text.replace(old, new))
        self.assertEqual((slip.port, slip.name, slip.key, slip.nodes), (4799, "ben-roy", new, (2,)))
        self.assertEqual(others.pop("ben-roy.slip").replace(old.encode(), new.encode()), (self.folder / "ben-roy.slip").read_bytes())
        self.assertEqual(others, {file.name: file.read_bytes() for file in self.folder.iterdir() if file.name != "ben-roy.slip"})
        printed = (self.room / "maths-slips.html").read_text(encoding="utf-8")
        self.assertEqual((printed.count(old), printed.count(f">{new}<"), printed.count(f"&amp;key={new}\"")), (0, 1, 1))
        self.assertNotIn(new, done.stdout)
        for file in (self.lab, self.folder / "ben-roy.slip", self.room / "maths-slips.html"):
            self.assertEqual(file.stat().st_mode & 0o777, 0o600, file)

    def test_key_refuses_an_unknown_student_a_key_in_another_form_and_what_is_no_lab(self) -> None:
        """`key` can't change a key that is written in single quotes."""
        text = self.lab.read_text(encoding="utf-8")
        done = call_class("key", self.lab, "dora")
        self.assertEqual(done.returncode, 1)
        self.assertEqual(done.stderr, f"class: {self.lab}: this lab has no student called dora. Its students are: ana-lima, ben-roy, cyd-sol\n")
        key = read(self.lab).students["ben-roy"]
        self.lab.write_text(text.replace(f'key = "{key}"', f"key = '{key}'"), encoding="utf-8")
        done = call_class("key", self.lab, "ben-roy")
        self.assertEqual(done.returncode, 1)
        self.assertIn("the key of ben-roy can't be changed by this command, since it isn't written as", done.stderr)
        self.assertEqual(call_class("key", self.room / "none.toml", "ana").returncode, 4)
        folder: Path = self.room
        self.assertEqual(call_class("key", folder, "ana").returncode, 1)


class KeyInText(InRoom):
    """Changing a key in the text of a lab."""

    def test_in_each_form_of_the_table_only_the_student_s_own_key_changes(self) -> None:
        """The students are tables in braces or with heads, and other tables have a `key` too."""
        for text in (
            'note = { a = 1 }\nstudent = [{ name = "ana", key = "a" }, { name = "ben", key = "b" }]\n',
            'student = [{ name = "ana", key = "a", more = { key = "x" } },\n  { name = "ben", key = "b" } ]\n',
            'student = [{ name = "ana" }, { name = "ben", note = [1,\n  2], key = "b" } ]\n',
            '[more]\nstudent = [{ key = "a" }]\n[[student]]\nname = "ana"\n[[student]]\nname = "ben"\nkey = "b"\n',
        ):
            lab = self.file("lab.toml", text)
            self.assertEqual(changed(lab, "ben", "c"), text.replace('key = "b"', 'key = "c"'))


if __name__ == "__main__":
    unittest.main()
