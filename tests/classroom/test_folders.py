"""The folder of a run that another user hands in: with pipes, devices, and endless or strange files. A *plain* file is
neither a folder, a pipe nor a device. The *record* is the folder with the requests and replies of the class, with a
file for each seat, and `run.json` (`Record`) has what other commands need to know about the run."""
from __future__ import annotations

import json
import os
import re
import shutil
import subprocess
import unittest
from collections.abc import Callable
from pathlib import Path

from classroom.core import lab as labs
from classroom.core import plain
from classroom.core.folders import RECORD, Record
from classroom.core.program import Fault, host
from classroom.core.record import Reader
from classroom.marks.vouched import entries_up_to
from classroom.run.heard import Heard
from tests.classroom.help import CYCLE, Going, call_class
from tests.classroom.test_history import MOVE, Disputed, Raw

# A JSON text that is nested more deeply than a reader allows, and a number of more digits than Python's `int` reads.
DEEP = "[" * 200_000 + "]" * 200_000
MANY = "7" * 5000
Spoils = Callable[[Path], object]


def pipe(path: Path) -> None:
    """Replaces the file at a path by a pipe that no program writes to."""
    path.unlink(missing_ok=True)
    os.mkfifo(path)


def endless(path: Path) -> None:
    """Replaces the file at a path by a link to a device from which bytes can be read without an end."""
    path.unlink(missing_ok=True)
    path.symlink_to("/dev/zero")


def huge(path: Path) -> None:
    """Lengthens the file at a path, or makes one, so that it is larger than any limit. The new part takes no room on
    the disk."""
    with path.open("ab") as it:
        it.truncate(1 << 34)


def nowhere(path: Path) -> None:
    """Replaces the file at a path by a link without a target."""
    path.unlink(missing_ok=True)
    path.symlink_to(path.with_name("none"))


SPOILS = (pipe, endless, huge, nowhere)


@unittest.skipUnless(host(), "not tried: no host is built")
class Hostile(Disputed):
    """Copies of a run's folder with a strange file each, and the error lines of the subcommands."""

    def setUp(self) -> None:
        """Makes the folder of a run in which gus was granted a move in configuration 0, and was then denied a move as
        `stale`, because this request named configuration 7."""
        super().setUp()
        going = Going(self, CYCLE, "--close", "by-hand")
        with Raw(going.port, "gus") as gus:
            going.until("^connected: gus$")
            gus.ask(MOVE % 0)
            gus.ask(MOVE % 7)
        going.until("^disconnected: gus$")
        self.run_folder = self.end(going)

    def copy(self) -> Path:
        """Makes a copy of the run's folder, and returns its path."""
        folder = self.room / f"copy-{len(list(self.room.iterdir()))}"
        shutil.copytree(self.run_folder, folder)
        return folder

    def says(self, done: subprocess.CompletedProcess[str], status: int, *named: Path | str) -> None:
        """Checks the status of a call, and that it prints a single line on standard error, which contains the texts
        `named`."""
        told = done.stderr.strip()
        self.assertEqual((done.returncode, told.count("\n"), told.startswith("class: ")), (status, 0, True), told or done.stdout)
        for each in named:
            self.assertIn(str(each), told)

    def test_history_and_mark_name_a_file_of_the_record_that_is_not_plain(self) -> None:
        """`mark` prints the marks all the same, but without the requests (`asked`), which are in the record."""
        seat = self.seat(self.run_folder).name
        for name in (seat, "lab", "begun"):
            for spoil in SPOILS:
                folder = self.copy()
                spoil(folder / "record" / name)
                with self.subTest(name=name, spoil=spoil.__name__):
                    self.says(call_class("history", folder, "gus"), 4, folder / "record" / name)
                    done = call_class("mark", folder, "--json")
                    self.says(done, 5, folder / "record" / name)
                    self.assertIsNone(json.loads(done.stdout)["runs"][0]["asked"])
                    shutil.rmtree(folder)

    def test_mark_names_a_file_of_the_run_that_is_not_plain_and_so_do_other_subcommands(self) -> None:
        """The others are tried with a pipe in place of `run.json`, for which a command could wait without an end."""
        for name in ("run.json", "journal", "lab.toml", "server.txt", "run.txt", "run.html", "journal.lab", "marks.txt"):
            for spoil in (pipe, endless, nowhere):
                folder = self.copy()
                spoil(folder / name)
                calls: list[tuple[str | Path, ...]] = [("mark", folder)]
                if name == "run.json" and spoil == pipe:
                    calls += [("history", folder, "gus"), ("play", folder, "-o", self.room / "page.html"), ("attach", folder),
                              ("run", "--resume", folder, "--again"), ("key", folder, "gus")]
                for given in calls:
                    with self.subTest(name=name, spoil=spoil.__name__, word=given[0]):
                        self.says(call_class(*given), 4, f"{folder / name}: this isn't a plain file")
                shutil.rmtree(folder)

    def test_the_program_s_commands_verify_and_tally_fail_on_a_record_with_a_file_that_is_not_plain(self) -> None:
        """They don't wait for a pipe that no program writes to."""
        it = host()
        assert it is not None
        for name in (self.seat(self.run_folder).name, "begun"):
            for spoil in (pipe, endless, nowhere):
                folder = self.copy()
                spoil(folder / "record" / name)
                for word in ("verify", "tally"):
                    with self.subTest(name=name, spoil=spoil.__name__, word=word):
                        done = subprocess.run([it, word, folder / "lab.toml", folder / "journal", folder / "record"], capture_output=True,
                                              stdin=subprocess.DEVNULL, text=True, check=False, timeout=120)
                        self.assertEqual((done.returncode, done.stdout, done.stderr), (4, "", "read fault: record\n"))
                shutil.rmtree(folder)

    def test_a_class_is_resumed_with_a_new_record_if_the_old_one_is_damaged(self) -> None:
        """If the record's file `lab` or `begun` isn't plain, the record is kept under another name, and a new one is
        begun. If the journal's copy of the lab isn't plain, the class isn't resumed."""
        it = host()
        assert it is not None
        for name, spoil in (("lab", pipe), ("lab", endless), ("begun", pipe), ("begun", endless)):
            folder = self.copy()
            spoil(folder / "record" / name)
            with self.subTest(name=name, spoil=spoil.__name__):
                process = subprocess.Popen([it, "resume", folder / "lab.toml", "0", "0", folder / "journal", folder / "record"],
                                           stdin=subprocess.DEVNULL, stdout=subprocess.PIPE, stderr=subprocess.STDOUT)
                self.addCleanup(process.wait)
                self.addCleanup(process.kill)
                assert process.stdout is not None
                self.assertRegex(process.stdout.readline().decode(), "^listening on port ")
                process.stdout.close()
                self.assertTrue((folder / "record" / "1.record").is_file())
                self.assertFalse((folder / "record.~1~" / name).is_file())
        folder = self.copy()
        pipe(folder / "journal.lab")
        done = subprocess.run([it, "resume", folder / "lab.toml", "0", "0", folder / "journal", folder / "record"], capture_output=True,
                              stdin=subprocess.DEVNULL, text=True, check=False, timeout=120)
        self.assertEqual((done.returncode, done.stderr), (4, "journal fault\n"))

    def test_a_strange_text_in_the_record_gets_an_error_line_and_no_traceback(self) -> None:
        """The texts are JSON that is nested too deeply, numbers of thousands of digits, replies with values of a wrong
        kind, and labs that are none. The desk's reader of the record, `Heard`, raises no error for them."""
        seat = self.seat(self.run_folder).name
        number = seat.partition(".")[0]
        for name, text in (
            (f"record/{seat}", f"{number} 0 > {DEEP}\n{number} 0 < {DEEP}\n"), (f"record/{seat}", f"{number} {MANY} .\n"),
            (f"record/{seat}", f"{MANY} 0 .\n"), (f"record/{seat}", f'{number} 0 > x\n{number} 0 < {{"place":{MANY}}}\n'),
            (f"record/{seat}", f'{number} 0 > x\n{number} 0 < {{"ok":"hello","who":["gus"],"deny":{{}},"refuse":[1]}}\n'),
            ("record/begun", f"{MANY}\n"), ("record/lab", MANY), ("record/lab", DEEP), ("record/lab", ""),
        ):
            folder = self.copy()
            (folder / name).write_text(text, encoding="utf-8")
            with self.subTest(name=name, text=text[:20]):
                done = call_class("history", folder, "gus")
                self.assertNotIn("Traceback", done.stderr)
                self.says(done, 4 if name == "record/begun" else 2 if name == "record/lab" else 3)
                self.says(call_class("mark", folder), 5)
                heard = Heard(folder / "record", labs.read(folder / "lab.toml"))
                heard.catch_up(0)

    def test_a_run_json_with_a_wrong_value_counts_as_none(self) -> None:
        """Then marks and histories are printed all the same, but the run can't be attached."""
        kept = json.loads((self.run_folder / RECORD).read_text(encoding="utf-8"))
        self.assertIsNotNone(Record.read(self.run_folder))
        for text in (DEEP, json.dumps(kept).replace(str(kept["port"]), MANY), json.dumps([kept]), "{}", "5", "", "\\xff", "null", MANY, *(
                json.dumps(kept | change) for change in (
                    {"lab": 5}, {"lab": None}, {"lab": "\0"}, {"lab": "\ud800"}, {"port": "4711"}, {"port": -1}, {"port": 1 << 40}, {"desk": True},
                    {"page": "x"}, {"close": 7}, {"until": "never"}, {"until": ["stable"]}, {"run": 5}, {"run": {"number": "1", "start": "2"}},
                    {"server": {"number": 1, "start": 2}}, {"server": []}, {"stand_in": "x"}, {"stand_in": float("nan")}, {"stand_in": True},
                    {"looks": 5}, {"looks": "é"}, {"played": 5}, {"played": [5]}, {"another": 1}))):
            folder = self.copy()
            (folder / RECORD).write_text(text, encoding="utf-8")
            with self.subTest(text=text[:60]):
                self.assertIsNone(Record.read(folder))
            shutil.rmtree(folder)
        folder = self.copy()
        (folder / RECORD).write_text(json.dumps(kept | {"lab": 5}), encoding="utf-8")
        for done in (call_class("mark", folder), call_class("history", folder, "gus")):
            self.assertEqual(done.returncode, 0, done.stderr)
        self.says(call_class("attach", folder), 1, "the server of this run has ended")
        (folder / RECORD).write_text(json.dumps(kept | {"close": "when-it-likes"}), encoding="utf-8")
        self.says(call_class("run", "--resume", folder, "--again"), 4, folder / RECORD, "'when-it-likes' isn't a daemon. ")
        (folder / RECORD).write_text(" " * (plain.MOST_KEPT + 1), encoding="utf-8")
        self.assertIsNone(Record.read(folder))

    def test_a_record_of_another_lab_is_refused_unless_only_a_key_differs(self) -> None:
        """`mark` then prints the marks with a warning, so its status is 5. `history` prints only an error."""
        text = (self.run_folder / "record" / "lab").read_text(encoding="utf-8")
        key = re.search(r'(?m)^key = "(.*)"$', text)
        assert key is not None
        other = {"another owner": text.replace('owner = "hana"', 'owner = "ines"', 1), "another link": text.replace("[1, 2]", "[1, 3]", 1)}
        for what, changed in other.items():
            self.assertNotEqual(changed, text, what)
            folder = self.copy()
            (folder / "record" / "lab").write_text(changed, encoding="utf-8")
            with self.subTest(what):
                self.says(call_class("mark", folder), 5, "record: this record was made with another lab than the file lab.toml of this run")
                self.says(call_class("history", folder, "gus"), 2, "this record was made with another lab than the file lab.toml of this run")
        folder = self.copy()
        (folder / "lab.toml").write_text(text.replace(key[1], "another-key-1"), encoding="utf-8")
        self.assertEqual(call_class("mark", folder).returncode, 0)


class Plainly(Disputed):
    """Reading plain files."""

    def test_a_file_is_read_only_if_it_is_plain_and_not_too_large(self) -> None:
        """`read` and `tail` get the most bytes to read. `number` reads up to 19 ASCII digits as a number."""
        it = self.file("it", "1234")
        self.assertEqual((plain.read(it, 4), plain.tail(it, 2), plain.tail(it, 9)), (b"1234", b"34", b"1234"))
        self.assertRaisesRegex(Fault, "this file is too large: it has more than 3 bytes", plain.read, it, 3)
        self.assertRaisesRegex(Fault, "this isn't a plain file", plain.read, Path("/dev/zero"), 1 << 40)
        self.assertRaisesRegex(Fault, "this isn't a plain file", plain.read, self.room, 10)
        self.assertRaisesRegex(Fault, "No such file", plain.read, self.room / "none", 10)
        self.assertEqual([plain.number(text) for text in (b"0", b"007", b"9" * 19, b"9" * 20, b"", b"-1", b" 1", "٣".encode())],
                         [0, 7, 10 ** 19 - 1, None, None, None, None, None])

    def test_an_entry_of_the_record_whose_place_has_thousands_of_digits_is_left_out(self) -> None:
        many = MANY.encode()
        self.assertEqual(list(Reader().take(b"4 %s .\n%s 0 .\n4 1 .\n" % (many, many)))[0].place, 1)
        self.assertEqual(entries_up_to(b"4 0 .\n4 %s .\n" % many, 10 ** 6), b"4 0 .\n")


if __name__ == "__main__":
    unittest.main()
