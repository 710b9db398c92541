"""Slips for students: with ssh or a door, with or without QR codes, and made again. A *slip* has the data that a
student needs to connect, as a file and on a page to print. A *door* is a TLS port for students on other machines."""
from __future__ import annotations

import argparse
import csv
import re
import shutil
import unittest
from pathlib import Path
from unittest import mock

from classroom.client import Slip
from classroom.core.lab import read
from classroom.door import certificate
from classroom.setup import handing, printed
from classroom.setup.slips import Way
from tests.classroom.help import InRoom, call_class

DOOR = "class.example:4700"
# A program in place of `qrencode -t ASCII`. It prints a QR code of two rows with three black squares, each as `##`.
SQUARES = "#!/bin/sh\nread link\n[ -n \"$link\" ] && printf '##  ##\\n  ##  \\n'\n"


class Slips(InRoom):
    """Labs for four students in two rooms."""

    def new(self, *more: str | Path, status: int = 0, **environment: str) -> str:
        """Makes the labs by `./class new` with the options `more`, and checks the status. `environment` is added to the
        environment. Returns the output."""
        students = self.file("list.csv", "Name,Email,Room\nZoë Müller,z@x.example,A 1\nBen,b@x.example,B 2\nCyd,c@x.example,A 1\nDan,,B 2\n")
        done = call_class("new", self.room / "maths.toml", "--students", students, "--groups-by", "Room", "--family", "path", *more, **environment)
        self.assertEqual(done.returncode, status, done.stdout + done.stderr)
        return done.stdout + done.stderr

    def page(self, number: int) -> str:
        """Returns the text of the page with the slips of the network with this number."""
        return (self.room / f"maths-{number}-slips.html").read_text(encoding="utf-8")

    def slips(self) -> dict[str, str]:
        """Returns the texts of all slips, by their names."""
        return {file.stem: file.read_text(encoding="utf-8") for file in sorted(self.room.glob("**/*.slip"))}

    def path_with(self, **programs: str | None) -> str:
        """Makes a folder that contains only openssl and these programs, and returns it as a search path. A program is a
        file with the given text, or a link to the system's program if the text is None."""
        folder = self.room / "path"
        shutil.rmtree(folder, ignore_errors=True)
        folder.mkdir()
        every: dict[str, str | None] = {"openssl": None, **programs}
        for name, text in every.items():
            if text is None:
                (folder / name).symlink_to(shutil.which(name) or name)
            else:
                (folder / name).write_text(text, encoding="ascii")
                (folder / name).chmod(0o755)
        return str(folder)


class Made(Slips):
    """The files that `new` makes."""

    def test_each_slip_has_the_ssh_line_of_its_own_network(self) -> None:
        """A network has the students of one room. A slip of this kind names no door, and no certificate is made."""
        self.new("--ssh", "student@class.example")
        for number, names in ((1, ("zoe-mueller", "cyd")), (2, ("ben", "dan"))):
            port, page = 4710 + number, 4789 + number  # By default the ports of network 1 are 4711 and 4790.
            line = f"ssh -N -L {port}:127.0.0.1:{port} -L {page}:127.0.0.1:{page} student@class.example"
            self.assertEqual(self.page(number).count(f"<code>{line}</code>"), len(names))
            for name in names:
                key = read(self.room / f"maths-{number}.toml").students[name]
                self.assertIn(f'<a href="http://127.0.0.1:{page}/#name={name}&amp;key={key}">http://127.0.0.1:{page}/</a>', self.page(number))
                text = self.slips()[name].splitlines()
                self.assertTrue({f"port {port}", f"page {page}", f"network maths-{number}", "ssh student@class.example"} <= {*text}, text)
                self.assertEqual(Slip.read(self.room / f"maths-{number}-slips/{name}.slip").door, "")
        self.assertFalse((self.room / "door.pem").exists())

    def test_without_an_account_the_ssh_line_has_the_word_name_in_its_place(self) -> None:
        self.new("--port", "5001", "--page-port", "6001")
        self.assertRegex(self.page(2), r"<code>ssh -N -L 5002:127\.0\.0\.1:5002 -L 6002:127\.0\.0\.1:6002 NAME@[^<]+</code> "
                                       r"\(NAME is your account on the server\)</p>")

    def test_slips_with_a_door_have_its_address_its_fingerprint_and_a_qr_code(self) -> None:
        """The table for a mail merge has the names, e-mail addresses, networks and rooms."""
        told = self.new("--door", DOOR, PATH=self.path_with(qrencode=SQUARES))
        self.assertNotIn("QR", told)
        known = certificate.fingerprint(self.room / "door.pem")
        for number, room in ((1, "A 1"), (2, "B 2")):
            page = self.page(number)
            self.assertEqual(page.count(f"<h2>maths-{number} · {room}</h2>"), 2)
            # The three squares that SQUARES prints.
            self.assertEqual(page.count('<path d="M0 0h1v1h-1zM2 0h1v1h-1zM1 1h1v1h-1z"/>'), 2)
            self.assertEqual(page.count(f"<code>{printed.in_parts(known)}</code>"), 2)
            for name, key in read(self.room / f"maths-{number}.toml").students.items():
                self.assertIn(f'<a href="https://{DOOR}/maths-{number}/#name={name}&amp;key={key}">https://{DOOR}/maths-{number}/</a>', page)
        for slip in self.room.glob("maths-*-slips/*.slip"):
            self.assertEqual((Slip.read(slip).door, Slip.read(slip).fingerprint), (DOOR, known))
        with (self.room / "maths-slips.csv").open(encoding="utf-8", newline="") as it:
            rows = [(row["name"], row["e-mail"], row["network"], row["room"]) for row in csv.DictReader(it)]
        self.assertEqual(rows, [("Zoë Müller", "z@x.example", "maths-1", "A 1"), ("Cyd", "c@x.example", "maths-1", "A 1"),
                                ("Ben", "b@x.example", "maths-2", "B 2"), ("Dan", "", "maths-2", "B 2")])

    def test_a_door_given_as_a_port_is_refused_if_no_certificate_can_have_the_machine_s_name(self) -> None:
        """A door with an address is accepted on such a machine too."""
        with mock.patch.object(handing, "own_host_name", return_value="my_pc"):
            with self.assertRaisesRegex(argparse.ArgumentTypeError, "^this machine calls itself 'my_pc', .*: --door ADDRESS:PORT$"):
                handing.door("4700")
            self.assertEqual(handing.door(DOOR), DOOR)

    def test_without_qrencode_slips_have_no_qr_codes_and_the_output_says_so(self) -> None:
        told = self.new("--door", DOOR, PATH=self.path_with())
        self.assertIn(f"\nnote: {printed.NO_SQUARE}\n", told)
        self.assertNotIn("<svg", self.page(1))
        self.assertIn(f"https://{DOOR}/maths-1/#name=", self.page(1))
        done = call_class("slips", self.room / "maths-1.toml", PATH=self.path_with())
        # The first line names the files.
        self.assertEqual((done.returncode, done.stdout.splitlines()[1:]), (0, [printed.NO_SQUARE]))

    def test_a_failing_qrencode_ends_the_command_and_no_file_is_left(self) -> None:
        told = self.new("--door", DOOR, status=4, PATH=self.path_with(qrencode="#!/bin/sh\necho too long >&2\nexit 1\n"))
        self.assertEqual(told, "class: qrencode couldn't make a QR code. It printed: too long\n")
        self.assertEqual([*self.room.glob("maths*"), *self.room.glob("door.pem")], [])


class Anew(Slips):
    """`./class slips`, which makes the slips of labs again."""

    def again(self, *more: str, status: int = 0) -> str:
        """Makes the slips of both networks again with these options, and checks the status. Returns the output."""
        done = call_class("slips", self.room / "maths-1.toml", self.room / "maths-2.toml", *more)
        self.assertEqual(done.returncode, status, done.stdout + done.stderr)
        return done.stdout + done.stderr

    def test_another_door_changes_only_its_address_on_the_slips(self) -> None:
        """The labs, with the keys, stay the same."""
        self.new("--door", DOOR)
        before, labs = self.slips(), [(self.room / f"maths-{number}.toml").read_bytes() for number in (1, 2)]
        told = self.again("--door", "other.example:4701")
        for number in (1, 2):
            self.assertIn(f"slips for printing: {self.room}/maths-{number}-slips.html; for programs: {self.room}/maths-{number}-slips; "
                          f"your own slip, for you alone: {self.room}/maths-{number}-teacher.slip\n", told)
            self.assertIn("https://other.example:4701/", self.page(number))
            self.assertNotIn(DOOR, self.page(number))
        self.assertEqual(self.slips(), {name: text.replace(DOOR, "other.example:4701") for name, text in before.items()})
        self.assertEqual([(self.room / f"maths-{number}.toml").read_bytes() for number in (1, 2)], labs)

    def test_without_options_the_slips_stay_the_same(self) -> None:
        """Port, door and the networks' rooms are taken from the students' earlier slips. If these were removed, the
        same options make the same slips, but without the rooms of the class list. The labs don't contain the rooms, and
        the command reads no other file that does."""
        self.new("--door", DOOR, "--port", "5001")
        before, page = self.slips(), self.page(2)
        self.again()
        self.assertEqual((self.slips(), self.page(2)), (before, page))
        for file in self.room.glob("maths-*-slips/*.slip"):
            file.unlink()
        self.again("--door", DOOR, "--port", "5001")
        self.assertEqual({name: re.sub("room .*\n", "", text) for name, text in before.items()}, self.slips())

    def test_slips_change_from_a_door_to_ssh_and_back(self) -> None:
        self.new("--door", DOOR)
        before = self.slips()
        self.again("--ssh", "me@x.example")
        self.assertFalse([name for name, text in self.slips().items() if "door " in text or "ssh me@x.example\n" not in text])
        self.assertIn(" me@x.example</code>", self.page(1))
        self.again("--door", DOOR)
        self.assertEqual(self.slips(), before)

    def test_two_labs_with_one_name_and_a_missing_lab_are_refused(self) -> None:
        self.new()
        (self.room / "sub").mkdir()
        shutil.copy(self.room / "maths-1.toml", self.room / "sub/maths-1.toml")
        none = self.room / "none.toml"
        for files, status, error in (((self.room / "maths-1.toml", self.room / "sub/maths-1.toml"), 1, "several of these labs would have the same network "
                                                                                                "name, maths-1. Rename the files of the labs"),
                                     ((none,), 4, f"{none}: No such file or directory")):
            done = call_class("slips", *files)
            self.assertEqual((done.returncode, done.stderr), (status, f"class: {error}\n"))


class Ways(unittest.TestCase):
    """The way into a network, which is what all its slips have in common."""

    def test_an_address_escapes_special_characters_of_a_key(self) -> None:
        way = Way(4711, "maths", door=DOOR, fingerprint="0" * 64)
        self.assertEqual(printed.address(way, "zoe", "a b&c#d%"), f"https://{DOOR}/maths/#name=zoe&key=a%20b%26c%23d%25")


if __name__ == "__main__":
    unittest.main()
