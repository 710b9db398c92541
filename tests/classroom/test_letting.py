"""A run with a door: its lines, and the same door for a resumed run. A *door* is a TLS port for students on other
machines. The door has a process of its own, and its address is on the slips."""
from __future__ import annotations

import os
import shutil
import signal
import subprocess
import time
import unittest
import unittest.mock
from contextlib import nullcontext
from dataclasses import replace
from pathlib import Path

from classroom.client import Client, Closed, NoServer, Refused, Slip
from classroom.core.classes import Class, Network
from classroom.core.folders import Process, Record
from classroom.core.program import host
from classroom.door.routes import DoorData
from classroom.run import class_again, letting, run
from classroom.run.run import ports_for
from classroom.run.several import words_of
from classroom.setup.slips import folder_of
from classroom.words import parser
from tests.classroom.help import CYCLE, LIMIT, Going, InRoom, a_port, call_class, wait_until
from tests.classroom.several import GoingClass


@unittest.skipUnless(host(), "not tried: no host is built")
class Doors(InRoom):
    """Runs of a lab whose slips name a door."""

    def setUp(self) -> None:
        """Makes a lab for three students, and slips with a door at a free port. `slip` is that of the student Ben."""
        super().setUp()
        self.port, self.lab = a_port(), self.room / "maths.toml"
        students = self.file("list.csv", "Name\nZoë Müller\nBen\nCyd\n")
        done = call_class("new", self.lab, "--students", students, "--door", f"127.0.0.1:{self.port}", "--start", "hurt")
        self.assertEqual(done.returncode, 0, done.stdout + done.stderr)
        self.slip = Slip.read(self.room / "maths-slips/ben.slip")

    def begin(self, *more: str) -> Going:
        """Starts a run with a door, a page and these options. Its steps are closed by hand."""
        return Going(self, self.lab, "--door", f"127.0.0.1:{self.port}", "--close", "by-hand", "--page", str(a_port()), *more)

    def door(self, going: Going) -> DoorData:
        """Returns the data of the run's door, from its folder. Fails if it has none."""
        record = Record.read(going.folder)
        assert record is not None and record.door is not None
        kept = DoorData.read(Path(record.door))
        assert kept is not None
        return kept

    def connect(self) -> Client:
        """Connects through the door as Ben, again and again until that succeeds. Returns the connection. Fails after a
        time limit."""
        end = time.monotonic() + LIMIT
        while True:
            try:
                return Client.of(self.slip)
            except (Closed, Refused):
                self.assertLess(time.monotonic(), end)
                time.sleep(0.1)

    def ask_for_move(self, client: Client) -> int:
        """Asks for the enabled move of Ben's first node. Returns the number of events after that, or 0 if no rule is
        enabled or a move is chosen already."""
        look = client.look(self.slip.nodes[0])
        return client.move(look).place if look.rule and not look.chosen else 0

    def test_the_resumed_run_of_a_killed_server_has_a_new_door_at_the_same_address(self) -> None:
        """If the server is killed, the run and the process of the door end."""
        going = self.begin()
        address = going.until("^page for the projector, from other machines https://")
        with self.connect() as client:
            self.ask_for_move(client)
            record = Record.read(going.folder)
            assert record is not None
            os.kill(record.server.number, signal.SIGKILL)
            self.assertEqual(going.wait_for_end(), 4, going.lines)
        door = self.door(going).process
        wait_until(lambda: not door.lives())
        with self.assertRaises(NoServer):
            Client.of(self.slip)
        again = Going(self, None, "run", "--resume", going.folder)
        self.assertEqual(again.until("^page for the projector, from other machines "), address)
        with self.connect() as client:
            self.ask_for_move(client)
            client.see(self.slip.nodes[0])
        self.assertNotEqual(self.door(again).process, door)
        self.assertEqual(again.end(), 0, again.lines)

    def test_the_server_and_the_door_outlive_a_killed_run_and_the_resumed_run_has_a_door_at_the_same_port(self) -> None:
        """It may be the same door or a new one. After the resumed run, no door is left."""
        going = self.begin()
        record, door = Record.read(going.folder), self.door(going).process
        assert record is not None
        going.process.kill()
        going.process.wait()
        with self.connect() as client:  # The server and the door continue.
            self.ask_for_move(client)
        server = record.server
        os.kill(server.number, signal.SIGKILL)
        wait_until(lambda: not server.lives())
        again = Going(self, None, "run", "--resume", going.folder)
        with self.connect() as client:
            self.assertEqual(client.look(self.slip.nodes[0]).node, self.slip.nodes[0])
        self.assertEqual(self.door(again).port, self.port)
        self.assertEqual(again.end(), 0, again.lines)
        wait_until(lambda: not door.lives() and not self.door(again).process.lives())

    def test_a_run_warns_of_slips_with_another_address_than_that_of_its_door(self) -> None:
        """After `./class slips` with the right address there is no warning."""
        self.port = a_port()
        going = self.begin()
        self.assertTrue(any(line.startswith(f"the slips of {self.lab} don't have the address of this door. ") for line in going.lines), going.lines)
        self.assertEqual(going.end(), 0, going.lines)
        done = call_class("slips", self.lab, "--door", f"127.0.0.1:{self.port}")
        self.assertEqual(done.returncode, 0, done.stderr)
        going = self.begin()
        self.assertFalse([line for line in going.lines if "the address of this door" in line])
        self.assertEqual(going.end(), 0, going.lines)

    def test_a_certificate_that_is_named_is_that_of_the_door_and_its_fingerprint_is_on_the_slips(self) -> None:
        """A file that has no certificate is refused."""
        own = self.room / "own.pem"
        subprocess.run(["openssl", "req", "-x509", "-newkey", "ec", "-pkeyopt", "ec_paramgen_curve:prime256v1", "-nodes", "-subj", "/CN=own",
                        "-keyout", own, "-out", self.room / "certificate"], check=True, capture_output=True)
        own.write_text(own.read_text(encoding="ascii") + (self.room / "certificate").read_text(encoding="ascii"), encoding="ascii")
        done = call_class("slips", self.lab, "--door", f"127.0.0.1:{self.port}", "--certificate", own)
        self.assertEqual(done.returncode, 0, done.stderr)
        self.slip = Slip.read(self.room / "maths-slips/ben.slip")
        going = self.begin("--certificate", str(own))
        self.assertIn(f"the door is open at port {self.port}; its certificate is {own}, with the SHA-256 fingerprint {self.slip.fingerprint}", going.lines)
        with self.connect() as client:
            client.look(self.slip.nodes[0])
        self.assertEqual(going.end(), 0, going.lines)
        self.assertEqual(call_class("run", self.lab, "--into", self.room / "runs", "--door", str(self.port), "--certificate", self.lab).returncode, 4)


class Resumed(InRoom):
    """The ports of pages to play, if a run that continues gets a door by the option `--door`. No server is started."""

    def folder(self, name: str, play: int | None, page: int | None = None) -> Path:
        """Makes the folder of a run that has ended, and returns it. The run's page to play had the port `play`, and the
        slips of the run's lab name the port `page`. If `play` is None, it had no such page. If `page` is None,
        the lab has no slips."""
        lab, folder = self.room / f"{name}.toml", self.room / "class" / name
        shutil.copy(CYCLE, lab)
        folder.mkdir(parents=True)
        shutil.copy(CYCLE, folder / "lab.toml")
        (folder / "journal").touch()
        replace(Record.default(folder, 4711), lab=str(lab), play=play).write(folder)
        if page is not None:
            slips = folder_of(lab)
            slips.mkdir()
            (slips / "gus.slip").write_text(f"port 4711\nname gus\nkey k\nnodes 1\npage {page}\n", encoding="utf-8")
        return folder

    def resume(self, folder: Path, *options: str) -> unittest.mock.Mock:
        """Calls `run --resume` with this folder and these options, but continues no run. Returns the call of the
        function that would continue it."""
        words = parser().parse_args(["run", "--resume", str(folder), *options])
        with unittest.mock.patch.object(run, "to_the_end") as of_run, unittest.mock.patch.object(class_again, "hold_again") as of_class, \
                unittest.mock.patch.object(letting, "door", return_value=nullcontext()):
            run.run(words)
        return of_class if of_class.called else of_run

    def test_a_run_keeps_the_port_of_its_page_or_takes_the_one_on_its_slips(self) -> None:
        """A port in the command comes first. Without a door no page is added."""
        door = ("--door", "127.0.0.1:1")
        for number, (play, page, options, port) in enumerate((
            (4811, 4855, door, 4811), (4811, None, (*door, "--play", "4900"), 4900), (None, 4855, door, 4855), (None, None, door, run.PLAY),
            (4811, None, (), 4811), (None, 4855, (), None),
        )):
            folder = self.folder(f"cycle-{number}", play, page)
            with self.subTest(play=play, page=page, options=options):
                self.assertEqual(self.resume(folder, *options).call_args[0][0].play, port)

    def test_the_networks_of_a_class_keep_the_ports_of_their_pages(self) -> None:
        """If they had none and their slips name none, the pages get consecutive ports."""
        for kept, ports in (((4811, 4911), [4811, 4911]), ((None, None), [run.PLAY, run.PLAY + 1])):
            folders = [self.folder(f"{kept[0]}-{number}", play) for number, play in enumerate(kept)]
            networks = [Network(folder.name, "", str(self.room / f"{folder.name}.toml")) for folder in folders]
            Class(networks, Process(0, "")).write(folders[0].parent)
            words = self.resume(folders[0].parent, "--door", "127.0.0.1:1").call_args[0][0]
            self.assertEqual([words_of(words, index)[-2:] for index in range(2)], [["--play", str(port)] for port in ports])


class Ports(InRoom):
    """The ports of labs, taken from their slips."""

    def test_labs_have_the_ports_on_their_slips_if_these_are_all_known_and_differ(self) -> None:
        """Otherwise they have consecutive ports, from the one that is asked for or from the default port on."""
        self.assertEqual(ports_for(None, 4711, [4711, 4720, 4712]), [4711, 4720, 4712])
        self.assertEqual(ports_for(5000, 4711, [4711, 4720]), [5000, 5001])
        shared_or_lacking: list[list[int | None]] = [[4711, 4711], [None, 4720], [None, None]]
        for known in shared_or_lacking:
            self.assertEqual(ports_for(None, 4711, known), [4711, 4712])

    @unittest.skipUnless(host(), "not tried: no host is built")
    def test_each_network_has_the_port_on_its_slips_whatever_the_order_of_the_labs(self) -> None:
        """So has a network that is run alone."""
        students, first = self.file("names", "".join(f"Student {number}\n" for number in range(6))), a_port()
        done = call_class("new", self.room / "maths.toml", "--students", students, "--groups", "2", "--port", str(first), "--page-port", str(first + 100))
        self.assertEqual(done.returncode, 0, done.stderr)
        desk = GoingClass(self, "run", self.room / "maths-2.toml", self.room / "maths-1.toml", "--into", self.room / "runs", "--play")
        for index, name in enumerate(("maths-1", "maths-2")):
            record = desk.record(name)
            self.assertEqual((record.port, record.play), (first + index, first + 100 + index))
        desk.type("end all\nend")
        self.assertEqual(desk.wait_for_end(), 0, desk.lines)
        going = Going(self, None, "run", self.room / "maths-2.toml", "--into", self.room / "alone")
        self.assertEqual(going.port, first + 1)
        self.assertEqual(going.end(), 0, going.lines)


if __name__ == "__main__":
    unittest.main()
