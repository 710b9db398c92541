"""Classes whose students are at another machine: 44 students in four networks through one door, and a student who gets
another key during a class. The *door* is the only port of the teacher's machine that others can reach. The machines are
network namespaces."""
from __future__ import annotations

import csv
import json
import os
import re
import signal
import subprocess
import sys
import unittest
from collections.abc import Iterator
from contextlib import contextmanager
from pathlib import Path
from typing import Any

from classroom.client import Slip
from classroom.core.lab import read
from classroom.core.program import host
from tests.classroom.help import EXAMPLES, LIMIT, Going, InRoom, a_port, call_class, wait_until
from tests.classroom.machines import TEACHERS, Machine, can_be_made, two

CROWD = Path(__file__).parent / "bots/crowd.py"
CLIENT = EXAMPLES.parent / "classroom/client.py"
# Programs of Python: one connects to an address and a port, the other prints the status and size of a page.
REACHES = "import socket, sys; socket.create_connection((sys.argv[1], int(sys.argv[2])), 20)"
GETS = ("import http.client, ssl, sys; it = http.client.HTTPSConnection(sys.argv[1], int(sys.argv[2]), timeout=60, context=ssl._create_unverified_context()); "
        "it.request('GET', sys.argv[3]); answer = it.getresponse(); print(answer.status, len(answer.read()))")


@unittest.skipUnless(host(), "not tried: no host is built")
@unittest.skipUnless(can_be_made(), "not tried: no network namespaces can be made here")
class Far(InRoom):
    """Classes through a door."""

    def setUp(self) -> None:
        """Makes the teacher's machine and that of the students, and chooses a port for the door and a file to which the
        students' bots append their names."""
        super().setUp()
        self.teachers, self.students = self.enterContext(two())
        self.port, self.told = a_port(), self.room / "told"

    def new(self, count: int, *more: str) -> list[Path]:
        """Makes one or several labs for this number of students, who are in two rooms in turn. `more` are options of
        `new`. Returns the labs' files."""
        rows = "".join(f"Student {number},s{number}@x.example,{'A 1' if number % 2 else 'B 2'}\n" for number in range(count))
        students = self.file("list.csv", f"Name,Email address,Room\n{rows}")
        done = call_class("new", self.room / "maths.toml", "--students", students, "--door", f"{TEACHERS}:{self.port}", "--start", "hurt", *more)
        self.assertEqual(done.returncode, 0, done.stdout + done.stderr)
        return sorted(self.room.glob("maths*.toml"))

    @contextmanager
    def crowd(self, slips: list[Path]) -> Iterator[subprocess.Popen[bytes]]:
        """Runs a bot for each of these slips on the students' machine until the caller is done. Yields their
        process."""
        with subprocess.Popen([*self.students.on, sys.executable, CROWD, self.told, *slips], stdin=subprocess.DEVNULL, stderr=subprocess.PIPE) as it:
            try:
                yield it
            finally:
                it.kill()

    def greeted(self) -> list[str]:
        """Returns the names of the students whose bots have greeted so far, one for each granted hello."""
        return self.told.read_text(encoding="utf-8").split() if self.told.exists() else []

    def reaches(self, machine: Machine, port: int) -> bool:
        """Returns whether a machine can connect to a port of the teacher's machine."""
        return subprocess.run([*machine.on, sys.executable, "-c", REACHES, TEACHERS, str(port)], check=False, capture_output=True).returncode == 0

    def gets(self, path: str) -> tuple[int, int]:
        """Requests the page at `path` of the door from the students' machine. Returns the status and the size of the
        answer."""
        done = subprocess.run([*self.students.on, sys.executable, "-c", GETS, TEACHERS, str(self.port), path], check=False, capture_output=True, text=True)
        status, size = map(int, done.stdout.split())
        return status, size

    def test_forty_four_students_play_in_four_networks_through_one_door(self) -> None:
        """Each of the two rooms has 22 students, too many for the seats of one network, so it gets two. Only the door
        can be reached. A server that is killed is resumed, and its network becomes stable again after a fault. In the
        end all networks are stable, and the marks have all students."""
        labs = self.new(44, "--groups-by", "Room")
        self.assertEqual([lab.stem for lab in labs], ["maths-1", "maths-2", "maths-3", "maths-4"])
        with (self.room / "maths-slips.csv").open(encoding="utf-8", newline="") as it:
            rows = [*csv.DictReader(it)]
        self.assertEqual((len(rows), {row["room"] for row in rows}, len({row["e-mail"] for row in rows})), (44, {"A 1", "B 2"}, 44))
        run = subprocess.Popen([*self.teachers.on, sys.executable, EXAMPLES.parent / "class", "run", *labs, "--door", str(self.port), "--page",
                                "--into", self.room / "runs", "--close", "every:1", "--typed"], stdin=subprocess.PIPE, stdout=subprocess.PIPE,
                               stderr=subprocess.STDOUT, text=True)
        self.addCleanup(run.wait)
        self.addCleanup(run.kill)
        with self.crowd([Path(row["file"]) for row in rows]):
            assert run.stdout is not None and run.stdin is not None
            wait_until(lambda: len(set(self.greeted())) == 44)
            runs = sorted((self.room / "runs").glob("*-maths/maths-*"))
            self.assertEqual([folder.name for folder in runs], [lab.stem for lab in labs])
            records = [json.loads((folder / "run.json").read_text(encoding="utf-8")) for folder in runs]
            self.assertTrue(self.reaches(self.students, self.port))
            for record in records:
                self.assertTrue(all(not self.reaches(self.students, record[kind]) for kind in ("port", "desk", "page", "play")), record)
            for record, lab in zip(records, labs, strict=True):
                self.assertEqual(self.gets(f"/{lab.stem}/")[0], 200)
                self.assertEqual(self.gets(f"/{lab.stem}/look/{record['looks']}/")[0], 200)
            path = self.check_page_for_all(runs[0].parent, [record["looks"] for record in records])
            in_third = {Path(row["file"]).stem for row in rows if row["network"] == "maths-3"}
            self.kill_and_resume(3, records[2]["server"]["number"], path, run, in_third)
            wait_until(lambda: self.networks(path)[2]["status"] == "runs")
            # Network 3 may have become stable before it was killed. After this fault it isn't, so the line that is
            # awaited comes later.
            run.stdin.write("3 fault 1 null true\n")
            run.stdin.flush()
            wait_until(lambda: self.is_stable_after(runs[2], "fault at node 1: p null, m true; "))
            wait_until(lambda: all(self.is_stable_after(folder) for folder in runs))
            run.stdin.write("end\n")
            run.stdin.flush()
            output = run.communicate(timeout=LIMIT)[0]
        self.assertEqual(run.returncode, 0, output)
        rows = re.findall(r"(?m)^\d  (maths-\d)  ([AB] \d)  .*  (https://\S+/look/\S+)  (https://\S+)$", output)
        self.assertEqual([(name, room) for name, room, *_ in rows], list(zip([lab.stem for lab in labs], ["B 2", "B 2", "A 1", "A 1"], strict=True)), output)
        marks = [json.loads((folder / "marks.json").read_text(encoding="utf-8"))["runs"][0] for folder in runs]
        self.assertEqual(sum(len(it["students"]) for it in marks), 44)
        self.assertEqual(re.findall("(?m)^ALARM (maths-\\d) is down: the server has ended, by the signal SIGKILL", output), ["maths-3"])
        self.assertTrue(all(it["stable"] for it in marks))
        wait_until(lambda: not self.reaches(self.students, self.port))  # The door stays open for a little while after its last network has ended.

    def is_stable_after(self, folder: Path, text: str = "") -> bool:
        """Returns whether the run in a folder has printed a line about a stable configuration, after this text if there
        is one."""
        told = (folder / "run.txt").read_text(encoding="utf-8")
        at = told.find(text)
        return at >= 0 and "; stable; " in told[at:]

    def check_page_for_all(self, folder: Path, looks: list[str]) -> str:
        """Checks from the students' machine that the page for all networks can be opened, has the addresses of the
        networks' own pages, and accepts no commands. `folder` is that of the class, and `looks` has the tokens of the
        networks' addresses. Returns the path of the page for all networks."""
        kept = json.loads((folder / "class.json").read_text(encoding="utf-8"))
        path = f"/all/look/{kept['looks']}/"
        self.assertEqual(self.gets(path)[0], 200)
        networks = self.networks(path)
        self.assertEqual([it["page"] for it in networks],
                         [f"https://{TEACHERS}:{self.port}/{it['name']}/look/{token}/" for it, token in zip(networks, looks, strict=True)])
        self.assertEqual(self.gets(f"{path}act")[0], 404)
        return path

    def networks(self, path: str) -> list[dict[str, Any]]:
        """Requests the state of the page for all networks from the students' machine. `path` is the page's path.
        Returns the networks in this state."""
        prints_text = GETS.replace("len(answer.read())", "answer.read().decode()")  # The text is printed instead of its size.
        done = subprocess.run([*self.students.on, sys.executable, "-c", prints_text, TEACHERS, str(self.port), f"{path}state"],
                              check=True, capture_output=True, text=True)
        networks: list[dict[str, Any]] = json.loads(done.stdout.removeprefix("200 "))["networks"]
        return networks

    def kill_and_resume(self, number: int, server: int, path: str, run: subprocess.Popen[str],
                        students: set[str]) -> None:
        """Kills the process `server`, the server of the network with this number. Waits until only this network is down
        on the page for all networks, whose path is `path`. Then resumes it by a command at the desk of `run`, and waits
        until the bots of all these students have greeted again."""
        before = {name: self.greeted().count(name) for name in students}
        os.kill(server, signal.SIGKILL)
        wait_until(lambda: bool(self.networks(path)[number - 1]["status"] == "down"))
        self.assertEqual([it["status"] for it in self.networks(path)].count("runs"), 3)
        assert run.stdin is not None
        run.stdin.write(f"resume {number}\n")
        run.stdin.flush()
        wait_until(lambda: all(self.greeted().count(name) > count for name, count in before.items()))

    def test_a_student_gets_another_key_and_the_others_connect_again(self) -> None:
        """The command `key` resumes the class with the new key. The old key is denied then, and the slips, the lab and
        the page with all slips have the new one. The journal continues, and the record is begun anew."""
        lab, = self.new(6)
        going = Going(self, None, "run", lab, "--door", str(self.port), "--into", self.room / "runs", "--close", "every:1", before=self.teachers.on)
        folder = self.room / "maths-slips"
        slips = {file.stem: file for file in sorted(folder.iterdir())}
        old = Slip.read(slips["student-3"])
        with self.crowd([*slips.values()]):
            wait_until(lambda: len(set(self.greeted())) == 6)
            going.until("; stable; ")
            before = (going.folder / "journal").read_bytes()
            going.type("key nobody")
            going.until("^there is no student nobody. The students are: student-0, ")
            others = [name for name in slips if name != "student-3"]
            hellos = {name: self.greeted().count(name) for name in others}
            going.type("key student-3")
            going.until("^the class continues at port ")
            wait_until(lambda: all(self.greeted().count(name) > count for name, count in hellos.items()))
            new = Slip.read(slips["student-3"])
            self.assertNotEqual(new.key, old.key)
            self.assertEqual(read(lab).students["student-3"], new.key)
            # The page for printing all slips.
            printed = (self.room / "maths-slips.html").read_text(encoding="utf-8")
            self.assertEqual((printed.count(old.key), new.key in printed), (0, True))
            past = self.file("old.slip", slips["student-3"].read_text(encoding="utf-8").replace(new.key, old.key))
            for file, reply in ((past, '"deny":"unknown"'), (slips["student-3"], '{"ok":"hello","who":"student-3"}')):
                done = subprocess.run([*self.students.on, sys.executable, CLIENT, file], input='{"do":"bye"}\n', capture_output=True, text=True, check=False)
                self.assertIn(reply, done.stdout, done.stderr)
            self.assertEqual(going.end(), 0, going.lines)
        self.assertTrue((going.folder / "journal").read_bytes().startswith(before))
        self.assertTrue((going.folder / "record.~1~" / "begun").is_file())
        run = json.loads((going.folder / "marks.json").read_text(encoding="utf-8"))["runs"][0]
        journal = (going.folder / "journal").read_text(encoding="ascii")
        self.assertEqual(sum(sum(it["granted"].values()) for it in run["students"].values()), journal.count(" grant "))
        self.assertEqual(call_class("mark", going.folder, "--json").returncode, 0)


if __name__ == "__main__":
    unittest.main()
