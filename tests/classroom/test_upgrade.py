"""Folders of runs that earlier programs left, in `kept/`: this program can mark, play and resume each of them.

Each is from `./class run` of `examples/cycle.toml`, with bots of three of its students, until both it and its server
were killed. `first` is from commit 151f29c, the first that called itself 0.9.0, whose program was built without a
proof. `archive` is from the archive that `./release` made of commit ef46f47. `archive` has a record too, in which gus
is denied another's node.
"""
from __future__ import annotations

import json
import shutil
import unittest
from pathlib import Path

from classroom.core.program import TOP, host, host_call
from tests.classroom.help import KEYS, Cycle, Going, call_class

KEPT = TOP / "tests/classroom/kept"
# For each folder: the moves that its closes applied, by student, and its events, both counted by hand.
COUNTED = {
    "first": ({"gus": 1, "hana": 1, "ines": 3}, 9),
    "archive": ({"gus": 1, "hana": 1, "ines": 3}, 9),
}


@unittest.skipUnless(host(), "not tried: no host is built")
class Upgrade(Cycle):
    """Subcommands of `./class`, which get copies of these folders."""

    def copied(self, name: str) -> Path:
        """Copies the folder with this name of `kept/`, so that only this user can read it. Returns the copy."""
        folder = self.room / "runs" / f"2026-11-26T2144-{name}"
        shutil.copytree(KEPT / name, folder)
        folder.chmod(0o700)
        return folder

    def marks(self, folder: Path) -> tuple[dict[str, int], int]:
        """Returns the number of applied moves of each student who has some, and the number of events, as `mark` counts
        them in the folder of a run."""
        done = call_class("mark", "--json", folder)
        self.assertEqual(done.returncode, 0, done.stderr)
        run = json.loads(done.stdout)["runs"][0]
        return {name: total for name, it in run["students"].items() if (total := sum(it["applied"].values()))}, run["events"]

    def test_each_kept_folder_has_its_counts_here(self) -> None:
        self.assertEqual({folder.name for folder in KEPT.iterdir() if folder.is_dir()}, set(COUNTED))

    def test_mark_counts_the_moves_and_events_of_each_folder(self) -> None:
        for name, counted in COUNTED.items():
            with self.subTest(name):
                self.assertEqual(self.marks(self.copied(name)), counted)

    def test_the_record_of_a_folder_passes_and_its_denials_are_counted(self) -> None:
        """Only gus has a denial of clause 1."""
        folder = self.copied("archive")
        answer = host_call("verify", folder / "lab.toml", folder / "journal", folder / "record")
        self.assertEqual((answer.status, answer.output.partition("\n")[0].split(",")[-1]), (0, " 9 events"), answer.error)
        students = json.loads(call_class("mark", "--json", folder).stdout)["runs"][0]["students"]
        self.assertEqual({name: it["clause1"] for name, it in students.items()}, dict.fromkeys(KEYS, 0) | {"gus": 1})

    def test_play_makes_a_page_and_a_picture_of_each_folder(self) -> None:
        for name, (_, events) in COUNTED.items():
            with self.subTest(name):
                folder, page = self.copied(name), self.room / f"{name}.html"
                done = call_class("play", folder, "-o", page)
                self.assertEqual(done.returncode, 0, done.stderr)
                self.assertIn("ines", page.read_text(encoding="utf-8"))
                done = call_class("play", folder, "--svg", str(events), "-o", self.room / f"{name}.svg")
                self.assertEqual(done.returncode, 0, done.stderr)

    def test_each_folder_can_be_resumed_until_the_network_is_stable(self) -> None:
        """The journal keeps its lines, and the record still passes at the end."""
        for name, (_, events) in COUNTED.items():
            with self.subTest(name):
                folder = self.copied(name)
                before = (folder / "journal").read_bytes()
                going = Going(self, None, "run", "--resume", folder, "--close", "when-idle:0.5", "--until", "stable")
                self.assertEqual(going.folder, folder)
                self.assertTrue(any(f"events: {events} of " in line for line in going.lines), going.lines)
                for student in KEYS:
                    self.bot(going, student)
                self.assertEqual(going.wait_for_end(), 0, going.lines)
                self.assertIn("the network is stable, so the run is ended", going.lines)
                self.assertGreater(self.check_complete(folder), events)
                self.assertTrue((folder / "journal").read_bytes().startswith(before))
                self.assertEqual(host_call("verify", folder / "lab.toml", folder / "journal", folder / "record").status, 0)


if __name__ == "__main__":
    unittest.main()
