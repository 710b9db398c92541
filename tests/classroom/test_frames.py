"""The frames of a journal show exactly the program's replies. A *frame* has an event of the journal and the state of
the network after it. The first frame has the state at the beginning, and no event."""
from __future__ import annotations

import json
import re
import stat
import sys
import tempfile
import unittest
from pathlib import Path
from unittest import mock

from classroom.core import processes
from classroom.core.program import Fault
from classroom.pages import replay as module
from classroom.pages.drawing import drawing_of
from classroom.pages.frames import Frame, State, frames_of
from classroom.pages.layout import TALL, WIDE
from classroom.pages.page import live_page, page_of
from tests.classroom.runs import BUILT_IN, PROGRAM, TOP, edited_run, examples


def states(lab: Path, journal: Path) -> list[State]:
    """Returns a copy of the state in each frame of a run."""
    _, frames = frames_of(lab, journal)
    return [frame.state.copy() for frame in frames]


class Replayed(unittest.TestCase):
    """Frames of runs of examples, and of a run with every kind of event."""

    def setUp(self) -> None:
        """Makes the test's folder, the room."""
        room = tempfile.TemporaryDirectory()
        self.addCleanup(room.cleanup)
        self.room = Path(room.name)

    def test_each_event_is_a_frame_after_the_beginning(self) -> None:
        for lab, journal in examples(self.room):
            lines = journal.read_text().splitlines()
            with self.subTest(lab=lab.name):
                _, frames = frames_of(lab, journal)
                shown = [(frame.event and " ".join(frame.event.words), frame.state.place) for frame in frames]
                told = [(" ".join(line.split(" ")[2:]), place) for place, line in enumerate(lines, 1)]
                self.assertEqual(shown, [(None, 0), *told])

    def test_the_states_of_the_run_of_the_built_in_lab_are_those_computed_by_hand(self) -> None:
        run = states(BUILT_IN, TOP / "examples" / "whole-run.journal")
        self.assertEqual(run[3].pointers, {1: 2, 2: 3, 3: None})
        self.assertEqual(run[2].chosen, {1: "seduction", 2: "seduction"})
        self.assertEqual(run[3].chosen, {})
        self.assertEqual(run[8].ms, {1: False, 2: True, 3: True})
        self.assertEqual((run[10].pairs, run[10].stable, run[10].moves, run[10].number), ([(2, 3)], True, 6, 4))

    def test_a_picture_has_a_text_about_each_node_for_screen_readers(self) -> None:
        """The texts are compared at three places: at the beginning, after two granted moves, and at the end of the
        run."""
        lab, frames = frames_of(BUILT_IN, TOP / "examples" / "whole-run.journal")
        drawing = drawing_of(lab)
        said = [re.findall(r'role="img" aria-label="([^"]*)"', drawing.svg(frame.state, None)) for frame in frames]
        of = ("node 1 of ana, p ", "node 2 of ben, p ", "node 3 of cyd, p ")
        for place, words in (
            (0, ("null, m false, privileged: seduction", "null, m false, privileged: seduction", "null, m false")),
            (2, ("null, m false, privileged: seduction, chosen: seduction", "null, m false, privileged: seduction, chosen: seduction", "null, m false")),
            (10, ("null, m false", "3, m true, married to 3", "2, m true, married to 2")),
        ):
            self.assertEqual(said[place], [f"{node}{word}" for node, word in zip(of, words)])

    def test_both_drawings_of_a_page_have_the_layout_for_the_links_at_the_beginning(self) -> None:
        """One drawing is for screens, and the other for phones. The links form a path at the beginning, and another
        path after a link and a cut. One page replays the run. The other page shows a run that goes on, and is opened
        after these events."""
        lab, journal = edited_run(self.room)
        known, frames = frames_of(lab, journal)
        replayed = page_of("edited", known, frames)
        last = states(lab, journal)[-1]
        live, _ = live_page("edited", drawing_of(known), last, False)
        wanted = [drawing_of(known, known.links, field).data() for field in (WIDE, TALL)]
        self.assertNotEqual(drawing_of(known, last.links, TALL).data()["points"], wanted[1]["points"])
        for name, page in (("replayed", replayed), ("live", live)):
            data = json.loads(page.partition('data-form="plain">')[2].partition("</script>")[0])
            with self.subTest(name):
                self.assertEqual(data["views"], json.loads(json.dumps(wanted)))

    def test_each_kind_of_event_changes_the_state_as_it_should(self) -> None:
        """For each kind, the state after the first event of this kind is checked."""
        lab, journal = edited_run(self.room)
        run = states(lab, journal)
        kinds = [line.split(" ")[2] for line in journal.read_text().splitlines()]
        self.assertEqual(set(kinds), {"grant", "release", "close", "fault", "link", "cut"})
        after = {kind: run[kinds.index(kind) + 1] for kind in kinds}
        self.assertEqual(after["release"].chosen, {})
        self.assertEqual(after["link"].links, {(1, 2), (2, 3), (3, 4), (4, 5), (1, 5)})
        self.assertEqual((after["fault"].pointers[4], after["fault"].ms[4]), (5, True))
        self.assertNotIn((3, 4), after["cut"].links)
        self.assertEqual((after["cut"].chosen, after["cut"].since), ({}, 0))
        self.assertEqual(after["close"].moves, 2)

    def test_a_script_over_the_limit_is_sent_in_parts_with_the_same_states(self) -> None:
        """The limit on the size of a script is so small here that the longer runs need more than two calls of the
        program."""
        for lab, journal in (edited_run(self.room), *examples(self.room)):
            whole = states(lab, journal)
            with self.subTest(lab=lab.name), mock.patch.object(module, "SCRIPT_LIMIT", 6000):
                with mock.patch("classroom.core.program.run", wraps=processes.run) as run:
                    self.assertEqual(states(lab, journal), whole)
                if lab.stem in ("grid", "random", "ring"):
                    self.assertGreater(run.call_count, 2)

    def test_frames_show_the_program_s_replies_also_if_these_are_wrong(self) -> None:
        """The stand-in for the program is a script that calls the program, and changes m to true in each reply to a
        look at node 3."""
        liar = self.room / "liar"
        liar.write_text(
            f"#!{sys.executable}\nimport re, subprocess, sys\n"
            f"done = subprocess.run([{str(PROGRAM)!r}, *sys.argv[1:]], capture_output=True, text=True)\n"
            "told = re.sub(r'\"m\":false(,\"near\":[^]]*],\"node\":3,\"ok\":\"look\")', r'\"m\":true\\1', done.stdout)\n"
            "print(told, end='')\nsys.exit(done.returncode)\n"
        )
        liar.chmod(liar.stat().st_mode | stat.S_IXUSR)
        with mock.patch.dict("os.environ", MML_PROGRAM=str(liar)):
            run = states(BUILT_IN, TOP / "examples" / "whole-run.journal")
        self.assertEqual([state.ms[3] for state in run], [True] * len(run))

    def test_a_journal_that_the_audit_refuses_has_no_frames(self) -> None:
        journal = self.room / "bad.journal"
        lines = (TOP / "examples" / "whole-run.journal").read_text().splitlines(keepends=True)
        journal.write_text(lines[0] + lines[0] + "".join(lines[2:]))
        with self.assertRaisesRegex(Fault, "audit: line 2: wrong place or configuration$"):
            states(BUILT_IN, journal)

    def test_an_empty_journal_has_one_frame_the_beginning(self) -> None:
        journal = self.room / "empty.journal"
        journal.write_text("")
        _, frames = frames_of(BUILT_IN, journal)
        beginning: Frame = next(frames)
        self.assertEqual(beginning.state.privileged, {1: "seduction", 2: "seduction"})
        self.assertIsNone(next(frames, None))


if __name__ == "__main__":
    unittest.main()
