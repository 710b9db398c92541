"""The page of a run for one student: each line that the student sent is at its place, and each denial by a guard has
the part of the guard that failed. A *guard* is the condition of a rule. A *place* is the number of an event, and a
*session* is what the record has of one connection."""
from __future__ import annotations

import re
import unittest
from html import unescape
from pathlib import Path

from classroom.core import lab as labs
from classroom.core.explained import MARK
from classroom.core.journal import events
from classroom.core.program import TOP, host
from classroom.core.record import CUT, ENDED, Entry
from classroom.marks import own_pages
from classroom.marks.hiding import Hider
from classroom.marks.history import Row as Said
from classroom.marks.history import merged, own_page, rows_of, text
from classroom.marks.reasons import reasons
from classroom.marks.vouched import Vouched
from tests.classroom.browser import Played, show_as, shown, until
from tests.classroom.help import CYCLE, EXAMPLES, Cycle, Going, InRoom, call_class
from tests.classroom.runs import journal_of
from tests.classroom.test_history import Raw
from tests.classroom.test_shown import WINDOWS, check_readable, resize

FAULTY = TOP / "tests/classroom/bots/faulty.py"
# Requests of gus, each with its reply.
HELLO = b'{"do":"hello","name":"gus","key":"heron-31"}', b'{"ok":"hello","who":"gus"}'
MOVE = b'{"do":"move","node":4,"rule":"update","at":9}', b'{"at":9,"node":4,"ok":"move","place":42,"rule":"update"}'
# Returns the width and height of the drawing, and those of the list beside it.
ROOM = """
return ['.stage', '.history'].map((it) => document.querySelector(it).getBoundingClientRect()).map(({width, height}) => [width, height]);
"""
ITEM = re.compile(r'<li><a href="#p=(\d+)">([^<]*)</a>(.*?)</li>')


def items(page: str) -> list[tuple[str, str, str]]:
    """Returns the place, the moment and the text of each entry beside the player. `page` is the text of the page."""
    return [(place, after, unescape(re.sub("<[^>]*>", "", rest))) for place, after, rest in ITEM.findall(page)]


class Beginnings(unittest.TestCase):
    """The first entries of a session, up to its hello. In the record they have the last place of the seat's previous
    session, so they may have come later."""

    def listed(self, *said: Entry) -> list[Said]:
        """Returns the rows of a session of gus with these entries, together with rows for two steps, which are the
        events 10 and 41."""
        part = Vouched(Path("record"), Path("copy"), 0, "ok")
        lines = rows_of([(part, [*said], {"gus"})], "gus", Hider({"heron-31"}, ["gus"]))
        return merged(lines, [Said(10, event="a step"), Said(41, event="another step")])

    def test_entries_up_to_the_hello_are_listed_just_before_the_entry_after_it(self) -> None:
        """Their moment is shown as the least and the greatest number of events that can have come before."""
        rows = self.listed(Entry(3, 0, b"no request", b'{"refuse":"malformed"}'), Entry(3, 0, *HELLO), Entry(3, 41, *MOVE), Entry(3, 42, mark=ENDED))
        self.assertEqual([row.event or row.denied or row.reply[:12] for row in rows],
                         ["a step", "another step", "malformed", '{"ok":"hello', '{"at":9,"nod', "this connection ended"])
        self.assertEqual([row.after() for row in rows], [f"after {events} events" for events in ("10", "41", "0 to 41", "0 to 41", "41", "42")])
        self.assertEqual([row.place for row in rows], [10, 41, 0, 0, 41, 42])
        self.assertIn('\n  after 0 to 41 events, seat 3 > {"do":"hello","name":"gus","key":"***"}\n', text([], rows))

    def test_first_entries_are_listed_at_their_own_place_if_no_other_is_known(self) -> None:
        """Tries a session with only a hello, one without a hello, and one whose first move is at the same place as its
        hello. At last tries a session whose rest isn't recorded."""
        for said in ([Entry(3, 0, *HELLO), Entry(3, 0, mark=ENDED)], [Entry(3, 5, b"x", b'{"refuse":"malformed"}'), Entry(3, 5, mark=ENDED)],
                     [Entry(3, 0, *HELLO), Entry(3, 0, *MOVE), Entry(3, 41, mark=ENDED)]):
            rows = [row for row in self.listed(*said) if row.seat and not row.event]
            self.assertEqual({row.after() for row in rows}, {f"after {said[0].place} events"})
        self.assertEqual(self.listed(Entry(3, 0, *HELLO), Entry(3, 0, mark=CUT))[0].reply, HELLO[1].decode())


class Reasons(unittest.TestCase):
    """The part of a guard that failed, at its place in the journal."""

    def test_each_denied_move_has_the_reason_that_held_at_its_place(self) -> None:
        """The same move is denied at three places, for two different reasons. Other lines have no reason."""
        lab = labs.read(EXAMPLES / "built-in.toml")
        happened = events((EXAMPLES / "whole-run.journal").read_text(encoding="ascii"))
        # Three places, each with the number of the configuration there.
        rows = [(place, happened[place - 1].at + happened[place - 1].makes_configuration if place else 0) for place in (0, 3, len(happened))]
        asked = [(place, '{"do":"move","node":1,"rule":"abandonment","at":%d}' % at) for place, at in rows]
        found = reasons(lab, happened, [*asked, (2, "no request"), (2, '{"do":"look","node":1}')])
        self.assertEqual([*found], asked)
        for told in found.values():
            self.assertTrue(told.startswith(MARK), told)
        self.assertEqual(len({told.partition(";")[0] for told in found.values()}), 2, found)
        self.assertEqual(reasons(lab, happened, []), {})


class Practised(InRoom):
    """The pages that `practise` and `grade` make. With the argument `marries-anyone`, the bot FAULTY asks for a
    marriage with its first neighbour whenever any rule is enabled."""

    def test_the_page_of_practise_has_the_denied_move_with_its_reason(self) -> None:
        done = call_class("practise", f"python3 {FAULTY} marries-anyone", "--family", "path", "--nodes", "4", "--node", "1,2,3,4",
                          "--start", "clean", "--daemon", "by-hand", "--into", self.room)
        self.assertEqual(done.returncode, 5, done.stdout + done.stderr)
        (page,) = self.room.glob("*/run.html")
        (entry,) = items(page.read_text(encoding="utf-8"))
        self.assertEqual(entry[:2], ("0", "after 0 events"))
        for part in ('"rule": "marriage", "with": 2}', '"deny":"guard"', MARK, "p of node 2 isn't 1, but null"):
            self.assertIn(part, entry[2])

    def test_the_page_of_practise_has_granted_moves_and_steps_in_their_order_and_no_key(self) -> None:
        done = call_class("practise", EXAMPLES / "bot.py", "--nodes", "4", "--into", self.room)
        self.assertEqual(done.returncode, 0, done.stdout + done.stderr)
        (page,) = self.room.glob("*/run.html")
        rows = items(page.read_text(encoding="utf-8"))
        self.assertEqual([int(row[0]) for row in rows], sorted(int(row[0]) for row in rows))
        self.assertTrue(any(row[2].strip().startswith("configuration 1: ") for row in rows), rows)
        self.assertTrue(any('"ok":"move"' in row[2] for row in rows), rows)
        (lab,) = self.room.glob("*/lab.toml")
        made = labs.read(lab)
        for key in (*made.students.values(), made.teacher[1]):
            self.assertNotIn(key, page.read_text(encoding="utf-8"))

    def test_grade_makes_a_page_with_reasons_for_a_case_that_the_bot_fails(self) -> None:
        folder = self.room / "labs"
        folder.mkdir()
        (folder / "path.toml").write_bytes((EXAMPLES / "path.toml").read_bytes())
        done = call_class("grade", f"python3 {FAULTY} marries-anyone", "--labs", folder, "--daemon", "synchronous", "--timeout", "100",
                          "--into", self.room / "grades")
        self.assertEqual(done.returncode, 5, done.stdout + done.stderr)
        (page,) = self.room.glob("grades/**/run.html")
        self.assertTrue(any(MARK in row[2] and '"deny":"guard"' in row[2] for row in items(page.read_text(encoding="utf-8"))))


class Read(Played):
    """The page in four windows and both themes."""

    def test_the_page_can_be_read_and_the_link_of_an_entry_moves_the_player_to_its_place(self) -> None:
        """The drawing takes more than half of the width, and on a phone more than nine tenths. The drawing and the list
        are each more than 180 pixels wide and high."""
        self.addCleanup(resize, self.driver, None)
        self.addCleanup(show_as, self.driver)
        lab = EXAMPLES / "grid.toml"
        journal = journal_of(lab, EXAMPLES / "grid-run.script", self.room / "grid.journal")
        denied = '{"at":9,"clause":4,"deny":"guard","text":"the guard of this rule does not hold"}'
        lines = [Said(place, 3, 1, f'{{"do":"move","node":1,"rule":"update","at":{place}}}', denied, "guard") for place in range(0, 61, 3)]
        page = self.room / "ana.html"
        page.write_text(own_page("ana: grid, 2026-11-24", "ana", lab, journal, ["record: ok: 1 session, 21 lines"], lines), encoding="utf-8")
        self.open(page)
        for size in WINDOWS:
            resize(self.driver, size)
            for theme in ("light", "dark"):
                show_as(self.driver, theme)
                with self.subTest(size=size, theme=theme):
                    check_readable(self, self.driver, size)
                    stage, entries = self.driver.execute_script(ROOM)
                    self.assertTrue(min(*stage, *entries) > 180, (stage, entries))
                    self.assertGreater(stage[0], (0.55 if size[0] > 1000 else 0.9) * size[0])
        self.driver.find_element("css selector", ".history a[href='#p=30']").click()
        until(self.driver, lambda driver: shown(driver)[0]["place"] == "30")


@unittest.skipUnless(host(), "not tried: no host is built")
class OfARun(Cycle):
    """The pages that a run makes for its students."""

    def test_each_student_who_sent_something_has_a_page_with_only_this_student_s_lines_and_no_key(self) -> None:
        """The second move of gus is denied, so his page has the part of the guard that failed."""
        going = Going(self, CYCLE, "--close", "by-hand")
        with Raw(going.port, "gus") as gus, Raw(going.port, "jonas") as jonas:
            gus.ask(b'{"do":"move","node":4,"rule":"update","at":0}\n')
            jonas.ask(b'{"do":"move","node":7,"rule":"update","at":0}\n')
            going.type("close")
            going.until("^configuration 1: node 4 ")
            gus.ask(b'{"do":"move","node":4,"rule":"update","at":1}\n')
        self.assertEqual(going.end(), 0, going.lines)
        folder = going.folder / own_pages.FOLDER
        self.assertEqual({page.name for page in folder.iterdir()}, {"gus.html", "jonas.html"})
        rows = [row[2] for row in items((folder / "gus.html").read_text(encoding="utf-8"))]
        self.assertTrue(any('"deny":"guard"' in row and f"{MARK}m of node 4 is " in row for row in rows), rows)
        self.assertTrue(any("configuration 1: node 4 (gus): update" in row for row in rows), rows)
        self.assertFalse(any("jonas" in row and "hello" in row for row in rows))
        for key in ("heron-31", "plover-48"):
            self.assertFalse([page for page in folder.iterdir() if key in page.read_text(encoding="utf-8")])


if __name__ == "__main__":
    unittest.main()
