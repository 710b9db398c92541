"""The end of a lesson by the clock, names as pages show them, and lines about many events."""
from __future__ import annotations

import argparse
import re
import unittest
from datetime import datetime, timedelta

from classroom.core.journal import Event
from classroom.core.lab import Lab, Node
from classroom.core.lists import Person
from classroom.core.program import host
from classroom.core.shown_names import ShownNames, display_names, short
from classroom.run import wording
from classroom.run.clock import Clock, kept_end, next_time, time_of_day
from tests.classroom.help import CYCLE, EXAMPLES, Cycle, Going, call_class

NOW = datetime(2026, 11, 24, 10, 2, 30)


class Clocks(unittest.TestCase):
    """Times of the day, and warnings."""

    def test_the_end_is_the_next_such_time_of_day_unless_it_is_over_twelve_hours_away(self) -> None:
        """At 10:02 the next 10:45 is on the same day, and at 23:00 the next 00:30 is on the day after. At 10:02 the
        next 09:45 is over twelve hours away, so that time counts as passed."""
        self.assertEqual(next_time("10:45", NOW), datetime(2026, 11, 24, 10, 45))
        self.assertEqual(next_time("00:30", datetime(2026, 11, 24, 23, 0)), datetime(2026, 11, 25, 0, 30))
        with self.assertRaisesRegex(ValueError, "^--ends 09:45: it is 10:02 already. Name a later time$"):
            next_time("09:45", NOW)
        # The argument of the option, and words that aren't a time of day.
        self.assertEqual((time_of_day("9:05"), time_of_day("23:59")), ("09:05", "23:59"))
        for word in ("24:00", "10:60", "10", "10:5", "x", "10:45:00"):
            with self.assertRaises(argparse.ArgumentTypeError):
                time_of_day(word)

    def test_a_resumed_run_keeps_its_end_unless_that_time_has_passed_or_is_not_valid(self) -> None:
        self.assertEqual(kept_end("2026-11-24T10:45:00", NOW), datetime(2026, 11, 24, 10, 45))
        for text in ("2026-11-24T10:00:00", "2026-11-24T10:45:00+00:00", "x", "", None):
            self.assertIsNone(kept_end(text, NOW))

    def test_warnings_come_once_each_ten_five_and_one_minute_before_the_end(self) -> None:
        """If the clock starts four minutes before the end, the two earlier warnings are left out."""
        clock = Clock(datetime(2026, 11, 24, 10, 45), NOW)
        told = [(minute, clock.warning(datetime(2026, 11, 24, 10, minute))) for minute in range(2, 46)]
        self.assertEqual([(minute, line) for minute, line in told if line], [
            (35, "the lesson ends at 10:45, in 10 minutes"), (40, "the lesson ends at 10:45, in 5 minutes"),
            (44, "the lesson ends at 10:45, in 1 minute")])
        self.assertTrue(clock.is_over(datetime(2026, 11, 24, 10, 45)))
        late = Clock(datetime(2026, 11, 24, 10, 45), datetime(2026, 11, 24, 10, 41))
        self.assertEqual(late.warning(datetime(2026, 11, 24, 10, 41, 1)), "")
        self.assertEqual(late.warning(datetime(2026, 11, 24, 10, 44, 30)), "the lesson ends at 10:45, in 1 minute")


@unittest.skipUnless(host(), "not tried: no host is built")
class Ends(Cycle):
    """A run with `--ends`."""

    def test_a_run_ends_at_the_time_that_is_named(self) -> None:
        # The next full minute that is at least thirty seconds away, so that the run has started by then. In the sum,
        # the comparison counts as 1 minute if it is true, and as 0 otherwise.
        end = (datetime.now() + timedelta(seconds=90)).replace(second=0, microsecond=0)
        end += timedelta(minutes=(end - datetime.now()) < timedelta(seconds=30))
        going = Going(self, CYCLE, "--close", "by-hand", "--ends", f"{end:%H:%M}")
        going.until(f"^it is {end:%H:%M}: the lesson is over, so the run ends$")
        self.assertEqual(going.wait_for_end(), 0, going.lines)
        self.assertGreaterEqual(datetime.now(), end)
        self.check_complete(going.folder)

    def test_a_time_that_has_passed_is_refused_and_no_folder_is_made(self) -> None:
        before = datetime.now() - timedelta(minutes=5)
        for labs in ([CYCLE], [CYCLE, EXAMPLES / "shared.toml"]):
            done = call_class("run", *labs, "--close", "every:1", "--into", self.room / "runs", "--ends", f"{before:%H:%M}")
            self.assertEqual(done.returncode, 1)
            self.assertRegex(done.stderr, rf"^class: --ends {before:%H:%M}: it is \d\d:\d\d already. Name a later time\n$")
            self.assertFalse((self.room / "runs").exists())


class Names(unittest.TestCase):
    """Names on pages."""

    def lab(self) -> Lab:
        """Returns a lab of six students, two of whom have the same name in the class list."""
        written = {"zoe-mueller": "Zoë Müller", "lukas-schmidt-1": "Lukas Schmidt", "lukas-schmidt-2": "Schmidt, Lukas", "ana": "ana",
                   "plato": "Plato", "jean-le-bon": "Jean Marie  Le Bon"}
        nodes = [Node(1, ["zoe-mueller"]), Node(2, ["lukas-schmidt-2", "ana"])]
        return Lab(9, 2, ("tess", "chalk"), dict.fromkeys(written, "key"), nodes, [(1, 2)], {name: Person(it) for name, it in written.items()})

    def test_pages_show_first_names_with_an_initial_and_a_number_if_two_are_the_same(self) -> None:
        for written, wanted in (("Zoë Müller", "Zoë M."), ("Müller, Zoë", "Zoë M."), ("Plato", "Plato"), ("李 小龙", "李 小."), ("", ""),
                                ("Anna-Lena von der Heide", "Anna-Lena H.")):
            self.assertEqual(short(written), wanted)
        self.assertEqual(display_names(self.lab()), {
            "zoe-mueller": "Zoë M.", "lukas-schmidt-1": "Lukas S. 1", "lukas-schmidt-2": "Lukas S. 2", "ana": "ana", "plato": "Plato",
            "jean-le-bon": "Jean B."})

    def test_whole_names_in_lines_events_and_labs_are_replaced(self) -> None:
        """A name that is a part of a longer word stays. So does an event without a name."""
        names = ShownNames.of(self.lab(), False)
        self.assertEqual(names.line("waiting for 1 (zoe-mueller): update, 2 (lukas-schmidt-2 and ana)"),
                         "waiting for 1 (Zoë M.): update, 2 (Lukas S. 2 and ana)")
        self.assertEqual(names.line("zoe-mueller-2 and xzoe-mueller"), "zoe-mueller-2 and xzoe-mueller")
        event = Event(4, 2, ("grant", "zoe-mueller", "1", "update"))
        self.assertEqual(names.event(event).words, ("grant", "Zoë M.", "1", "update"))
        self.assertEqual((names.event(event).nodes, names.event(Event(5, 2, ("close",))).words), ((1,), ("close",)))
        shown = names.lab(self.lab())
        self.assertEqual((shown.owners(2), shown.nodes_of("Zoë M.")), (["Lukas S. 2", "ana"], [1]))

    def test_if_names_are_hidden_numbers_are_shown(self) -> None:
        names = ShownNames.of(self.lab(), True)
        line = names.line("zoe-mueller lukas-schmidt-1 lukas-schmidt-2 ana plato jean-le-bon")
        self.assertEqual(line, "#1 #2 #3 #4 #5 #6")
        self.assertEqual(names.lab(self.lab()).owners(2), ["#3", "#4"])


class Wording(unittest.TestCase):
    """Texts of many events of one kind."""

    def test_up_to_six_moves_of_a_step_are_listed_and_more_are_counted_by_rule(self) -> None:
        """18 of the 55 nodes are multiples of 3, and their rule is marriage."""
        moved = [(node, f"s{node}", "update" if node % 3 else "marriage") for node in range(1, 56)]
        self.assertEqual(wording.moves(moved[:2]), "node 1 (s1): update, node 2 (s2): update")
        self.assertEqual(wording.moves(moved), "55 moves, 37 update, 18 marriage")
        self.assertEqual(len(re.findall(r"\(s\d", wording.moves(moved[:6]))), 6)

    def test_an_edit_has_a_text_and_many_of_one_kind_have_one_with_their_number(self) -> None:
        """At most six nodes are named."""
        faults = [Event(node, node - 1, ("fault", str(node), "-", "true")) for node in range(1, 65)]
        self.assertEqual(wording.edit(faults[11]), "fault at node 12: p null, m true")
        self.assertEqual(wording.edit(Event(1, 0, ("fault", "12", "4", "false"))), "fault at node 12: p 4, m false")
        self.assertEqual(wording.edits(faults), "64 faults at nodes 1, 2, 3, 4, 5, 6 and 58 more")
        self.assertEqual(wording.edits(faults[:2]), "2 faults at nodes 1, 2")
        self.assertEqual(wording.edit(Event(1, 0, ("link", "1", "2"))), "added the link between 1 and 2")
        self.assertEqual(wording.edits([Event(at, at - 1, ("cut", "1", str(at))) for at in (2, 3)]), "2 removed links at nodes 1, 2, 3")
        self.assertEqual(wording.edit(Event(1, 0, ("release", "3"))), "dropped the granted move of node 3")

    def test_of_many_texts_the_first_are_listed_and_the_others_counted(self) -> None:
        self.assertEqual(wording.some(["a", "b"], 2, "node"), "a, b")
        self.assertEqual(wording.some(["a", "b", "c"], 2, "node"), "a, b, and 1 more node")
        self.assertEqual(wording.some(["a", "b", "c", "d"], 2, "node"), "a, b, and 2 more nodes")


if __name__ == "__main__":
    unittest.main()
