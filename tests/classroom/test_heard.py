"""The lines that `./class run` prints from the record: connections, guessed keys, denied requests, floods.

The *record* has a file of entries for each *seat*, which serves one connection after another. Seat 1 is that of the
teacher's desk. An *entry* is a line with its reply, or a mark: `.` if the connection ended, and `!` if its further
lines aren't recorded. A *place* is the number of an event.
"""
from __future__ import annotations

import unittest

from classroom.core.lab import read
from classroom.run.heard import FLOOD, Heard
from tests.classroom.help import CYCLE, InRoom

HELLO = '{"do":"hello","name":"%s","key":"%s"}'
STALE = '{"at":3,"clause":2,"deny":"stale","text":"this is not the current configuration"}'
UNKNOWN = '{"clause":2,"deny":"unknown","text":"name and key do not match"}'
SILENT = '{"clause":0,"deny":"not-greeted","text":"say hello first"}'
MOVE = '{"do":"move","node":4,"rule":"update","at":0}'


class Listened(InRoom):
    """Growing records that are written by hand."""

    def setUp(self) -> None:
        """Makes the empty record of a run of the cycle of `examples/`, and an object that follows it. `now` is the time
        of the object's last look at the record."""
        super().setUp()
        self.folder = self.room / "record"
        self.folder.mkdir()
        self.heard = Heard(self.folder, read(CYCLE))
        self.now = self.heard.last

    def put(self, seat: int, text: str) -> None:
        """Appends a text to the file of the seat with this number."""
        with (self.folder / f"{seat}.record").open("a", encoding="utf-8", newline="") as it:
            it.write(text)

    def say(self, seat: int, place: int, line: str, reply: str, times: int = 1) -> None:
        """Appends the entries of a line and its reply to a seat's file, `times` times. `place` is the number of events
        before them."""
        self.put(seat, f"{seat} {place} > {line}\n{seat} {place} < {reply}\n" * times)

    def greet(self, seat: int, name: str) -> None:
        """Appends the granted hello of a student to a seat's file."""
        self.say(seat, 0, HELLO % (name, "some-key"), f'{{"ok":"hello","who":"{name}"}}')

    def news(self, step: int = 0, seconds: float = 1.0) -> list[str]:
        """Lets `seconds` seconds pass, and looks at the record. Returns the lines that a run would print then. `step`
        is the place of the last step."""
        self.now += seconds
        return self.heard.look(step, self.now)

    def test_each_change_in_a_student_s_number_of_connections_is_reported_once(self) -> None:
        """The command `who` lists all connections. Its first argument is their number, as the system reports it."""
        self.assertEqual((self.news(), self.heard.who(0, 7)), ([], "nobody (0 of 7 seats are taken)"))
        self.greet(1, "tess")  # The desk isn't listed.
        self.greet(5, "gus")
        self.assertEqual(self.news(), ["connected: gus"])
        self.assertEqual(self.news(), [])
        self.greet(4, "gus")
        self.greet(3, "hana")
        self.assertEqual(self.heard.who(3, 7), "gus, 2 connections without a hello (3 of 7 seats are taken)")
        self.heard.read()
        self.assertEqual(self.heard.who(5, 7), "gus with 2 connections, hana, 2 connections without a hello (5 of 7 seats are taken)")
        self.assertEqual(self.news(), ["connected: gus, 2 connections", "connected: hana"])
        self.put(5, "5 0 .\n")
        self.put(3, "3 0 .\n")
        self.assertEqual(self.news(), ["disconnected: gus, 1 connection left", "disconnected: hana"])
        self.put(4, "4 0 .\n")
        self.greet(4, "gus")
        self.assertEqual(self.news(), [])  # Since the last look gus has left and come again, so nothing has changed.
        self.assertEqual(self.heard.who(1, 7), "gus (1 of 7 seats are taken)")

    def test_over_is_the_last_refusal_that_means_that_nothing_more_is_granted(self) -> None:
        """These refusals are `full` and `journal`. A run that catches up with the record forgets them."""
        for word in ("malformed", "memory", "busy"):
            self.say(5, 0, MOVE, f'{{"refuse":"{word}"}}')
        self.news()
        self.assertEqual(self.heard.over, "")
        for word in ("full", "journal"):
            self.say(5, 0, MOVE, f'{{"refuse":"{word}"}}')
            self.news()
            self.assertEqual(self.heard.over, word)
        self.say(5, 0, MOVE, STALE)
        self.news()
        self.assertEqual(self.heard.over, "journal")
        again = Heard(self.folder, read(CYCLE))
        again.catch_up(0)
        self.assertEqual(again.over, "")

    def test_each_entry_of_a_file_that_grows_by_single_bytes_is_read_once(self) -> None:
        whole = f'5 0 > {HELLO % ("gus", "k")}\n5 0 < {{"ok":"hello","who":"gus"}}\n5 0 .\n'
        told = []
        for at in range(len(whole)):
            self.put(5, whole[at])
            told += self.news()
        self.assertEqual(told, ["connected: gus", "disconnected: gus"])

    def test_wrong_keys_for_a_name_are_reported_whenever_their_number_has_doubled(self) -> None:
        """Names that aren't in the lab are counted together, and aren't printed."""
        told = []
        for _ in range(11):
            self.say(6, 0, HELLO % ("gus", "heron-32"), UNKNOWN)
            told += self.news()
        self.assertEqual(told, [f"{count} with a wrong key for gus" for count in ("1 hello", "2 hellos", "4 hellos", "8 hellos")])
        for name in ("\x1b[2Jmallory", "heron-31", "tess"):
            self.say(5, 0, HELLO % (name.replace("\x1b", "\\u001b"), "x"), UNKNOWN)
        # Of two values of `name` the last one counts.
        self.say(5, 0, '{"do":"hello","name":"gus","name":"hana","key":"k"}', UNKNOWN, 11)
        self.assertEqual(self.news(), ["2 hellos with a name that isn't in the lab", "1 hello with a wrong key for tess",
                                       "11 hellos with a wrong key for hana"])
        self.assertEqual(self.heard.amiss(), ["hellos with wrong keys: 11 for gus, 2 for names that aren't in the lab, 1 for tess, 11 for hana"])

    def test_ten_denials_since_the_last_step_are_reported_and_again_whenever_doubled(self) -> None:
        """Each student and each kind of denial is counted by itself. A new step begins the counts anew. Denials of the
        teacher aren't counted, neither at the desk nor elsewhere."""
        self.greet(5, "gus")
        self.say(5, 2, MOVE, STALE, 9)
        self.assertEqual(self.news(), ["connected: gus"])
        self.say(5, 2, MOVE, STALE)
        self.assertEqual(self.news(), ["10 requests of gus since the last step were denied as `stale`"])
        self.say(5, 2, MOVE, STALE, 9)
        self.assertEqual(self.news(), [])
        self.say(5, 2, "no request", '{"refuse":"malformed"}', 10)
        self.say(5, 3, MOVE, STALE, 21)
        self.assertEqual(self.news(), ["40 requests of gus since the last step were denied as `stale`",
                                       "10 requests of gus since the last step were refused as `malformed`"])
        self.assertEqual(self.heard.amiss(), ["since the last step: 40 requests of gus denied as `stale`; 10 requests of gus refused as `malformed`"])
        self.assertEqual(self.news(step=3), ["21 requests of gus since the last step were denied as `stale`"])
        self.assertEqual((self.news(step=4), self.heard.amiss()), ([], []))
        self.say(6, 4, '{"do":"close"}', SILENT, 12)
        self.say(1, 4, '{"do":"close"}', '{"clause":2,"deny":"empty","text":"no node is chosen"}', 50)
        self.greet(4, "tess")
        self.say(4, 4, '{"do":"close"}', '{"clause":2,"deny":"empty","text":"no node is chosen"}', 50)
        self.assertEqual(self.news(step=4), ["connected: tess", "12 requests of a connection without a hello since the last step were denied as `not-greeted`"])

    def test_the_beginning_and_the_end_of_a_flood_are_reported(self) -> None:
        """A student floods if the number of lines a second reaches FLOOD. At the end, the mark that the further lines
        aren't recorded is reported too."""
        self.greet(5, "gus")
        self.news()
        lines = int(FLOOD) * 3  # for three seconds
        self.say(5, 0, MOVE, STALE, lines - 1)
        self.assertEqual(self.news(seconds=3)[-1], f"{lines - 1} requests of gus since the last step were denied as `stale`")
        self.say(5, 0, MOVE, STALE, lines)
        self.assertEqual(self.news(seconds=3)[-1], f"gus sends too much: {FLOOD:.0f} lines a second")
        self.assertEqual(self.heard.amiss()[-1], f"sending too much: gus ({FLOOD:.0f} lines a second)")
        self.say(5, 0, MOVE, STALE, lines)
        self.assertFalse(any("too much" in line for line in self.news(seconds=3)))
        self.assertEqual(self.news(seconds=3), ["gus no longer sends too much"])
        self.put(5, "5 0 !\n5 0 .\n")
        self.assertEqual(self.news(), [
            "disconnected: gus",
            "the further lines of this connection of gus aren't recorded: the limit for the lines of gus is reached, or the record can't be written, for "
            "example because the disk is full. `mark` doesn't count these lines, and `history` doesn't show them, but granted moves are still in the "
            "journal. If the disk is full, make room now"])

    def test_after_catching_up_counts_are_reported_only_once_they_have_doubled(self) -> None:
        """A run that continues catches up with the record. The counts that it finds aren't printed, but those who are
        connected are."""
        self.greet(5, "gus")
        self.say(5, 0, MOVE, STALE, 15)
        self.say(6, 0, HELLO % ("hana", "x"), UNKNOWN, 3)
        self.put(4, "4 0 !\n4 0 .\n")
        self.heard.catch_up(0)
        self.assertEqual(self.news(), ["connected: gus"])
        self.say(6, 0, HELLO % ("hana", "x"), UNKNOWN, 3)
        self.say(5, 0, MOVE, STALE, 15)
        self.assertEqual(self.news(), ["6 hellos with a wrong key for hana", "30 requests of gus since the last step were denied as `stale`"])

    def test_a_missing_or_damaged_record_raises_no_error_and_damaged_lines_are_skipped(self) -> None:
        self.assertEqual(Heard(self.room / "none", read(CYCLE)).look(0, self.now), [])
        (self.folder / "3.record").mkdir()
        # The last line is a granted hello, but a reply that follows no request is no entry.
        self.put(2, "nonsense\n\n2 x > y\n2 0 < {\n2 0 > x\n2 0 < no reply\n\xff\n2 0 + " + 5000 * "9" + "\n" + '2 0 < {"ok":"hello","who":"hana"}\n')
        self.greet(5, "gus")
        self.assertEqual(self.news(), ["connected: gus"])


if __name__ == "__main__":
    unittest.main()
