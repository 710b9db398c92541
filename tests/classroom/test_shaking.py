"""The commands `shake` and `break`, which set registers at random or to the worst start, and the counts of recoveries
at the desk and from the journal. A *recovery* is a part of a run. It begins with the run, or with a fault or a change
of the links, and ends when the network is stable."""
from __future__ import annotations

import os
import re
import signal
import unittest
from typing import Any

from classroom.core import lab as labs
from classroom.core.journal import events
from classroom.core.lab import read
from classroom.core.program import host
from classroom.marks.comeback import Comeback, recoveries
from classroom.setup.shaking import longest_start
from tests.classroom.browser import browser, is_ready, shown, until
from tests.classroom.help import CYCLE, KEYS, Cycle, Going, a_port, call_class


class Counted(unittest.TestCase):
    """Counts of recoveries along a journal."""

    def test_the_bounds_of_a_recovery_are_those_of_the_network_at_that_time(self) -> None:
        """After the only link is removed, the bound on moves is 6 instead of 8."""
        lab = labs.Lab(100, 2, ("teacher", "key"), {"ana": "key"}, [labs.Node(1, ["ana"], 2), labs.Node(2, ["ana"], 1)], [(1, 2)])
        text = ("1 0 grant ana 1 update\n2 0 grant ana 2 update\n3 0 close\n4 1 fault 1 - false\n5 2 grant ana 1 marriage 2\n"
                "6 2 grant ana 2 update\n7 2 close\n8 3 grant ana 1 update\n9 3 grant ana 2 update\n10 3 close\n11 4 cut 1 2\n"
                "12 5 grant ana 1 update\n13 5 close\n14 6 grant ana 2 update\n15 6 close\n")
        self.assertEqual(recoveries(lab, events(text)), [
            "event 3: stable after 2 moves, 1 step and 1 round (at most 8 moves and 4 rounds, as is proved)",
            "event 10: stable again after 4 moves, 2 steps and 2 rounds (at most 8 moves and 4 rounds, as is proved)",
            "event 15: stable again after 2 moves, 2 steps and 1 round (at most 6 moves and 4 rounds, as is proved)",
        ])

    def test_a_fault_during_a_recovery_begins_the_count_anew(self) -> None:
        """The two nodes point at each other, but their m is false. The step before the fault isn't counted. In the step
        after it both nodes move, and the network is stable."""
        lab = labs.Lab(100, 2, ("teacher", "key"), {"ana": "key"}, [labs.Node(1, ["ana"], 2), labs.Node(2, ["ana"], 1)], [(1, 2)])
        text = ("1 0 grant ana 1 update\n2 0 close\n3 1 fault 1 2 false\n4 2 grant ana 1 update\n5 2 grant ana 2 update\n6 2 close\n")
        self.assertEqual(recoveries(lab, events(text)), [
            "event 6: stable again after 2 moves, 1 step and 1 round (at most 8 moves and 4 rounds, as is proved)"])

    def test_a_recovery_of_which_a_close_was_missed_has_no_counts(self) -> None:
        """The recovery after it is counted again. `close` gets the nodes that moved, and those that were privileged
        before and after the close."""
        it = Comeback(read(CYCLE))
        self.assertEqual(it.close([1], [1, 2], [2]), "")
        it.miss()
        self.assertEqual(it.close([2], [2], []), "stable after several steps in quick succession; how many moves and rounds "
                                                 "this took is printed with the marks")
        self.assertEqual(it.close([1], [1], []), "stable after 1 move, 1 step and 1 round (at most 35 moves and 13 rounds, as is proved)")


@unittest.skipUnless(host(), "not tried: no host is built")
class AfterACrash(Cycle):
    """After a crash of the server the counts include the events before it."""

    def test_the_counts_at_the_desk_are_those_of_the_marks(self) -> None:
        """The recovery begins with `break`, and two of its steps are closed before the crash."""
        going = Going(self, CYCLE, "--daemon", "by-hand")
        for name in KEYS:
            self.bot(going, name)
        going.type("break")
        going.until("^the registers of 7 nodes were set$")
        for _ in range(2):  # Closes a step. That is denied as long as no bot has asked for a move.
            while not going.lines[-1].startswith("configuration ") or " fault" in going.lines[-1]:
                going.type("close")
                going.until("^(configuration .*;|the server denied this command: empty)")
            going.lines.append("")  # so that the next turn doesn't find the line of this close
        os.kill(going.server(), signal.SIGKILL)
        self.assertEqual(going.wait_for_end(), 4, going.lines)
        again = Going(self, None, "run", "--resume", going.folder, "--daemon", "synchronous")
        for name in KEYS:
            self.bot(again, name)
        told = again.until("^stable again after ")
        again.type("end")
        self.assertEqual(again.wait_for_end(), 0, again.lines)
        marks = call_class("mark", again.folder).stdout
        self.assertEqual(re.findall(r"(?m)^event \d+: (.*)$", marks), [told])
        closes = sum(" close" in line for line in (again.folder / "journal").read_text(encoding="ascii").splitlines())
        self.assertIn(f" {closes} steps and ", told)


class ByThePage(Cycle):
    """The buttons of the page on which the teacher acts."""

    def test_the_buttons_shake_and_break_set_the_registers(self) -> None:
        """The page for the projector doesn't show them. The line about the recovery is on the page too."""
        driver: Any = browser()
        going = Going(self, CYCLE, "--daemon", "synchronous", "--page", str(a_port()))
        looks = going.until("^page for the projector http").removeprefix("page for the projector ")
        driver.get(going.until("^page on which you can act http").removeprefix("page on which you can act "))
        until(driver, is_ready)
        driver.find_element("css selector", ".acts summary").click()
        count = driver.find_element("id", "count")
        count.clear()
        count.send_keys("2")
        driver.find_element("id", "shake").click()
        going.until("^the registers of 2 nodes were set$")
        driver.find_element("id", "shake-all").click()
        going.until("^the registers of 7 nodes were set$")
        driver.find_element("id", "break").click()
        going.until("^the registers of 7 nodes were set$")
        until(driver, lambda driver: shown(driver)[0]["number"] == "16")  # after 2 + 7 + 7 faults
        lab = read(CYCLE)
        wanted = [(str(node), str(p or ""), str(m).lower()) for node, p, m in longest_start([node.id for node in lab.nodes], lab.links)]
        self.assertEqual([(node["node"], node["p"], node["m"]) for node in shown(driver)[1]], wanted)
        for name in KEYS:
            self.bot(going, name)
        told = going.until(r"^stable again after .* \(at most 35 moves and 13 rounds, as is proved\)$")
        until(driver, lambda driver: told in driver.find_element("id", "lines").text)
        driver.get(looks)
        until(driver, is_ready)
        for name in ("shake", "shake-all", "break"):
            self.assertFalse(driver.find_element("id", name).is_displayed())
        going.type("end")
        self.assertEqual(going.wait_for_end(), 0, going.lines)
        kinds = [event.kind for event in events((going.folder / "journal").read_text(encoding="ascii"))]
        self.assertEqual(kinds[:16], ["fault"] * 16)


if __name__ == "__main__":
    unittest.main()
