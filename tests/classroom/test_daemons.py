"""Daemons and faults at the desk of `./class run`, and the lines about recoveries. A *chosen* move was granted and
waits for the close of the step. A daemon decides when a step is closed, and which of the chosen moves the close
applies. The others are *released* before, that is, taken back."""
from __future__ import annotations

import os
import random
import re
import unittest
import unittest.mock
from pathlib import Path

from classroom.client import Client, Refused, Report, See
from classroom.core import lab as labs
from classroom.core.journal import events
from classroom.core.program import Fault
from classroom.pages.frames import frames_of
from classroom.run import announcing, desk as desks
from classroom.run.daemons import Daemon, Sight, applied, movers
from classroom.run.striking import Striker
from classroom.setup.shaking import longest_start, shaken
from tests.classroom.help import CYCLE, Cycle, Going, InRoom, KEYS

SERVE = tuple(os.environ.get("MML_SERVE", "").split())  # options for the runs, such as `--serve`
# A line that the desk prints when the network is stable, after a recovery.
BACK = r"^stable (again )?after \d+ moves?, \d+ steps? and \d+ rounds? \(at most 35 moves and 13 rounds, as is proved\)$"


class Alone(unittest.TestCase):
    """A daemon's choice for a given state, and drawn registers."""

    def test_each_daemon_applies_the_moves_that_its_definition_says(self) -> None:
        """A `Sight` has the privileged nodes, the chosen ones, and the seconds since the last grant and the last close.
        An empty result means that no step is closed yet."""
        chance = random.Random(1)
        two = Sight([1, 2, 3], [2, 1], 0.0, 0.0)
        all_three = Sight([1, 2, 3], [2, 1, 3], 0.0, 0.0)
        self.assertEqual(applied(Daemon("central"), two, chance, 1), [2])
        self.assertEqual(applied(Daemon("central"), Sight([1], [], 9, 9), chance, 1), [])
        self.assertEqual(applied(Daemon("synchronous"), two, chance, 1), [])
        self.assertEqual(applied(Daemon("synchronous"), all_three, chance, 1), [2, 1, 3])
        self.assertEqual(applied(Daemon("random", 1.0), two, chance, 1), [])
        self.assertEqual(applied(Daemon("random", 1.0), all_three, chance, 1), [2, 1, 3])
        self.assertEqual(applied(Daemon("random", 1.0), Sight([1, 2, 3], [2], 1.5, 9), chance, 1), [2])
        self.assertEqual(applied(Daemon("by-hand"), all_three, chance, 1), [])
        self.assertEqual(applied(Daemon("every", 2), Sight([1], [1], 9, 1.9), chance, 1), [])
        self.assertEqual(applied(Daemon("every", 2), Sight([1], [1], 0, 2.1), chance, 1), [1])
        self.assertEqual(applied(Daemon("when-idle", 2), Sight([1], [1], 1.9, 9), chance, 1), [])
        self.assertEqual(applied(Daemon("when-idle", 2), Sight([1], [1], 2.1, 0), chance, 1), [1])

    def test_in_experiments_a_timed_daemon_moves_the_nodes_that_ask_before_the_close(self) -> None:
        """The times at which nodes ask are random. The test draws the same times with the same seed. The daemon `every`
        closes the step at the next multiple of 0.7 seconds after the first request, and `when-idle` as soon as no node
        has asked for 0.4 seconds."""
        for seed in range(200):
            times = random.Random(seed)
            asks = {node: times.expovariate(1.0) for node in (4, 2, 9)}
            order = sorted(asks, key=lambda node: asks[node])
            first, second, third = (asks[node] for node in order)
            found = movers(Daemon("every", 0.7), [4, 2, 9], random.Random(seed))
            self.assertEqual(found, [node for node in order if asks[node] // 0.7 == first // 0.7])
            count = 1 if second - first > 0.4 else 2 if third - second > 0.4 else 3  # the requests before a pause
            self.assertEqual(movers(Daemon("when-idle", 0.4), [4, 2, 9], random.Random(seed)), order[:count])
        for kind in ("every", "when-idle"):
            self.assertEqual(len(movers(Daemon(kind, 0), [4, 2, 9], random.Random(1))), 1)
            self.assertEqual(len(movers(Daemon(kind, 1000), [4, 2, 9], random.Random(1))), 3)

    def test_shaken_registers_point_at_neighbours_and_break_sets_a_start_with_a_long_recovery(self) -> None:
        """The same seed gives the same registers. `longest_start` returns those that the command `break` sets. In these
        networks, m is true at each node, and a node points at its highest neighbour if that one is higher. The last
        node points at none, since each of its neighbours is lower and points at it."""
        nodes, links = [1, 2, 3, 4], [(1, 2), (2, 3), (3, 4)]
        found = shaken(nodes, links, "all", 5)
        self.assertEqual(found, shaken(nodes, links, "all", 5))
        self.assertEqual([node for node, _, _ in found], nodes)
        near = {1: {2, None}, 2: {1, 3, None}, 3: {2, 4, None}, 4: {3, None}}
        for seed in range(50):
            for node, p, _ in shaken(nodes, links, "2", seed):
                self.assertIn(p, near[node])
        with self.assertRaisesRegex(Fault, "shake 5: this network has 4 nodes. Write a number from 1 to 4, or all"):
            shaken(nodes, links, "5", 1)
        self.assertEqual(longest_start(nodes, links), [(1, 2, True), (2, 3, True), (3, 4, True), (4, None, True)])
        self.assertEqual(longest_start([1, 2, 3], [(1, 3), (2, 3), (1, 2)]), [(1, 3, True), (2, 3, True), (3, None, True)])
        self.assertEqual(longest_start([1, 2, 3, 4], [(1, 2), (1, 3), (2, 3), (1, 4)])[3], (4, None, True))


class StandInDesk:
    """A stand-in for a desk at which moves are granted while others are released. The nodes 3 and 1 have chosen moves,
    in this order."""

    def __init__(self, later: list[int]) -> None:
        """The moves of the nodes in `later`, from its end, are granted one by one while others are released. `done`
        gets the nodes whose moves are released, and a text about the close."""
        self.closing = Daemon("central")
        self.report = unittest.mock.Mock(privileged=[(node, "update") for node in (1, 2, 3, 4)])
        self.book = unittest.mock.Mock(chosen={3: ("ana", "update"), 1: ("ben", "update")})
        self.later, self.client, self.news_came = later, self, 0.0
        # This object also stands for the desk's client, and for the part of a desk that reads the journal (`known`).
        self.known, self.announcer = self, unittest.mock.Mock(over="")
        self.done: list[object] = []

    def present_lab(self) -> None:
        """Raises an error, since a central daemon doesn't search, and so doesn't need the network."""
        raise AssertionError("a central daemon searches nothing")

    def release(self, node: int) -> None:
        """Takes back the chosen move of a node."""
        self.done.append(node)
        del self.book.chosen[node]

    def read(self) -> None:
        """Stands in for reading the journal's new lines. The lines contain one more grant as long as `later` has a
        node."""
        if self.later:
            self.book.chosen[self.later.pop()] = ("cyd", "update")

    def close(self) -> None:
        """Stands in for closing the step. Only adds a text with the nodes of all chosen moves to `done`."""
        self.done.append(f"close of {sorted(self.book.chosen)}")


class Striking(unittest.TestCase):
    """The moves that remain at a close under a central daemon."""

    def test_all_moves_but_the_first_are_released_also_those_granted_meanwhile(self) -> None:
        """The move of node 3 was granted first. While others are released, node 2 gets a granted move, and then node
        4."""
        desk = StandInDesk([4, 2])
        Striker().strike(desk)  # type: ignore[arg-type]
        self.assertEqual(desk.done, [1, 2, 4, "close of [3]"])

    def test_releasing_ends_after_a_few_rounds_if_a_move_is_granted_again_each_time(self) -> None:
        """The move of node 2 is granted again whenever it has been released, so it is still there at the close, beside
        the move of node 3, which was granted first."""
        desk = StandInDesk([2] * 100)
        Striker().strike(desk)  # type: ignore[arg-type]
        self.assertEqual(desk.done[-1], "close of [2, 3]")
        self.assertLess(len(desk.done), 10)


class Refusing(InRoom):
    """A desk whose server refuses a request that the daemon sends before a close. `desk` has the journal of two granted
    moves, `client` stands in for its connection, and `lines` are the printed lines."""

    def setUp(self) -> None:
        """Makes the desk, which has read that the moves of the nodes 1 and 4 were granted."""
        super().setUp()
        self.client, self.lines = unittest.mock.Mock(), list[str]()
        self.client.report.return_value = Report(0, False, (), (), ((1, "update"), (4, "update")), ())
        journal = self.file("journal", "1 0 grant gus 1 update\n2 0 grant gus 4 update\n")
        self.desk = desks.Desk(labs.read(CYCLE), journal, self.client, Daemon("central"), self.lines.append)
        self.addCleanup(self.desk.known.journal.close)
        self.desk.read()
        self.striker = Striker()
        self.addCleanup(self.striker.close)

    def test_if_a_release_is_refused_for_good_one_line_says_why_and_no_step_is_closed(self) -> None:
        """The run then ends by this refusal."""
        for word, line in (("full", "nothing more is granted: all 1000 events "), ("journal", "nothing more is granted: no line can be written ")):
            with self.subTest(word), unittest.mock.patch.object(announcing, "PAUSE", 0):
                self.lines.clear()
                self.desk.announcer.over = ""
                self.client.release.side_effect = Refused(word)
                for _ in range(2):
                    self.striker.strike(self.desk)
                self.assertEqual(self.desk.announcer.over, word)
                self.assertEqual([told[:len(line)] for told in self.lines], [line])
                self.client.close.assert_not_called()

    def test_if_a_release_is_refused_as_memory_the_daemon_tries_it_again(self) -> None:
        """The first strike ends without a close and without a printed line. The second one releases the move and
        closes."""
        self.client.release.side_effect = Refused("memory")
        self.striker.strike(self.desk)
        self.client.close.assert_not_called()
        self.client.release.side_effect = None
        self.striker.strike(self.desk)
        self.client.close.assert_called_once_with()
        self.assertEqual((self.lines, self.desk.announcer.over), ([], ""))

    def test_if_the_adversary_s_look_is_refused_as_memory_it_tries_again(self) -> None:
        """It looks at all nodes before it chooses. Here it chooses both moves."""
        self.desk.closing = Daemon("adversary")
        self.client.see.side_effect = Refused("memory")
        with unittest.mock.patch.object(self.striker.adversary, "choose", side_effect=lambda made, nodes: list(nodes)):
            self.striker.strike(self.desk)
            self.client.close.assert_not_called()
            self.client.see.side_effect = lambda node: See(node, None, False, 0)
            self.striker.strike(self.desk)
        self.client.close.assert_called_once_with()
        self.assertEqual((self.lines, self.desk.announcer.over, self.desk.closing), ([], "", Daemon("adversary")))


class Desk(Cycle):
    """Runs with the four bots of the cycle."""

    def run_with_recoveries(self, daemon: str, *words: str) -> Path:
        """Runs a class under a daemon with its four bots until it is stable. Then types these commands, which set all
        registers, and waits after each until the class is stable again. Ends it, and checks that the marks have the
        lines about these recoveries. Returns the run's folder."""
        going = Going(self, CYCLE, "--daemon", daemon, *SERVE)
        for name in KEYS:
            self.bot(going, name)
        going.until(BACK)
        for word in words:
            going.type(word)
            going.until("^the registers of 7 nodes were set$")
            going.until(BACK)
        going.type("end")
        self.assertEqual(going.wait_for_end(), 0, going.lines)
        self.check_complete(going.folder)
        marks = (going.folder / "marks.txt").read_text(encoding="utf-8")
        told = [line for line in going.lines if re.search(BACK, line)]
        self.assertEqual(re.findall(r"(?m)^event \d+: (.*)$", marks), told)
        return going.folder

    def steps(self, folder: Path) -> list[tuple[set[int], set[int]]]:
        """Returns for each close in the journal of a folder the nodes that were privileged before, and those whose
        moves it applied."""
        _, frames = frames_of(folder / "lab.toml", folder / "journal")
        privileged, chosen = set(next(frames).state.privileged), set[int]()
        found = []
        for frame in frames:
            if frame.event and frame.event.kind == "close":
                found.append((privileged, chosen))
            privileged, chosen = set(frame.state.privileged), set(frame.state.chosen)
        return found

    def test_under_the_central_daemon_a_step_has_only_the_move_that_was_granted_first(self) -> None:
        """In each step all moves are granted while no step is closed, and then the central daemon closes it. So the
        recovery after `break` has as many steps as moves."""
        going = Going(self, CYCLE, "--daemon", "by-hand", *SERVE)
        students = {name: self.enterContext(Client(going.port, name, key)) for name, key in KEYS.items()}
        going.type("break")
        going.until(r"^configuration 7: 7 faults at nodes ")
        chance = random.Random(1)
        while granted := self.grant_all(students, chance):
            going.type("daemon central")
            going.until("^from now on steps are closed by the daemon central$")
            # The lines before it, if there are any, say which granted moves are dropped.
            line = going.until(r"^configuration \d+: (?!dropped )")
            self.assertRegex(line, rf"^configuration \d+: node {granted[0]} \(\w+\): \w+; ")
            going.type("daemon by-hand")
            going.until("^from now on steps are closed by the daemon by-hand$")
        self.assertTrue(any(re.search(r"^stable again after (\d+) moves, \1 steps and ", line) for line in going.lines), going.lines)
        self.assertEqual(sum(line.startswith("stable ") for line in going.lines), 1)
        self.assertEqual(going.end(), 0, going.lines)
        self.check_complete(going.folder)

    def grant_all(self, students: dict[str, Client], chance: random.Random) -> list[int]:
        """Asks for the move of each node with an enabled rule, in a random order. `students` has the connections by
        their names. Returns the nodes in the order of their grants."""
        nodes = [(name, node) for name in students for node in labs.read(CYCLE).nodes_of(name)]
        looks = [(name, students[name].look(node)) for name, node in chance.sample(nodes, len(nodes))]
        return [students[name].move(look).node for name, look in looks if look.rule is not None]

    def test_under_the_central_daemon_the_move_that_was_granted_first_in_a_step_is_never_released(self) -> None:
        """Here bots ask while steps are closed. A step has further moves if these are granted between the desk's last
        check and its close."""
        first: int | None = None
        for event in events((self.run_with_recoveries("central", "break") / "journal").read_text(encoding="ascii")):
            if event.kind == "release":
                self.assertNotEqual(event.nodes[0], first)
            else:  # A close or a fault ends the step.
                first = (first or event.nodes[0]) if event.kind == "grant" else None

    def test_under_the_synchronous_daemon_all_privileged_nodes_move_in_each_step(self) -> None:
        self.assertTrue(all(moved == privileged for privileged, moved in self.steps(self.run_with_recoveries("synchronous", "break"))))

    def test_under_the_random_daemon_not_all_privileged_nodes_move_in_some_step(self) -> None:
        steps = self.steps(self.run_with_recoveries("random:0.5", "break", "shake all 3"))
        self.assertTrue(any(moved != privileged for privileged, moved in steps))

    def test_the_run_ends_as_usual_if_a_daemon_has_to_release_two_moves_but_one_event_is_left(self) -> None:
        """Three moves are granted, and the lab allows four events. The central daemon applies one of these moves, so it
        has to release the two others."""
        lab = self.file("cycle.toml", re.sub(r"(?m)^events = \d+", "events = 4", CYCLE.read_text(encoding="utf-8")))
        going = Going(self, lab, "--close", "by-hand", *SERVE)
        for name, key in KEYS.items():
            with Client(going.port, name, key) as student:
                for look in map(student.look, labs.read(CYCLE).nodes_of(name)):
                    if look.rule is not None:
                        student.move(look)
        going.until("^the lab allows 4 events, and 3 of them are used")
        going.type("daemon central")
        going.until("^nothing more is granted: all 4 events that the lab allows are used")
        self.assertEqual(going.wait_for_end(), 5, going.lines)
        self.assertEqual(self.check_complete(going.folder), 4)
        self.assertEqual(sum(line.startswith("nothing more is granted") for line in going.lines), 1, going.lines)

    def test_the_commands_daemon_and_shake_act_and_are_refused_in_a_wrong_form(self) -> None:
        """The registers that `shake 2 5` sets are those that its seed, 5, determines."""
        going = Going(self, CYCLE, "--close", "by-hand", *SERVE)
        going.type("daemon synchronous")
        going.until("^from now on steps are closed by the daemon synchronous$")
        going.until(r"^waiting for .*\(gus\): ")
        going.type("daemon fair")
        going.until("^'fair' isn't a daemon. The daemons are: central, synchronous, ")
        going.type("shake 9")
        going.until("^shake 9: this network has 7 nodes. Write a number from 1 to 7, or all$")
        going.type("shake 0")
        going.until(r"^the command shake was written in a wrong form. Write: shake K\|all \[SEED\]$")
        going.type("shake 2 5")
        going.until("^the registers of 2 nodes were set$")
        lab = labs.read(CYCLE)
        with Client(going.port, "gus", KEYS["gus"]) as gus:
            seen = gus.look(1)
        wanted = {node: (p, m) for node, p, m in shaken([node.id for node in lab.nodes], lab.links, "2", 5)}
        if 1 in wanted:  # if node 1, at which gus has looked, is one of the two nodes with new registers
            self.assertEqual((seen.p, seen.m), wanted[1])
        for _ in range(2):  # The network isn't stable, so the desk asks for a second `end`.
            going.type("end")
        self.assertEqual(going.wait_for_end(), 0, going.lines)


if __name__ == "__main__":
    unittest.main()
