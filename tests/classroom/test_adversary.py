"""The daemons that make runs long: the adversary, which searches ahead, and the schedule, a fixed order of moves. A
*daemon* decides when a step is closed, and which of the granted moves are applied then. The search tries moves in a
program of its own, its *bench*, and leaves the registers there as they were. A node is *privileged* if a rule can be
applied at it. A *worst* start is one from which runs are especially long."""
from __future__ import annotations

import random
import re
import unittest
import unittest.mock

from classroom.bots.measuring import Row, Setting, drawn, runs
from classroom.core import lab as labs
from classroom.core import bounds, networks
from classroom.core.bench import network
from classroom.core.program import Fault
from classroom.run import adversary
from classroom.run.adversary import Adversary, scheduled
from classroom.run.daemons import Daemon, Sight, applied, movers
from classroom.run.striking import Striker
from tests.classroom.help import CYCLE, EXAMPLES, KEYS, Cycle, Going, call_class


def rows(daemon: str, family: str, nodes: int, seeds: range) -> list[Row]:
    """Returns the rows of an experiment's table for runs under a daemon, one for each seed. Their networks are of this
    family and have `nodes` nodes. The runs begin with random registers."""
    return [row for row, _ in runs(Setting(family, nodes, Daemon.of(daemon), "random"), list(seeds))]


class Search(unittest.TestCase):
    """The search by itself, without a run."""

    def adversary_for(self, made: labs.Lab) -> tuple[Adversary, list[int]]:
        """Returns an adversary whose bench has the network and the registers of the lab `made`, and the nodes that are
        privileged then."""
        it = Adversary("test")
        self.addCleanup(it.close)
        report = it.bench_over(made).begin(made)
        return it, [node for node, _ in report["privileged"]]

    def test_trying_moves_leaves_the_registers_as_they_were(self) -> None:
        made = drawn(Setting("random:7:10", 7, Daemon("central"), "random"), 4)
        it, privileged = self.adversary_for(made)
        self.assertLess(2, len(privileged))
        bench = it.bench
        assert bench is not None
        before = [(node.id, node.p, node.m) for node in made.nodes]
        report = bench.begin(made)
        it.registers = {node: (p, m) for node, p, m in before}  # the values that `value_of` sets again
        for nodes in ([privileged[0]], [privileged[-1]], privileged):
            it.value_of(bench, report, nodes, 3)  # Tries these moves and at most two more steps, and undoes all of them.
            self.assertEqual([(node.id, node.p, node.m) for node in bench.present().nodes], before)
            self.assertEqual(it.registers, {node: (p, m) for node, p, m in before})
        # The search has set the number in `report` to that of the present configuration, so a move is granted. If the
        # move is a marriage, `min` chooses the partner.
        self.assertTrue(bench.step(report, [privileged[0]], min))

    def test_it_chooses_one_or_all_of_those_that_may_move_and_the_same_again(self) -> None:
        """Another adversary with the same seed makes the same choice. A node that isn't privileged is left out, also if
        it is among those to choose from."""
        made = drawn(Setting("complete", 5, Daemon("central"), "random"), 7)
        it, privileged = self.adversary_for(made)
        found = it.choose(made, privileged)
        self.assertTrue(found == privileged or len(found) == 1 and set(found) < set(privileged))
        again = Adversary("test")
        self.addCleanup(again.close)
        self.assertEqual(again.choose(made, privileged), found)
        self.assertEqual(it.choose(made, privileged[:1]), privileged[:1])
        others = [node.id for node in made.nodes if node.id not in privileged]
        self.assertTrue(others)
        self.assertEqual(it.choose(made, [*others, *privileged]), found)

    def test_the_last_two_moves_are_not_made_at_once(self) -> None:
        """Two nodes that point at each other can both update. These two moves are the last ones, so it doesn't matter
        for their number whether they are made in one step. In this case the adversary chooses a single node."""
        made = network([labs.Node(1, [], 2, False), labs.Node(2, [], 1, False)], [(1, 2)])
        it, privileged = self.adversary_for(made)
        self.assertEqual(privileged, [1, 2])
        self.assertEqual(len(it.choose(made, [2, 1])), 1)

    def test_a_new_bench_is_started_when_events_are_used_up_or_links_differ(self) -> None:
        """A new bench replaces the old one, whose process is ended."""
        made = drawn(Setting("path", 4, Daemon("central"), "random"), 1)
        it, privileged = self.adversary_for(made)
        first = it.bench
        self.assertIs(it.bench_over(made), first)
        with unittest.mock.patch.object(adversary, "USED", -1):  # Even a bench without events counts as used up.
            self.assertIsNot(it.bench_over(made), first)
        second = it.bench
        _, links = networks.family("cycle", 4, 0, random.Random(1))
        other = it.bench_over(network(made.nodes, links))
        self.assertIsNot(other, second)
        assert second is not None
        self.assertIsNotNone(second.program.process.poll())


class Long(unittest.TestCase):
    """Complete runs under the daemons `schedule` and `adversary`."""

    def test_the_schedule_reaches_the_proved_numbers_of_moves_and_rounds(self) -> None:
        """From the worst start, a run in a network of the family `crowd` has as many moves as the proved bound allows,
        and one in a network of the family `halves` as many rounds."""
        for nodes in range(4, 17, 2):
            for family in ("crowd", "halves"):
                row, = (row for row, _ in runs(Setting(family, nodes, Daemon.of("schedule"), "worst"), [1]))
                most = bounds.of(nodes, row.links)
                self.assertEqual((row.moves if family == "crowd" else row.rounds, row.stable),
                                 (most.moves if family == "crowd" else most.rounds, True), (family, nodes))

    def test_the_adversary_makes_at_least_four_fifths_of_the_proved_number_of_moves(self) -> None:
        """This holds for runs from the worst start. From random starts it makes in total at least as many moves as the
        schedule. Neither is proved, since the adversary only searches. But the seeds are fixed, so these runs are the
        same each time."""
        for nodes in (4, 6, 8, 10):
            row, = (row for row, _ in runs(Setting("crowd", nodes, Daemon.of("adversary"), "worst"), [1]))
            self.assertGreaterEqual(row.moves, 0.8 * bounds.of(nodes, row.links).moves, nodes)
        schedule, search = (sum(row.moves for row in rows(daemon, "complete", 5, range(1, 9))) for daemon in ("schedule", "adversary"))
        self.assertGreaterEqual(search, schedule)

    def test_runs_have_over_five_percent_more_moves_than_under_a_central_daemon(self) -> None:
        """These are the runs under the adversary. Both daemons get the same seeds, and so the same networks and
        registers. The five percent are measured, not proved. The runs are the same each time."""
        for family, nodes in (("complete", 5), ("cycle", 6)):
            central, worse = (rows(daemon, family, nodes, range(1, 9)) for daemon in ("central", "adversary"))
            self.assertTrue(all(row.stable and not row.exceeds_bounds() for row in worse))
            self.assertEqual([(row.links, row.seed) for row in central], [(row.links, row.seed) for row in worse])
            self.assertLess(sum(row.moves for row in central) * 1.05, sum(row.moves for row in worse), family)

    def test_a_run_is_the_same_again_and_its_script_has_nothing_of_the_search(self) -> None:
        """A script is returned only for a run that exceeds a bound, so the test lets each run do that."""
        setting = Setting("path", 4, Daemon("adversary"), "random")
        self.assertEqual(rows("adversary", "path", 4, range(3, 5)), rows("adversary", "path", 4, range(3, 5)))
        with unittest.mock.patch.object(Row, "exceeds_bounds", lambda row: True):
            (row, script), = runs(setting, [3])
        self.assertEqual(script.count(b'"do": "close"'), row.closes)
        self.assertEqual(script.count(b'"do": "see"'), 0)  # By these requests the registers are read before each search.

    def test_both_daemons_call_a_search_and_that_of_the_schedule_needs_only_rules_and_numbers(self) -> None:
        """`applied` calls the search as soon as each privileged node has a granted move, or none was granted for a
        second. A `Sight` has the privileged nodes, the granted moves, and the seconds since the last grant and the last
        close. `movers` calls the search at once, as in an experiment."""
        self.assertEqual(Daemon.of("adversary").spelled(), "adversary")
        chance, full = random.Random(1), Sight([1, 2], [2, 1], 0.0, 0.0)
        self.assertEqual(applied(Daemon("adversary"), full, chance, 1, lambda nodes: [nodes[0]]), [2])
        self.assertEqual(applied(Daemon("adversary"), Sight([1, 2, 3], [2, 1], 0.9, 9), chance, 1, lambda nodes: [9]), [])
        self.assertEqual(applied(Daemon("adversary"), Sight([1, 2, 3], [2, 1], 1.0, 9), chance, 1, lambda nodes: [1]), [1])
        for kind in ("adversary", "schedule"):
            self.assertEqual(movers(Daemon(kind), [1, 2, 3], chance, lambda nodes: [nodes[-1]]), [3])
        rules = {1: "marriage", 2: "update", 3: "seduction", 4: "update", 5: "abandonment", 6: "marriage"}
        order, left = [], dict(rules)
        # Each node moves once. Abandonments come first, then updates, seductions and marriages. Of the nodes with the same
        # rule, the lowest moves first for the first two rules, and the highest for the others.
        while left:
            order.append(scheduled(left, [*left]))
            del left[order[-1]]
        self.assertEqual(order, [5, 2, 4, 3, 6, 1])
        search = Adversary("test").search_of(Daemon("schedule"), rules, lambda: self.fail("it looks at no network"))
        self.assertEqual(applied(Daemon("schedule"), full, chance, 1, search), [2])


class Everywhere(Cycle):
    """The adversary in run, practise, grade and experiment."""

    def test_a_run_becomes_stable_under_the_adversary_also_after_a_break(self) -> None:
        """`break` at the desk sets the registers of all nodes to a worst start. The desk prints a line whenever the
        network is stable. The marks have the same lines. With the added link, the cycle has 7 nodes and 8 links, so the
        bound on moves is 3 * 7 + 2 * 8 = 37. The bound on rounds of a network with 7 nodes is 13."""
        going = Going(self, CYCLE, "--daemon", "by-hand")
        for name in KEYS:
            self.bot(going, name)
        going.type("daemon adversary")
        going.until("^from now on steps are closed by the daemon adversary$")
        going.until("^stable after ")
        going.type("link 1 3\nbreak")
        going.until(r"^stable again after \d+ moves, \d+ steps and \d+ rounds \(at most 37 moves and 13 rounds, as is proved\)$")
        going.type("end")
        self.assertEqual(going.wait_for_end(), 0, going.lines)
        self.check_complete(going.folder)
        told = [line for line in going.lines if re.search("^stable (again )?after ", line)]
        text = (going.folder / "marks.txt").read_text(encoding="utf-8")
        self.assertEqual(re.findall(r"(?m)^event \d+: (.*)$", text), told)
        self.assertEqual(call_class("mark", going.folder).stdout, text.replace(f"{CYCLE}", str(going.folder)))

    def test_practise_experiment_and_grade_accept_the_adversary(self) -> None:
        """The experiment makes two runs under each of its two daemons. The grade has a single case."""
        done = call_class("practise", EXAMPLES / "bot.py", "--nodes", "5", "--daemon", "adversary", "--into", self.room / "runs")
        self.assertEqual(done.returncode, 0, done.stdout + done.stderr)
        self.assertRegex(done.stdout, "(?m)^the network is stable; pairs: ")
        table = self.room / "runs.csv"
        done = call_class("experiment", "--family", "path", "--nodes", "4", "--daemon", "adversary,central", "--runs", "2", "--csv", table)
        self.assertEqual(done.returncode, 0, done.stdout + done.stderr)
        self.assertIn("4 of 4 runs are done, all within the proved bounds", done.stdout)
        (self.room / "labs").mkdir()
        made = call_class("new", self.room / "labs/one.toml", "--students", self.file("names", "Ana\nBen\n"), "--nodes", "4", "--start", "hurt")
        self.assertEqual(made.returncode, 0, made.stderr)
        done = call_class("grade", EXAMPLES / "bot.py", "--labs", self.room / "labs", "--daemon", "adversary", "--timeout", "100",
                          "--into", self.room / "grades")
        self.assertEqual(done.returncode, 0, done.stdout + done.stderr)
        self.assertIn("passed  bot.py: one, daemon adversary, seed 1;", done.stdout)

    def test_if_its_search_fails_steps_are_closed_by_another_daemon(self) -> None:
        """The desk prints why the search failed, and changes to the daemon `when-idle:2`, which closes the step
        later."""
        report = unittest.mock.Mock(privileged=[(1, "update"), (2, "update")])
        desk = unittest.mock.Mock(closing=Daemon("adversary"), known=unittest.mock.Mock(news_came=0.0, report=report))
        desk.known.book.chosen = {1: ("ana", "update"), 2: ("ben", "update")}
        striker = Striker()
        with unittest.mock.patch.object(striker.adversary, "choose", side_effect=Fault("no memory")):
            striker.strike(desk)
        desk.tell.assert_called_once_with("the daemon adversary can't choose the moves to apply: no memory")
        desk.close_by.assert_called_once_with("when-idle:2")
        desk.close.assert_not_called()


if __name__ == "__main__":
    unittest.main()
