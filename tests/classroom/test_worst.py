"""The worst known starts, in networks of the families `crowd` and `halves`: runs from them take as many moves or rounds
as any run can, by the program's replies."""
from __future__ import annotations

import contextlib
import random
import unittest
from typing import Any

from classroom.core import lab as labs
from classroom.core import bounds, networks
from classroom.core.bench import STUDENT, TEACHER, Bench, network
from classroom.core.rounds import Recovery
from classroom.setup.new import set_registers
from classroom.setup.shaking import longest_start
from tests.classroom.help import EXAMPLES, InRoom, call_class

Asked = tuple[int, str, int | None]  # a node, its rule, and its partner


def made(family: str, nodes: int) -> labs.Lab:
    """Returns a lab with a network of a family with `nodes` nodes, at its worst start."""
    it = network([labs.Node(node, []) for node in range(1, nodes + 1)], networks.links_of_family(family, nodes))
    set_registers(it, "worst", random.Random(1))
    return it


def phases(nodes: int, links: set[tuple[int, int]], last: int) -> list[Asked]:
    """Returns the moves by which one couple after another is married. For each couple, the free nodes up to `last` that
    are linked to the highest free node seduce it. It marries the lowest of them, both update, and the others abandon
    it."""
    asked: list[Asked] = []
    for couple in range(nodes // 2):
        high = nodes - couple
        suitors = [node for node in range(couple + 1, min(high - 1, last) + 1) if (node, high) in links]
        asked += [(node, "seduction", None) for node in suitors]
        asked += [(high, "marriage", couple + 1), (high, "update", None), (couple + 1, "update", None)]
        asked += [(node, "abandonment", None) for node in suitors[1:]]
    return asked


def counted(lab: labs.Lab, asked: list[Asked]) -> Recovery:
    """Plays these moves from the lab's start, one in each step. Fails if the network isn't stable after the last of
    them, or is stable before. Returns the counts of moves and rounds."""
    with contextlib.closing(Bench(lab)) as bench:
        report = bench.begin(lab)
        found = Recovery(node for node, _ in report["privileged"])
        for node, rule, partner in asked:
            assert not report["stable"]
            more: dict[str, Any] = {} if partner is None else {"with": partner}
            move = {"do": "move", "node": node, "at": report["at"], "rule": rule, **more}
            report = bench.ask_all([(STUDENT, move), (TEACHER, {"do": "close"}), (TEACHER, {"do": "report"})])[-1]
            found.step([node], [each for each, _ in report["privileged"]])
        assert report["stable"]
        return found


class Worst(unittest.TestCase):
    """The starts of both families."""

    def test_a_run_from_a_crowd_s_worst_start_takes_the_most_moves(self) -> None:
        """With an odd number of nodes it takes one move less than the proved bound. First each node updates and
        abandons."""
        for nodes in (4, 5, 6, 7, 8, 12):
            lab = made("crowd", nodes)
            self.assertEqual(len(lab.links), nodes * nodes // 4)
            first: list[Asked] = [(node, rule, None) for node in range(1, nodes + 1) for rule in ("update", "abandonment")]
            moves = counted(lab, first + phases(nodes, {*lab.links}, nodes)).moves
            self.assertEqual(moves, bounds.of_lab(lab).moves - nodes % 2, nodes)

    def test_the_example_is_a_crowd_whose_run_takes_the_most_moves(self) -> None:
        lab, crowd = labs.read(EXAMPLES / "crowd.toml"), made("crowd", 6)
        self.assertEqual([(node.id, node.p, node.m) for node in lab.nodes], [(node.id, node.p, node.m) for node in crowd.nodes])
        self.assertEqual(sorted(lab.links), sorted(crowd.links))
        replies = (EXAMPLES / "crowd-run.out").read_text(encoding="ascii")
        self.assertEqual((replies.count('"ok":"move"'), replies.count('"deny"')), (bounds.of_lab(lab).moves, 0))

    def test_a_run_from_the_worst_start_of_halves_takes_the_most_rounds(self) -> None:
        """First each node updates. Only nodes of the lower half seduce."""
        for nodes in (2, 3, 4, 5, 6, 7, 12):
            lab = made("halves", nodes)
            first: list[Asked] = [(node, "update", None) for node in range(1, nodes + 1)]
            rounds = counted(lab, first + phases(nodes, {*lab.links}, (nodes + 1) // 2)).rounds
            self.assertEqual(rounds, bounds.of_lab(lab).rounds, nodes)

    def test_the_worst_start_of_a_crowd_needs_no_consecutive_identifiers(self) -> None:
        """Here they are 10, 20 and so on. The registers are those of the nodes 1 to 6, by the order of the nodes."""
        links = [{10 * a, 10 * b} for a, b in networks.links_of_family("crowd", 6)]
        registers = {node: (p, m) for node, p, m in longest_start([60, 10, 20, 30, 40, 50], links)}
        self.assertEqual({node: p for node, (p, _) in registers.items()}, {10: 60, 20: 50, 30: 40, 40: 50, 50: 60, 60: 20})
        self.assertTrue(all(m for _, m in registers.values()))
        # With a link less, the network isn't a crowd, and each node still points at a neighbour.
        for node, p, m in longest_start([10, 20, 30, 40, 50, 60], links[1:]):
            self.assertTrue(m and (p is None or {node, p} in links[1:]))


class Words(InRoom):
    """The start `worst` as an argument."""

    def test_new_and_experiment_accept_the_start_worst(self) -> None:
        """The pointers in the lab are those of the worst start of a crowd of six nodes."""
        done = call_class("new", self.room / "crowd.toml", "--students", self.file("names.txt", "ana\nben\n"), "--family", "crowd",
                          "--nodes", "6", "--start", "worst")
        self.assertEqual(done.returncode, 0, done.stderr)
        text = (self.room / "crowd.toml").read_text(encoding="utf-8")
        self.assertEqual([line for line in text.splitlines() if line.startswith("p = ")], [f"p = {p}" for p in (6, 5, 4, 5, 6, 2)])
        done = call_class("experiment", "--family", "crowd,halves", "--nodes", "6", "--start", "worst", "--runs", "1", "--daemon", "synchronous",
                          "--csv", self.room / "runs.csv")
        self.assertEqual(done.returncode, 0, done.stderr)
        self.assertIn("2 of 2 runs are done, all within the proved bounds", done.stdout)

    def test_practise_begins_with_the_worst_start_if_that_is_asked_for(self) -> None:
        done = call_class("practise", EXAMPLES / "bot.py", "--family", "crowd", "--nodes", "4", "--start", "worst", "--daemon", "synchronous",
                          "--timeout", "250", "--into", self.room / "runs")
        self.assertEqual(done.returncode, 0, done.stdout + done.stderr)
        self.assertIn("network: crowd, 4 nodes; start: worst; daemon: synchronous; ", done.stdout)
        (made_lab,) = (self.room / "runs").glob("*/lab.toml")
        self.assertEqual([(node.p, node.m) for node in labs.read(made_lab).nodes], [(4, True), (3, True), (4, True), (2, True)])


if __name__ == "__main__":
    unittest.main()
