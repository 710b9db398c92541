"""Daemons that make a run long: the *schedule*, an order of moves that the proof of the bound uses, and the
*adversary*, which searches ahead.

A *close* ends a step. A granted move is *chosen* until a close applies it, and a *daemon* decides which chosen moves a
close applies. A *privileged* node has an enabled rule, and a *report* is a reply that lists these nodes. The adversary
has a process of the proved program of its own, a *bench*, on which it tries moves.
"""
from __future__ import annotations

import random
from collections.abc import Callable, Mapping, Sequence
from typing import Any

from classroom.core import lab as labs
from classroom.core.bench import TEACHER, Bench
from classroom.run.daemons import Daemon, Search

# The order in which the schedule applies the rules, so that pairs form as late as possible, after all seductions.
ORDER = {"abandonment": 0, "update": 1, "seduction": 2, "marriage": 3}
HIGHEST = ("seduction", "marriage")  # for these rules the node with the highest number is next, else the lowest
FIRST = 7  # how many of the nodes that may move are tried
STEPS = 32_000  # the most steps that are tried for a choice, for all ways and nodes of the network together
Partner = Callable[[Sequence[int]], int]  # a function that chooses one of these nodes
USED = 0.5  # the share of a program's events after which another program is started


def scheduled(rules: Mapping[int, str], nodes: Sequence[int]) -> int:
    """Returns which of these nodes moves next by the schedule. `rules` has the name of each node's enabled rule. The
    schedule depends only on these names and on the numbers of the nodes."""
    return min(nodes, key=lambda node: (ORDER[rules[node]], -node if rules[node] in HIGHEST else node))


class Adversary:
    """A search on its own bench for the moves that make a run long. A method that uses the bench raises `Fault` if the
    program of the bench can't be started or asked."""

    def __init__(self, seed: str, partner_of: Partner = min) -> None:
        """`seed` determines the random choices. `partner_of` chooses a node's partner among the nodes that point at it.
        If it chooses the lowest, runs are longest. A student's client chooses the highest."""
        self.chance, self.partner_of = random.Random(f"{seed} adversary"), partner_of
        self.bench: Bench | None = None
        self.registers: dict[int, tuple[int | None, bool]] = {}  # p and m of each node before the moves that are tried

    def search_of(self, how: Daemon, rules: Mapping[int, str], seen: Callable[[], labs.Lab]) -> Search:
        """Returns a function that chooses among nodes that may move: by the schedule if `how` is the schedule, and
        otherwise by the search of the adversary. Other daemons don't call it. `rules` has the rule of each node's move,
        and `seen` returns the network with its present registers. The function raises `Fault` if the program of the
        bench can't be asked."""
        return lambda nodes: [scheduled(rules, nodes)] if how.kind == "schedule" else self.choose(seen(), nodes)

    def choose(self, made: labs.Lab, chosen: Sequence[int]) -> list[int]:
        """Returns the nodes whose moves a close is to apply: one of those in `chosen`, or all of them. Tries some of
        these choices on the bench, and returns the one after which the search finds the most moves. Nodes at which no
        rule is enabled on the bench are left out. `made` is the network with its present registers."""
        if len(chosen) < 2:
            return list(chosen)
        bench = self.bench_over(made)
        report = bench.begin(made)
        self.registers = {node.id: (node.p, node.m) for node in made.nodes}
        rules = {node: rule for node, rule in report["privileged"]}
        if not rules.keys() >= {*chosen}:
            chosen = [node for node in chosen if node in rules]
        if not chosen:
            return []
        ways = [[node] for node in self.candidates(rules, chosen)] + [list(chosen)]
        steps = max(1, STEPS // len(made.nodes) // len(ways))
        worth = [self.value_of(bench, report, way, steps) for way in ways]
        return ways[worth.index(max(worth))]

    def bench_over(self, made: labs.Lab) -> Bench:
        """Returns a bench for the network of the lab `made`, with enough events for a search. Starts a new one if the
        present one has other links or too few events left."""
        if self.bench is None or self.bench.made.links != made.links or self.bench.events > USED * self.bench.made.events:
            self.close()
            self.bench = Bench(made)
        return self.bench

    def candidates(self, rules: Mapping[int, str], nodes: Sequence[int]) -> list[int]:
        """Returns at most FIRST of these nodes: the one that is next by the schedule, and others, which are drawn at
        random if they are many. `rules` has the enabled rule of each node."""
        first = scheduled(rules, nodes)
        others = [node for node in nodes if node != first]
        return [first, *(others if len(others) < FIRST else self.chance.sample(others, FIRST - 1))]

    def value_of(self, bench: Bench, report: dict[str, Any], nodes: list[int], steps: int) -> int:
        """Returns the value of moving these nodes now, and then one node in each step by the schedule, until no node is
        privileged or `steps` steps are done. The value is the number of these moves, and of the nodes that are still
        privileged after them. `report` is the bench's report of the configuration before the moves. Undoes all moves
        afterwards, and sets the number of the configuration in `report` to the present one."""
        after, moves, moved = bench.step(report, nodes, self.partner_of), len(nodes), {*nodes}
        for _ in range(steps - 1):
            rules = {node: rule for node, rule in after["privileged"]}
            if not rules:
                break
            node = scheduled(rules, [*rules])
            after, moves = bench.step(after, [node], self.partner_of), moves + 1
            moved.add(node)
        undone = [{"do": "fault", "node": node, "p": p, "m": m} for node, (p, m) in self.registers.items() if node in moved]
        report["at"] = bench.ask_on(TEACHER, undone)[-1]["at"]  # Each fault has made a configuration. The next way begins at the last one.
        return moves + len(after["privileged"])

    def close(self) -> None:
        """Ends the process of the bench."""
        if self.bench is not None:
            self.bench.close()
            self.bench = None
