"""Runs with four daemons, from random worlds until no node is privileged. A node is *privileged* if a rule can be
applied at it. A *daemon* chooses which of the privileged nodes move in a step."""
import json
from collections.abc import Callable
from dataclasses import dataclass
from random import Random
from typing import Any

from model import Lab, Run, read_lab
from model.world import Move, World
from tests.random.labs import Link, Registers, complete, drawn_registers

Daemon = Callable[[Random, list[int]], list[int]]
HELLOS = ['{"do":"hello","key":"s-key","name":"student"}', '{"do":"hello","key":"t-key","name":"teacher"}']
PEOPLE = """teacher = { name = "teacher", key = "t-key" }
student = [{ name = "student", key = "s-key" }]
events = 100000
sessions = 2
"""


def single(rng: Random, nodes: list[int]) -> list[int]:
    """Returns one of these privileged nodes, at random."""
    return [rng.choice(nodes)]


def full(rng: Random, nodes: list[int]) -> list[int]:
    """Returns all of these privileged nodes."""
    return nodes


def drawn(rng: Random, nodes: list[int]) -> list[int]:
    """Returns some of these privileged nodes, at random, but at least one."""
    some = [i for i in nodes if rng.random() < 0.5]
    return some or single(rng, nodes)


def unfair(rng: Random, nodes: list[int]) -> list[int]:
    """Returns the highest of these privileged nodes. Lower ones wait as long as there is one."""
    return [max(nodes)]


DAEMONS: list[Daemon] = [single, full, drawn, unfair]


def lab_of(links: list[Link], found: Registers) -> str:
    """Returns the text of a lab with these links and registers, in which one student owns all nodes."""
    text = f"{PEOPLE}links = {json.dumps(links)}\nnode = [\n"
    for i, p in found.p.items():
        pointer = "" if p is None else f", p = {p}"
        text += f'  {{ id = {i}, owner = "student", m = {json.dumps(found.m[i])}{pointer} }},\n'
    return text + "]\n"


def drawn_lab(rng: Random, count: int) -> str:
    """Returns the text of a random lab with `count` nodes. Some nodes have a null pointer and m true. One network in
    five has all links, and the others at most two per node."""
    nodes = list(range(1, count + 1))
    every = complete(rng, nodes)
    most = len(every) if rng.random() < 0.2 else min(len(every), 2 * count)
    links = rng.sample(every, rng.randint(0, most))
    found = drawn_registers(rng, nodes, links)
    for i in nodes:
        if rng.random() < 0.25:
            found.p[i], found.m[i] = None, True
    return lab_of(links, found)


@dataclass
class Course:
    """The script of a run, the numbers of nodes and links of its network, and the number of its rounds."""

    script: str
    nodes: int
    links: int
    rounds: int

    def is_dense(self) -> bool:
        """Returns whether the network has more links than the bound on moves counts. The bound counts at most a quarter
        of n² links, for a network of n nodes."""
        return self.links > self.nodes * self.nodes // 4

    def moves(self, replies: list[dict[str, Any]]) -> int:
        """Returns the number of moves that the closes applied, according to these replies."""
        return sum(len(reply["moved"]) for reply in replies if reply.get("ok") == "close")

    def fault(self, text: str) -> str:
        """Returns what is wrong with the end of a run with these replies, or an empty text."""
        replies = [json.loads(line.split(" ", 1)[1]) for line in text.splitlines()]
        last = replies[-1]
        if not last["stable"] or last["privileged"] or last["open"]:
            return "it doesn't end in a maximal matching in which no node is privileged"
        if 2 * len(last["pairs"]) + len(last["free"]) != self.nodes:
            return "its end has another number of nodes"
        if self.moves(replies) > 3 * self.nodes + 2 * min(self.links, self.nodes * self.nodes // 4):
            return "it takes more moves than three for each node and two for each link, of which a quarter of n² counts at the most"
        if self.rounds > 2 * self.nodes - self.nodes % 2:
            return "it takes more rounds than two for each node, or one less if their number is odd"
        return ""


class Runner:
    """A builder of a run's script, which asks for moves and closes steps until no node is privileged."""

    def __init__(self, rng: Random, lab: Lab, daemon: Daemon) -> None:
        """The daemon chooses among the privileged nodes, and `rng` makes all random choices."""
        self.rng, self.daemon = rng, daemon
        self.model = Run(lab)
        self.script: list[str] = []
        self.rounds = 0

    def ask(self, connection: int, line: str) -> None:
        """Appends a line on a connection to the script, and applies it to the model."""
        self.script.append(f"{connection} {line}\n")
        self.model.answer(connection, line.encode())

    def move(self, i: int, move: Move) -> None:
        """Appends the request for a move of node i to the script."""
        asked = {"do": "move", "node": i, "rule": move.rule, "at": self.model.world.number}
        if move.rule == "marriage":
            asked["with"] = move.partner
        self.ask(1, json.dumps(asked))

    def run(self, steps: int) -> None:
        """Lets the daemon choose until no node is privileged, or for at most `steps` steps. Counts rounds: each
        ends when every node that was privileged at its beginning has moved or stopped being privileged."""
        moves = moves_of(self.model.world)
        waiting = set(moves)
        while moves and steps > 0:
            chosen = self.daemon(self.rng, list(moves))
            for i in chosen:
                self.move(i, self.rng.choice(moves[i]))
            self.ask(2, '{"do":"close"}')
            moves = moves_of(self.model.world)
            waiting = (waiting - set(chosen)) & set(moves)
            if not waiting:
                self.rounds += 1
                waiting = set(moves)
            steps -= 1


def moves_of(world: World) -> dict[int, list[Move]]:
    """Returns the privileged nodes, each with its possible moves."""
    found = {i: world.moves(i) for i in world.nodes()}
    return {i: moves for i, moves in found.items() if moves}


def course(rng: Random, document: str, daemon: Daemon) -> Course:
    """Returns a run of the lab with this text, under a daemon. The number of steps is limited to one more than the
    bound on moves, so that this function ends in any case."""
    lab = read_lab(document.encode())
    runner = Runner(rng, lab, daemon)
    links = sum(len(near) for near in lab.world.links.values()) // 2
    nodes = len(lab.world.links)
    for connection, line in enumerate(HELLOS, 1):
        runner.ask(connection, line)
    runner.run(3 * nodes + 2 * links + 1)
    runner.ask(2, '{"do":"report"}')
    return Course("".join(runner.script), nodes, links, runner.rounds)
