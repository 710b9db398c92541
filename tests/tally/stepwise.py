"""Random runs that continue step by step, with faults, links and cuts. The rounds that `tally` prints have to be those
of the plain model, and those that `classroom` counts along the configurations. A *round* ends as soon as each node has
moved or wasn't privileged (no rule could be applied at it) at some moment of the round."""
from __future__ import annotations

from pathlib import Path
from random import Random

from classroom.core import tally as tallies
from classroom.core.rounds import Recovery
from model import Lab, read_lab
from model.events import apply
from model.journal import event_line
from model.requests import Request
from model.tally import privileged
from model.world import World
from tests.common.preload import fail
from tests.common.second import agreed
from tests.random.labs import drawn_lab

EVENTS = 120  # the most events of a run, unless its lab allows fewer


class Run:
    """A run that grows step by step, and the count of its moves and rounds along its configurations."""

    def __init__(self, rng: Random, lab: Lab) -> None:
        """Begins a run of a lab. `rng` makes all random choices."""
        self.rng, self.lab = rng, lab
        self.world = lab.opening()
        self.recovery = Recovery(privileged(self.world))
        self.lines: list[str] = []
        self.ended = 0  # the number of rounds in the whole run

    def is_full(self) -> bool:
        """Returns whether there are as many events as there may be."""
        return len(self.lines) >= min(EVENTS, self.lab.events)

    def put(self, who: str, asked: Request) -> None:
        """Applies the event of a request by `who`, and appends it to the journal."""
        self.lines.append(event_line(self.world, who, asked))
        apply(self.world, asked)

    def grant(self, node: int) -> None:
        """Grants the enabled move of a node to one of its owners."""
        move = self.rng.choice(self.world.moves(node))
        self.put(self.rng.choice(self.lab.owners[node]), Request("move", node=node, at=self.world.number, move=move))

    def close(self) -> None:
        """Closes the step, and counts its moves and the rounds that end with it."""
        moved, before = set(self.world.chosen), self.recovery.rounds
        self.put(self.lab.teacher, Request("close"))
        self.recovery.step(moved, privileged(self.world))
        self.ended += self.recovery.rounds - before

    def change(self) -> None:
        """Makes a random fault, link or cut, and begins a new count of moves and rounds."""
        self.put(self.lab.teacher, changed(self.rng, self.world))
        self.recovery = Recovery(privileged(self.world))

    def step(self) -> None:
        """Grants moves at some of the privileged nodes, and takes one of them back now and then. Then closes the step,
        or makes a change if no move is chosen, and sometimes instead of a close. Does less if the run is full."""
        free = sorted(privileged(self.world))
        share = self.rng.choice((0.2, 0.6, 1.0))
        for node in [node for node in free if self.rng.random() < share] or free[:1]:
            if self.is_full():
                return
            self.grant(node)
        if self.is_full():
            return
        if len(self.world.chosen) > 1 and self.rng.random() < 0.3:
            self.put(self.lab.teacher, Request("release", node=self.rng.choice(sorted(self.world.chosen))))
        if self.is_full():
            return
        if not self.world.chosen or self.rng.random() < 0.1:
            self.change()
        else:
            self.close()


def changed(rng: Random, world: World) -> Request:
    """Returns a fault, or a link or a cut if there are two nodes for it."""
    pairs = [(a, b) for a in world.nodes() for b in world.nodes() if a < b]
    if pairs and rng.random() < 0.4:
        a, b = rng.choice(pairs)
        return Request("cut" if b in world.links[a] else "link", a=a, b=b)
    node = rng.choice(world.nodes())
    return Request("fault", node=node, p=rng.choice([None, *world.near(node)]), m=rng.random() < 0.5)


def check_drawn(room: Path, seed: int) -> int:
    """Checks that the program, the model and `classroom` count the same rounds in a random run. Returns how many rounds
    ended in the whole run."""
    rng = Random(f"stepwise {seed}")
    document = drawn_lab(rng)
    run = Run(rng, read_lab(document.encode()))
    while not run.is_full() and not (run.world.stable() and rng.random() < 0.2):
        run.step()
    lab, journal = room / "lab.toml", room / "journal"
    lab.write_text(document, encoding="ascii")
    journal.write_text("".join(run.lines), encoding="ascii")
    found = agreed(f"stepwise, seed {seed}", "tally", lab, journal)
    if found.status:
        fail(f"stepwise, seed {seed}: {found}")
    printed = tallies.read(found.out.decode())
    if (printed.rounds, printed.since) != (run.recovery.rounds, (run.recovery.moves, run.recovery.closes)):
        fail(f"stepwise, seed {seed}: {printed.rounds} rounds and {printed.since}, not {run.recovery.rounds} and "
             f"{run.recovery.moves} moves in {run.recovery.closes} closes")
    return run.ended


def check_all(room: Path, count: int) -> int:
    """Checks the rounds of `count` random runs, a third of which must have two rounds or more. Returns how many rounds
    ended in all of them."""
    rounds = [check_drawn(room, seed) for seed in range(1, count + 1)]
    if 3 * sum(ended > 1 for ended in rounds) < count:
        fail("fewer than a third of the drawn runs have two rounds")
    return sum(rounds)
