"""One run of an experiment: sets the registers, and lets a daemon choose the nodes that move. All replies come from the
proved program.

A run is made of *steps*. In each the daemon chooses some of the privileged nodes, those with an enabled rule, and they
move at once. A *bench* is a process of the proved program that answers the requests of several runs, one after another.
The *script* of a run is a list of request lines that repeats it.
"""
from __future__ import annotations

import contextlib
import random
from collections.abc import Callable, Sequence
from dataclasses import dataclass

from classroom.client import Denied, Refused
from classroom.core import lab as labs
from classroom.core import bounds, networks
from classroom.core.bench import Bench, network
from classroom.core.program import Fault
from classroom.core.rounds import Recovery
from classroom.run.adversary import Adversary
from classroom.run.daemons import SEARCHING, Daemon, movers
from classroom.setup.new import set_registers

SIZED = ("grid:", "random:")  # how the names of those families begin that have the size of the network in them


@dataclass(frozen=True)
class Setting:
    """The values that several runs have in common."""

    family: str
    nodes: int
    daemon: Daemon
    start: str  # the kind of the registers at the beginning, one of `networks.STARTS`


@dataclass(frozen=True)
class Row:
    """The result of a run: a row of the table."""

    family: str
    nodes: int
    links: int
    daemon: str
    start: str
    seed: int
    moves: int
    closes: int
    rounds: int
    stable: bool

    def exceeds_bounds(self) -> bool:
        """Returns whether the run contradicts a proved bound, or isn't stable at its end. Raises `Fault` if the
        program, which prints the bounds, isn't built."""
        most = bounds.of(self.nodes, self.links)
        return not self.stable or self.moves > most.moves or self.rounds > most.rounds


def drawn(setting: Setting, seed: int) -> labs.Lab:
    """Returns a lab with the network and the registers with which a run of this setting begins. They depend on the
    setting's family, size and start and on the seed, but not on its daemon. Raises `Fault` if there is no such family,
    or if it has no network of this size."""
    chance = random.Random(f"{setting.family} {setting.nodes} {setting.start} {seed}")
    count = None if setting.family.startswith(SIZED) else setting.nodes
    nodes, links = networks.family(setting.family, count, students=0, chance=chance)
    made = network([labs.Node(node, []) for node in range(1, nodes + 1)], links)
    set_registers(made, setting.start, chance)
    return made


def partner_chooser(how: Daemon, chance: random.Random) -> Callable[[Sequence[int]], int]:
    """Returns the function that chooses a node's partner among the nodes that point at it. The function chooses the
    lowest if the daemon `how` searches for long runs. Otherwise it chooses a random one, by `chance`."""
    if how.kind in SEARCHING:
        return min
    return chance.choice


def run(bench: Bench, setting: Setting, made: labs.Lab, seed: int) -> Row:
    """Runs the network of the lab `made` on a bench, under the daemon of `setting`. Ends when the network is stable, or
    when there are more moves than the proved bound. `seed` determines all random choices. Returns the row with the
    run's counts. Raises `Fault` if the program of the bench denies or refuses a request, or ends."""
    named = f"{setting.family} {setting.nodes} {setting.start} {seed} {setting.daemon.spelled()}"
    chance = random.Random(named)
    partner_of = partner_chooser(setting.daemon, chance)
    report = bench.begin(made)
    recovery = Recovery(node for node, _ in report["privileged"])
    most = bounds.of_lab(made).moves
    with contextlib.closing(Adversary(named)) as adversary:
        while report["privileged"] and recovery.moves <= most:
            search = adversary.search_of(setting.daemon, dict(report["privileged"]), bench.present)
            nodes = movers(setting.daemon, [node for node, _ in report["privileged"]], chance, search)
            report = bench.step(report, nodes, partner_of)
            recovery.step(nodes, [node for node, _ in report["privileged"]])
    return Row(setting.family, len(made.nodes), len(made.links), setting.daemon.spelled(), setting.start, seed,
               recovery.moves, recovery.closes, recovery.rounds, bool(report["stable"]))


def runs(setting: Setting, seeds: list[int]) -> list[tuple[Row, bytes]]:
    """Runs the setting once for each seed. Returns the row of each run, with the run's script if it exceeds a bound,
    and otherwise with no bytes. Raises `Fault` if the program isn't built, denies or refuses a request, or ends."""
    bench: Bench | None = None
    rows: list[tuple[Row, bytes]] = []
    try:
        for seed in seeds:
            made = drawn(setting, seed)
            if bench is None or not bench.has_room(made):
                if bench is not None:
                    bench.close()
                bench = Bench(made)
            row = run(bench, setting, made, seed)
            rows.append((row, bench.script() if row.exceeds_bounds() else b""))
    except (Denied, Refused) as error:
        raise Fault(f"{setting}: {error}", 4) from None
    finally:
        if bench is not None:
            bench.close()
    return rows
