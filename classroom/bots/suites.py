"""The cases for grading a bot, a student's program: suites that come with the release, and a teacher's own labs.

A *case* is a lab that the bot plays, with a daemon, a seed, and troubles during the run. The daemon decides when a step
ends and who moves. A *plan* describes cases that differ only in daemon and seed. The *house* plays the nodes that
aren't the bot's. The proved program prints the limits of labs, so functions that make a case raise `Fault` if it isn't
built.
"""
from __future__ import annotations

import random
import secrets
from dataclasses import dataclass, replace
from pathlib import Path

from classroom.core import lab as labs
from classroom.core import limits, networks
from classroom.core.program import Fault
from classroom.run.daemons import Daemon
from classroom.setup.new import set_registers

BOT, HOUSE = "bot", "house"
TEACHER = "teacher"
# The names of the troubles. Most of them end with a fault at a node of the bot, and FAULT is only such a fault.
# CUT: the connections are closed. REST: the class rests for some seconds. OPEN: a step stays open. RELEASE: a move
# is dropped. OVERTAKE: a step is closed between look and move. LOST: a reply is lost, and its server is gone for a
# while. TAKEN: another owner is faster. RULES: many configurations come one after another. TURN: a change between look
# and move enables another rule. DROP: a fault elsewhere drops a grant. RELINK: a link is added, and one is cut.
# MEMORY: a line is refused with `memory`. SEAT: the bot's seat goes to a newcomer. LONG_REST: a minute of rest.
FAULT, CUT, REST, OPEN, RELEASE, OVERTAKE, LOST, TAKEN, RULES = "fault", "cut", "rest", "open", "release", "overtake", "lost", "taken", "rules"
TURN, DROP, RELINK, MEMORY, SEAT, LONG_REST = "turn", "drop", "relink", "memory", "seat", "long-rest"
BUSY, OVER = "busy", "over"  # BUSY: at first no seat is free. OVER: the class ends, and the bot has to end too.
USUAL = [Daemon("central"), Daemon("synchronous"), Daemon("random", 0.5)]


@dataclass(frozen=True)
class Plan:
    """The plan of a case: the lab's shape, the bot's nodes, and the troubles during the run."""

    name: str
    family: str
    nodes: int | None  # the number of nodes; None if the family's name has it
    start: str  # the kind of the registers at the beginning, one of `networks.STARTS`
    own: int  # the number of nodes that the bot owns alone
    shared: int = 0  # the number of nodes that the bot shares with the house
    troubles: tuple[str, ...] = ()
    daemon: Daemon = USUAL[0]
    named: tuple[int, ...] = ()  # the identifiers of its nodes, in rising order; those from 1 on if there are none
    takes: str = ""  # which nodes are the bot's alone: drawn ones, linked ones, or the one with most neighbours
    piece: int = 0  # the most bytes of a reply that come at once; 0 is no limit


@dataclass(frozen=True)
class Case:
    """A lab whose student `who` is played by the bot, with a daemon and the troubles during the run."""

    lab: str  # the name of the lab
    made: labs.Lab
    who: str
    daemon: Daemon
    seed: int
    troubles: tuple[str, ...]
    piece: int = 0  # the most bytes of a reply that come at once; 0 is no limit

    def name(self) -> str:
        """Returns the text that identifies the case: its lab, daemon and seed. The text is also the seed of the case's
        random choices."""
        return f"{self.lab} {self.daemon.spelled()} {self.seed}"


IDLE = Daemon("when-idle", 0.2)
LINKED, HUB = "linked", "hub"  # values of Plan.takes
DIGITS = (8, 9, 10, 11)  # identifiers that are in another order if they are compared as texts
SMALL = [
    Plan("path-4", "path", 4, "clean", 2, 0, (RELEASE, MEMORY, OVER), Daemon("central")),
    Plan("cycle-5", "cycle", 5, "hurt", 2, 0, (OVERTAKE, TURN, RULES), Daemon("synchronous")),
    Plan("hub-70", "star", 70, "clean", 1, 0, (FAULT, CUT), Daemon("synchronous"), takes=HUB, piece=600),
    Plan("complete-4", "complete", 4, "clean", 2, 0, (RULES,), Daemon("synchronous"), named=DIGITS),
    Plan("alone-path-4", "path", 4, "random", 4, 0, (OVERTAKE,), Daemon("synchronous"), named=DIGITS),
    Plan("alone-cycle-4", "cycle", 4, "hurt", 4, 0, (OPEN, DROP), IDLE),
    Plan("pairs-path-5", "path", 5, "random", 1, 2, (BUSY, RELEASE), Daemon("central")),
    Plan("pairs-cycle-6", "cycle", 6, "clean", 1, 2, (FAULT, TAKEN), Daemon("random", 0.5)),
    Plan("tree-7", "tree", 7, "random", 3, 0, (RULES, RELINK), Daemon("synchronous")),
    Plan("grid-6", "grid:3x2", None, "hurt", 2, 0, (REST, OPEN), IDLE, takes=LINKED),
    Plan("random-6", "random:6:9", None, "random", 2, 0, (CUT, LOST), Daemon("synchronous")),
    Plan("two-faults-5", "path", 5, "clean", 2, 0, (FAULT, CUT, CUT, CUT, OVER), Daemon("random", 0.5)),
]
FAMILIES = [("path", 6), ("cycle", 7), ("star", 7), ("complete", 5), ("tree", 9), ("grid:4x3", None), ("random:10:15", None)]
FULL = SMALL + [
    Plan("hub-200", "star", 200, "clean", 1, 0, (FAULT, CUT), Daemon("synchronous"), named=tuple(range(60000, 60200)), takes=HUB, piece=4000),
    Plan("rest-path-5", "path", 5, "random", 2, 0, (LONG_REST, OVER), Daemon("central")),
] + [
    Plan(f"{family.partition(':')[0]}-{start}-{kind}", family, nodes, start, own, shared, troubles, daemon, takes=takes)
    for family, nodes in FAMILIES
    for start, own, shared, troubles, kind, daemon, takes in (
        ("clean", 2, 0, (FAULT,), "central", Daemon("central"), ""),
        ("hurt", 3, 0, (CUT,), "synchronous", Daemon("synchronous"), ""),
        ("random", 2, 1, (FAULT, FAULT), "coin", Daemon("random", 0.3), ""),
        ("random", 1, 0, (FAULT, CUT), "idle", IDLE, ""),
        ("hurt", 1, 2, (TAKEN,), "shared", Daemon("synchronous"), ""),
        ("random", 4, 0, (FAULT,), "many", Daemon("random", 0.8), ""),
        ("clean", 3, 1, (CUT, FAULT), "both", Daemon("central"), ""),
        ("random", 2, 0, (RULES, RELEASE, OVERTAKE, TURN, DROP, RELINK), "open", Daemon("synchronous"), LINKED),
        ("hurt", 2, 1, (BUSY, REST, LOST, SEAT, MEMORY, OVER), "gone", Daemon("random", 0.5), ""),
    )
]
SUITES = {"small": SMALL, "full": FULL}


def new_key() -> str:
    """Returns a new random key for a person of a lab."""
    return secrets.token_hex(16)


def lab_for_bot(count: int, links: networks.Links, own: list[int], shared: list[int]) -> labs.Lab:
    """Returns a lab with the nodes 1 to `count` and these links. The bot owns the nodes in `own` alone and those in
    `shared` together with the house. The house owns all other nodes alone."""
    nodes = [labs.Node(node, [BOT] if node in own else [BOT, HOUSE] if node in shared else [HOUSE]) for node in range(1, count + 1)]
    most = limits.allowed()
    return labs.Lab(most.events, most.sessions, (TEACHER, new_key()), {BOT: new_key(), HOUSE: new_key()}, nodes, links)


def choose_nodes(plan: Plan, count: int, links: networks.Links, chance: random.Random) -> list[int]:
    """Returns the bot's nodes in the network of a plan, which has the nodes 1 to `count` and these links. Those that
    the bot owns alone come before those that it shares with the house. If `plan.takes` is HUB, the first one is a node
    with most neighbours. If it is LINKED, the first two are the ends of a link. `chance` chooses this link and all
    other nodes."""
    nodes = list(range(1, count + 1))
    first: list[int] = []
    if plan.takes == HUB:
        near = networks.neighbours(nodes, links)
        first = [max(nodes, key=lambda node: len(near[node]))]
    elif plan.takes == LINKED:
        first = list(chance.choice(links))
    rest = [node for node in nodes if node not in first]
    return first + chance.sample(rest, plan.own + plan.shared - len(first))


def renamed(made: labs.Lab, named: tuple[int, ...]) -> labs.Lab:
    """Returns a lab whose nodes, which are numbered from 1, have the identifiers in `named`, in the same order."""
    name = dict(zip((node.id for node in made.nodes), named))
    nodes = [replace(node, id=name[node.id], p=None if node.p is None else name[node.p]) for node in made.nodes]
    return replace(made, nodes=nodes, links=[(name[a], name[b]) for a, b in made.links])


def planned(plan: Plan, seed: int, how: Daemon) -> Case:
    """Returns the case of a plan with this seed and this daemon."""
    chance = random.Random(f"{plan.name} {seed}")
    count, links = networks.family(plan.family, plan.nodes, students=0, chance=chance)
    nodes = choose_nodes(plan, count, links, chance)
    made = lab_for_bot(count, links, nodes[:plan.own], nodes[plan.own:])
    set_registers(made, plan.start, chance)
    if plan.named:
        made = renamed(made, plan.named)
    return Case(plan.name, made, BOT, how, seed, plan.troubles, plan.piece)


def own_lab(path: Path, seed: int, how: Daemon) -> Case:
    """Returns the case of a teacher's lab in a file, with this seed and this daemon. The bot plays a student who owns a
    node alone. If there is no such student, it plays another one, and the case has no troubles. All keys are replaced
    by new ones, and the limits of events and seats by the greatest that a lab may have. Raises `Fault` if the file
    isn't a lab."""
    made = labs.read(path)
    chance = random.Random(f"{path.stem} {seed}")
    alone = {name: [node.id for node in made.nodes if node.owners == [name]] for name in made.students}
    who = chance.choice([name for name, nodes in alone.items() if nodes] or [made.nodes[0].owners[0]])
    students = {name: new_key() for name in made.students}
    most = limits.allowed()
    made = replace(made, events=most.events, sessions=most.sessions, teacher=(made.teacher[0], new_key()), students=students)
    return Case(path.stem, made, who, how, seed, (FAULT, CUT) if alone[who] else ())


def of_suite(name: str, how: list[Daemon] | None, seeds: int) -> list[Case]:
    """Returns the cases of the suite `name` of the release, with the seeds 1 to `seeds` and each daemon in `how`. If
    `how` is None, each plan has its own daemon."""
    plans = SUITES[name]
    return [planned(plan, seed, each) for seed in range(1, seeds + 1) for plan in plans for each in how or [plan.daemon]]


def of_folder(folder: Path, how: list[Daemon] | None, seeds: int) -> tuple[list[Case], list[str]]:
    """Returns the cases of the labs in a folder, with the seeds 1 to `seeds` and each daemon in `how`. If `how` is None,
    the daemons are those in USUAL. The labs are the files NAME.toml, and other files are passed over. Also returns an
    error line for each file NAME.toml that isn't a lab. Raises `Fault` if the folder can't be read, or if no file in it
    is a lab."""
    try:
        files = sorted(each for each in folder.iterdir() if each.suffix == ".toml")
    except OSError as error:
        raise Fault(f"{folder}: {error.strerror}; --labs has to name a folder with labs, which are files NAME.toml", 4) from None
    cases: list[Case] = []
    faults: list[str] = []
    for file in files:
        try:
            cases += [own_lab(file, seed, each) for seed in range(1, seeds + 1) for each in how or USUAL]
        except Fault as fault:
            faults.append(str(fault))
    if not cases:
        raise Fault("; ".join(faults) or f"{folder}: this folder has no labs, which are files NAME.toml; ./class new makes them", 2)
    return cases, faults
