"""The tally: the numbers for marks, counted from the events of a journal and the lines of a record."""
import json
from collections.abc import Iterable
from dataclasses import dataclass, field

from model.events import apply
from model.journal import Event
from model.lab import Lab
from model.record import Record, Said
from model.requests import read_request
from model.world import RULES, World

CLAUSES = (1, 2, 3, 4)
REFUSALS = ("journal", "memory", "full")
DENIALS = ("greeted", "hidden", "not-owner", "not-teacher", "stale", "chosen", "guard")
CHANGES = ("fault", "link", "cut")


def no_moves() -> dict[str, int]:
    """Returns a new count of moves, with zero for each rule."""
    return dict.fromkeys(RULES, 0)


@dataclass
class Student:
    """The counts of one student."""

    granted: dict[str, int] = field(default_factory=no_moves)
    applied: dict[str, int] = field(default_factory=no_moves)
    closes: int = 0  # how many of them applied a move of the student
    places: list[int] = field(default_factory=list)  # of the granted moves
    shared: int = 0  # applied moves at nodes with two owners

    def words(self) -> list[object]:
        """Returns the student's columns in the tally. The places of the first and the last granted move are `-` if there is none."""
        ends: list[object] = [self.places[0], self.places[-1]] if self.places else ["-", "-"]
        return [*self.granted.values(), *self.applied.values(), self.closes, *ends, self.shared]


class Count:
    """The counts of the events of a journal. A granted move is remembered until a close applies it, or another event drops it."""

    def __init__(self, lab: Lab) -> None:
        """Begins with the lab's students, before the first event."""
        self.students = {name: Student() for name in lab.students()}
        self.shared = {i: {name: no_moves() for name in owners} for i, owners in lab.shared().items()}
        self.chosen: dict[int, tuple[str, str]] = {}  # for each node the student and the rule
        self.words = dict.fromkeys(("move", "release", "close", *CHANGES), 0)  # how often each event occurred
        self.moves = self.moves_since = self.closes_since = 0  # all, and those since the last fault, link or cut

    def take(self, event: Event) -> None:
        """Counts the next event."""
        asked = event.asked
        self.words[asked.do] += 1
        if asked.do == "move":
            self.grant(event)
        elif asked.do == "release":
            del self.chosen[asked.node]
        elif asked.do == "close":
            self.close()
        else:
            # A fault, a link and a cut drop all chosen moves, and a new count of moves and closes begins.
            self.moves_since = self.closes_since = 0
            self.chosen.clear()

    def grant(self, event: Event) -> None:
        """Counts the event of a granted move for its student, and also for its node if that has two owners."""
        node, rule = event.asked.node, event.asked.move.rule
        self.students[event.who].granted[rule] += 1
        self.students[event.who].places.append(event.place)
        if node in self.shared:
            self.shared[node][event.who][rule] += 1
        self.chosen[node] = (event.who, rule)

    def close(self) -> None:
        """Counts the chosen moves as applied, and the close for each student with such a move."""
        for node, (name, rule) in self.chosen.items():
            self.students[name].applied[rule] += 1
            self.students[name].shared += node in self.shared
        for name in {name for name, _ in self.chosen.values()}:
            self.students[name].closes += 1
        self.moves += len(self.chosen)
        self.moves_since += len(self.chosen)
        self.closes_since += 1
        self.chosen.clear()


def at_shared(word: str, counts: dict[int, dict[str, dict[str, int]]]) -> list[list[object]]:
    """Returns a line for each node with two owners: `word`, the node, and for each owner the name and the counts of the four rules."""
    return [[word, i, *(it for name, rules in owners.items() for it in (name, *rules.values()))] for i, owners in counts.items()]


def lines_asked(lab: Lab, said: Iterable[Said]) -> list[list[object]]:
    """Returns the tally's lines about the students' requests in a record: denials by clause, malformed lines, and moves at shared nodes."""
    denied = {name: dict.fromkeys([*CLAUSES, "malformed"], 0) for name in lab.students()}
    moves = {i: {name: no_moves() for name in owners} for i, owners in lab.shared().items()}
    for it in said:
        # Only lines that came while a student was known count, and not those of the teacher or before a hello.
        if it.known not in denied:
            continue
        asked, reply = read_request(it.line), json.loads(it.reply)
        denied[it.known]["malformed"] += asked is None
        if "deny" in reply:
            denied[it.known][reply["clause"]] += 1
        # A move counts as asked for whether it was granted or not.
        if asked is not None and asked.do == "move" and it.known in moves.get(asked.node, {}):
            moves[asked.node][it.known][asked.move.rule] += 1
    return [["denied", name, *counts.values()] for name, counts in denied.items()] + at_shared("asked", moves)


def lines_by_reply(lab: Lab, said: list[Said], word: str, key: str, columns: tuple[str, ...]) -> list[list[object]]:
    """Returns a line for each student: `word`, the name, and for each of `columns` how many of the student's replies have this value under `key`."""
    counts = {name: dict.fromkeys(columns, 0) for name in lab.students()}
    for it in said:
        found = json.loads(it.reply).get(key)
        # The refusal of a line that is no request has no column: such lines are counted as malformed.
        if it.known in counts and found in columns:
            counts[it.known][found] += 1
    return [[word, name, *count.values()] for name, count in counts.items()]


def bounds(world: World) -> list[object]:
    """Returns the tally's line `bounds`: the most moves, rounds and events until a network of n nodes and L links is stable. There are at most
    3n + 2 min(L, n²/4) moves, 2n rounds (one fewer if n is odd), and twice as many grants and closes together as moves."""
    nodes, links = len(world.links), sum(map(len, world.links.values())) // 2
    moves = 3 * nodes + 2 * min(links, nodes * nodes // 4)
    return ["bounds", moves, 2 * nodes - nodes % 2, 2 * moves]


def privileged(world: World) -> set[int]:
    """Returns the nodes of a world at which a rule is enabled."""
    return {i for i in world.nodes() if world.enabled(i) is not None}


def rounds_since(lab: Lab, events: list[Event]) -> int:
    """Returns how many rounds ended since the last fault, link or cut.

    A node has its turn in a round if at some point no rule is enabled there, or if a close applies its move. A round ends with the
    close by which each node has had its turn, and there the next one begins."""
    world, rounds = lab.opening(), 0
    waiting = privileged(world)
    for event in events:
        moved = set(world.chosen)
        apply(world, event.asked)
        if event.asked.do == "close":
            waiting = (waiting - moved) & privileged(world)
            if not waiting:
                rounds, waiting = rounds + 1, privileged(world)
        elif event.asked.do in CHANGES:
            rounds, waiting = 0, privileged(world)
    return rounds


def tally(lab: Lab, world: World, events: list[Event], record: Record | None) -> str:
    """Returns the output of the tally of a journal that passes and leads to this world, and of its record if there is one."""
    count = Count(lab)
    for event in events:
        count.take(event)
    lines: list[list[object]] = [["student", name, *it.words()] for name, it in count.students.items()]
    lines += at_shared("node", count.shared)
    if record is not None:
        lines += lines_asked(lab, record.said)
        lines.append(["record", record.sessions, len(record.said), "whole" if record.is_whole() else "cut"])
    run = [world.place, world.number, "stable" if world.stable() else "unstable", count.words["close"], *(count.words[word] for word in CHANGES)]
    lines += [bounds(world), ["run", *run, count.moves, count.moves_since, count.closes_since]]
    if record is not None:
        lines.append([*record.whole(lab)])
        lines += lines_by_reply(lab, record.said, "refused", "refuse", REFUSALS)
        lines += lines_by_reply(lab, record.said, "denials", "deny", DENIALS)
    lines.append(["rounds", rounds_since(lab, events)])
    return "".join(" ".join(map(str, line)) + "\n" for line in lines)
