"""Runs that reach the bounds on moves and on rounds (the bound on moves may be missed by one). A *round* ends as soon
as each node has moved or wasn't privileged at some moment of it.

    python3 -B -m tests.program bounds

The steps of these runs are stored in this module. The program's replies show that each step is legal, which nodes it
moves, and whether the network is stable. The audit and the tally of the journal show the same. The plain model, and the
counts of `classroom` along the reports, give the same numbers.
"""
import json
import subprocess
from collections.abc import Iterator
from dataclasses import dataclass
from pathlib import Path
from typing import Any

from classroom.core.rounds import Recovery
from tests.common.hosting import HOST
from tests.common.preload import LIMIT, fail
from tests.common.second import agreed

# The numbers of nodes of the networks with the most moves, and of those with the most rounds.
MOVES = (4, 5, 6, 7, 12, 41, 64, 101, 200)
ROUNDS = (2, 3, 4, 5, 6, 7, 40, 101, 200)
# A node with the words of its move.
Move = tuple[int, dict[str, object]]
Step = list[Move]

UPDATE: dict[str, object] = {"rule": "update"}
SEDUCTION: dict[str, object] = {"rule": "seduction"}
ABANDONMENT: dict[str, object] = {"rule": "abandonment"}


def marriage(partner: int) -> dict[str, object]:
    """Returns the values of a request for a marriage with this partner."""
    return {"rule": "marriage", "with": partner}


def lab(room: Path, links: list[tuple[int, int]], nodes: list[tuple[int, int | None]]) -> Path:
    """Writes a lab with these links, in which one student owns all nodes. `nodes` has each node with its pointer, the
    register p. The register m is true at each node. Returns the lab's path."""
    file = room / "bound.toml"
    listed = ", ".join(f"[{low}, {high}]" for low, high in links)
    rows = (f'{{ id = {node}, owner = "ana", m = true{"" if p is None else f", p = {p}"} }}' for node, p in nodes)
    file.write_text(
        'events = 100000\nsessions = 2\nteacher = { name = "tess", key = "chalk" }\n'
        f'student = [{{ name = "ana", key = "a-key" }}]\nlinks = [{listed}]\nnode = [{", ".join(rows)}]\n',
        encoding="ascii",
    )
    return file


def phases(size: int, low: range) -> Iterator[Step]:
    """Yields the steps in which one couple after another marries, in a network of this size. For each couple, those of
    the nodes in `low` that aren't married yet seduce the highest free node. This node marries the lowest of them, the
    couple applies Update, and the others abandon the node."""
    for first in range(1, size // 2 + 1):
        last = size + 1 - first
        suitors = [node for node in low if first <= node < last]
        yield [(node, SEDUCTION) for node in suitors]
        yield [(last, marriage(first))]
        yield [(first, UPDATE), (last, UPDATE)]
        if suitors[1:]:
            yield [(node, ABANDONMENT) for node in suitors[1:]]


def output_of(words: list[str | Path], given: bytes = b"") -> str:
    """Runs the program with these arguments and this input, and returns its output. Fails if it doesn't end
    well."""
    done = subprocess.run([HOST, *words], input=given, capture_output=True, timeout=LIMIT, check=False)
    if done.returncode != 0 or done.stderr:
        fail(f"{words[0]} ended with {done.returncode}: {done.stderr!r}")
    return done.stdout.decode("ascii")


def play(file: Path, steps: list[Step]) -> list[dict[str, Any]]:
    """Plays these steps with the lab in a file. Returns the reports before the first step and after each. Checks that
    every move is granted, and is the only one of its close."""
    ask: dict[str, object] = {"do": "report"}
    lines: list[tuple[int, dict[str, object]]] = [
        (1, {"do": "hello", "key": "a-key", "name": "ana"}), (2, {"do": "hello", "key": "chalk", "name": "tess"}), (2, ask),
    ]
    for at, step in enumerate(steps):
        lines += [(1, {"at": at, "do": "move", "node": node, **words}) for node, words in step]
        lines += [(2, {"do": "close"}), (2, ask)]
    script = "".join(f"{number} {json.dumps(line)}\n" for number, line in lines)
    replies = [json.loads(line.split(" ", 1)[1]) for line in output_of(["answer", file], script.encode()).splitlines()]
    if len(replies) != len(lines) or not all("ok" in reply for reply in replies):
        fail(f"a step of {file.name} wasn't granted")
    closed = [reply["moved"] for reply in replies if reply["ok"] == "close"]
    if closed != [sorted(node for node, _ in step) for step in steps]:
        fail("a step moved others than were granted")
    return [reply for reply in replies if reply["ok"] == "report"]


def journal_of(steps: list[Step]) -> str:
    """Returns the journal of these steps."""
    events: list[str] = []
    for at, step in enumerate(steps):
        for node, words in step:
            events.append(f"{at} grant ana {node} {words['rule']}" + (f" {words['with']}" if "with" in words else ""))
        events.append(f"{at} close")
    return "".join(f"{place} {event}\n" for place, event in enumerate(events, 1))


@dataclass(frozen=True)
class Counted:
    """The counts of a run, on which all programs agree, and the bounds in its tally."""

    moves: int
    rounds: int
    most_moves: int
    most_rounds: int
    reports: list[dict[str, Any]]


def play_and_count(file: Path, steps: list[Step]) -> Counted:
    """Plays these steps with the lab in a file. Checks that the network is stable after the last step, and not before.
    Also checks that the audit and the tally of the run's journal have the same numbers as the reports. Returns the
    moves and rounds, the bounds on them in the tally, and the reports."""
    reports = play(file, steps)
    if [report["stable"] for report in reports] != [False] * len(steps) + [True]:
        fail(f"{file.name}: not stable where the run ends, or before")
    found = Recovery(node for node, _ in reports[0]["privileged"])
    for step, report in zip(steps, reports[1:]):
        found.step([node for node, _ in step], [node for node, _ in report["privileged"]])
    journal = file.with_suffix(".journal")
    journal.write_text(journal_of(steps), encoding="ascii")
    events = found.moves + len(steps)
    if agreed(file.name, "audit", file, journal).out.decode() != f"ok: {events} events, configuration {len(steps)}, stable\n":
        fail(f"{file.name}: the audit says another thing of its journal")
    tally = agreed(file.name, "tally", file, journal).out.decode()
    *_, bounds, run, rounds = (line.split() for line in tally.splitlines())
    # The numbers of events, of closes and of applied moves in the line `run` of the tally.
    if [int(run[column]) for column in (1, 4, 8)] != [events, len(steps), found.moves]:
        fail(f"{file.name}: the tally has other numbers: {run}")
    if rounds != ["rounds", str(found.rounds)]:
        fail(f"{file.name}: the tally has {rounds}, and the reports have {found.rounds} rounds")
    return Counted(found.moves, found.rounds, int(bounds[1]), int(bounds[2]), reports)


def check_most_moves(room: Path, size: int) -> int:
    """Checks a run on the network in which two nodes are linked if their sum is more than `size`, the number of nodes.
    At the beginning each m is true, but no two nodes point at each other. So each node first applies Update and
    Abandonment, one node after another, and then come the steps of `phases`. The run has as many moves as the bound, or
    one less if the size is odd. Returns the number of moves."""
    half = size // 2
    pointers = {node: size + 1 - node for node in range(1, half + 1)}
    pointers |= {node: node + 1 for node in range(half + 1, size)} | {size: 2}
    links = [(low, high) for low in range(1, size + 1) for high in range(low + 1, size + 1) if low + high > size]
    alone: list[Step] = [[(node, words)] for node in range(1, size + 1) for words in (UPDATE, ABANDONMENT)]
    found = play_and_count(lab(room, links, sorted(pointers.items())), [*alone, *phases(size, range(1, size + 1))])
    most = 3 * size + 2 * min(len(links), size * size // 4)
    if (found.most_moves, found.moves) != (most, most - size % 2):
        fail(f"{size} nodes: {found.moves} moves of {found.most_moves}")
    return found.moves


def check_most_rounds(room: Path, size: int) -> int:
    """Checks a run on the network in which a node of the lower half and one of the upper half are linked if their sum
    is more than `size`, the number of nodes. First all nodes apply Update, and then come the steps of `phases`. In each
    step all privileged nodes move. The run has as many rounds as the bound. Returns their number."""
    low = range(1, (size + 1) // 2 + 1)
    links = [(node, high) for node in low for high in range(low.stop, size + 1) if node + high > size]
    nodes: list[tuple[int, int | None]] = [(node, None) for node in range(1, size + 1)]
    steps = [[(node, UPDATE) for node, _ in nodes], *phases(size, low)]
    found = play_and_count(lab(room, links, nodes), steps)
    for step, report in zip(steps, found.reports):
        if report["privileged"] != [[node, words["rule"]] for node, words in sorted(step, key=lambda move: move[0])]:
            fail(f"{size} nodes: others are privileged than those of a step")
    if not found.rounds == found.most_rounds == len(steps) == 2 * size - size % 2:
        fail(f"{size} nodes: {found.rounds} rounds of {found.most_rounds}")
    return found.rounds


def work(room: Path) -> str:
    """Checks the runs with the most moves and the most rounds, for each size. Returns a line with their sums."""
    counts = sum(check_most_moves(room, size) for size in MOVES), sum(check_most_rounds(room, size) for size in ROUNDS)
    return f"bounds: {counts[0]} moves and {counts[1]} rounds, as many as the laws say"
