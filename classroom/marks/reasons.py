"""The reasons why moves of a run were denied, which are the parts of the guards that failed. The reasons come from the
plain model (`model/`), a second program with the same rules."""
from __future__ import annotations

from collections.abc import Sequence
from itertools import groupby

from classroom.core import explained, limits
from classroom.core import lab as labs
from classroom.core.journal import Event
from classroom.pages import replay

MOST = 2000  # the most lines that are explained


def reasons(lab: labs.Lab, events: Sequence[Event], asked: Sequence[tuple[int, str]]) -> dict[tuple[int, str], str]:
    """Returns the model's explanations of the denied moves in `asked`, a run's moves, each as the number of events
    before it and its line. The result has them by these two values. `events` are the run's events, and `lab` is its
    lab. For this, the model is asked for all events again, with the denied moves between them. Leaves out moves that
    the model doesn't explain, and explains at most MOST. Returns none if the program doesn't print its limits."""
    wanted = sorted(set(asked), key=lambda each: each[0])[:MOST]
    lines = {place: [line for _, line in own] for place, own in groupby(wanted, key=lambda each: each[0])}
    script, found = [*replay.HELLOS], dict[int, tuple[int, str]]()
    for place in range(len(events) + 1):
        if place:
            script.append(replay.request(events[place - 1].at, events[place - 1].words))
        for line in lines.get(place, []):
            script.append(f"2 {line}")  # Connection 2 is that of the only student, who owns all nodes.
            found[len(script)] = (place, line)  # The model names a line by its number in the script.
    known = limits.known()
    if not found or known is None:
        return {}
    nodes = [labs.Node(node.id, [replay.STUDENT], node.p, node.m) for node in lab.nodes]
    made = replay.alone(nodes, lab.links, known.events)
    told = explained.lines_of(made, "".join(f"{line}\n" for line in script).encode("utf-8", errors="replace"))
    return {found[int(number)]: f"{explained.MARK}{text}" for number, _, text in told if number.isdigit() and int(number) in found}
