"""A journal as frames: the program's replies when the events of a journal are asked for again. Every value in a frame
was read from a reply. A *frame* is the state of the run after an event, and a *place* is the number of events up to it.
A granted move is *chosen* until a step applies it. The replies to a *look* and to the request for the *report* have the
values of a node and of the whole configuration. Long journals are replayed in *parts* (`classroom.pages.replay`)."""
from __future__ import annotations

from collections.abc import Iterator
from dataclasses import dataclass, field
from pathlib import Path
from typing import Any

from classroom.core import journal as journals
from classroom.core import lab as labs
from classroom.core.journal import Event
from classroom.core.program import Fault, call
from classroom.pages.replay import REPORT, Replay, Script, Take, look

# A link between two nodes without a partner: its ends, a node near it that can move, and the rule by which it can.
OpenLink = tuple[int, int, int, str]


@dataclass
class State:
    """The state of the run at a place: registers, chosen moves, and the values of the report."""

    place: int
    number: int  # the number of the configuration
    links: frozenset[tuple[int, int]]
    pointers: dict[int, int | None] = field(default_factory=dict)  # the register p of each node
    ms: dict[int, bool] = field(default_factory=dict)  # the register m of each node
    chosen: dict[int, str] = field(default_factory=dict)  # the rule of each node that has a chosen move
    privileged: dict[int, str] = field(default_factory=dict)  # the rule that is enabled at each privileged node
    pairs: list[tuple[int, int]] = field(default_factory=list)
    open: list[OpenLink] = field(default_factory=list)
    stable: bool = False
    moves: int = 0  # moves since the beginning
    since: int = 0  # moves since the last fault, link or cut

    def copy(self) -> State:
        """Returns a copy, which shares with the original those values that are never changed but only replaced."""
        return State(self.place, self.number, self.links, dict(self.pointers), dict(self.ms), dict(self.chosen),
                     self.privileged, self.pairs, self.open, self.stable, self.moves, self.since)


@dataclass(frozen=True)
class Frame:
    """The state after an event. The first frame has no event, and is the beginning."""

    event: Event | None
    state: State


class Looking(Replay):
    """A replay that collects a frame after each event, from the replies to looks and reports."""

    def __init__(self, lab: labs.Lab, events: list[Event]) -> None:
        """Begins with the lab's network, before the first of these events. Nothing is asked before `run`."""
        super().__init__(lab, events)
        self.state = State(0, 0, frozenset(self.links))
        self.frames: list[Frame] = []

    def run(self) -> Iterator[Frame]:
        """Yields the frames in order, the beginning first."""
        for _ in self.replay():
            yield from self.frames
            self.frames.clear()

    def ask(self, script: Script, event: Event | None, named: set[int]) -> None:
        """Appends to `script` a look at each node that an event may have changed, and the request for the report if the
        event made a configuration. The last reply completes the frame. Without an event, asks for all nodes and the
        report. `named` has the nodes of the events since the last configuration."""
        if event is None or event.makes_configuration:
            for node in sorted(named if event else self.registers):
                script.ask(look(node), self.take_look)
            script.ask(REPORT, self.take_report)
        else:
            script.ask(look(event.nodes[0]), self.take_look)
        script.takes.append(self.completing(event, script.takes.pop()))

    def completing(self, event: Event | None, take: Take | None) -> Take:
        """Returns a function that handles the last reply for a frame by `take`, and then appends the frame of the
        event."""
        def takes(reply: dict[str, Any]) -> None:
            """Handles the last reply for the frame, and appends the frame."""
            if take is not None:
                take(reply)
            self.frames.append(Frame(event, self.state))

        return takes

    def take_look(self, reply: dict[str, Any]) -> None:
        """Copies the registers and the chosen move in the reply to a look into the state."""
        node, state = reply["node"], self.state
        state.pointers[node], state.ms[node] = reply["p"], reply["m"]
        state.chosen.pop(node, None)
        if reply["chosen"] is not None:
            state.chosen[node] = reply["chosen"]

    def take_report(self, reply: dict[str, Any]) -> None:
        """Copies the values in the reply to a report into the state. The number in it counts from the beginning of the
        replay's present part, so the number at that beginning is added."""
        state = self.state
        state.number = reply["at"] + self.number
        state.privileged = {node: rule for node, rule in reply["privileged"]}
        state.pairs = [(a, b) for a, b in reply["pairs"]]
        state.open = [(a, b, witness, rule) for a, b, witness, rule in reply["open"]]
        state.stable = reply["stable"]

    def note_reply(self, event: Event, reply: dict[str, Any]) -> None:
        """Updates the place, the links and the counts of moves in the state after an event, by its reply."""
        state = self.state
        state.place = event.place
        if event.kind == "close":
            state.moves += len(reply["moved"])
            state.since += len(reply["moved"])
        elif event.makes_configuration:
            state.since = 0
        if event.links:
            state.links = frozenset(self.links)


def frames_of(lab: Path, journal: Path) -> tuple[labs.Lab, Iterator[Frame]]:
    """Returns the lab, and an iterator of the frames of a journal. The iterator computes each frame when it is taken.
    All frames share one state, which changes when the next frame is taken. Raises `Fault` if the audit refuses the
    journal. The iterator raises `Fault` if the journal can't be replayed."""
    answer = call("audit", lab, journal)
    if answer.status != 0:
        raise Fault(f"{journal}: {answer.error}", answer.status)
    known = labs.read(lab)
    events = journals.events(journal.read_text(encoding="ascii"))
    return known, Looking(known, events).run()
