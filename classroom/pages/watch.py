"""The data of a live page: read at the desk when they change, and shared by any number of pages. The *desk* is the
teacher's connection to the server. A *place* is the number of events so far, and a granted move is *chosen* until a
step applies it. The *report* is the server's reply that lists the pairs and the *privileged* nodes, those with an
enabled rule."""
from __future__ import annotations

import threading
from collections.abc import Iterable
from dataclasses import dataclass

from classroom.client import Client, Denied, Refused, Report
from classroom.core import lab as labs
from classroom.core.journal import Event
from classroom.core.present import Book
from classroom.pages.frames import State


# Of a configuration: its number, how many nodes can move (None if that wasn't seen), how many moves are chosen, the kind of
# event that led to it, and whether it is stable.
Bar = tuple[int, int | None, int, str, bool]


class Bars:
    """The configurations of a run for the page's chart. The last one still changes."""

    def __init__(self) -> None:
        """Begins with the first configuration of a run."""
        self.rows: list[Bar] = [(0, None, 0, "", False)]
        self.chosen: set[int] = set()

    def add(self, event: Event) -> None:
        """Updates the chart by the next event: begins a new configuration, or changes the chosen moves of the last
        one."""
        if event.makes_configuration:
            self.chosen.clear()
            self.rows.append((event.at + 1, None, 0, event.kind, False))
        elif event.kind == "grant":
            self.chosen.update(event.nodes)
        else:
            self.chosen.difference_update(event.nodes)
        number, can, _, kind, is_stable = self.rows[-1]
        self.rows[-1] = (number, can, len(self.chosen), kind, is_stable)

    def take_report(self, state: State) -> None:
        """Copies the number of privileged nodes and the stability from a state into the last configuration. Does
        nothing if the state is of another configuration."""
        number, _, moved, kind, _ = self.rows[-1]
        if number == state.number:
            self.rows[-1] = (number, len(state.privileged), moved, kind, state.stable)


@dataclass(frozen=True)
class Now:
    """An unchangeable snapshot of the present: the state, the numbers of events, lines and configurations, and how
    steps are closed."""

    version: int
    state: State
    events: int
    lines: int
    bars: int
    closing: str
    ended: bool


class Present:
    """The latest snapshot, and all events and lines so far. Readers wait for a new snapshot, and the writer never
    waits."""

    def __init__(self, state: State, closing: str) -> None:
        """Begins with the first state. `closing` says how steps are closed."""
        self.turn = threading.Condition()
        self.events: list[Event] = []
        self.lines: list[str] = []
        self.bars = Bars()
        self.bars.take_report(state)
        self.now = Now(1, state, 0, 0, 1, closing, False)

    def put(self, state: State | None = None, events: Iterable[Event] = (), line: str | None = None,
            closing: str | None = None, ended: bool = False) -> None:
        """Publishes a new snapshot with these changes: another state, more events, a further line, another way of
        closing steps, or the end of the run if `ended` is set. What isn't given stays as it is."""
        with self.turn:
            now = self.now
            for event in events:
                self.events.append(event)
                self.bars.add(event)
            if state is not None:
                self.bars.take_report(state)
            self.lines.extend([line] if line else [])
            self.now = Now(
                now.version + 1, state or now.state, len(self.events), len(self.lines), len(self.bars.rows), closing or now.closing,
                now.ended or ended,
            )
            self.turn.notify_all()

    def after(self, version: int, seconds: float) -> Now:
        """Waits at most `seconds` seconds for a snapshot whose version isn't `version`. Returns the latest snapshot."""
        with self.turn:
            self.turn.wait_for(lambda: self.now.version != version, seconds)
            return self.now


class Watch:
    """A reader of a run's state at the desk: it looks at each node once, and then only at nodes that events name."""

    def __init__(self, lab: labs.Lab, client: Client, report: Report, closing: str) -> None:
        """Looks at each node of `lab`, that of the run, and begins with this report. `client` is the desk's connection,
        and `closing` says how steps are closed."""
        self.client = client
        self.state = State(0, 0, frozenset(map(labs.ordered, lab.links)))
        self.named = {node.id for node in lab.nodes}  # the nodes that may have changed since the last look
        self.granted: set[int] = set()  # the nodes with a move that the next configuration applies or drops
        self.events: list[Event] = []  # the events that weren't published yet
        self.look()
        self.take_report(report)
        self.present = Present(self.state.copy(), closing)

    def note_event(self, event: Event) -> None:
        """Notes an event of the journal, and the nodes that it may have changed: those that it names, and, if it makes
        a new configuration, those with a granted move. If the event is a link or a cut, also adds the link to the state
        or removes it there."""
        state = self.state
        self.events.append(event)
        self.named.update(event.nodes)
        if event.kind == "grant":
            self.granted.update(event.nodes)
        if event.makes_configuration:
            self.named |= self.granted
            self.granted.clear()
        if event.links:
            link = {labs.ordered((event.nodes[0], event.nodes[1]))}
            state.links = state.links | link if event.links > 0 else state.links - link

    def publish(self, report: Report, book: Book) -> None:
        """Publishes the state after the noted events, with the report after them and the counts in `book`. Publishes
        nothing if no event was noted. If the run has gone on meanwhile, the report or the looks show later events. Then
        publishes nothing either, and the next call publishes the noted events too."""
        if not self.events:
            return
        last = self.events[-1]
        number = last.at + last.makes_configuration
        # A grant or a release leaves the number as it is, so the number in a look doesn't show whether the event has taken
        # effect.
        if any(event.kind in ("grant", "release") for event in self.events):
            self.wait_for_server()
        if report.at != number or self.look() != {number}:
            return
        self.take_report(report)
        self.state.place, self.state.moves, self.state.since = last.place, book.moves, book.since
        self.named.clear()
        self.present.put(self.state.copy(), self.events)
        self.events.clear()

    def wait_for_server(self) -> None:
        """Waits until the server has applied the last line of the journal, which is written before the event takes
        effect. For this, asks the server to link a node to itself. This request is always denied, and is answered only
        after the event."""
        node = min(self.state.pointers)
        try:
            self.client.link(node, node)
        except (Denied, Refused):
            pass

    def look(self) -> set[int]:
        """Looks at the nodes that events have named, and updates the state. Returns the numbers of the configurations
        in which the looks were answered. These are several if the run has gone on meanwhile."""
        state, numbers = self.state, set()
        for node in sorted(self.named):
            look = self.client.look(node)
            numbers.add(look.at)
            state.pointers[node], state.ms[node] = look.p, look.m
            state.chosen.pop(node, None)
            if look.chosen is not None:
                state.chosen[node] = look.chosen
        return numbers

    def take_report(self, report: Report) -> None:
        """Copies the values of a report into the state."""
        state = self.state
        state.number, state.stable = report.at, report.stable
        state.privileged = dict(report.privileged)
        state.pairs, state.open = list(report.pairs), list(report.open)
