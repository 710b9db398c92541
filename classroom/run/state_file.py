"""The state of a network of a class, which its run writes into a file for the desk and the page of the class.

The *desk* of a run is the teacher's connection to its server. The *record* is what the server keeps about connections
and requests. A *privileged* node has an enabled rule, and a granted move is *chosen* until a step applies it.
"""
from __future__ import annotations

import time
from pathlib import Path
from typing import Any

from classroom.core import bounds, class_state
from classroom.core.shown_names import ShownNames
from classroom.run.closing import spelled
from classroom.run.desk import Desk

PAUSE = 1.0  # seconds between two writings


class StateFile:
    """The file `state.json` in the folder of a run, kept up to date (`classroom.core.class_state` documents it)."""

    def __init__(self, folder: Path, names: ShownNames) -> None:
        """`folder` is that of the run, and `names` are the names that pages show for students."""
        self.folder, self.names = folder, names
        self.due = 0.0  # the time before which nothing is written
        self.written: dict[str, Any] | None = None  # the state that was written last

    def write_if_changed(self, desk: Desk) -> None:
        """Writes the state of a desk's network if it has changed, at most once a second."""
        now = time.monotonic()
        if now < self.due:
            return
        self.due = now + PAUSE
        state = self.of(desk)
        if state != self.written:
            class_state.write(self.folder, state)
            self.written = state

    def of(self, desk: Desk) -> dict[str, Any]:
        """Returns the state of a desk's network, as the file has it."""
        known, lab = desk.known, desk.announcer.shown
        links = sorted(tuple(sorted(link)) for link in desk.announcer.comeback.links)
        most = bounds.known(len(lab.nodes), len(links))
        report = known.report
        return {
            "configuration": report.at, "stable": report.stable, "privileged": [list(each) for each in report.privileged],
            "pairs": [list(pair) for pair in report.pairs], "open": len(report.open), "moves": known.book.since,
            "most": most.moves if most else None, "events": known.count, "limit": desk.lab.events,
            "closing": spelled(desk.closing), "waiting": self.waiting(desk), "missing": self.missing(desk),
            "idle": [self.names.name(name) for name in known.book.idle], "links": [list(link) for link in links],
            "nodes": nodes(desk),
        }

    def waiting(self, desk: Desk) -> list[dict[str, Any]]:
        """Returns the nodes that are privileged and have no chosen move, by the desk's latest report, each with its
        owners and its rule."""
        owners = desk.announcer.shown.owners
        return [{"node": node, "owners": [self.names.name(name) for name in owners(node)], "rule": rule}
                for node, rule in desk.known.waiting()]

    def missing(self, desk: Desk) -> list[str] | None:
        """Returns the names of the students with a node who have no connection. Returns None if there is no record, so
        that this isn't known."""
        if desk.heard is None:
            return None
        lab, there = desk.announcer.shown, desk.heard.connected()
        return [self.names.name(name) for name in lab.students if lab.nodes_of(name) and not there[name]]


def nodes(desk: Desk) -> list[list[Any]]:
    """Returns each node with its registers and the rule of its chosen move, if the desk has a page. Returns none
    otherwise."""
    if desk.watch is None:
        return []
    state = desk.watch.state
    return [[node, state.pointers[node], state.ms[node], state.chosen.get(node)] for node in sorted(state.pointers)]
