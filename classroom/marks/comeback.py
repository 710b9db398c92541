"""The recoveries of a class: the counts from each fault, link or cut to the next stable configuration, in which no node
is privileged. A node is *privileged* if a rule can be applied there.

The marks have the counts of the proved program, by its tally of the journal up to that configuration. While a run goes
on, `Comeback` counts along its reports, which list the privileged nodes. An *edit* is a fault, a link or a cut, and a
*close* applies the chosen moves, those that were granted. A *place* is the number of an event.
"""
from __future__ import annotations

from collections.abc import Callable, Collection
from typing import Any

from classroom.core import lab as labs
from classroom.core import tally as tallies
from classroom.core.journal import Event
from classroom.core.program import Fault
from classroom.core.rounds import Recovery, counts_in_words
from classroom.pages.replay import REPORT, Replay, Script

MOST_COUNTED = 50  # the most faults, links and cuts of a run for which its recoveries are printed


class Comeback:
    """A counter of recoveries, event by event."""

    def __init__(self, lab: labs.Lab) -> None:
        """Begins with the network of a lab, as it is before the first event. `hurt` notes whether an edit has come, and
        `missed` whether the counts of the present recovery aren't known (`miss`)."""
        self.nodes = len(lab.nodes)
        self.links = {frozenset(link) for link in lab.links}
        self.recovery: Recovery | None = None
        self.hurt = self.missed = False

    def edit(self, event: Event) -> None:
        """Counts `event`, a fault, link or cut: changes the network as it does, and begins to count a new recovery."""
        if event.links:
            change = self.links.add if event.links > 0 else self.links.discard
            change(frozenset(event.nodes))
        self.recovery, self.hurt, self.missed = None, True, False

    def miss(self) -> None:
        """Notes that the privileged nodes before or after a close aren't known. The line about the present recovery
        then has no counts."""
        self.missed = True

    def close(self, moved: Collection[int], before: Collection[int], after: Collection[int]) -> str:
        """Counts a close, by the nodes that moved and the nodes that were privileged before and after it. Returns an
        empty text if a node is still privileged. Otherwise returns the line about the recovery, with its counts unless
        they aren't known (`miss`)."""
        if self.recovery is None:
            self.recovery = Recovery(before)
        self.recovery.step(moved, after)
        if after:
            return ""
        told = f"after {self.recovery.in_words(self.nodes, len(self.links))}"
        if self.missed:
            told = "after several steps in quick succession; how many moves and rounds this took is printed with the marks"
        self.recovery, self.missed = None, False
        return f"{'stable again' if self.hurt else 'stable'} {told}"


class Recount(Replay):
    """A count of the recoveries in a journal. Sends the journal's events to the program again, as requests, to learn
    the privileged nodes after each."""

    def __init__(self, lab: labs.Lab, events: list[Event], counted: Comeback) -> None:
        """`lab` is that of the journal with these events, and `counted` counts its recoveries."""
        super().__init__(lab, events)
        self.counted = counted
        self.before: set[int] = set()  # the nodes that were privileged in the last report
        self.moved: list[int] = []  # the nodes that moved by the last event
        self.rests: list[int] = []  # the places of the closes after which no node was privileged

    def ask(self, script: Script, event: Event | None, named: set[int]) -> None:
        """Appends the request for the report to the script if `event` made a configuration. If `event` is None, does so
        for the beginning of the run. Doesn't use `named`."""
        if event is None or event.makes_configuration:
            script.ask(REPORT, self.report_taker(event))

    def note_reply(self, event: Event, reply: dict[str, Any]) -> None:
        """Notes the nodes that moved, which the reply to a close names. Notes none for the reply to any other event."""
        self.moved = reply.get("moved", [])

    def report_taker(self, event: Event | None) -> Callable[[dict[str, Any]], None]:
        """Returns a function to call with the report after `event`, or with that at the beginning of the run if `event`
        is None."""
        def takes(report: dict[str, Any]) -> None:
            """Notes the privileged nodes in a report. Counts the edit or close before it, if there is one. If no node
            is privileged after a close, appends its place to `rests`."""
            before, self.before = self.before, {node for node, _ in report["privileged"]}
            if event is None:
                return
            if event.is_edit:
                self.counted.edit(event)
            elif self.counted.close(self.moved, before, self.before):
                self.rests.append(event.place)

        return takes

    def counts(self) -> list[int]:
        """Replays all events of the journal, and counts its recoveries. Returns the places of the closes after which no
        node was privileged."""
        for _ in self.replay():
            pass
        return self.rests


def recovery_line(lab: labs.Lab, events: list[Event]) -> str:
    """Returns the line with the counts of the recovery that ends with the last event in `events`. They are the first
    events of a run of the lab. The counts are those of the proved program. Raises `Fault` if the program is too old to
    count rounds."""
    journal = "".join(f"{event.place} {event.at} {' '.join(event.words)}\n" for event in events)
    found = tallies.of_texts(labs.text(lab), journal)
    if found.rounds is None:
        raise Fault("the program mml is of an older version, which counts no rounds. Type `./mml build` to build the present version", 4)
    again = " again" if found.faults or found.links or found.cuts else ""
    return f"stable{again} after {counts_in_words(*found.since, found.rounds, found.bounds)}"


def recoveries(lab: labs.Lab, events: list[Event]) -> list[str]:
    """Returns a line for each recovery in a run of the lab, whose events are these. The line begins with the place at
    which the recovery ended. If the run has more than MOST_COUNTED edits, returns a single line that says so. Raises
    `Fault` if the program is too old to count rounds, or doesn't grant an event again."""
    edits = sum(event.is_edit for event in events)
    if edits > MOST_COUNTED:
        return [f"there were {edits} faults and changes of links. How the class became stable again is printed only if there are at most {MOST_COUNTED}"]
    return [f"event {place}: {recovery_line(lab, events[:place])}" for place in Recount(lab, events, Comeback(lab)).counts()]
