"""The lines that a run prints as it continues: each event, each recovery, the nodes that it waits for, and why nothing
more is granted.

A *privileged* node has an enabled rule. A *grant* is the event of a move, which is then *chosen* until a *close*, the
end of a step, applies it. The class *waits* for a node that is privileged and has no chosen move. A *recovery* is the
part of a run from a fault, link or cut to the next stable configuration. The *report* is the server's reply about the
present configuration, and the *journal* is the file with the run's events.
"""
from __future__ import annotations

import itertools
import time
from collections.abc import Callable
from pathlib import Path

from classroom.client import Report
from classroom.core import bounds, limits
from classroom.core import lab as labs
from classroom.core.journal import Event
from classroom.core.program import CLASS, Fault
from classroom.marks.comeback import Comeback, Recount
from classroom.run import wording
from classroom.run.following import Follower, News

MOST_TOLD = 0.9  # from this share of the limit of events on, the number of remaining events is printed
MOST_WAITING = 8  # the most nodes that are named among those for which the class waits
LOOKS, PAUSE = 30, 0.1  # how often the server's output is read for the reason of a lost journal, and seconds between two reads


def report_line(report: Report) -> str:
    """Returns the text of a report for people, in one line."""
    lists = {
        "pairs": [f"{a}-{b}" for a, b in report.pairs],
        "free nodes": [str(node) for node in report.free],
        "privileged nodes": [f"{node} ({rule})" for node, rule in report.privileged],
        "links between free nodes": [f"{a}-{b} (node {node} can move by {rule})" for a, b, node, rule in report.open],
    }
    told = "".join(f"; {name}: {', '.join(them)}" for name, them in lists.items() if them)
    return f"configuration {report.at} is {'' if report.stable else 'not '}stable{told}"


class Announcer:
    """A printer of a run's events and state, as lines."""

    def __init__(self, lab: labs.Lab, folder: Path, known: Follower, tell: Callable[[str], None]) -> None:
        """`lab` is the lab of the run, `folder` is the run's folder, and `known` follows its journal and has its
        report. The callback prints a line."""
        self.lab, self.known, self.tell = lab, known, tell
        self.shown = lab.without_house()
        self.folder = folder
        self.go_on = f"{CLASS} run --resume {folder}"
        self.told_waiting: list[str] = []  # the texts of the nodes that were last printed as waited for
        self.over = ""  # `full` or `journal` once nothing more is granted for this reason
        # Returns the server's text about a journal that can't be written, or an empty text, as `str` does until the desk is open.
        self.lost_journal: Callable[[], str] = str
        self.comeback = Comeback(lab)  # the counts of the present recovery, and the present links
        self.edits: list[Event] = []  # the faults, links and cuts that weren't printed yet

    def announce_resumed(self) -> None:
        """Counts the moves and rounds of the present recovery in the past events, and prints the configuration from
        which the class continues. If all events of the lab are used, prints that and sets `over`, so that the run
        ends."""
        self.recount()
        self.known.ask_report()
        self.tell(f"the class continues at configuration {self.known.report.at}; {self.events_used()}")
        if self.known.count >= self.lab.events:
            self.end_by("full")

    def recount(self) -> None:
        """Brings `comeback` up to date with the past events, so that it has the moves and rounds of the present
        recovery. If mml can't be asked, prints that. Then `comeback` only gets the past faults, links and cuts, and the
        next line about a stable class has no counts."""
        past = self.known.past
        try:
            Recount(self.lab, past, self.comeback).counts()  # counts into `comeback`
        except Fault as fault:
            self.tell(f"the moves and rounds of this run so far can't be counted, since mml gave an error: {fault}")
            for event in past:  # The present links are needed all the same.
                if event.is_edit:
                    self.comeback.edit(event)
            self.comeback.miss()

    def announce(self, news: News) -> None:
        """Prints the line of a new event, and the counts of the recovery if a close ends it. A grant has no line. Keeps
        faults, links and cuts for `tell_edits`, which prints them."""
        event = news.event
        if event.is_edit:
            self.comeback.edit(event)
            self.edits.append(event)
            return
        self.tell_edits()
        if event.kind == "close":
            self.tell_event(event.at + 1, wording.moves(news.moved))
            self.count_close(event, [node for node, _, _ in news.moved], news.before)
        elif event.kind != "grant":
            self.tell_event(event.at, wording.edit(event))

    def tell_edits(self) -> None:
        """Prints the faults, links and cuts that were kept. Those of one kind that follow each other have one line."""
        edits, self.edits = self.edits, []
        for _, same in itertools.groupby(edits, key=lambda event: event.kind):
            events = list(same)
            at = events[-1].at + 1
            if len(events) == 1:
                self.tell_event(at, wording.edit(events[0]))
            else:
                self.tell_event(at, wording.edits(events))

    def check_limit(self) -> None:
        """Prints a line when the share MOST_TOLD of the events that the lab allows is used. After the last event,
        prints that nothing more is granted, and sets `over`, so that the run ends."""
        if self.known.count == int(MOST_TOLD * self.lab.events) > 0:
            self.tell_edits()
            self.tell(f"the lab allows {self.lab.events} events, and {self.known.count} of them are used. After the last one the server grants nothing more")
        if self.known.count >= self.lab.events:
            self.tell_edits()
            self.end_by("full")

    def events_used(self) -> str:
        """Returns the number of events and their limit, as a text."""
        return f"events: {self.known.count} of {self.lab.events}"

    def tell_event(self, at: int, what: str) -> None:
        """Prints the line of an event. `at` is the number of the configuration after it, and `what` says what happened.
        The line also has the moves since the last fault, link or cut beside their bound, and the number of events. If
        the latest report is of that configuration, it has the number of privileged nodes too."""
        known = self.known
        most = bounds.known(len(self.lab.nodes), len(self.lab.links) + known.book.links)
        limit = f" of at most {most.moves}" if most else ""
        state = "stable" if known.report.stable else f"privileged nodes: {len(known.report.privileged)}"
        now = f"{state}; " if known.report.at == at else ""
        self.tell(f"configuration {at}: {what}; {now}moves: {known.book.since}{limit}; {self.events_used()}")

    def count_close(self, event: Event, moved: list[int], before: Report) -> None:
        """Counts `event`, a close, in the recovery. `moved` are the nodes that moved, and `before` is the report before
        the close. If the close ended the recovery, prints the counts. If there is no report of the configuration before
        or after the close, the recovery has no counts."""
        report = self.known.report
        if (before.at, report.at) != (event.at, event.at + 1):
            self.comeback.miss()  # If the report after the close is known, the close is counted all the same, since it may end the recovery.
        if report.at != event.at + 1 or self.known.is_old:
            return
        told = self.comeback.close(moved, [node for node, _ in before.privileged], [node for node, _ in report.privileged])
        if told:
            self.tell(told)

    def waiting(self) -> list[str]:
        """Returns a text for each node that the class waits for, with its owners and its rule."""
        return [f"node {node} ({' and '.join(self.shown.owners(node))}): {rule}" for node, rule in self.known.waiting()]

    def tell_waiting(self) -> None:
        """Prints the nodes that the class waits for if they have changed since the last time. If there are many, prints
        the first ones."""
        now = self.waiting()
        if now and now != self.told_waiting:
            self.tell(f"waiting for {wording.some(now, MOST_WAITING, 'node')}")
        self.told_waiting = now

    def tell_all_waiting(self) -> None:
        """Prints all nodes that the class waits for, or that it waits for no node."""
        self.told_waiting = self.waiting()
        self.tell(f"waiting for {', '.join(self.told_waiting) or 'no node'}")

    def end_by(self, word: str) -> None:
        """Sets `over` to `word`, so that the run ends, because nothing is granted any longer. `word` is the server's
        refusal, `full` or `journal`. Prints the reason and the remedy. Does nothing if `over` was set before."""
        if self.over:
            return
        self.over = word
        if word == "journal":
            what = f"{self.why_journal()}, and then continue the run by {self.go_on}"
        else:
            what = f"all {self.lab.events} events that the lab allows are used{self.why_full()}"
        self.tell(f"nothing more is granted: {what}")

    def why_full(self) -> str:
        """Returns the remedy if all events of the lab are used, as the end of a line. Without the program the
        text doesn't say how many a lab may have."""
        known = limits.known()
        if known and self.lab.events >= known.events:
            return ". No lab can allow more, so continue with a new lab"
        most = f" (to at most {known.events})" if known else ""
        return f". Raise `events` in {self.folder}/lab.toml{most}, and then continue the run by {self.go_on} --again"

    def why_journal(self) -> str:
        """Returns why no more lines can be written to the journal, and the remedy. Waits a few seconds for the server
        to report what happened to the file. If the server reports nothing, no line could be written. If the file at the
        journal's path is another one or gone, another line has the remedy. That line is printed when the server has
        ended."""
        for _ in range(LOOKS):
            lost = self.lost_journal()
            if lost:
                where = "Wait for the line that says where its lines are saved"
                return f"the journal's file {lost}. {'Undo the change' if 'changed' in lost else where}"
            time.sleep(PAUSE)
        return "no line can be written to the journal. Make room on the disk"
