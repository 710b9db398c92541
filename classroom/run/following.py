"""The state of a run at its desk, the teacher's connection: the journal as it grows, and the report after its last
event. The *report* has the number of the configuration, the pairs, and the privileged nodes, those with an enabled
rule. A *grant* is the event of a move, which is then *chosen* until a step applies it."""
from __future__ import annotations

import os
import time
from collections.abc import Iterator
from dataclasses import dataclass
from pathlib import Path

from classroom.client import Client, Refused, Report
from classroom.core.journal import Event, events
from classroom.core.lab import Lab
from classroom.core.present import Book

TORN = 3.0  # seconds after which a line of the journal without its end counts as torn
ASKED, PAUSE = 50, 0.1  # how often the first report is asked for at most, and seconds between


def first_report(client: Client) -> Report:
    """Returns the first report on the desk's connection `client`. Asks for it again while the server is out of memory.
    Raises `Refused` if that lasts for more than ASKED attempts, or if the server refuses for another reason."""
    for _ in range(ASKED):
        try:
            return client.report()
        except Refused as refused:
            if refused.word != "memory":
                raise
        time.sleep(PAUSE)
    return client.report()


def raise_unless_memory(refused: Refused) -> None:
    """Raises the error `refused`, unless it is `memory`: then the server is out of memory, which is temporary."""
    if refused.word != "memory":
        raise refused


@dataclass(frozen=True)
class News:
    """A new event, the moves that it applied if it is a close, and the report before it."""

    event: Event
    moved: list[tuple[int, str, str]]
    before: Report


class Follower:
    """A reader of a run's journal as it grows, which asks at the desk for the report if an event may have changed
    it."""

    def __init__(self, lab: Lab, journal: Path, client: Client) -> None:
        """Opens the file `journal` of a run of `lab`, and asks for the first report on the desk's connection `client`.
        Raises `OSError` if the file can't be opened, and `Closed` or `Refused` if there is no report."""
        self.client = client
        self.journal = journal.open("rb")
        self.book = Book([*lab.without_house().students])
        self.rest = b""  # the incomplete last line
        self.torn_since = 0.0  # the time of the last bytes of an incomplete line
        self.news_came = time.monotonic()  # the time of the last new event
        self.report = first_report(client)
        self.is_old = False  # Whether the server refused the last request for a report.
        self.last_step = 0  # the place of the last step in the journal
        self.count = 0  # the number of events so far
        self.past: list[Event] = []  # the events that the journal had before this process read it

    def catch_up(self) -> None:
        """Counts the events that the journal has already, and keeps them in `past`."""
        whole, found, self.rest = self.journal.read().rpartition(b"\n")
        self.past = events((whole + found).decode("ascii"))
        for event in self.past:
            self.take(event)

    def take(self, event: Event) -> list[tuple[int, str, str]]:
        """Counts an event. Returns the moves that it applied, each with its node, student and rule. Only a close
        applies moves."""
        self.count = event.place
        self.last_step = event.place if event.makes_configuration else self.last_step
        return self.book.add(event)

    def news(self) -> Iterator[News]:
        """Yields each new event of the journal after counting it. Asks for the report after each event except a grant.
        If the last request for a report was refused, first asks again. Raises `Refused` if the server refuses the
        report, unless it is only out of memory for a moment."""
        if self.is_old:
            self.ask_report()
        more = self.journal.read()
        self.torn_since = time.monotonic() if more else self.torn_since
        whole, found, self.rest = (self.rest + more).rpartition(b"\n")
        for event in events((whole + found).decode("ascii")):
            before, moved = self.report, self.take(event)
            self.news_came = time.monotonic()
            if event.kind != "grant":
                self.ask_report()
            yield News(event, moved, before)

    def rewind(self) -> None:
        """Goes back to the beginning of an incomplete last line, since the server that continues the journal removes
        this line."""
        self.journal.seek(-len(self.rest), os.SEEK_CUR)
        self.rest = b""

    def is_halted(self) -> bool:
        """Returns whether a line of the journal couldn't be written or synced. A line is written at once, so an
        incomplete one that stays for seconds couldn't be written. A line that wasn't synced is removed, so that the
        file becomes shorter."""
        is_torn = self.rest != b"" and time.monotonic() - self.torn_since > TORN
        return is_torn or os.fstat(self.journal.fileno()).st_size < self.journal.tell()

    def ask_report(self) -> None:
        """Asks for the report, and keeps it in `report`. If the server is out of memory, leaves the old one there and
        sets `is_old`, so that `news` asks again. Raises `Refused` for any other refusal."""
        try:
            self.report = self.client.report()
            self.is_old = False
        except Refused as refused:
            raise_unless_memory(refused)
            self.is_old = True

    def waiting(self) -> list[tuple[int, str]]:
        """Returns the nodes that are privileged and have no chosen move, each with its rule."""
        return [(node, rule) for node, rule in self.report.privileged if node not in self.book.chosen]
