"""`./class history`: what a student's connections sent, the replies, and the steps between them.

A *record* has the lines and replies of all connections, as entries. A *session* is one connection's entries, and a
*seat* serves one session after another. A *place* is the number of an event in the journal, the file that lists the
run's events. Keys are hidden in all texts. A parameter `said` is a session.
"""
from __future__ import annotations

import argparse
import csv
import sys
from collections.abc import Iterator
from dataclasses import dataclass, replace
from html import escape
from itertools import groupby
from pathlib import Path

from classroom.core import lab as labs
from classroom.core import classes, folders
from classroom.core.counts import plural
from classroom.core.journal import Event, events, in_words
from classroom.core.present import Book
from classroom.core.printable import guarded, printable
from classroom.core.program import Fault
from classroom.core.record import CUT, ENDED, PAUSED, RESUMED, Entry, Reader, seats
from classroom.marks.hiding import Hider
from classroom.marks.reasons import reasons
from classroom.marks.vouched import Vouched, vouched
from classroom.pages import kept_layout
from classroom.pages.frames import frames_of
from classroom.pages.page import Played

HEADS = ["place", "seat", "session", "asked", "reply", "denied", "event"]
MARKS = {
    CUT: "the rest of this connection isn't recorded", ENDED: "this connection ended",
    PAUSED: "from here on the lines of this connection aren't recorded", RESUMED: "recording begins again; number of lines that weren't recorded: {}",
}
GOES_ON = "this connection is still open"
GUARD = "guard"  # the denial of a move by its rule's guard
Session = list[Entry]
Said = tuple[Vouched, Session, set[str]]  # a session with its record, and the names under which it greeted or tried to


@dataclass(frozen=True)
class Row:
    """One row of a history: a line with its reply, the end of a connection, or an event. `place` is the number of
    events up to it, including an event itself. `seat` and `session` are 0 for an event. `denied` is the name of the
    denial or refusal in the reply. `event` is a text about what else happened."""

    place: int
    seat: int = 0
    session: int = 0
    asked: str = ""
    reply: str = ""
    denied: str = ""
    event: str = ""
    latest: int = 0  # the most events that can have come before, if the record doesn't have the exact number

    @property
    def at(self) -> int:
        """Returns the number of events after which the row is listed."""
        return max(self.place, self.latest)

    def after(self) -> str:
        """Returns a text with the number of events before the row. If the record doesn't have the exact number, the
        text has the least and the greatest possible one."""
        return f"after {self.place} to {self.latest} events" if self.latest > self.place else f"after {plural(self.place, 'event')}"


def add_words(words: argparse.ArgumentParser) -> None:
    """Adds the arguments of `history` to its parser."""
    words.add_argument("folder", metavar="FOLDER", help="the folder of a run or of a class, which may be going on")
    words.add_argument("name", metavar="NAME", help="a student's name in the lab, or the teacher's")
    form = words.add_mutually_exclusive_group()
    form.add_argument("--csv", action="store_true", help="print the lines as CSV, for a spreadsheet")
    form.add_argument("-o", "--output", metavar="FILE.html",
                      help="make a page with the lines; each has a link that shows the network at its moment")
    words.set_defaults(work=history)


def sessions(part: Vouched) -> Iterator[Session]:
    """Yields the sessions in `part`, the record of one server, seat by seat. The last session of a seat may be
    incomplete."""
    for file in seats(part.copy):
        said: Session = []
        for entry in Reader().take(file.read_bytes()):
            said.append(entry)
            if entry.mark == ENDED:
                yield said
                said = []
        if said:
            yield said


def names_of(said: Session) -> set[str]:
    """Returns the names of the students or teachers whose hello was granted in a session. If no hello was granted,
    returns the names in its denied hellos."""
    told = [(entry, entry.reply_texts()) for entry in said if not entry.mark]
    known = {reply["who"] for _, reply in told if "who" in reply}
    return known or {name for entry, reply in told if reply.get("deny") == "unknown" and (name := entry.asked_name()) is not None}


def sessions_of(parts: list[Vouched]) -> list[Said]:
    """Returns the sessions of all records in `parts`, each with its record and with the names of those who greeted or
    tried to greet in the session."""
    return [(part, said, names_of(said)) for part in parts for said in sessions(part)]


def rows_of(every: list[Said], name: str, hider: Hider) -> list[Row]:
    """Returns the rows of all sessions of the student or teacher `name`, in the order of their places. `every` has the
    sessions of all, and `hider` hides keys. Rows with the same place stay in the order of the sessions and of their
    entries."""
    found: list[Row] = []
    for number, (part, said, _) in enumerate((each for each in every if name in each[2]), 1):
        count, latest = beginning(said)
        found += [replace(row_of(entry, number, hider), latest=latest if index < count else 0) for index, entry in enumerate(said)]
        found += left_open(part, said, number)
    return sorted(found, key=lambda row: row.at)


def beginning(said: Session) -> tuple[int, int]:
    """Returns how many entries a session has up to its granted hello, and the most events that can have come before
    these entries. The second number is needed because the session didn't see the journal before the hello, so its first
    entries have the place of the seat's last session. It is the place of the entry after the hello, or 0 if there is no
    such entry."""
    count = next((index for index, entry in enumerate(said, 1) if not entry.mark and entry.reply_texts().get("ok") == "hello"), len(said))
    return count, said[count].place if count < len(said) else 0


def left_open(part: Vouched, said: Session, session: int) -> list[Row]:
    """Returns the last row of `said` if this session hasn't ended, as a list. `part` is the session's record, and
    `session` its number. The row says that the session continues if the server is running, and otherwise that its later
    lines aren't recorded. Returns an empty list if the session has ended, or if its last entry says so already."""
    if said[-1].mark == ENDED or said[-1].mark == CUT and not part.goes_on:
        return []
    events = part.journal.read_bytes().count(b"\n")
    return [Row(events, said[-1].seat, session, event=GOES_ON if part.goes_on else MARKS[CUT])]


def row_of(entry: Entry, session: int, hider: Hider) -> Row:
    """Returns the row of an entry in the session with this number. `hider` hides keys in the entry's line."""
    if entry.mark:
        return Row(entry.place, entry.seat, session, event=MARKS[entry.mark].format(entry.missed))
    told = entry.reply_texts()
    reply = printable(entry.reply.decode(errors="backslashreplace"))
    denied = told.get("deny") or told.get("refuse") or ""
    return Row(entry.place, entry.seat, session, hider.line(entry.line), reply, denied)


def steps(lab: labs.Lab, journal: list[Event], name: str, own: set[int]) -> Iterator[Row]:
    """Yields a row for each event in `journal` of one of three kinds. These are closed steps, other events that made a
    configuration, and other events at the nodes of the student `name` in `lab`. Leaves out the events whose places are
    in `own`, because the student's lines show them already."""
    book, nodes = Book(list(lab.students)), set(lab.nodes_of(name))
    for event in journal:
        moved = book.add(event)
        if event.place in own:
            continue
        if event.kind == "close":
            nodes_moved = ", ".join(f"node {node} ({who}): {rule}" for node, who, rule in moved)
            what = f"configuration {event.at + 1}: {nodes_moved}"
        elif event.makes_configuration:
            what = f"configuration {event.at + 1}: {in_words(event).removeprefix('⚡ ')}"
        elif nodes & set(event.nodes):
            what = f"{'granted: ' * (event.kind == 'grant')}{in_words(event)}"
        else:
            continue
        yield Row(event.place, event=what)


def merged(lines: list[Row], between: list[Row]) -> list[Row]:
    """Returns the rows in `lines`, which are about lines, and those in `between`, which are about events, in one order.
    An event comes before the lines that were answered after it."""
    return sorted([*between, *lines], key=lambda row: (row.at, row.seat > 0))


def text(verdicts: list[str], rows: list[Row]) -> str:
    """Returns the history as text for people: first the lines in `verdicts`, each about a record and its verdict, and
    then the rows."""
    lines = [*verdicts]
    for row, count in grouped(rows):
        head = f"  {row.after()}, seat {row.seat}{times(count)}"
        if not row.seat:
            lines.append(f"  event {row.place}: {row.event}")
        elif row.event:
            lines.append(f"{head}: {row.event}")
        else:
            lines += [f"{head} > {row.asked}", f"{'':{len(head)}} < {row.reply}"]
    return "\n".join(lines) + "\n"


def grouped(rows: list[Row]) -> list[tuple[Row, int]]:
    """Returns the rows without repetitions: of rows that follow each other and are equal, the first one and their
    number."""
    return [(row, len(list(same))) for row, same in groupby(rows)]


def times(count: int) -> str:
    """Returns a count as text for people, or an empty text if the count is 1."""
    return f", {count} times" if count > 1 else ""


def cells(row: Row) -> list[str]:
    """Returns the cells of a row for a table. A cell that a spreadsheet would take for a formula begins with an
    apostrophe."""
    every = [str(row.place), str(row.seat or ""), str(row.session or ""), row.asked, row.reply, row.denied, row.event]
    return list(map(guarded, every))


def section(title: str, verdicts: list[str], rows: list[Row], why: dict[tuple[int, str], str] | None = None) -> str:
    """Returns a section of the player's page as HTML: the heading `title`, the lines in `verdicts`, each about a
    record, and the rows. Each row links to its place. `why` has the reasons of denied moves, by the number of events
    before the move and its line."""
    items = [f'<li><a href="#p={row.at}">{row.after()}</a> {item(row, count)}{reason((why or {}).get((row.place, row.asked), ""))}</li>'
             for row, count in grouped(rows)]
    heads = "".join(f"<p>{escape(line)}</p>" for line in verdicts)
    text = f'<h2>{escape(title)}</h2>{heads}<ol>{"".join(items)}</ol>'
    return f'<section class="history" aria-label="history">{text}</section>'


def item(row: Row, count: int) -> str:
    """Returns the text of a row as HTML. `count` is the number of equal rows that follow each other, of which this is
    the first."""
    if row.event:
        return escape(row.event if not row.seat else f"seat {row.seat}: {row.event}")
    reply = f"<strong>{escape(row.reply)}</strong>" if row.denied else escape(row.reply)
    return f"seat {row.seat}{times(count)} <code>{escape(row.asked)}</code> <code>{reply}</code>"


def reason(text: str) -> str:
    """Returns the reason of a denial as HTML, or an empty text if `text` is empty."""
    return f" <em>{escape(text)}</em>" if text else ""


def guard_denials(rows: list[Row]) -> list[tuple[int, str]]:
    """Returns the moves that were denied by a guard, each as the number of events before it and its line."""
    return [(row.place, row.asked) for row in rows if row.denied == GUARD]


def own_page(title: str, name: str, lab_file: Path, journal: Path, verdicts: list[str], lines: list[Row]) -> str:
    """Returns the page of the run with this lab and journal for the student `name`, as HTML. Beside the player it has
    the lines in `verdicts`, each about a record, and the rows in `lines`, which have what the student sent. A denial by
    a guard has the part of the guard that failed beside it. `title` is the page's title. Raises `Fault` if the audit
    refuses the journal."""
    kept_layout.load(lab_file.parent)
    lab, frames = frames_of(lab_file, journal)
    happened = events(journal.read_text(encoding="ascii"))
    rows = with_steps(lab, happened, name, lines)
    return Played(lab, frames).page(title, section(f"What {name} sent", verdicts, rows, reasons(lab, happened, guard_denials(lines))))


def with_steps(lab: labs.Lab, journal: list[Event], name: str, lines: list[Row]) -> list[Row]:
    """Returns the rows `lines`, which have what the student `name` of `lab` sent, in one order with rows for the steps
    between them. `journal` has the events of the run."""
    # An entry's place counts the events before it. If its reply has a place, the entry granted the next event.
    own = {row.place + 1 for row in lines if '"place":' in row.reply}
    return merged(lines, [*steps(lab, journal, name, own)])


def hider_of(parts: list[Vouched], lab: labs.Lab) -> Hider:
    """Returns the object that hides all keys of `lab`, and those of the labs in `parts`, the run's records. Such a lab
    may have earlier keys. Raises `Fault` if one of these labs is refused."""
    every = [lab, *(labs.read(part.lab) for part in parts)]
    keys = {key for each in every for key in (*each.students.values(), each.teacher[1])}
    return Hider(keys, [*lab.students, lab.teacher[0]])


def history(words: argparse.Namespace) -> int:
    """Prints what a student's connections sent, as text or as CSV, or writes it as a page. Returns the exit status.
    Raises `Fault` if the run has no record, or no student or teacher of that name, or if `verify` refuses a record."""
    name = words.name
    run = classes.run_of(Path(words.folder), name)
    lab_file, journal = folders.of_folder(run)
    lab = labs.read(lab_file)
    if name not in lab.students and name != lab.teacher[0]:
        raise Fault(f"{run}: this run has no student called {name}. Its students are: {', '.join(lab.students)}")
    with vouched(run) as parts:
        if not parts:
            raise Fault(f"{run}: this run has no record, so what the students sent isn't known")
        refused = [part for part in parts if part.status]
        if refused:
            raise Fault(refused[0].verdict_line(), refused[0].status)
        verdicts = [part.verdict_line() for part in parts]
        lines = rows_of(sessions_of(parts), name, hider_of(parts, lab))
        if words.output:
            page = own_page(f"{name}: {folders.title(lab_file, journal)}", name, lab_file, parts[-1].journal, verdicts, lines)
            Path(words.output).write_text(page, encoding="utf-8")
            print(f"the page is written to {words.output} ({len(page.encode())} bytes)")
            return 0
        rows = with_steps(lab, events(parts[-1].journal.read_text(encoding="ascii")), name, lines)
        if words.csv:
            csv.writer(sys.stdout, lineterminator="\n").writerows([HEADS, *map(cells, rows)])
        else:
            print(text(verdicts, rows), end="")
    return 0
