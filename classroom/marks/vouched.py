"""The records in a run's folder with the verdicts of the command `verify`: copies of the complete entries, together
with the journal so far.

A *record* has a file of entries for each seat, which serves one session after another. An *entry* is a line with its
reply, or a mark, and has the number of events before it. The *journal* lists the events of the run, and a *place* is
the number of an event. The record of a server that was killed may lack its last entries.
"""
from __future__ import annotations

import re
import tempfile
from collections.abc import Iterator
from contextlib import contextmanager
from dataclasses import dataclass
from pathlib import Path

from classroom.core import lab as labs
from classroom.core import limits, plain
from classroom.core.folders import Record
from classroom.core.program import LISTENING, Answer, Fault, host_call
from classroom.core.record import CUT, ENDED, begun, json_object, kept, seats
from classroom.core.statuses import LAB

LAST_BYTES = 1 << 20  # how many of the last bytes of a server's output are read
BEGUN_AFTER = "begun after "  # how the last line of `verify` begins, before the number of events
UNENDED = "the server is still running or was killed, so the last entries of this record may be missing; no student caused this"


@dataclass(frozen=True)
class Vouched:
    """A copy of a record with its lab and the journal, and the verdict on it. The verdict is a status, which is 0 if
    the record is accepted, and a line that says why."""

    record: Path
    copy: Path
    status: int
    line: str
    has_ended: bool = True  # Whether the run's server ended as it should.
    goes_on: bool = False  # Whether the server still runs, so that its open sessions continue.

    @property
    def lab(self) -> Path:
        """Returns the path of the copy of the lab with which the record was made."""
        return self.copy / "lab"

    @property
    def journal(self) -> Path:
        """Returns the path of the copy of the journal. The copy has the events up to the end of the record."""
        return self.copy / "journal"

    @property
    def is_copied(self) -> bool:
        """Returns whether all files of the record could be copied."""
        return self.journal.is_file()

    def verdict_line(self) -> str:
        """Returns the line about the record and its verdict."""
        return f"{self.record}: {self.line}"


def has_ended(run: Path) -> bool:
    """Returns whether the server of the run in a folder ended as it should: it then printed a line `done: ..`.
    If the run was resumed, the folder's output is that of several servers, and only the last one counts. Also returns
    True if the folder has no output of a server. Raises `Fault` if the output can't be read."""
    output = run / "server.txt"
    if not output.is_file():
        return True
    text = plain.tail(output, LAST_BYTES).decode("utf-8", errors="replace")
    return "done: " in LISTENING.split(text)[-1]


def entries_up_to(text: bytes, events: int) -> bytes:
    """Returns the complete entries at the beginning of a seat's text that belong to the first `events` events of the
    journal. Entries show that by the number of events before them, and by the event that they granted. Later entries
    belong to a run that is still going on. Searches from the end, because the numbers of events never fall."""
    end = text.rfind(b"\n") + 1
    while end:
        start = text.rfind(b"\n", 0, end - 1) + 1
        # Missing words are empty. A line with `>` doesn't complete an entry, since its reply is missing. `verify` judges a line without a number.
        _, place, sign, *rest = [*text[start:end - 1].split(b" ", 3), b"", b"", b""]
        number = plain.number(place) if place.isdigit() else 0
        if sign != b">" and number is not None and number <= events and granted_place(sign, rest[0]) <= events:
            break
        end = start
    return text[:end]


def granted_place(sign: bytes, reply: bytes) -> int:
    """Returns the place of the event that a reply granted, or 0 if it granted none. `sign` is that of the entry's line,
    `<` for a reply."""
    place = json_object(reply).get("place") if sign == b"<" else None
    return place if isinstance(place, int) else 0


def is_server_running(run: Path) -> bool:
    """Returns whether the server of the run in a folder is still running."""
    record = Record.read(run)  # This is the content of the file run.json, not a record of lines.
    return record is not None and record.server.lives()


def copy_record(record: Path, into: Path, journal: bytes) -> None:
    """Copies a record into a folder: its entries as far as the journal reaches, its lab, the number of events before
    it, and `journal` itself. Raises `Fault` if a file can't be read."""
    events = journal.count(b"\n")
    for file in seats(record):
        (into / file.name).write_bytes(entries_up_to(plain.read(file, limits.allowed().seat_read), events))
    (into / "lab").write_bytes(plain.read(record / "lab", limits.allowed().lab))
    (into / "begun").write_bytes(plain.read(record / "begun", plain.MOST_KEPT))
    (into / "journal").write_bytes(journal)


def is_open(seat: Path) -> bool:
    """Returns whether a seat's file ends before the end of a session."""
    last = seat.read_bytes().rpartition(b"\n")[0].rpartition(b"\n")[2]
    return last != b"" and not re.fullmatch(rb"\d+ \d+ \.", last)


def mark_incomplete(into: Path) -> None:
    """Marks the copy of a record as one in which entries may be missing, so that `verify` accepts events that no entry
    grants. Appends a session that was cut off to a seat, if possible to one without an open session."""
    events = (into / "journal").read_bytes().count(b"\n")
    for file in sorted(seats(into), key=is_open)[:1]:
        seat = file.name.partition(".")[0]
        with file.open("a", encoding="ascii") as it:
            it.writelines(f"{seat} {events} {sign}\n" for sign in (CUT, ENDED))


@contextmanager
def vouched(run: Path) -> Iterator[list[Vouched]]:
    """Yields the records of a run's folder with their verdicts, the oldest first. Each is verified with the journal up
    to the place at which the next record begins. The copies of the records are removed at the end of the block. Raises
    `Fault` if the journal, the server's output, or the beginning of a record can't be read."""
    is_whole, lives = has_ended(run), is_server_running(run)
    lines = plain.read(run / "journal", limits.allowed().journal).split(b"\n")[:-1]
    records = kept(run)
    ends = [*map(begun, records[1:]), len(lines)]
    with tempfile.TemporaryDirectory() as room:
        yield [vouch(record, Path(room) / str(number), b"".join(line + b"\n" for line in lines[:end]),
                     is_whole or record != records[-1], lives and record == records[-1])
               for number, (record, end) in enumerate(zip(records, ends))]


def vouch(record: Path, into: Path, journal: bytes, is_whole: bool, lives: bool) -> Vouched:
    """Copies a record with the text `journal` into the new folder `into`, verifies the copy, and returns it with the
    verdict. The verdict is a refusal if the record can't be read or has another lab than the run's. `is_whole` says
    whether the server ended as it should. Otherwise the record may lack its last entries, so a copy that is refused is
    verified again as an incomplete one. `lives` says whether the server is running."""
    into.mkdir()
    try:
        copy_record(record, into, journal)
        if not has_lab_of(record.parent, into):
            what = ("this record was made with another lab than the file lab.toml of this run. If lab.toml was changed, undo the change: "
                    "the record's file `lab` is the lab with which it was made")
            return Vouched(record, into, LAB, what, is_whole)
    except Fault as fault:
        return Vouched(record, into, fault.status, str(fault), is_whole)
    answer = verify(into)
    if answer.status and not is_whole:
        mark_incomplete(into)
        answer = verify(into)
    line = verdict(answer)
    return Vouched(record, into, answer.status, line if is_whole else f"{line}: {UNENDED}", is_whole, not is_whole and lives)


def verdict(answer: Answer) -> str:
    """Returns the verdict in an answer of the command `verify`: the first line of its output, or its error line. If
    events came before the record, adds `verify`'s last line, which has their number."""
    first, *rest = (answer.output or answer.error).strip().split("\n")
    is_later = answer.status == 0 and rest and not rest[-1].startswith(f"{BEGUN_AFTER}0 ")
    return f"{first}, {rest[-1]}" if is_later else first


def has_lab_of(run: Path, copy: Path) -> bool:
    """Returns whether the lab of a copy agrees with the run's lab in all that a journal refers to. Returns False if the
    labs differ as files and one of them is refused. Raises `Fault` if the run's lab can't be read."""
    if (copy / "lab").read_bytes() == plain.read(run / "lab.toml", limits.allowed().lab):
        return True
    try:
        return labs.is_same(labs.read(copy / "lab"), labs.read(run / "lab.toml"))
    except Fault:
        return False


def verify(copy: Path) -> Answer:
    """Runs the command `verify` for the copy of a record. Returns its output and status. Raises `Fault` if the program
    isn't built."""
    return host_call("verify", copy / "lab", copy / "journal", copy)
