"""The record: each line with its reply, in a file for each seat, and its verification with a journal. A *seat* serves
one connection after another, and an *entry* is a line with its reply, or a mark. A *place* is an event's number."""
import re
from dataclasses import dataclass, field
from pathlib import Path
from typing import NamedTuple

from model.events import apply
from model.fault import Fault, read_file
from model.journal import Event
from model.lab import Lab
from model.requests import GREATEST, read_request
from model.run import LONGEST_REQUEST, answer

MOST_BEGUN, MOST_RECORD, NEWLINE = 20, 2**30, b"\n"
BYE, NO_MEMORY, NO_JOURNAL = b'{"ok":"bye"}', b'{"refuse":"memory"}', b'{"refuse":"journal"}'
NUMERAL = rb"(?:0|[1-9][0-9]{0,19})"
# Each line of an entry begins with a stamp: the number of the seat, and the number of events seen before the entry.
STAMP = rb"(?P<seat>%s) (?P<seen>%s) " % (NUMERAL, NUMERAL)
ASKED = re.compile(STAMP + rb"> ")
# The patterns of entries: of a line with its reply, which has the same stamp, and of a mark. The mark `+` has the number
# of the lines that weren't recorded. `Seat.take` has what each kind of entry means.
SAID = re.compile(STAMP + rb"> (?P<line>[^\n]*)\n(?P=seat) (?P=seen) < (?P<reply>[^\n]*)\n")
MARK = re.compile(STAMP + rb"(?:(?P<mark>[.!-])|\+ (?P<missed>%s))\n" % NUMERAL)
# The stages of a session. FRESH: nothing was recorded yet. OPEN: lines may come. OVER: after a bye. CUT: entries may be
# missing up to the end. PAUSED: recording has paused. RESUMING: it resumes, and a granted hello or the end has to follow.
FRESH, OPEN, OVER, CUT, PAUSED, RESUMING = "fresh", "open", "over", "cut", "paused", "resuming"


def is_command(line: bytes) -> bool:
    """Returns whether a line is a request other than a hello or a bye, so that the clauses decide about it."""
    asked = read_request(line)
    return asked is not None and asked.do not in ("hello", "bye")


class Entry(NamedTuple):
    """An entry: its mark (`>` for an answered line), the number of events seen before it, where its text ends, and an answered line's two texts."""

    mark: bytes
    seen: int
    end: int
    line: bytes = b""
    reply: bytes = b""


class Said(NamedTuple):
    """An answered line: the name of the connection when it came, the line, and its reply."""

    known: str | None
    line: bytes
    reply: bytes


@dataclass
class Record:
    """The contents of all seats' records."""

    begun: int = 0  # how many events came before
    sessions: int = 0
    said: list[Said] = field(default_factory=list)
    granted: list[int] = field(default_factory=list)
    is_cut: bool = False  # whether anything may be missing somewhere
    is_paused: bool = False  # whether recording paused somewhere
    lacking: set[str] = field(default_factory=set)  # who was known when it paused

    def is_whole(self) -> bool:
        """Returns whether nothing is missing."""
        return not self.is_cut and not self.is_paused

    def whole(self, lab: Lab) -> list[str]:
        """Returns the words of the line `whole`, which `verify` and `tally` print: this word, and the names of those
        whose lines are all recorded, the teacher first. If `is_cut` is set, there are no such names."""
        return ["whole", *(name for name in lab.keys if not self.is_cut and name not in self.lacking)]


class Seat:
    """The record of a seat while it is read: entry by entry, along the events of a journal."""

    def __init__(self, lab: Lab, events: list[Event], number: int, record: Record) -> None:
        """Begins before the first entry of the seat with this number. Adds what it reads to `record`."""
        self.lab, self.events, self.number, self.record = lab, events, number, record
        self.world = lab.opening()  # after the events that had been seen
        self.known: str | None = None  # who is known in the session
        self.stage = FRESH
        # The numbers of events before the lines refused with `journal`: of those since the last mark `!`, and of those after which more events came.
        self.halts, self.outlived = list[int](), list[int]()

    def entry(self, text: bytes, at: int) -> Entry | str:
        """Returns the entry that begins at the byte `at` of the text, or as a string the reason why there is none."""
        said, mark = SAID.match(text, at), MARK.match(text, at)
        if said and self.is_stamp(said):
            return Entry(b">", int(said["seen"]), said.end(), said["line"], said["reply"])
        if mark and self.is_stamp(mark) and int(mark["missed"] or 0) <= GREATEST:
            return Entry(mark["mark"] or b"+", int(mark["seen"]), mark.end())
        # The text breaks off within the entry if its first line has no newline, or is one with `>` and the next line has none.
        line, newline, rest = text[at:].partition(b"\n")
        asked = ASKED.match(line)
        return "torn" if not newline or asked and self.is_stamp(asked) and b"\n" not in rest else "not an entry"

    def is_stamp(self, found: re.Match[bytes]) -> bool:
        """Checks the first stamp in `found`, a match of a pattern that begins with STAMP. Returns whether the stamp has
        the number of this seat, and a number of events that fits into 64 bits."""
        return int(found["seat"]) == self.number and int(found["seen"]) <= GREATEST

    def advance(self) -> None:
        """Applies the next event of the journal to the seat's world."""
        apply(self.world, self.events[self.world.place].asked)

    def take(self, entry: Entry) -> str | None:
        """Reads the next entry, with the events before it. Returns why it can't be there, or None if it can."""
        if entry.seen < self.world.place:
            return "goes back"
        if entry.seen > len(self.events):
            return "past the journal's end"
        if entry.seen > self.world.place and not self.may_rise(entry):
            return "goes ahead"
        while self.world.place < entry.seen:
            self.advance()
        # The first of the refusals comes after the fewest events, so it is enough to look at that one.
        self.outlived += [halt for halt in self.halts[:1] if halt < entry.seen]
        # The session ended, and the next one begins: nobody is known.
        if entry.mark == b".":
            self.known, self.stage = None, OPEN
            self.record.sessions += 1
        # Anything may be missing up to the session's end.
        elif entry.mark == b"!":
            self.known, self.stage, self.halts, self.record.is_cut = None, CUT, [], True
        # Recording pauses. If an account is known, its lines aren't recorded from here on.
        elif entry.mark == b"-":
            self.stage = PAUSED
            self.record.is_paused = True
            self.record.lacking.update([] if self.known is None else [self.known])
        # Recording resumes, which is possible only after a pause.
        elif entry.mark == b"+":
            if self.stage != PAUSED:
                return "not after a pause"
            self.stage = RESUMING
        else:
            return self.judge(entry)
        return None

    def may_rise(self, entry: Entry) -> bool:
        """Returns whether the number of events at an entry may be greater than at the entry before."""
        # The seat's record begins here, or lines that aren't recorded may have come since the entry before.
        if self.stage in (FRESH, PAUSED, CUT) or entry.mark in (b"!", b"+") or entry.mark == b"-" and self.known is not None:
            return True
        # The teacher, and students who own a node, may have had a granted view, which has no entry.
        if self.known == self.lab.teacher or any(self.known in owners for owners in self.lab.owners.values()):
            return True
        # The reply to a command takes new events into account, unless the line is refused with `memory`.
        return entry.mark == b">" and entry.reply != NO_MEMORY and self.known is not None and is_command(entry.line)

    def judge(self, entry: Entry) -> str | None:
        """Checks an entry with an answered line. Returns the reason why no line may come now or why its reply is wrong, or None if neither is so."""
        if self.stage in (OVER, CUT, PAUSED):
            return "not the session's end"
        before = self.known
        why = self.check(entry)
        # The line after a pause has to be a granted hello: before it no account was known, and after it one is.
        if self.stage == RESUMING and (why or before is not None or self.known is None):
            return "not a hello that is granted"
        self.stage = OVER if entry.reply == BYE else OPEN
        return why

    def check(self, entry: Entry) -> str | None:
        """Checks the reply in an entry, and applies an event that it grants. Returns why it is wrong, or None."""
        place = self.world.place
        found = answer(self.lab, self.world, self.known, entry.line)
        said = Said(self.known, entry.line, entry.reply)
        # Any line may be refused with `memory`, and a granted event with `journal`. A refused line changes nothing.
        refusals = [NO_MEMORY] if found.event is None else [NO_MEMORY, NO_JOURNAL]
        if entry.reply in refusals and len(entry.line) <= LONGEST_REQUEST:
            self.record.said.append(said)
            self.halts += [place] if entry.reply == NO_JOURNAL else []
            return None
        # An event that the line grants must be the next one of the journal. Lists are compared, because the journal may have no next one.
        event = found.event and [Event(place + 1, self.world.number, str(self.known), found.event)]
        # A view that was shown has no entry.
        is_reply = not found.is_view and entry.reply == found.reply.encode("ascii")
        if is_reply and event and event != self.events[place : place + 1]:
            return f"not the journal's event at place {place + 1}"
        if not is_reply or len(entry.line) > LONGEST_REQUEST:  # A longer line is never answered as a request.
            return f"not the reply of the rules at place {place}"
        if found.event is not None:
            if self.halts:
                return "granted after the refusal journal"
            self.record.granted.append(place + 1)
            apply(self.world, found.event)
        self.record.said.append(said)
        self.known = found.known
        return None

    def read(self, text: bytes) -> None:
        """Checks the text of the seat's record. Raises `Fault` with the line of the first impossible entry, or if events follow a refusal `journal`."""
        at = 0
        while at < len(text):
            entry = self.entry(text, at)
            why = entry if isinstance(entry, str) else self.take(entry)
            if isinstance(entry, str) or why:
                raise Fault(f"verify: seat {self.number}, line {1 + text.count(NEWLINE, 0, at)}: {why}", 3)
            at = entry.end
        self.outlived += [halt for halt in self.halts[:1] if halt < len(self.events)]
        if self.outlived:
            raise Fault(f"verify: seat {self.number}: refused with journal after {self.outlived[0]} events, but more events follow", 3)


def check_places(record: Record, events: int) -> None:
    """Raises `Fault` if the seats' replies grant a place from before the record, or a place twice. If the record is whole, also raises it for a place after
    its beginning that no reply grants. The journal has `events` events, with the places from 1."""
    seen: set[int] = set()
    for place in record.granted:
        if place <= record.begun or place in seen:
            raise Fault(f"verify: place {place}: granted {'before the record began' if place <= record.begun else 'twice'}", 3)
        seen.add(place)
    for place in range(record.begun + 1, events + 1):
        if record.is_whole() and place not in seen:
            raise Fault(f"verify: place {place}: granted in no record", 3)


def read_record(lab: Lab, events: list[Event], folder: Path) -> Record:
    """Returns the record in a folder, checked along the events of a journal. Raises `Fault` if the record doesn't pass."""
    begun = read_file(folder / "begun", "record", MOST_BEGUN).removesuffix(b"\n")
    if not re.fullmatch(rb"[0-9]{1,19}", begun):
        raise Fault("read fault: record", 4)
    record = Record(begun=int(begun))
    for number in range(1, lab.sessions + 1):
        Seat(lab, events, number, record).read(read_file(folder / f"{number}.record", "record", MOST_RECORD))
    check_places(record, len(events))
    return record


def verified(lab: Lab, record: Record, events: list[Event]) -> str:
    """Returns the output of `verify` for a record that passes."""
    first = f"ok: {record.sessions} sessions, {len(record.said)} lines, {len(events)} events{'' if record.is_whole() else ', not whole'}"
    return f"{first}\n{' '.join(record.whole(lab))}\nbegun after {record.begun} events\n"
