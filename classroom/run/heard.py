"""The connections and requests that the record of a running class shows: wrong keys, denied requests, and floods.

The *record* has a file of entries for each *seat*, which serves one connection after another. An *entry* is a line with
its reply, or a mark. A *place* is the number of an event, and the last *step* is the last event that made a
configuration. The *desk* is the teacher's connection, with the terminal at which the lines are printed.
"""
from __future__ import annotations

import time
from collections import Counter, defaultdict
from collections.abc import Iterable
from dataclasses import dataclass, field
from pathlib import Path

from classroom.core import plain
from classroom.core.counts import plural
from classroom.core.lab import Lab
from classroom.core.program import Fault
from classroom.core.record import CUT, ENDED, PAUSED, RESUMED, Entry, Reader, seats

PAUSE = 1.0  # seconds between two looks
MOST = 1 << 20  # the most bytes of a seat's file that are read at one look
VAIN = 10  # how many denials of a kind a student gets in a step before a line about them is printed
FLOOD = 100.0  # how many lines a second of a student count as a flood
FEW = 4  # the most students who came or went since the last look that get a line each
NOBODY = "a connection without a hello"
OTHERS = "names that aren't in the lab"
MALFORMED = "malformed"
OVER = ("full", "journal")
DESK = 1  # the number of the desk's seat


@dataclass
class Seat:
    """A seat's file as it grows, and the name that its connection has greeted with."""

    at: int = 0  # How many bytes of the seat's file were read.
    reader: Reader = field(default_factory=Reader)
    name: str | None = None  # The name that the connection has greeted with.

    def read_more(self, path: Path) -> bytes:
        """Returns the bytes that the file at a path has gained since the last read, at most MOST. Returns none if it
        can't be read."""
        try:
            with plain.open_plain(path) as it:
                it.seek(self.at)
                found = it.read(MOST) or b""
        except (Fault, OSError):
            return b""
        self.at += len(found)
        return found


def denial_words(word: str) -> str:
    """Returns a text for the word of a denial or refusal, such as "denied as `guard`"."""
    return f"refused as `{word}`" if word == MALFORMED else f"denied as `{word}`"


def together(what: str, who: list[str]) -> list[str]:
    """Returns the lines that say `what` (`connected` or `disconnected`) about the names in `who`. There is one line for
    each name, or one line for all if they are more than FEW."""
    if len(who) <= FEW:
        return [f"{what}: {each}" for each in who]
    return [f"{what}: {plural(len(who), 'student')}: {'; '.join(who)}"]


class Heard:
    """The counts of what is in a record as it grows, for lines at the desk. The lines name students, and never show
    what they sent."""

    def __init__(self, folder: Path, lab: Lab) -> None:
        """Follows the record in a folder, from its beginning. The lab names the students."""
        self.folder, self.lab = folder, lab
        self.seats: dict[Path, Seat] = {}
        self.wrong: Counter[str] = Counter()  # the number of wrong keys, by the name in the hello
        self.vain: dict[tuple[str, str], Counter[int]] = defaultdict(Counter)  # by name and word: denials at each place
        self.told: Counter[tuple[str, str]] = Counter()  # the counts that were last printed, by their subject
        self.lines: Counter[str] = Counter()  # the number of lines of each student since the last look
        self.floods: dict[str, int] = {}  # the students who flood, with the lines a second that were last printed
        self.cut: list[str] = []  # whose lines have ceased to be recorded since the last look
        self.shown: Counter[str] = Counter()  # the number of connections of each student that were printed
        self.step = 0
        self.came = False  # Whether a student has greeted.
        self.students = lab.without_house().students.keys()
        self.over = ""  # `full` or `journal` once a line was refused for this reason; from then on nothing is granted
        self.due = self.last = time.monotonic()

    def catch_up(self, step: int) -> None:
        """Counts what the record has already, so that later lines are only about what is new. Forgets an earlier
        refusal as `full` or `journal`, since the run continues. `step` is the place of the last step."""
        while self.read():
            pass
        self.forget_before(step)
        self.told.update({("wrong", name): count for name, count in self.wrong.items()})
        self.told.update({key: sum(at.values()) for key, at in self.vain.items()})
        self.lines.clear()
        self.cut.clear()
        self.over = ""

    def begin(self) -> None:
        """Sets `came` to whether a student is connected now. It is called when a new server has started, so students
        who were connected to an earlier server of the run don't count."""
        self.came = not self.students.isdisjoint(self.connected())

    def news(self, step: int) -> list[str]:
        """Returns lines about what is new since the last check, or none if that is less than a second ago. `step` is
        the place of the last step."""
        now = time.monotonic()
        return self.look(step, now) if now >= self.due else []

    def look(self, step: int, now: float) -> list[str]:
        """Returns lines about what is new since the last check. `now` is the present time, and `step` the place of the
        last step."""
        seconds = max(now - self.last, PAUSE)
        self.last, self.due = now, now + PAUSE
        self.read()
        self.forget_before(step)
        return [*self.come_and_gone(), *self.wrong_keys(), *self.in_vain(), *self.flooding(seconds), *self.cut_short()]

    def read(self) -> bool:
        """Counts the new entries in all files. Returns whether a file may have more."""
        more = False
        for path in seats(self.folder):
            seat = self.seats.setdefault(path, Seat())
            found = seat.read_more(path)
            more = more or len(found) == MOST
            for entry in seat.reader.take(found):
                self.take(seat, entry)
        return more

    def take(self, seat: Seat, entry: Entry) -> None:
        """Counts an entry in the file of a seat, and notes from it the name with which the seat's connection greets, or
        that the connection has ended. Also notes that later lines aren't recorded, and that nothing more is granted.
        Requests at the desk, and those of the teacher, don't count as denied."""
        who = seat.name or NOBODY
        if entry.mark == ENDED:
            seat.name = None
        elif entry.mark in (CUT, PAUSED):
            self.cut.append(who)
        elif entry.mark != RESUMED:
            self.lines[who] += entry.seat != DESK  # Lines at the desk aren't counted.
            told = entry.reply_texts()
            self.over = told["refuse"] if told.get("refuse") in OVER else self.over
            if told.get("ok") == "hello" and "who" in told:
                seat.name = told["who"]
                self.came = self.came or seat.name in self.students
            elif told.get("deny") == "unknown":
                self.count_wrong_key(entry.asked_name())
            elif entry.seat != DESK and who != self.lab.teacher[0]:
                word = told.get("deny") or (MALFORMED if told.get("refuse") == MALFORMED else "")
                if word:
                    self.vain[who, word][entry.place] += 1

    def count_wrong_key(self, name: str | None) -> None:
        """Counts a wrong key in a hello with this name. Names that the lab lacks are counted together."""
        known = name is not None and (name in self.lab.students or name == self.lab.teacher[0])
        self.wrong[name if known and name else OTHERS] += 1

    def forget_before(self, step: int) -> None:
        """Forgets the denials that came before the last step, whose place is `step`. If this step is a new one, also
        forgets how many denials of each student were printed."""
        if step != self.step:
            self.told = Counter({key: count for key, count in self.told.items() if key[0] == "wrong"})
        self.step = step
        for at in self.vain.values():
            for place in [place for place in at if place < step]:
                del at[place]

    def connected(self) -> Counter[str]:
        """Returns the number of open connections of each name, without the desk's."""
        return Counter(seat.name for path, seat in self.seats.items() if seat.name and path.name != f"{DESK}.record")

    def come_and_gone(self) -> list[str]:
        """Returns lines about names whose number of connections has changed since the last call."""
        before, now = self.shown, self.connected()
        self.shown = now
        come = [name + (f", {plural(now[name], 'connection')}" if now[name] > 1 else "")
                for name in sorted(now) if now[name] > before[name]]
        gone = [name + (f", {plural(now[name], 'connection')} left" if now[name] else "")
                for name in sorted(before) if now[name] < before[name]]
        return together("connected", come) + together("disconnected", gone)

    def note_if_news(self, key: tuple[str, str], count: int, least: int) -> bool:
        """Returns whether the line about `key` with this count is to be printed, and notes the count if so. The count
        has to be at least `least`, and at least twice the last one that was printed for `key`."""
        if count < max(least, 2 * self.told[key]):
            return False
        self.told[key] = count
        return True

    def wrong_keys(self) -> list[str]:
        """Returns a line about the wrong keys for each name, whenever their number has doubled. Names that the lab
        lacks have one line together."""
        new = [(name, plural(count, "hello")) for name, count in self.wrong.items() if self.note_if_news(("wrong", name), count, 1)]
        return [f"{hellos} with a name that isn't in the lab" if name == OTHERS else f"{hellos} with a wrong key for {name}" for name, hellos in new]

    def denied(self) -> list[tuple[str, str, int]]:
        """Returns who was denied since the last step: for each student and each kind of denial the name, the word of
        the denial or refusal, and the count."""
        return [(name, word, at.total()) for (name, word), at in self.vain.items() if at.total()]

    def in_vain(self) -> list[str]:
        """Returns lines about students who were denied since the last step. A student gets a line after VAIN denials of
        one kind, and whenever their number has doubled."""
        return [f"{plural(count, 'request')} of {name} since the last step {'was' if count == 1 else 'were'} {denial_words(word)}"
                for name, word, count in self.denied() if self.note_if_news((name, word), count, VAIN)]

    def flooding(self, seconds: float) -> list[str]:
        """Returns lines about the students who began to flood, and those who stopped. `seconds` is the time since the
        last call."""
        rates = {name: round(count / seconds) for name, count in self.lines.items() if count / seconds >= FLOOD}
        self.lines.clear()
        begun = [f"{name} sends too much: {rate} lines a second" for name, rate in rates.items() if name not in self.floods]
        over = [f"{name} no longer sends too much" for name in self.floods if name not in rates]
        self.floods = rates
        return begun + over

    def cut_short(self) -> list[str]:
        """Returns lines about the students whose lines have ceased to be recorded since the last call."""
        names, self.cut = self.cut, []
        lines = []
        for name in dict.fromkeys(names):
            whose, counted = (name, "connections without a hello") if name == NOBODY else (f"this connection of {name}", f"the lines of {name}")
            lines.append(f"the further lines of {whose} aren't recorded: the limit for {counted} is reached, or the record can't be written, for example "
                         "because the disk is full. `mark` doesn't count these lines, and `history` doesn't show them, but granted moves are still in "
                         "the journal. If the disk is full, make room now")
        return lines

    def who(self, count: int, all_seats: int, otherwise: Iterable[str] = ()) -> str:
        """Returns a text about who is connected, and how many of all seats are taken. `count` is the number of
        connections that the system reports. `otherwise` has texts about the students who play on the page and not by a
        program: a name, a comma, and how the student is connected. Such a text stands in place of one connection of its
        name."""
        known, every = self.connected(), self.connected().total()
        how = [text for text in otherwise if known[text.partition(",")[0]]]
        known.subtract(text.partition(",")[0] for text in how)
        names = [name if times == 1 else f"{name} with {times} connections" for name, times in sorted(known.items()) if times > 0] + how
        others = max(count - every, 0)
        names += [f"{plural(others, 'connection')} without a hello"] if others else []
        return f"{', '.join(names) or 'nobody'} ({max(count, every)} of {all_seats} seats are taken)"

    def amiss(self) -> list[str]:
        """Returns lines for the command `who`: about wrong keys, about students who were denied since the last step,
        and about floods."""
        wrong = ", ".join(f"{count} for {name}" for name, count in self.wrong.items())
        vain = [f"{plural(count, 'request')} of {name} {denial_words(word)}" for name, word, count in self.denied()]
        floods = ", ".join(f"{name} ({rate} lines a second)" for name, rate in self.floods.items())
        told = (f"hellos with wrong keys: {wrong}" if wrong else "", f"since the last step: {'; '.join(vain)}" if vain else "",
                f"sending too much: {floods}" if floods else "")
        return [line for line in told if line]
