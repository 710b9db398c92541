"""The record that a server should write of a run: a text for each seat, written as the lines come.

A seat serves one connection (a session) after another. An entry is a line with its reply, or a mark. Each line of an
entry begins with the number of its seat, and the number of events that the seat had read before.
"""
import json
from collections.abc import Collection

from model import Lab, Run
from model.record import is_command

SHOWN = ("see", "look", "report")
BYE = '{"ok":"bye"}'


def is_shown(reply: str) -> bool:
    """Returns whether a reply grants a view (a `see`, `look` or `report`), which has no entry in a record."""
    return json.loads(reply).get("ok") in SHOWN


def whole_line(lab: Lab, cut: bool = False, lacking: Collection[str] = (), begun: int = 0) -> str:
    """Returns the last two lines that `verify` prints about a record. The first names those whose lines are all
    recorded: the teacher first, and students in the lab's order. It leaves out the names in `lacking`, for whom
    recording paused, and names nobody if `cut` is set. The second line has `begun`, the number of events before the
    record."""
    line = " ".join(["whole", *(name for name in lab.keys if not cut and name not in lacking)])
    return f"{line}\nbegun after {begun} events"


class Recording:
    """A run with many seats, each with its record."""

    def __init__(self, lab: Lab) -> None:
        """Begins a run of a lab, before any line has come."""
        self.lab, self.model = lab, Run(lab)
        self.texts: dict[int, bytes] = {seat: b"" for seat in range(1, lab.sessions + 1)}
        self.seen = dict.fromkeys(self.texts, 0)  # The number of events that each seat has seen, which are all up to its last command.
        self.sessions = self.lines = 0

    def answer(self, seat: int, line: bytes) -> str:
        """Returns the reply to a line in a seat. Records both, unless the reply grants a view. A bye ends the session.
        At a command by somebody who has greeted, the seat reads all events so far. At any other line it reads no
        further ones."""
        asks = seat in self.model.names and is_command(line)
        place = self.model.world.place if asks else self.seen[seat]
        reply = self.model.answer(seat, line)
        self.seen[seat] = self.model.world.place if asks else place
        if not is_shown(reply):
            self.lines += 1
            self.texts[seat] += b"%d %d > %s\n%d %d < %s\n" % (seat, place, line, seat, place, reply.encode("ascii"))
        if reply == BYE:
            self.leave(seat)
        return reply

    def leave(self, seat: int) -> None:
        """Ends the session in a seat, and records this by the mark `.`."""
        self.sessions += 1
        self.model.names.pop(seat, None)
        self.texts[seat] += b"%d %d .\n" % (seat, self.seen[seat])

    def cut(self, seat: int) -> None:
        """Marks that entries may be missing in a seat up to the session's end."""
        self.texts[seat] += b"%d %d !\n" % (seat, self.seen[seat])

    def pause(self, seat: int) -> None:
        """Marks that lines in a seat aren't recorded from here on."""
        self.texts[seat] += b"%d %d -\n" % (seat, self.seen[seat])

    def resume(self, seat: int, missed: int) -> None:
        """Marks that `missed` lines weren't recorded in a seat. A hello or the session's end follows."""
        self.texts[seat] += b"%d %d + %d\n" % (seat, self.seen[seat], missed)

    @property
    def journal(self) -> bytes:
        """Returns the journal so far."""
        return self.model.written()

    def verify_output(self, whole: bool = True) -> str:
        """Returns the output that `verify` must print about the record, without its last newline. `whole` says whether
        the record has no mark `!`."""
        end = "" if whole else ", not whole"
        first = f"ok: {self.sessions} sessions, {self.lines} lines, {self.model.world.place} events{end}"
        return f"{first}\n{whole_line(self.lab, not whole)}"
