"""The limits of labs, lines, files and connections, as the program prints them (`mml limits`)."""
from __future__ import annotations

import re
from dataclasses import dataclass
from functools import cache

from classroom.core.program import Fault, host, host_call
from classroom.core.statuses import FAILED

LINE = re.compile(r"(?P<name>[a-z]+(?:-[a-z]+)*) (?P<most>[1-9][0-9]{0,18}) (?P<unit>[a-z]+)")
UNITS = {
    "count": ("nodes", "students", "owners", "sessions", "events"),
    "number": ("identifier",),
    "characters": ("name", "key"),
    "bytes": ("line", "lab", "journal", "entry", "seat-written", "seat-read"),
    "seconds": ("greeting", "desk-greeting", "next-line", "write"),
}
UNIT_OF = {name: unit for unit, names in UNITS.items() for name in names}


@dataclass(frozen=True)
class Limits:
    """The limits, each under the name that the program prints, with `_` for `-`. The units are those of
    UNITS."""

    nodes: int
    identifier: int
    students: int
    owners: int
    sessions: int
    events: int
    name: int
    key: int
    line: int
    lab: int
    journal: int
    entry: int
    seat_written: int
    seat_read: int
    greeting: int
    desk_greeting: int
    next_line: int
    write: int

    @property
    def seats(self) -> int:
        """Returns how many students can play at once. Each needs a session, a connection to the server, and one session
        is the teacher's."""
        return self.sessions - 1


def parsed(text: str) -> Limits:
    """Returns the limits in the program's output, lines of the form `NAME NUMBER UNIT`. Ignores lines with other names,
    since later versions may have them. Raises `Fault` if a line has another form or another unit, if a name is
    repeated, or if a limit or its line's end is missing."""
    found: dict[str, int] = {}
    for line in text.split("\n")[:-1]:
        it = LINE.fullmatch(line)
        if it is None or it["name"] in found or it["unit"] != UNIT_OF.get(it["name"], it["unit"]):
            raise version_fault(f"the unknown line {line!r}")
        found[it["name"]] = int(it["most"])
    for name in UNIT_OF:
        if name not in found:
            raise version_fault(f"no line {name}")
    return Limits(**{name.replace("-", "_"): found[name] for name in UNIT_OF})


def version_fault(what: str) -> Fault:
    """Returns the fault to raise if the program is of another version than this code. `what` is a text about what that
    program prints, for the message."""
    return Fault(f"the program mml is of another version than ./class: `mml limits` prints {what}. Type `./mml build` to build the present version", FAILED)


@cache
def allowed() -> Limits:
    """Returns the limits. Calls the program at the first call only. Raises `Fault` if the program isn't built, or
    prints no limits or another form of them."""
    answer = host_call("limits")
    if answer.status != 0:
        raise version_fault("nothing")
    return parsed(answer.output)


def known() -> Limits | None:
    """Returns the limits, or None if the program isn't built or doesn't print them. A run continues without the
    limits."""
    try:
        host()  # Raises `Fault` if the program isn't there any longer. `allowed` may return a result that it has kept.
        return allowed()
    except (Fault, OSError):
        return None
