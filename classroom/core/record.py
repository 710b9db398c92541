"""The record of a run: the requests and replies of each seat (docs/RECORD.md), as the host wrote them. A *seat* serves
one connection after another, and an *entry* is one line with its reply, or a mark. The *journal* is the file with the
events of the run."""
from __future__ import annotations

import json
import os
import re
from collections.abc import Iterator
from dataclasses import dataclass
from pathlib import Path
from typing import Any

from classroom.core import plain
from classroom.core.program import Fault

FOLDER = "record"  # the name of the record's folder in a run's folder
ENDED, CUT, PAUSED, RESUMED = ".", "!", "-", "+"


@dataclass(frozen=True)
class Entry:
    """A line with its reply, or a mark: `.` if the connection ended, `!` if an entry may be missing, `-` if recording
    pauses, and `+` if it resumes."""

    seat: int
    place: int  # The number of events that the server took into account for it.
    line: bytes = b""
    reply: bytes = b""
    mark: str = ""
    missed: int = 0  # The number of lines that weren't recorded, at a `+`.

    def reply_texts(self) -> dict[str, str]:
        """Returns the values of the reply that are strings, by their keys. Leaves out its numbers, lists and other
        values."""
        return {key: value for key, value in json_object(self.reply).items() if isinstance(value, str)}

    def asked_name(self) -> str | None:
        """Returns the value of `name` in the line, or None if the line isn't a JSON object or has no string under
        `name`."""
        name = json_object(self.line).get("name")
        return name if isinstance(name, str) else None


def json_object(text: bytes) -> dict[str, Any]:
    """Returns the values of the JSON object in a text, or no values for any other text."""
    try:
        it = json.loads(text)
    except (ValueError, RecursionError):
        return {}
    return it if isinstance(it, dict) else {}


class Reader:
    """A reader that splits the bytes of a seat's file, which may still grow, into entries. Lines that belong to no
    entry are skipped, since `verify` reports them."""

    def __init__(self) -> None:
        """Begins at the beginning of a file. `rest` has the bytes after the last complete line, and `line` the request
        whose reply hasn't come yet."""
        self.rest = b""
        self.line: bytes | None = None

    def take(self, more: bytes) -> Iterator[Entry]:
        """Reads the next bytes of the file. Yields the entries that are complete now."""
        *lines, self.rest = (self.rest + more).split(b"\n")
        for line in lines:
            entry = self.entry(line)
            if entry is not None:
                yield entry

    def entry(self, line: bytes) -> Entry | None:
        """Returns the entry of which this line is the last, or None if it completes none. A line has the seat, the
        place, a sign and perhaps a text. An entry is one line whose sign is a mark, or two lines: a request after the
        sign `>`, and then its reply after `<`. The request is kept for the next call."""
        words = line.split(b" ", 3)
        seat, place = (plain.number(word) for word in (words + [b"", b""])[:2])
        if len(words) < 3 or seat is None or place is None:
            return None
        sign = words[2].decode(errors="replace")
        asked, self.line = self.line, None
        if sign in (ENDED, CUT, PAUSED) and len(words) == 3:
            return Entry(seat, place, mark=sign)
        if len(words) == 3:
            return None
        if sign == RESUMED:
            missed = plain.number(words[3])
            return None if missed is None else Entry(seat, place, mark=sign, missed=missed)
        if sign == ">":
            self.line = words[3]
        return Entry(seat, place, asked, words[3]) if sign == "<" and asked is not None else None


def seats(folder: Path) -> list[Path]:
    """Returns the files of the seats in a record's folder, in the order of the seats' numbers."""
    found = [(int(named[1]), file) for file in folder.glob("*.record")
             if (named := re.fullmatch(r"(\d+)\.record", file.name))]
    return [file for _, file in sorted(found)]


def begun(folder: Path) -> int:
    """Returns the number of events that the journal had before the record in a folder began. Raises `Fault` if the file
    `begun`, which has this number, can't be read or has no number."""
    number = plain.number(plain.read(folder / "begun", plain.MOST_KEPT).rstrip(b"\n"))
    if number is None:
        raise Fault(f"{folder / 'begun'}: this file is damaged. It should contain the number of events that came before the record. "
                    "To do without this record, move the file away", 4)
    return number


def kept(run: Path) -> list[Path]:
    """Returns the folders of the records in a run's folder, the oldest first. There are several if the lab was changed
    while the run was interrupted."""
    older = [(int(named[1]), path) for path in run.glob(f"{FOLDER}.~*~")
             if (named := re.fullmatch(rf"{FOLDER}\.~(\d+)~", path.name)) and os.path.lexists(path / "begun")]
    return [*(path for _, path in sorted(older)), *([run / FOLDER] if os.path.lexists(run / FOLDER / "begun") else [])]
