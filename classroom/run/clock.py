"""The end of a lesson by the clock: `run --ends 10:45` prints warnings before it, and ends the run."""
from __future__ import annotations

import argparse
import re
from datetime import datetime, timedelta

from classroom.core.counts import plural
from classroom.core.program import Fault

WARNINGS = (10, 5, 1)  # minutes before the end
LATEST = timedelta(hours=12)  # A time of day that has passed today means tomorrow's if that is at most so far away.


def time_of_day(word: str) -> str:
    """Returns the time of day in an argument such as `10:45`. Raises `ArgumentTypeError` for any other text."""
    found = re.fullmatch(r"(\d{1,2}):(\d\d)", word, re.ASCII)
    if not found or int(found[1]) > 23 or int(found[2]) > 59:
        raise argparse.ArgumentTypeError(f"{word!r} isn't a time of day. Write it in the form 10:45")
    return f"{int(found[1]):02}:{found[2]}"


def next_time(word: str, now: datetime) -> datetime:
    """Returns the first date and time after `now` with the time of day `word`, such as `10:45`, today or tomorrow.
    Raises `ValueError` if it is more than LATEST away, since the time of day has then passed today."""
    hours, minutes = map(int, word.split(":"))
    end = now.replace(hour=hours, minute=minutes, second=0, microsecond=0)
    end = end if end > now else end + timedelta(days=1)
    if end - now > LATEST:
        raise ValueError(f"--ends {word}: it is {now:%H:%M} already. Name a later time")
    return end


def kept_end(text: str | None, now: datetime) -> datetime | None:
    """Returns the date and time in `text`, which the folder of a run has as the end of the lesson. Returns None if
    `text` is None or isn't a local date and time, or if this time has come."""
    try:
        end = datetime.fromisoformat(text) if text else None
    except ValueError:
        return None
    return end if end is not None and end.tzinfo is None and end > now else None


def end_of(word: str | None, before: str | None = None) -> datetime | None:
    """Returns the end of the lesson: the one that the option `word` names, or else `before`, which the folder of a
    continuing run has. Returns None if there is neither, or if `before` isn't a time in the future. Raises `Fault` if
    the time of the option has passed."""
    now = datetime.now()
    try:
        return next_time(word, now) if word else kept_end(before, now)
    except ValueError as error:
        raise Fault(str(error)) from None


class Clock:
    """The clock of a lesson, with warnings before its end and a line at its end."""

    def __init__(self, end: datetime, begun: datetime) -> None:
        """`end` is the end of the lesson, and `begun` the present time. Warnings that were due before that are left
        out."""
        self.end = end
        self.left = [minutes for minutes in WARNINGS if end - timedelta(minutes=minutes) >= begun]

    def warning(self, now: datetime) -> str:
        """Returns the line of the latest warning that is due at the time `now`. Returns an empty text if there is none,
        if it was returned before, or if the lesson is over."""
        due = [minutes for minutes in self.left if now >= self.end - timedelta(minutes=minutes)]  # The latest warning is the last of these.
        self.left = [minutes for minutes in self.left if minutes not in due]
        return f"the lesson ends at {self.end:%H:%M}, in {plural(due[-1], 'minute')}" if due and not self.is_over(now) else ""

    def is_over(self, now: datetime) -> bool:
        """Returns whether the end of the lesson has come at the time `now`."""
        return now >= self.end

    def first_line(self) -> str:
        """Returns the line that is printed at the beginning, with the end of the lesson."""
        return f"the lesson ends at {self.end:%H:%M}"

    def last_line(self) -> str:
        """Returns the line that is printed at the end of the lesson."""
        return f"it is {self.end:%H:%M}: the lesson is over, so the run ends"
