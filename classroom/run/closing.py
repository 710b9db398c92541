"""The daemon that closes the steps of a run at its desk. A *daemon* decides when a step is closed, and which of the
granted moves it applies."""
from __future__ import annotations

from pathlib import Path

from classroom.core.folders import RECORD, Record
from classroom.core.program import Fault
from classroom.core.statuses import FAILED
from classroom.run.daemons import Daemon, daemon

Closing = Daemon
SECONDS = 2.0  # the seconds of a daemon that is named without a number of seconds
mode = daemon  # the parser of the option that names the daemon


def closing(word: str) -> Closing:
    """Returns the daemon that a word such as `every:5` names. If the word has no number of seconds, they are SECONDS.
    Raises `ValueError` if the word names no daemon."""
    return Daemon.of(word, SECONDS)


def kept_daemon(folder: Path, record: Record) -> Closing:
    """Returns the daemon of a continuing run. `record` has the values of the file `run.json` in the run's folder.
    Raises `Fault` if its value `close` names no daemon."""
    try:
        return closing(record.close)
    except ValueError as error:
        raise Fault(f"{folder / RECORD}: {error}", FAILED) from None


def spelled(how: Closing) -> str:
    """Returns the word that names the daemon `how`, as it is typed."""
    return how.spelled()
