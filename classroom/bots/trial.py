"""One case of a grade: runs a bot until the class is stable, or until something is wrong.

A *bot* is a student's program. A *case* is a lab that the bot plays, with troubles during the run. A bot is *kept
apart* if it runs in namespaces of its own, in which it sees few files (`classroom.bots.apart`).
"""
from __future__ import annotations

import tempfile
import threading
import time
from dataclasses import dataclass, field
from pathlib import Path

from classroom.bots import troubles
from classroom.bots.attempt import Attempt, Fails, Limits, NotStarted, Seen, Stopped, Surroundings
from classroom.bots.bots import Bot
from classroom.bots.suites import Case
from classroom.core.program import Fault


@dataclass
class Result:
    """The result of a bot in a case."""

    bot: str
    lab: str
    daemon: str
    seed: int
    passed: bool
    why: str  # why the case isn't passed, or empty
    moves: int = 0  # the number of the bot's moves that steps applied
    denied: dict[str, int] = field(default_factory=dict)  # the number of its denied and refused lines, by their word
    seconds: float = 0.0  # the time that the case took
    unkept: str = ""  # why the files of the case aren't kept, or empty
    started: bool = True  # whether the bot could be started


def try_bot(bot: Bot, case: Case, limits: Limits, own: Path, folder: Path, stop: threading.Event, seen: Seen | None = None) -> Result | None:
    """Runs a bot in a case, with these limits, and writes the case's files into `folder`. `own` is the bot's own
    folder, `seen` has the files that it sees if it is kept apart, and `stop` is set by an interrupt. Returns the
    result, or None after an interrupt. Raises `OSError` or `Fault` if the case can't be begun."""
    with tempfile.TemporaryFile() as output:
        return run_attempt(Attempt(bot, case, limits, Surroundings(own, output, seen), stop), folder)


def run_attempt(attempt: Attempt, folder: Path) -> Result | None:
    """Runs a bot's attempt at a case to its end, closes it, and writes the files of `Attempt.write_evidence` into
    `folder`. Returns the result. After an interrupt, writes no files and returns None. If the files can't be written,
    the result's `unkept` says why."""
    begun, case = time.monotonic(), attempt.case
    result = Result(attempt.bot.name, case.lab, case.daemon.spelled(), case.seed, False, "")
    try:
        troubles.run(attempt)
        result.passed = True
    except Fails as fails:
        result.why, result.started = str(fails), not isinstance(fails, NotStarted)
    except Fault as fault:
        result.why = f"the class of this case ended with an error: {fault}"
    except Stopped:
        return None
    finally:
        attempt.close()
    result.moves, result.denied = attempt.heard.moved, dict(sorted(attempt.heard.denied.items()))
    result.seconds = round(time.monotonic() - begun, 2)
    try:
        attempt.write_evidence(folder)
    except (OSError, Fault) as fault:
        result.unkept = f"{folder}: the record of this case can't be written: {getattr(fault, 'strerror', None) or fault}"
    return result
