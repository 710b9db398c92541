"""A run from its first step to its last: steps are closed, and typed commands are run. The module also watches the room
for the *journal*, the file with the run's events: on the disk, and by the limit on the size of files.

The *desk* is the teacher's connection to the server, and the *daemon* decides when a step is closed. The *house* plays
for absent students. The functions return the reason for the end of a run as a word, which is empty while the run
continues.
"""
from __future__ import annotations

import contextlib
import os
import queue
import resource
import tempfile
import time
from collections.abc import Callable
from datetime import datetime
from pathlib import Path
from typing import IO

from classroom.client import Closed
from classroom.core.program import CLASS
from classroom.run.clock import Clock
from classroom.run.closing import Closing
from classroom.run.desk import Desk
from classroom.run.server import Server
from classroom.run.striking import Striker
from classroom.run.taking import Left
from classroom.run.typed import HUNG, LEAVE, NOW, Typed

TICK = 0.1
LITTLE = 65536  # the number of free bytes below which a disk has little room
PROBE = bytes(512)  # the bytes that are written and removed again to check whether the disk has room
AGAIN = 1.0  # seconds between two checks of the disk
LINE = 101  # the most bytes of a journal's line


def pause(how: Closing) -> float:
    """Returns how many seconds to wait for a typed line before the next check whether a step is to be closed by the
    daemon `how`."""
    # A daemon with few seconds is asked four times in them, so that its steps aren't closed much too late.
    return min(TICK, max(how.value / 4, 0.01)) if how.kind in ("every", "when-idle") else TICK


AGAIN_ROOM = ("the disk has room again. If a line of the journal couldn't be written meanwhile, the server refuses all moves with `journal`. "
              f"In this case end the run, and continue it by {CLASS} run --resume FOLDER")


def disk_line(left: int, why: str) -> tuple[str, str]:
    """Returns the state of a disk with `left` free bytes (`little`, `full` or an empty text), and the line to print
    about it. `why` is the reason if nothing can be written, and empty otherwise."""
    if left > 0 and not why:
        return ("little", f"the disk is nearly full: {left} bytes are left. Make room, so that the journal can be written") if left < LITTLE else ("", "")
    what = f"can't be written to ({why})" if why else "is full"
    return "full", (f"the disk {what}. Make room now: if a line of the journal can't be written, "
                    "the server grants nothing more")


def limit_of(process: int) -> int | None:
    """Returns the limit in bytes (ulimit -f) on the size of a file that the process with this number writes. Returns
    None if there is no limit or it can't be read."""
    try:
        limit = resource.prlimit(process, resource.RLIMIT_FSIZE)[0]
    except (OSError, ValueError):
        return None
    return None if limit == resource.RLIM_INFINITY else limit


def limit_line(left: int, folder: Path) -> tuple[str, str]:
    """Returns the state of a journal that may grow by `left` bytes (`little`, `full` or an empty text), and the line to
    print about it. `folder` is that of the run."""
    how = f"End the run, remove this limit, and continue by {CLASS} run --resume {folder} --again"
    if left >= LITTLE:
        return "", ""
    if left >= LINE:
        return "little", (f"the journal can only grow by {left} more bytes, because of a limit on the size of files "
                          f"(ulimit -f). {how}")
    return "full", ("the journal has reached the limit on the size of files (ulimit -f), so the server grants nothing "
                    f"more. {how}")


def unlinked_file(folder: Path) -> IO[bytes] | None:
    """Returns an open file without a name on the disk of a folder, for a test whether the disk can be written to.
    Returns None if no such file can be made."""
    try:
        return tempfile.TemporaryFile(buffering=0, dir=folder)
    except OSError:
        return None


class DiskRoom:
    """A repeated check whether there is room for a journal's lines: on the disk, and by the limit on the size of the
    server's files."""

    def __init__(self, folder: Path, server: int | None = None) -> None:
        """`folder` is that of the run. `server` is the number of the server's process, or None if the limit on the size
        of files isn't to be checked."""
        self.folder, self.server = folder, server
        # When the next check is due, and the states that the last one found: of the disk, and of the limit.
        self.due, self.told, self.told_limit = 0.0, "", ""
        self.file = unlinked_file(folder)

    def close(self) -> None:
        """Closes the file by which writing is tested."""
        if self.file is not None:
            self.file.close()

    def left(self) -> int:
        """Returns the number of free bytes on the disk of the run's folder."""
        disk = os.statvfs(self.folder)
        return disk.f_bavail * disk.f_frsize

    def write_error(self) -> str:
        """Returns why a test write to the disk fails, for example because of a quota. Returns an empty text if it
        succeeds, or if there is no file for the test."""
        if self.file is None:
            return ""
        try:
            os.pwrite(self.file.fileno(), PROBE, 0)
            os.ftruncate(self.file.fileno(), 0)
        except OSError as error:
            return error.strerror or str(error)
        return ""

    def news(self) -> list[str]:
        """Returns the lines about changes since the last check: little room, no room, or room again. Returns none if
        nothing has changed, or if the last check is less than a second ago."""
        now = time.monotonic()
        if now < self.due:
            return []
        self.due = now + AGAIN
        return [*self.disk_news(), *self.limit_news()]

    def disk_news(self) -> list[str]:
        """Returns a line if the disk has little room or none now, or has enough room after it had none. Returns an
        empty list if the state is that of the last check."""
        left = self.left()
        # On a nearly full disk nothing is written for a test, since that would take room from the journal.
        kind, line = disk_line(left, self.write_error() if left >= LITTLE else "")
        before, self.told = self.told, kind
        if kind == before:
            return []
        return [line] if line else [AGAIN_ROOM] if before == "full" else []

    def limit_news(self) -> list[str]:
        """Checks how much the journal may still grow under the server's limit on the size of files (ulimit -f).
        Returns a line to print if there is little or no room left, and if the check before this one had a different
        result (enough, little or none). Otherwise returns an empty list."""
        limit = limit_of(self.server) if self.server is not None else None
        journal = self.folder / "journal"
        # Without a limit there is room enough, and LITTLE bytes are enough.
        left = LITTLE if limit is None or not journal.exists() else limit - journal.stat().st_size
        kind, line = limit_line(left, self.folder)
        before, self.told_limit = self.told_limit, kind
        return [line] if line and kind != before else []


def turn(desk: Desk, room: DiskRoom, until_stable: bool) -> str:
    """Does what is due at the desk: reads new events, makes the house play, and writes the state for the desk of a
    class. Also prints what is new about connections, the room for the journal (`room`), and the end of the lesson. If
    the desk's connection was lost, first connects again, and does nothing else if that fails. Returns `clock`,
    `stable`, `full` or `journal` if the run ends for this reason, and an empty text otherwise. `until_stable` says
    whether the run ends as soon as its configuration is stable."""
    if not desk.reconnect():
        return ""
    desk.read()
    desk.stand_in()
    people = [*(desk.connected.news() if desk.connected else []), *(desk.heard.news(desk.known.last_step) if desk.heard else [])]
    for line in [*people, *room.news()]:
        desk.tell(line)
    if desk.keep_state:
        desk.keep_state()
    if desk.clock and check_clock(desk, desk.clock):
        return "clock"
    if desk.heard and desk.heard.over:
        desk.read()
        desk.announcer.end_by(desk.heard.over)
    if until_stable and desk.known.report.stable and not desk.known.is_old and not desk.known.book.chosen:
        return "stable"
    return desk.announcer.over


def check_clock(desk: Desk, clock: Clock) -> bool:
    """Prints at the desk the warnings before the end of the lesson, and the end. Returns whether the lesson is over."""
    now = datetime.now()
    if warning := clock.warning(now):
        desk.tell(warning)
    if clock.is_over(now):
        desk.tell(clock.last_line())
    return clock.is_over(now)


def next_typed(typed: Typed, seconds: float) -> str | None:
    """Returns the next typed line, or None if none comes within `seconds`."""
    try:
        return typed.get(timeout=seconds)
    except queue.Empty:
        return None


def run_typed(desk: Desk, line: str | None, hung: Callable[[], None]) -> str:
    """Runs a line that was typed at the desk, and does nothing if `line` is None. Calls `hung` if the line says that
    the terminal is closed. Returns the reason if the line ends the run, `end` or `left`, and an empty text otherwise.
    `left` means that another process takes over the desk. While the desk has no connection, only `end` is run, and for
    other lines the reason is printed. Raises `Closed` if the desk's connection has ended."""
    if line is None:
        return ""
    if line == HUNG:
        hung()
        return ""
    if line == LEAVE:
        return "left"
    if line == NOW or desk.lost and line.split() == ["end"]:
        return "end"
    if desk.lost:
        desk.tell(f"not done, because there is no connection to the server's desk now: {desk.lost}")
        return ""
    try:
        return "" if desk.command(line) else "end"
    except Left:
        return "left"


def attend(desk: Desk, it: Server, until_stable: bool, typed: Typed, room: DiskRoom, hung: Callable[[], None]) -> str:
    """Closes steps and runs typed commands until the run ends. Returns the reason: `stable`, `full`, `journal`, `end`,
    `clock`, `left` (another process takes over the desk) or `died` (the server `it` has ended). If the desk's
    connection fails while the server runs, connects again. Calls `hung` if the terminal is closed. `until_stable` says
    whether the run ends as soon as its configuration is stable. `room` checks the room for the journal, and `typed` has
    the typed lines."""
    with contextlib.closing(Striker()) as striker:
        while not it.has_ended():
            try:
                why = turn(desk, room, until_stable)
                if why:
                    return why
                line = next_typed(typed, pause(desk.closing))
                why = run_typed(desk, line, hung)
                if why:
                    return why
                if not desk.lost:
                    if line is not None:
                        desk.read()  # What was done is printed before a step is closed.
                    striker.strike(desk)
            except Closed as error:
                if not it.has_ended(TICK):  # A server that ends closes the connection a moment before its process is gone.
                    desk.give_up_connection(error)
        return "died"
