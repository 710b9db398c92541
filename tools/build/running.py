"""Runs of `rt ci`, side by side, with their progress line. A signal ends them.

The handler of a signal only notes it, and `pause` raises the exception. An exception that the handler raises could be
lost, since Python ignores it if it comes while an object is deleted.
"""
from __future__ import annotations

import contextlib
import ctypes
import os
import re
import shutil
import signal
import subprocess
import sys
import time
from collections.abc import Callable
from enum import Enum
from pathlib import Path

from tools.build.place import Place
from tools.build.progress import Progress
from tools.build.wide import ALONE

ENDING = (signal.SIGINT, signal.SIGTERM, signal.SIGHUP)
PR_SET_PDEATHSIG = 1
POLL = 0.2  # seconds between two checks of the runs
PATIENCE = 10.0  # seconds that `rt ci` has to end after a signal
LATER = 5  # the niceness that is added to a proof for which the longest chain doesn't wait
WIDE = Path(__file__).with_name("wide.py")
PROVER = "rattle"  # the name of a process that proves
PROVED = re.compile(r"^rt: (\w+) (?:proved|(is kept): .*)$", re.MULTILINE)
NOT_KEPT = re.compile(r"^rt: note: .*(nothing is kept|is not kept)", re.MULTILINE)
KEPT = b"is kept"  # `rt` prints these words for a crate that an earlier run proved
came: list[int] = []  # the numbers of the signals that were noted, in the order in which they came


class Stopped(Exception):
    """Raised if a signal is to end the build."""

    def __init__(self, number: int) -> None:
        """`number` is that of the signal."""
        super().__init__(number)
        self.number = number


def can_keep() -> bool:
    """Returns whether the toolchain's `rt ci` can use proofs of earlier runs again. Older toolchains can't: `rt`, and the
    files beside it whose names begin so, don't contain the words that `rt ci` prints for a crate that is kept. `rt`
    must be on the path."""
    rt = Path(shutil.which("rt") or "rt").resolve()
    return any(KEPT in it.read_bytes() for it in rt.parent.glob("rt*") if it.is_file())


def handle_signals(handler: Callable[[int, object], object] | signal.Handlers) -> None:
    """Makes this the handler of the signals that end a process, except for those that the caller of this process
    ignores."""
    for each in ENDING:
        if signal.getsignal(each) is not signal.SIG_IGN:
            signal.signal(each, handler)


def note_signals() -> None:
    """Notes signals that end a process from now on. They no longer end it."""
    handle_signals(lambda number, _: came.append(number))


def raise_if_signalled() -> None:
    """Raises `Stopped` if a signal was noted."""
    if came:
        raise Stopped(came[0])


def pause() -> None:
    """Waits for POLL seconds. Raises `Stopped` if a signal was noted by then."""
    time.sleep(POLL)
    raise_if_signalled()


def end_with_parent() -> None:
    """Asks the system to send this process SIGTERM when its parent ends."""
    ctypes.CDLL(None, use_errno=True).prctl(PR_SET_PDEATHSIG, signal.SIGTERM, 0, 0, 0)


def begin() -> None:
    """Makes signals end this process again, and calls `end_with_parent`."""
    handle_signals(signal.SIG_DFL)
    end_with_parent()


def begin_at_low_priority() -> None:
    """Calls `begin`, and lowers the priority of this process, because others are more urgent. If the system shares
    processors among sessions, only the session's priority has an effect, so that is lowered too."""
    begin()
    os.nice(LATER)
    with contextlib.suppress(OSError):
        Path("/proc/self/autogroup").write_text(str(LATER), encoding="ascii")


class Screen:
    """The progress line. On a terminal it is overwritten, and elsewhere a new line is printed whenever more is
    proved."""

    def __init__(self) -> None:
        self.is_terminal = sys.stderr.isatty()
        # The last line, when it was printed, and whether more has been proved since.
        self.shown, self.at, self.is_new = "", 0.0, True

    def show(self, progress: Progress) -> None:
        """Prints the progress, at most once a second. If the output isn't a terminal, prints nothing unless more has
        been proved."""
        now = time.monotonic()
        if now >= self.at + 1 and (self.is_new or self.is_terminal):
            self.put(progress.line(now))
            self.at, self.is_new = now, False

    def put(self, line: str) -> None:
        """Prints a line at once if it differs from the last one."""
        begin, end = ("\r", "\x1b[K") if self.is_terminal else ("", "\n")
        if line != self.shown:
            print(f"{begin}mml: {line}", end=end, file=sys.stderr, flush=True)
        self.shown = line

    def close(self, progress: Progress) -> None:
        """Prints the progress once more, and ends its line."""
        self.put(progress.line(time.monotonic()))
        if self.is_terminal:
            print(file=sys.stderr, flush=True)


class Width(Enum):
    """How many processes `rt ci` uses for the proof of a crate that is alone in its repository."""

    ONE = "one"
    USUAL = "as many as rt chooses, which is half of the processors"
    ALL = "as many as there are processors"


class Run:
    """A run of `rt ci` in a repository."""

    def __init__(self, place: Place, width: Width = Width.USUAL, is_first: bool = True, is_alone: bool = False) -> None:
        """Starts `rt ci` in the repository of `place`, with the processes that `width` says. If `is_first` is set, the
        run has the usual priority, and otherwise a lower one. If `is_alone` is set, no other crate is proved beside it,
        and a run with the width ALL may use twice as much memory."""
        self.place, self.width, self.read = place, width, 0
        words = [sys.executable, "-B", str(WIDE), *[ALONE] * is_alone] if width is Width.ALL else ["rt"]
        jobs = {"RT_JOBS": "1"} if width is Width.ONE else {}
        with place.log.open("wb") as output:
            self.process = subprocess.Popen(
                [*words, "ci"], cwd=place.repository, stdin=subprocess.DEVNULL, stdout=output, stderr=subprocess.STDOUT,
                env={**os.environ, **jobs, "TMPDIR": str(place.temporary)}, start_new_session=True,
                preexec_fn=begin if is_first else begin_at_low_priority,
            )

    def follow(self, progress: Progress, screen: Screen) -> None:
        """Reads the new lines of the output, and notes in `progress` each crate that they report as proved. If there is
        such a crate, makes `screen` show the progress."""
        with self.place.log.open("rb") as it:
            it.seek(self.read)
            whole, newline, _ = it.read().rpartition(b"\n")
        self.read += len(whole + newline)
        for found in PROVED.finditer(whole.decode(errors="replace")):
            screen.is_new = screen.is_new or found[1] not in progress.proved
            progress.note(found[1], bool(found[2]), time.monotonic())

    def has_ended(self) -> bool:
        """Returns whether `rt ci` has ended."""
        return self.process.poll() is not None

    def lacks_keeping(self) -> bool:
        """Returns whether the output says that this machine keeps no proofs for other runs."""
        return bool(NOT_KEPT.search(self.place.log.read_text(encoding="utf-8", errors="replace")))

    def is_proving(self) -> bool:
        """Returns whether a process of the prover is working in the repository of the run."""
        here = str(self.place.repository.resolve())
        for process in Path("/proc").glob("[0-9]*"):
            try:
                if (process / "comm").read_text(encoding="utf-8").strip() == PROVER and os.readlink(process / "cwd").startswith(here):
                    return True
            except OSError:
                continue
        return False

    def end(self) -> None:
        """Ends `rt ci` and the processes of its group, and waits for its end. Kills them if they don't end within
        PATIENCE seconds. Other processes that it started are ended by a guard of its own."""
        if not self.has_ended():
            os.killpg(self.process.pid, signal.SIGTERM)
            try:
                self.process.wait(PATIENCE)
            except subprocess.TimeoutExpired:
                os.killpg(self.process.pid, signal.SIGKILL)
                self.process.wait()
