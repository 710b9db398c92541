"""Builds the program of a clone before a subcommand runs. `./mml build` prints how long that takes, and its
progress."""
from __future__ import annotations

import os
import signal
import subprocess
import time
from types import FrameType

from classroom.core.program import TOP, Fault, built, is_clone

NAMING = ("MML_PROGRAM", "MML_HOST")  # environment variables that name another program
SIGNALS = (signal.SIGINT, signal.SIGTERM, signal.SIGHUP)
POLL = 0.1
PATIENCE = 2.0  # seconds in which the build may end by itself after a signal, since a terminal's Ctrl-C reaches the build too
STDERR = 2  # the build's output goes to standard error, since standard output has only results


def lacks_program() -> bool:
    """Returns whether this is a clone in which the program hasn't been built yet, and the environment variables in
    NAMING don't both name another program."""
    return is_clone() and not all(map(os.environ.get, NAMING)) and not os.access(built(), os.X_OK)


class Signals:
    """Handlers of the signals that would end this process, until `close` is called. The number of the last such signal
    is noted in `came`, which is 0 before, and its time in `at`."""

    def __init__(self) -> None:
        """Replaces the handlers, except those of ignored signals."""
        self.came, self.at = 0, 0.0
        self.before = {number: signal.getsignal(number) for number in SIGNALS}
        for number, handler in self.before.items():
            if handler is not signal.SIG_IGN:
                signal.signal(number, self)

    def __call__(self, number: int, _: FrameType | None) -> None:
        """Notes a signal and its time."""
        self.came, self.at = number, time.monotonic()

    def close(self) -> None:
        """Restores the earlier handlers of the signals."""
        for number, handler in self.before.items():
            signal.signal(number, handler)


def build() -> int:
    """Runs `./mml build` to its end, and returns its exit status. If one of SIGNALS comes meanwhile, ends the build and
    raises `SystemExit` with 128 and the signal's number added. After a Ctrl-C (SIGINT) the build first has PATIENCE
    seconds to end by itself, since a terminal sends the signal to it too."""
    signals = Signals()
    try:
        process = subprocess.Popen([TOP / "mml", "build"], stdin=subprocess.DEVNULL, stdout=STDERR)
        while process.poll() is None:
            if signals.came and (signals.came != signal.SIGINT or time.monotonic() > signals.at + PATIENCE):
                process.terminate()
            time.sleep(POLL)
    finally:
        signals.close()
    if signals.came:
        raise SystemExit(128 + signals.came)
    return process.returncode


def set_up() -> None:
    """Builds the program if this is a clone that lacks it. Raises `Fault` if the build fails, and `SystemExit` if a
    signal ends it."""
    if lacks_program() and build() != 0:
        raise Fault("this command needs the program mml, and building it failed. The lines above say why")
