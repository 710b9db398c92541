"""The signals that end a check."""
from __future__ import annotations

import signal
from collections.abc import Iterator
from contextlib import contextmanager
from types import FrameType

ALL = (signal.SIGINT, signal.SIGTERM, signal.SIGHUP)


class Killed(Exception):
    """Raised when a signal ends the check."""

    def __init__(self, number: int) -> None:
        """`number` is that of the signal."""
        super().__init__(number)
        self.number = number


class SignalHandler:
    """The handler of signals: raises `Killed` at once, or at the end of a block that mustn't be interrupted."""

    def __init__(self) -> None:
        self.is_held = False
        self.came = 0  # the number of the last signal that came, or 0

    def __call__(self, number: int, _: FrameType | None) -> None:
        """Notes a signal. Raises `Killed`, unless signals are held at the moment."""
        self.came = number
        if not self.is_held:
            raise Killed(number)

    def begin(self) -> None:
        """Handles signals from now on. Signals that the caller of the check ignores stay ignored."""
        for number in ALL:
            if signal.getsignal(number) is not signal.SIG_IGN:
                signal.signal(number, self)

    def end(self) -> None:
        """Ignores the signals from now on, while the check clears up."""
        for number in ALL:
            signal.signal(number, signal.SIG_IGN)

    @contextmanager
    def held(self) -> Iterator[None]:
        """Delays the exception for a signal until the end of the `with` block. Raises `Killed` there if a signal has
        come."""
        self.is_held = True
        try:
            yield
        finally:
            self.is_held = False
        if self.came:
            raise Killed(self.came)


HANDLER = SignalHandler()
