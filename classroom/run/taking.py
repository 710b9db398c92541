"""Takes the *desk*, the teacher's connection to a running server: says the teacher's hello there, and retries while
another process is connected. Signals come as words in the queue of typed lines."""
from __future__ import annotations

import queue
import time
from collections.abc import Callable

from classroom.client import Client, Closed, Over, Refused
from classroom.run.server import Server
from classroom.run.typed import HUNG, LEAVE, NOW, Typed

PATIENCE = 60.0  # seconds after which no further try to take the desk begins
PAUSE = 0.5  # seconds between two tries


class Left(Exception):
    """Raised if the desk is to be left to another process."""


def take_desk(it: Server, teacher: tuple[str, str], typed: Typed, tell: Callable[[str], None], hung: Callable[[], None]) -> Client:
    """Connects to the desk of the server `it`, with the name and key of the teacher, and returns the connection. Tries
    again for a minute if that fails, and prints a line about it once. Meanwhile reads `typed`, the queue of typed
    lines, for signals, and calls `hung` if the terminal was closed. Raises the last `Closed` or `Refused` after the
    minute, or if the server has ended or the run is to end. In the last case the signal is in `typed` again. Raises
    `Denied` at once if the name and the key aren't those of the teacher, and `Left` if another process wants the
    desk."""
    end, is_told = time.monotonic() + PATIENCE, False
    while True:
        try:
            client = greet(it, teacher)
        except (Closed, Refused) as error:
            if isinstance(error, Over) or it.has_ended() or time.monotonic() >= end:
                raise
            if not is_told:
                tell(f"{reason_line(error)}; trying to connect again for a minute")
                is_told = True
            if wait_for_end(typed, hung):
                raise
            continue
        if is_told:
            tell("now connected to the server's desk")
        return client


def greet(it: Server, teacher: tuple[str, str]) -> Client:
    """Returns a connection to the desk after its hello. Uses the connection that was made while the server started, if
    there is one. Raises `Closed` or `Refused` if the server doesn't accept the connection, and `Denied` if the name and
    the key aren't those of the teacher."""
    first, it.first = it.first, None
    return Client(it.desk, *teacher, connection=first)


def reason_line(error: Closed | Refused) -> str:
    """Returns the line that says why the desk can't be taken, from the error with which its connection ended."""
    is_taken = isinstance(error, Refused) and error.word == "busy"
    return "another program is connected to the desk" if is_taken else f"no connection to the server's desk can be made: {error}"


def wait_for_end(typed: Typed, hung: Callable[[], None]) -> bool:
    """Waits a moment for a signal among the typed lines. Returns whether a signal came that ends the run, and puts this
    signal into the queue again. Calls `hung` if the terminal was closed. A typed command that comes meanwhile is
    dropped. Raises `Left` if another process wants the desk."""
    try:
        word = typed.get(timeout=PAUSE)
    except queue.Empty:
        return False
    if word == LEAVE:
        raise Left
    if word == HUNG:
        hung()
    if word == NOW:
        typed.put(NOW)  # A run that goes on without the connection, as after the command `key`, reads this signal again.
    return word == NOW
