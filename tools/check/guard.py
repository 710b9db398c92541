"""The process that the user has started, the *guard*. The guard stays alive beside its child, which does the check. If
one of the two is killed, the other cleans up."""
from __future__ import annotations

import os
import shutil
import signal
import sys
import tempfile
from collections.abc import Callable
from pathlib import Path

from tools.check.processes import adopt_orphans, end_all, end_with_parent
from tools.check.signals import ALL

PATIENCE = 8.0  # seconds that the processes of a killed check have to clear up


def run_guarded(work: Callable[[Path], int]) -> int:
    """Calls `work` in a child process with a new folder for temporary files, and returns its status. Passes signals to
    the child. If the child is killed, ends all processes below it, and returns 128 plus the signal's number. If the
    guard is killed, the child gets SIGTERM."""
    adopt_orphans()
    room = Path(tempfile.mkdtemp(prefix="check-"))
    # Signals wait until the child is there and gets them from `forward_signals`.
    signal.pthread_sigmask(signal.SIG_BLOCK, ALL)
    guard, child = os.getpid(), os.fork()
    if child == 0:
        work_below(guard, room, work)
    forward_signals(child)
    _, ended = os.waitpid(child, 0)
    # From here on this process clears up, and no signal may stop it.
    for number in ALL:
        signal.signal(number, signal.SIG_IGN)
    end_all([], PATIENCE)
    shutil.rmtree(room, ignore_errors=True)
    status = os.waitstatus_to_exitcode(ended)
    if status < 0:
        print(f"check: ended by {signal.Signals(-status).name}\n0 passed, 1 failed", flush=True)
    return status if status >= 0 else 128 - status


def work_below(guard: int, room: Path, work: Callable[[Path], int]) -> None:
    """Calls `work` with the folder `room` in this process, the child, in a session of its own. Exits with the status
    that `work` returns, or with 1 if it raises an error. `guard` is the number of the parent process."""
    status = 1
    try:
        os.setsid()
        end_with_parent(guard)
        signal.pthread_sigmask(signal.SIG_UNBLOCK, ALL)
        status = work(room)
        sys.stdout.flush()
    except BrokenPipeError:  # The reader of the output has closed it.
        status = 1
    except BaseException:
        sys.excepthook(*sys.exc_info())
    finally:
        os._exit(status)


def forward_signals(child: int) -> None:
    """Passes the signals that end a check to a child from now on, except for those that the caller ignores."""
    def hand_on(number: int, _: object) -> None:
        """Sends the signal to the child. Does nothing if the child has ended."""
        try:
            os.kill(child, number)
        except ProcessLookupError:
            pass

    for number in ALL:
        if signal.getsignal(number) is not signal.SIG_IGN:
            signal.signal(number, hand_on)
    signal.pthread_sigmask(signal.SIG_UNBLOCK, ALL)
