"""Processes: those that this process started, their descendants, and those that students' programs leave running.
Processes are named by their numbers. The list OWN has those that this process started."""
from __future__ import annotations

import ctypes
import os
import shutil
import signal
import subprocess
import threading
import time
from collections.abc import Iterable, Sequence
from pathlib import Path
from typing import Any

SUBREAPER = 36  # prctl's PR_SET_CHILD_SUBREAPER
PAUSE = 0.005
LAST = 10.0  # seconds that ending all processes together may take
STARTING = threading.Lock()  # held while a process is started, so that each child that isn't in OWN is another's
OWN: list[subprocess.Popen[bytes]] = []
reaps = threading.Event()  # whether orphans below this process become its children


def begin(words: Sequence[str | Path], **how: Any) -> subprocess.Popen[bytes]:
    """Starts a process with these arguments, and lists it in OWN until it has ended. `how` has more arguments of
    `Popen`."""
    with STARTING:
        OWN[:] = [each for each in OWN if each.returncode is None]
        OWN.append(subprocess.Popen(words, **how))
        return OWN[-1]


def run(words: Sequence[str | Path], given: bytes = b"", seconds: float | None = None, **how: Any) -> subprocess.CompletedProcess[bytes]:
    """Starts a process with these arguments, and lists it in OWN. `given` is its input. Waits for its end, and returns
    its status and its output. If the process takes longer than `seconds`, kills it and raises `TimeoutExpired`. `how`
    has more arguments of `Popen`."""
    source = subprocess.PIPE if given else subprocess.DEVNULL
    with begin(words, stdin=source, stdout=subprocess.PIPE, stderr=subprocess.PIPE, **how) as process:
        try:
            output, error = process.communicate(given or None, seconds)
        except BaseException:
            process.kill()
            raise
    return subprocess.CompletedProcess(words, process.returncode, output, error)


def parents() -> dict[int, int]:
    """Returns the number of the parent of each process on this machine, by the number of the process."""
    found = {}
    for name in os.listdir("/proc"):
        if name.isdecimal():
            try:
                with open(f"/proc/{name}/stat", "rb") as it:
                    # After the program's name in parentheses come the process's state and its parent.
                    found[int(name)] = int(it.read().rpartition(b") ")[2].split()[1])
            except (OSError, IndexError):
                pass
    return found


def below(*tops: int) -> set[int]:
    """Returns the numbers of all descendants of these processes, without the processes themselves."""
    found, known = parents(), set(tops)
    while more := {child for child, parent in found.items() if parent in known} - known:
        known |= more
    return known - set(tops)


def state(process: int) -> bytes:
    """Returns the letter of a process's state, as Linux shows it in /proc, or no bytes if the process has ended."""
    try:
        with open(f"/proc/{process}/stat", "rb") as it:
            return it.read().rpartition(b") ")[2][:1]
    except OSError:
        return b""


def is_halted(process: int) -> bool:
    """Returns whether a process is stopped by a signal or a debugger."""
    return state(process) in (b"T", b"t")


def end_below(process: int) -> None:
    """Kills all descendants of a process, again and again until none of them runs. Those that have ended and whose
    parent hasn't waited for them yet may be left."""
    while left := {each for each in below(process) if state(each) not in (b"", b"Z", b"X")}:
        kill(left)
        time.sleep(PAUSE)


def reap_orphans() -> None:
    """Makes this process the parent of all later orphans among its descendants, whatever session they are in."""
    ctypes.CDLL(None, use_errno=True).prctl(SUBREAPER, 1, 0, 0, 0)
    reaps.set()


def kill(processes: set[int]) -> None:
    """Kills the processes with these numbers. Stops all of them first, so that none can start another in the
    meantime."""
    for number in (signal.SIGSTOP, signal.SIGKILL):
        for process in processes:
            try:
                os.kill(process, number)
            except OSError:
                pass


def end_strays() -> None:
    """Kills the children that this process didn't start, with all their descendants, until none is left. A student's
    program leaves such children if it kills its keeper, the process that watches it. Does nothing unless `reap_orphans`
    was called."""
    while reaps.is_set():
        with STARTING:
            own = {each.pid for each in OWN if each.returncode is None}
            strays = {child for child, parent in parents().items() if parent == os.getpid()} - own
            if not strays:
                return
            kill(strays | below(*strays))
            for stray in strays:
                try:
                    os.waitpid(stray, os.WNOHANG)
                except OSError:
                    pass
        time.sleep(PAUSE)


def end_at_once(status: int, folders: Iterable[Path]) -> None:
    """Kills all descendants of this process, for at most LAST seconds. Then removes these folders, and exits with the
    status without waiting for threads."""
    try:
        STARTING.acquire(timeout=LAST)  # From now on nothing is started.
        end = time.monotonic() + LAST
        while time.monotonic() < end and (left := below(os.getpid())):
            kill(left)
            while os.waitpid(-1, os.WNOHANG)[0]:
                pass
            time.sleep(PAUSE)
    except ChildProcessError:  # No child is left.
        pass
    finally:
        try:
            for folder in folders:
                shutil.rmtree(folder, ignore_errors=True)
        finally:
            os._exit(status)
