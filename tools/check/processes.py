"""Data about processes, and ending all processes below this one."""
from __future__ import annotations

import ctypes
import os
import signal
import time
from collections.abc import Callable, Iterable
from dataclasses import dataclass

TICKS = os.sysconf("SC_CLK_TCK")
PAGE = os.sysconf("SC_PAGE_SIZE")
PR_SET_PDEATHSIG = 1
PR_SET_CHILD_SUBREAPER = 36
PAUSE = 0.05  # seconds between two looks at the processes


@dataclass(frozen=True)
class Process:
    """The system's data about a process: its name, the number of its parent, its state and its start. `used` are the
    seconds of processor time of the process and its ended children, and `held` is its memory in bytes."""

    name: str
    parent: int
    state: str
    start: str
    used: float
    held: int


def process(pid: int) -> Process:
    """Returns the system's data about the process with that number. Raises `OSError` or `ValueError` if there is
    none."""
    with open(f"/proc/{pid}/stat", encoding="utf-8", errors="replace") as it:
        text = it.read()
    name = text[text.index("(") + 1 : text.rindex(")")]
    # The fields after the name, as proc(5) lists them from the third one on: first the state and the parent. The fields
    # 11 to 14 here are the processor times of the process and its ended children, 19 is the start, and 21 the pages held.
    fields = text[text.rindex(")") + 2 :].split()
    used = sum(int(field) for field in fields[11:15]) / TICKS
    return Process(name, int(fields[1]), fields[0], fields[19], used, int(fields[21]) * PAGE)


def processes() -> dict[int, Process]:
    """Returns the system's data about all processes, by their numbers. Skips processes that end in the meantime."""
    found = {}
    for pid in map(int, filter(str.isdigit, os.listdir("/proc"))):
        try:
            found[pid] = process(pid)
        except (OSError, ValueError):
            continue
    return found


def below(top: int) -> list[int]:
    """Returns the numbers of the descendants of a process that haven't ended."""
    found = processes()
    near = {top}
    while True:
        more = {pid for pid, it in found.items() if it.parent in near} - near
        if not more:
            return [pid for pid in near - {top} if found[pid].state != "Z"]
        near |= more


def set_process(option: int, value: int) -> None:
    """Calls the system's `prctl` with an option and a value. Raises `OSError` if the call fails."""
    if ctypes.CDLL(None, use_errno=True).prctl(option, value, 0, 0, 0) != 0:
        raise OSError(ctypes.get_errno(), "prctl")


def adopt_orphans() -> None:
    """Makes this process the parent of each descendant whose parent ends, in whatever session it is. Raises `OSError`
    if the system refuses that."""
    set_process(PR_SET_CHILD_SUBREAPER, 1)


def end_with_parent(parent: int) -> None:
    """Asks the system to send this process SIGTERM when its parent ends, and sends it at once if the parent isn't
    `parent` any longer. Raises `OSError` if the system refuses that."""
    set_process(PR_SET_PDEATHSIG, signal.SIGTERM)
    if os.getppid() != parent:
        os.kill(os.getpid(), signal.SIGTERM)


def send(pids: list[int], number: signal.Signals, to: Callable[[int, int], None] = os.kill) -> None:
    """Sends a signal to the processes with these numbers, or to groups if `to` is `os.killpg`. Ignores those that have
    ended."""
    for pid in pids:
        try:
            to(pid, number)
        except ProcessLookupError:
            continue


def reap() -> None:
    """Collects the statuses of the children that have ended, so that they don't stay as zombies."""
    try:
        while os.waitpid(-1, os.WNOHANG)[0] != 0:
            continue
    except ChildProcessError:
        return


def wait_until_gone(pids: Callable[[], Iterable[int]], seconds: float) -> bool:
    """Waits at most `seconds` seconds until no process that `pids` returns is left below this one. Returns whether none
    is left."""
    until = time.monotonic() + seconds
    while set(pids()) & set(below(os.getpid())):
        if time.monotonic() > until:
            return False
        time.sleep(PAUSE)
        reap()
    return True


def end_all(groups: list[int], patience: float) -> None:
    """Ends all processes below this one. First sends SIGTERM to these groups of processes, and waits at most `patience`
    seconds, so that they can clean up. Then sends it to all others, and kills those that stay for a quarter of that
    time."""
    def rest() -> list[int]:
        """Returns the numbers of the processes below this one that haven't ended."""
        return below(os.getpid())

    send(groups, signal.SIGTERM, os.killpg)
    wait_until_gone(lambda: groups, patience)
    send(rest(), signal.SIGTERM)
    if not wait_until_gone(rest, patience / 4):
        while rest():
            send(rest(), signal.SIGKILL)
            wait_until_gone(rest, patience / 4)
    reap()
