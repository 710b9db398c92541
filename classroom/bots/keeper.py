"""A process of its own, the keeper, that runs a student's program, the bot, and keeps it within its limits. The first
line of standard input is a plan, the JSON object with the values of `Plan`.

The keeper ends the program and all processes that it started, also those in other sessions. The keeper does so if the
program ends, uses too much memory or room for files, or consists of more than 64 processes. The keeper also ends the
program if standard input ends, as it does when the process that started the keeper is gone. Then the keeper prints how
the program ended: `ended STATUS` or `killed REASON`.

A program is *kept apart* if it runs in namespaces of its own (`classroom.bots.apart`). Its plan then has a *world*,
which says what it sees there.
"""
from __future__ import annotations

import errno
import json
import os
import resource
import select
import signal
import stat
import subprocess
import sys
import time
from collections.abc import Callable
from dataclasses import dataclass
from pathlib import Path
from typing import Any

from classroom.bots import apart
from classroom.core.processes import PAUSE, below, kill, reap_orphans

LOOK = 0.05  # seconds between two checks of the limits
SELDOM = 1.0  # seconds between two measurements of all files in a folder
MOST_PROCESSES = 64
FILE_BYTES = 16 << 20  # the size of one file
FOLDER_MEGABYTES = 64
LEAST = 1 << 12  # the least bytes that a file counts as, even if it is empty
NO_NAMESPACES = "the system refused the namespaces that isolate it: "
Identity = tuple[int, int]  # what identifies a file: the numbers of its device and of its inode


@dataclass(frozen=True)
class Plan:
    """A program with its limits. With 0 seconds of processor time only its memory is limited, as for a student's own
    program at home."""

    words: list[str]  # the command
    folder: str  # the program's folder
    megabytes: int  # the most memory of all its processes
    seconds: int  # the most processor time
    channel: int = -1  # the descriptor of the socket through which the listener in its namespaces is sent
    world: apart.World | None = None  # what the program sees in its namespaces, if it has its own

    @staticmethod
    def read() -> Plan:
        """Returns the plan in the first line of standard input. Exits with status 1 if standard input ends before
        that."""
        line = b""
        while not line.endswith(b"\n"):
            more = os.read(0, 1 << 16)
            if not more:
                sys.exit(1)
            line += more
        told: dict[str, Any] = json.loads(line)
        world = told.pop("world")
        return Plan(**told, world=apart.World(**world) if world else None)


def identity(of: os.stat_result) -> Identity:
    """Returns the numbers that identify a file: those of its device and of its inode."""
    return of.st_dev, of.st_ino


def resident(process: int) -> int:
    """Returns the resident memory of a process in bytes, or 0 if it has ended."""
    try:
        with open(f"/proc/{process}/statm", "rb") as it:
            return int(it.read().split()[1]) * resource.getpagesize()  # The second number of `statm` counts resident pages.
    except (OSError, IndexError):
        return 0


def sizes_of_unnamed_files(process: int) -> dict[Identity, int]:
    """Returns the size in bytes of each unlinked file that a process has open, for example one from `memfd_create`, by
    the identity of the file. Leaves out files that can't be examined, and so returns none if the process has ended."""
    found = {}
    try:
        for each in os.scandir(f"/proc/{process}/fd"):
            try:
                it = each.stat()
            except OSError:
                continue
            if stat.S_ISREG(it.st_mode) and not it.st_nlink:
                found[identity(it)] = it.st_blocks * 512  # The system counts blocks of 512 bytes.
    except OSError:
        pass
    return found


def shared_memory() -> int:
    """Returns the size in bytes of all System V shared memory in this namespace, or 0 if the system doesn't report
    it."""
    try:
        rows = Path("/proc/sysvipc/shm").read_text(encoding="ascii").splitlines()
        return sum(int(row.split()[rows[0].split().index("rss")]) for row in rows[1:])
    except (OSError, ValueError, IndexError):
        return 0


def size_of_folder(folder: str) -> int:
    """Returns the size in bytes of all files in a folder. Each file and folder counts as LEAST bytes at least. Doesn't
    follow links. Stops as soon as the sum is more than FOLDER_MEGABYTES. A path that is too long counts as more than
    that, and a folder that can't be read as empty."""
    total, left = 0, [folder]
    while left:
        try:
            for each in os.scandir(left.pop()):
                it = each.stat(follow_symlinks=False)
                total += max(LEAST, it.st_blocks * 512)
                if stat.S_ISDIR(it.st_mode):
                    left.append(each.path)
                if total > FOLDER_MEGABYTES << 20:
                    return total
        except OSError as error:
            total += (error.errno == errno.ENAMETOOLONG) * (FOLDER_MEGABYTES << 21)
    return total


def size_of_root() -> int:
    """Returns the size in bytes of all files in the root of this namespace. A program that is kept apart has this root
    for itself."""
    it = os.statvfs("/")
    return (it.f_blocks - it.f_bfree) * it.f_frsize


def end_all() -> None:
    """Kills all descendants of this process, until none is left."""
    while True:
        kill(below(os.getpid()))
        try:
            while os.waitpid(-1, os.WNOHANG)[0]:
                pass
        except ChildProcessError:  # There are no descendants either, since an orphan becomes a child of this process.
            return
        time.sleep(PAUSE)


def apply_limits(plan: Plan) -> None:
    """Limits the processor time and the size of files of this process, and begins a new session. The process becomes
    the program afterwards. If the plan has no seconds, limits only core files. If the plan has a world, gives up all
    rights. Raises `OSError` if the system refuses that."""
    resource.setrlimit(resource.RLIMIT_CORE, (0, 0))
    if plan.seconds:
        resource.setrlimit(resource.RLIMIT_CPU, (plan.seconds, plan.seconds + 1))
        resource.setrlimit(resource.RLIMIT_FSIZE, (FILE_BYTES, FILE_BYTES))
    os.setsid()
    if plan.world:
        apart.drop_rights()


class Watch:
    """A measurement of a program's memory and files, against the limits of its plan."""

    def __init__(self, plan: Plan) -> None:
        """Begins a measurement against the limits of `plan`. Notes which file has the program's output, because this
        file doesn't count as memory. The output is the keeper's standard error."""
        self.plan = plan
        self.output = identity(os.fstat(2))  # the file of the output, which doesn't count as memory
        self.seldom = 0.0  # the time before which the folder isn't measured again

    def memory(self, every: set[int]) -> int:
        """Returns the memory in bytes that the processes with the numbers in `every` use, with shared memory and files
        that exist only in memory. If the plan has no seconds, counts only their resident memory."""
        if not self.plan.seconds:
            return sum(map(resident, every))
        own = os.stat("/").st_dev if self.plan.world else -1  # the device of the own root, whose files count as files and not as memory
        files: dict[Identity, int] = {}
        for process in every:
            files |= sizes_of_unnamed_files(process)
        held = sum(size for it, size in files.items() if it != self.output and it[0] != own)
        return sum(map(resident, every)) + held + (shared_memory() if self.plan.world else 0)

    def files_size(self) -> int:
        """Returns the size in bytes of the files that the program made, or 0 if only memory is limited. If the files
        are in a folder of this machine, measuring takes long, so within SELDOM seconds after a measurement the result
        is 0."""
        if self.plan.world:
            return size_of_root()
        if not self.plan.seconds or time.monotonic() < self.seldom:
            return 0
        found = size_of_folder(self.plan.folder)
        self.seldom = time.monotonic() + SELDOM
        return found

    def fault(self) -> str:
        """Returns a text about the first limit that the program exceeds, or an empty text if it exceeds none."""
        every = below(os.getpid())
        if len(every) > MOST_PROCESSES:
            return f"it had more than {MOST_PROCESSES} processes"
        if self.memory(every) > self.plan.megabytes << 20:
            return f"it used more than {self.plan.megabytes} megabytes of memory"
        if self.files_size() > FOLDER_MEGABYTES << 20:
            return f"it had more than {FOLDER_MEGABYTES} megabytes in files"
        return ""


def wait_for_end(process: subprocess.Popen[bytes], fault: Callable[[], str]) -> str:
    """Waits until a process ends, standard input ends, or `fault` returns a text, the reason to end the process.
    Returns `ended STATUS` or `killed REASON`; the reason is `asked` if standard input has ended. Only decides that the
    process is to be killed, and doesn't kill it."""
    while True:
        if select.select([sys.stdin], [], [], LOOK)[0] and not os.read(0, 4096):
            return "killed asked"
        status = process.poll()
        if status is not None:
            return f"ended {status}"
        if why := fault():
            return f"killed {why}"


def keep(plan: Plan) -> str:
    """Runs the program of a plan within its limits, and kills all that it leaves running. Returns how it ended, `ended
    STATUS` or `killed REASON`. If the program couldn't be started, the reason says why."""
    if plan.world:
        try:
            # Only the first process of the new namespaces continues after this call. This process waits for its end.
            apart.enter(plan.world, plan.folder, FOLDER_MEGABYTES, plan.channel)
        except OSError as error:
            return f"killed {NO_NAMESPACES}{error.filename}: {error.strerror}"
    reap_orphans()
    try:
        process = subprocess.Popen(plan.words, stdin=subprocess.DEVNULL, preexec_fn=lambda: apply_limits(plan))
    except OSError as error:
        how = f"killed {plan.words[0]}: {error.strerror}"
    else:
        how = wait_for_end(process, Watch(plan).fault)
    end_all()
    return how


def main() -> None:
    """Runs the program of the plan on standard input, and prints how it ended."""
    for number in (signal.SIGINT, signal.SIGHUP, signal.SIGTERM):
        signal.signal(number, signal.SIG_IGN)
    said = os.dup(1)
    os.dup2(2, 1)  # What the program prints goes to the keeper's standard error, the bot's output.
    how = keep(Plan.read())
    try:
        os.write(said, f"{how}\n".encode())
    except OSError:
        pass
