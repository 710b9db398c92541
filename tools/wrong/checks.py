"""Checks of crates by the prover that run side by side, and are ended by a signal to this process. A *round* is a check
of a crate with several of its wrong bodies, the edits. In all functions here, `tree` is the copy of the repository."""
from __future__ import annotations

import os
import shutil
import signal
import subprocess
import tempfile
import threading
from dataclasses import dataclass, field
from pathlib import Path

from tools.wrong.edits import Round
from tools.wrong.libraries import Tree, check_words

# The bytes of memory that a check of a large crate may need.
MOST_HELD = 2_500_000_000
# The bytes of memory that running proofs may still take.
LEFT_FREE = 4_000_000_000
PAUSE = 1.0
# A check ends with this process, however this process ends.
WITH_THIS_PROCESS = ("setpriv", "--pdeathsig", "KILL")


class Stopped(Exception):
    """Raised if `Running.stop` was called, so that no check may begin."""


@dataclass(frozen=True)
class Ended:
    """A check that has ended: its status, its output, and its processor time in seconds."""

    status: int
    output: str
    seconds: float


@dataclass
class Running:
    """The checks that are running. `beside` is the most checks that may run while proofs run too, or None once no
    proofs are running. While proofs run, no check begins if memory is short. `is_over` is set once `stop` was
    called."""

    beside: int | None = None
    lock: threading.Condition = field(default_factory=threading.Condition)
    checks: set[subprocess.Popen[bytes]] = field(default_factory=set)
    is_over: bool = False

    def may_begin(self) -> bool:
        """Returns whether another check may begin now: no proofs are running, or fewer checks than `beside` are running
        and there is enough memory for a proof and a check."""
        return self.beside is None or len(self.checks) < self.beside and free_memory() > MOST_HELD + LEFT_FREE

    def go_on_alone(self) -> None:
        """Notes that no proofs are running any longer, so that checks may use all processors."""
        with self.lock:
            self.beside = None
            self.lock.notify_all()

    def run(self, words: list[str], folder: Path, is_alone: bool = False) -> Ended:
        """Runs the command line of a check in a folder, and returns its result. Waits until the check may begin. If
        `is_alone` is set, also waits until no proofs are running. Raises `Stopped` if `stop` was called before that."""
        with tempfile.TemporaryFile() as output:
            with self.lock:
                while not self.is_over and (is_alone and self.beside is not None or not self.may_begin()):
                    self.lock.wait(PAUSE)
                if self.is_over:
                    raise Stopped
                check = subprocess.Popen([*WITH_THIS_PROCESS, *words], cwd=folder, stdin=subprocess.DEVNULL, stdout=output, stderr=subprocess.STDOUT)
                self.checks.add(check)
            _, status, used = os.wait4(check.pid, 0)
            with self.lock:
                self.checks.remove(check)
                check.returncode = os.waitstatus_to_exitcode(status)
            output.seek(0)
            text = output.read().decode("utf-8", errors="replace")
        return Ended(check.returncode, text, used.ru_utime + used.ru_stime)

    def stop(self) -> None:
        """Ends all checks, and prevents others from beginning."""
        with self.lock:
            self.is_over = True
            self.lock.notify_all()
            for check in self.checks:
                check.send_signal(signal.SIGKILL)


def copy_crate(folder: Path, to: Path, texts: dict[str, str]) -> None:
    """Copies the files of a crate that a check reads from the folder `folder` to the folder `to`. `texts` has the new
    texts of changed files, by their paths in the crate."""
    for part in ("src", "specs", "proofs"):
        if (folder / part).is_dir():
            shutil.copytree(folder / part, to / part)
    for file, text in texts.items():
        (to / file).write_text(text, encoding="utf-8")


def try_round(tree: Tree, crate: str, tried: Round, room: Path, running: Running) -> Ended:
    """Checks a copy of a crate with the edits of the round `tried`, and returns the result. If the check is killed,
    most likely because memory ran out, it is run once more when no proofs are running. The folder `room` has what
    earlier rounds proved."""
    copy, kept = room / "copy", room / "kept"
    kept.mkdir(exist_ok=True)
    copy_crate(tree.folder(crate), copy, tried.texts)
    words = check_words(tree, crate, tried.functions(), kept)
    try:
        ended = running.run(words, copy)
        # The check was killed, most likely because memory ran out.
        return running.run(words, copy, is_alone=True) if ended.status == -signal.SIGKILL else ended
    finally:
        shutil.rmtree(copy, ignore_errors=True)


def free_memory() -> int:
    """Returns the available memory in bytes."""
    lines = Path("/proc/meminfo").read_text(encoding="ascii").splitlines()
    return next(int(line.split()[1]) * 1024 for line in lines if line.startswith("MemAvailable:"))


def lane_count(wanted: int | None) -> int:
    """Returns the number of checks to run side by side: `wanted`, or the number in the environment's RT_JOBS, or that
    of processors. It is no more than memory allows, and at least 1."""
    jobs = wanted or int(os.environ.get("RT_JOBS") or 0) or len(os.sched_getaffinity(0))
    return max(1, min(jobs, free_memory() // MOST_HELD))
