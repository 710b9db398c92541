"""Proves crates by runs of `rt ci`, and puts what they make into the clone.

A first run of all crates reuses the proofs that this machine has made before. This run is stopped when it begins
to prove something. Each remaining crate is then proved by a run of its own, which uses the proofs of the runs before.
The reason is that `rt ci` uses several processes for a crate that is alone in its repository. For other crates `rt ci`
mostly uses one process, and the crates above have to wait. A crate on the longest chain of waiting crates, or on one
that is nearly as long, is proved before the others, and by several processes. A proof by several processes ends sooner,
but uses more processor time. So the other crates are proved by one process each if there are enough of them to occupy
the processors.

If `rt ci` can't use the proofs of other runs, all crates are proved by a single run.
"""
from __future__ import annotations

import os
import re
import shutil
import time
from pathlib import Path

from tools.build.crates import Uses, with_those_below
from tools.build.place import Place, Room, take, take_library
from tools.build.progress import Progress
from tools.build.running import Run, Screen, Width, can_keep, pause

MOST_JOBS = 4  # processes of a proof, at most
MEMORY = 4_000_000_000  # bytes that have to be free for one more proof side by side


def wanted_processes() -> int:
    """Returns the number of processes for each proof that the environment's RT_JOBS asks for, or 0 if `rt` chooses."""
    number = os.environ.get("RT_JOBS", "")
    return int(number) if number.isdigit() else 0


def processors() -> int:
    """Returns the number of processors that proofs use: as many as RT_JOBS says, or all."""
    return wanted_processes() or len(os.sched_getaffinity(0))


def jobs_of(number: int) -> int:
    """Returns the number of processes that `rt ci` is expected to use for a proof of a crate that is alone in its
    repository. The result is half of the `number` processors, but at least 1 and at most MOST_JOBS. The result is
    always 1 if RT_JOBS is set."""
    return 1 if wanted_processes() else max(1, min(MOST_JOBS, number // 2))


def processes_of(width: Width, number: int) -> int:
    """Returns the number of processes of a proof of this width on `number` processors. The result is always 1 if RT_JOBS
    is set."""
    most = min(MOST_JOBS, number)
    return 1 if wanted_processes() else {Width.ONE: 1, Width.USUAL: jobs_of(number), Width.ALL: most}[width]


def most_processes(number: int) -> int:
    """Returns how many processes of proofs may run on `number` processors before no further proof begins. If proofs have
    several processes, there is one process more than there are processors, since such a proof begins and ends with a
    single process."""
    return number + (jobs_of(number) > 1)


def at_once_of(number: int) -> int:
    """Returns the number of crates that are proved side by side on `number` processors, for an estimate of the time. The
    result is the number of proofs of the usual width whose processes occupy all processors."""
    return -(-most_processes(number) // jobs_of(number))


def width_for(is_first: bool, idle: int, others: int, number: int) -> Width:
    """Returns the width for the proof of a crate on `number` processors, of which `idle` have no process of a proof.
    `others` is the number of other crates that could begin now. If `is_first` is set, the longest chain waits for the
    crate. Such a proof gets all processors if there are enough idle ones for that and for one process of each other
    crate. Otherwise it has the usual width. A proof for which the longest chain doesn't wait has one process, unless
    its share of the idle processors is enough for the usual width."""
    if is_first:
        return Width.ALL if idle >= processes_of(Width.ALL, number) + others else Width.USUAL
    return Width.USUAL if idle // (others + 1) >= jobs_of(number) else Width.ONE


def has_memory() -> bool:
    """Returns whether the free memory is enough for one more proof, or isn't known."""
    free = re.search(r"MemAvailable:\s+(\d+)", Path("/proc/meminfo").read_text(encoding="ascii"))
    return free is None or 1024 * int(free[1]) >= MEMORY


class Proving:
    """The proofs of a build. Runs `rt ci` for them in the repositories of `room`, and notes their progress."""

    def __init__(self, room: Room, crates: Uses, progress: Progress, screen: Screen) -> None:
        """Begins without a run. `room` makes the repositories, `crates` are to be proved, `progress` counts the proved
        ones, and `screen` shows the progress."""
        self.room, self.crates, self.progress, self.screen = room, crates, progress, screen
        self.runs: dict[str, Run] = {}

    def all(self) -> Path | None:
        """Proves all crates, and puts their libraries and programs into the clone. Returns the log of the run that
        failed, or None if none did."""
        try:
            if not can_keep():
                return self.by_one_run()
            whole = Run(self.room.place(self.crates))
            self.runs[""] = whole
            if self.wait_for_end(whole, until_proving=True):
                return self.outcome(whole, self.crates)
            whole.end()
            self.take(whole.place, self.progress.proved)
            return self.by_single_runs()
        finally:
            for run in self.runs.values():
                run.end()

    def wait_for_end(self, run: Run, until_proving: bool) -> bool:
        """Waits for the end of a run of all crates, and notes the progress meanwhile. If `until_proving` is set, stops
        waiting when the run begins to prove something. Returns whether the run has ended."""
        while not run.has_ended():
            if until_proving and run.is_proving():
                run.follow(self.progress, self.screen)
                return run.has_ended()
            self.screen.show(self.progress)
            pause()
            run.follow(self.progress, self.screen)
        run.follow(self.progress, self.screen)
        return True

    def by_single_runs(self) -> Path | None:
        """Proves the remaining crates by one run each, or all by one run if this machine keeps no proofs. Returns the
        log of a run that failed, or None if none did."""
        self.runs.clear()
        while len(self.progress.proved) < len(self.crates):
            self.begin()
            self.screen.show(self.progress)
            pause()
            for crate, run in [*self.runs.items()]:
                if run.has_ended():
                    del self.runs[crate]
                    run.follow(self.progress, self.screen)
                    failed = self.outcome(run, [crate])
                    if failed or run.lacks_keeping():
                        return failed or self.by_one_run()
                    shutil.rmtree(run.place.repository, ignore_errors=True)
        return None

    def by_one_run(self) -> Path | None:
        """Proves all crates by one run, because this machine keeps no proofs for other runs, or the toolchain is too old
        for that. Returns the log of the run if it failed, or None."""
        for run in self.runs.values():
            run.end()
        whole = Run(self.room.place(self.crates), Width.ALL)
        self.runs = {"": whole}
        self.progress.proved.clear()
        self.progress.begun.clear()
        self.wait_for_end(whole, until_proving=False)
        return self.outcome(whole, self.crates)

    def begin(self) -> None:
        """Begins the proofs that are next in the order, as long as processors are idle and there is memory. One is begun
        in any case if no other is running."""
        number, waiting = processors(), self.progress.next()
        while waiting:
            used = sum(processes_of(run.width, number) for run in self.runs.values())
            if self.runs and (used >= most_processes(number) or not has_memory()):
                return
            crate = waiting.pop(0)
            is_first = self.progress.is_first(crate)
            width = width_for(is_first, number - used, len(waiting), number)
            place = self.room.place(with_those_below([crate], self.crates))
            self.runs[crate] = Run(place, width, is_first, self.is_alone(crate))
            self.progress.begun[crate] = time.monotonic()

    def is_alone(self, crate: str) -> bool:
        """Returns whether no other crate can be proved beside this one, because all that remain use it."""
        left = [it for it in self.crates if it not in self.progress.proved]
        return all(crate in with_those_below([it], self.crates) for it in left)

    def outcome(self, run: Run, crates: list[str] | Uses) -> Path | None:
        """Copies the results of an ended run, which was to prove these crates, into the clone. Returns the log if the
        run failed, or None."""
        if run.process.returncode != 0 or not self.progress.proved.issuperset(crates):
            return run.place.log
        self.take(run.place, {*crates})
        return None

    def take(self, place: Place, crates: set[str]) -> None:
        """Copies the libraries and programs of these crates from the repository of `place` into the clone."""
        for crate in crates:
            take_library(place.repository, crate)
            take(place.repository, crate)
