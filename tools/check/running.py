"""Runs parts of a check side by side, each in its own session and with its own folder. A part that runs *beside* uses
only the processors that the others leave idle. It reads words from the outputs of other parts on its standard input."""
from __future__ import annotations

import contextlib
import os
import re
import subprocess
import time
from collections.abc import Iterator
from dataclasses import dataclass, field
from pathlib import Path

from tools.check.measure import PROVING, Checks
from tools.check.parts import TOP, Part
from tools.check.processes import end_all
from tools.check.signals import HANDLER

POLL = 0.1  # seconds between two looks at the running parts
PATIENCE = 8.0  # seconds that parts have to clear up if they are ended


@dataclass(frozen=True)
class Done:
    """A part that has ended: its exit status, the time that it took, and its output."""

    part: Part
    status: int
    seconds: float
    processor_minutes: float
    output: str


@dataclass
class Running:
    """A part that is running, with its process and its output so far."""

    part: Part
    process: subprocess.Popen[bytes]
    output: Path
    begun: float = field(default_factory=time.monotonic)
    shown: int = 0

    def show(self) -> list[str]:
        """Reads the complete lines that are new in the output, and prints those that match the part's `shows`. Returns
        the words in these lines that match the part's `hands_on`, for the parts that run beside. Does nothing if the
        part has no `shows`."""
        if not self.part.shows:
            return []
        with self.output.open("rb") as output:
            output.seek(self.shown)
            whole, found, _ = output.read().rpartition(b"\n")
        self.shown += len(whole + found)
        lines = whole.decode(errors="replace").splitlines()
        for line in lines:
            if re.search(self.part.shows, line):
                print(f"  {line}", flush=True)
        wanted = self.part.hands_on
        return [it[1] for line in lines if wanted and (it := re.search(wanted, line))]

    def send_words(self, words: list[str], is_last: bool = False) -> None:
        """Writes words to the standard input of a part that runs beside, if it still reads. If `is_last` is set, closes
        that input after them. Does nothing for any other part."""
        if self.process.stdin:
            with contextlib.suppress(BrokenPipeError):
                self.process.stdin.write("".join(f"{it}\n" for it in words).encode())
            if is_last:
                self.process.stdin.close()
                self.process.stdin = None


class Crew:
    """The parts that are running side by side."""

    def __init__(self, room: Path, processors: int) -> None:
        """`room` is the folder for temporary files, and `processors` the number of processors that the parts may
        use."""
        self.room, self.processors = room, processors
        self.running: dict[int, Running] = {}
        self.begun = 0
        self.checks = Checks()

    def fits(self, part: Part) -> bool:
        """Returns whether enough processors are free for a part to begin. A part that runs beside the others needs
        none."""
        taken = sum(min(it.part.width, self.processors) for it in self.running.values() if not it.part.is_beside)
        return part.is_beside or taken + min(part.width, self.processors) <= self.processors

    def begin(self, part: Part) -> None:
        """Starts a part with its own folder for temporary files, and its output in a file. A signal to this process
        waits until the part is noted as running, so that the part can be ended then."""
        self.begun += 1
        folder = self.room / str(self.begun)
        folder.mkdir(mode=0o711)
        output = self.room / f"{self.begun}.output"
        more = {"TMPDIR": str(folder), "PYTHONDONTWRITEBYTECODE": "1"}
        with output.open("wb") as it, HANDLER.held():
            process = subprocess.Popen(
                part.command, cwd=TOP, stdin=subprocess.PIPE if part.is_beside else subprocess.DEVNULL, stdout=it,
                stderr=subprocess.STDOUT, bufsize=0, env={**os.environ, **more}, start_new_session=True,
            )
            self.running[process.pid] = Running(part, process, output)

    def ended(self) -> Iterator[Done]:
        """Yields the parts that have ended since the last call, after showing the rest of their outputs. After the end
        of a part with `hands_on`, no more words come, so closes the inputs of the parts that run beside. Also collects
        the statuses of other processes that the parts have left."""
        while True:
            try:
                pid, status, used = os.wait4(-1, os.WNOHANG)
            except ChildProcessError:
                return
            if pid == 0:
                return
            if pid in self.running:
                it = self.running.pop(pid)
                it.process.returncode = os.waitstatus_to_exitcode(status)
                self.show(it, is_last=bool(it.part.hands_on))
                it.send_words([], is_last=True)
                text = it.output.read_text(encoding="utf-8", errors="replace")
                minutes = (used.ru_utime + used.ru_stime) / 60
                yield Done(it.part, it.process.returncode, time.monotonic() - it.begun, minutes, text)

    def show(self, of: Running, is_last: bool = False) -> None:
        """Prints those new lines of the running part `of` that match its `shows`. Sends what matches its `hands_on` in
        the new lines to the parts that run beside. If `is_last` is set, closes the standard inputs of these parts after
        that."""
        words = of.show()
        for it in self.running.values():
            if words or is_last:
                it.send_words(words, is_last)

    def run(self, parts: list[Part]) -> Iterator[Done]:
        """Runs parts to their ends, and yields each as it ends. Whenever processors are free, the first part that fits
        begins. Doesn't wait for parts that run beside, unless `parts` is empty."""
        waiting = list(parts)
        is_last = not parts
        while waiting or any(is_last or not it.part.is_beside for it in self.running.values()):
            for part in [*waiting]:
                if self.fits(part):
                    waiting.remove(part)
                    self.begin(part)
            yield from self.ended()
            for it in self.running.values():
                self.show(it)
            self.checks.look({pid: it.part.name for pid, it in self.running.items() if it.part.name in PROVING})
            if self.running:
                time.sleep(POLL)

    def end(self) -> list[str]:
        """Ends the parts that are still running, and all other processes below this one. Returns the names of these
        parts."""
        names = [it.part.name for it in self.running.values()]
        end_all([*self.running], PATIENCE)
        return names
