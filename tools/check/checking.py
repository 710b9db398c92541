"""A whole check, from its first line to its last. A check has *stages*, which run one after another, and a stage has
*parts*, which run side by side. A part that runs *beside* uses only the processors that others leave idle."""
from __future__ import annotations

import os
import shutil
import signal
from pathlib import Path

from tools.check import chain
from tools.check.measure import figures
from tools.check.needs import install, missing, instruction
from tools.check.parts import PROOFS, TOP, Part, minutes_of
from tools.check.processes import adopt_orphans
from tools.check.results import not_tried, result
from tools.check.running import Crew, Done
from tools.check.signals import HANDLER, Killed

Stages = list[list[Part]]


def is_gate() -> bool:
    """Returns whether this check is one that accepts a change, so that no part may be left out. The environment's CI
    says so."""
    return bool(os.environ.get("CI"))


def tell(line: str) -> None:
    """Prints a line, and flushes the output."""
    print(line, flush=True)


class Count:
    """The number of tests that passed and failed, the processor time of each part, and the parts that were left out."""

    def __init__(self, left_out: list[str]) -> None:
        """`left_out` has the parts that the command line leaves out, as texts."""
        self.passed, self.failed = 0, 0
        self.minutes: dict[str, float] = {}
        self.left_out = left_out

    def add(self, done: Done) -> bool:
        """Counts a part that has ended, and prints its result, with its whole output if it failed. Returns whether it
        passed."""
        it = result(done)
        self.passed += it.passed
        self.failed += it.failed
        self.minutes[done.part.name] = done.processor_minutes
        if it.failed:
            tell(done.output.rstrip("\n"))
        tell(f"{'FAILED' if it.failed else 'ok':6} {done.seconds:5.0f} s  {done.part.name}: {it.line}")
        self.left_out += [f"of {done.part.name}: {why}" for why in not_tried(done.output)]
        return not it.failed

    def with_needs(self, parts: list[Part]) -> list[Part]:
        """Returns the parts that can run, because what they need is there. A part that can't run is printed as failed
        if no part may be left out or the need has `is_a_must`, and otherwise noted as left out. What only some tests of
        a part need (`likes`) is handled in the same way, but such a part is returned."""
        lacks = missing(parts)
        for name, need in lacks.items():
            names = [it.name for it in parts if name in it.needs + it.likes]
            why = f"{', '.join(names)}: needs {instruction(need)}"
            if is_gate() or need.is_a_must:
                self.failed += len(names)
                tell(f"FAILED {why}")
            else:
                self.left_out.append(why)
        return [it for it in parts if not set(it.needs) & set(lacks)]

    def close(self, crew: Crew) -> int:
        """Prints the parts that were left out, the processor times, the longest chain of proofs, and the last line.
        `crew` ran the parts. Saves the times of proofs for `./check chain`. Returns the exit status: 1 if a test failed
        or none ran."""
        for line in self.left_out:
            tell(f"left out: {line}")
        tell(figures(crew.checks, self.minutes).rstrip("\n"))
        if spans := chain.spans_of(crew.checks):
            chain.save_spans(spans)
            tell(chain.short(spans))
        if self.passed + self.failed == 0:
            tell("FAILED: no test ran")
            self.failed = 1
        tell(f"{self.passed} passed, {self.failed} failed")
        return 1 if self.failed else 0


def begin(stages: Stages, processors: int) -> None:
    """Installs the packages that the parts of these stages need and that are missing, if no part may be left out
    (`is_gate`). Prints how long the check will take on `processors` processors."""
    if is_gate():
        install([part for stage in stages for part in stage])
    names = [stage[0].name if len(stage) == 1 else "scripts" for stage in stages]
    takes = minutes_of(stages, processors)
    each = ", ".join(f"{name} {it:.1f}" for name, it in zip(names, takes))
    tell(f"check: about {max(1, round(sum(takes)))} minutes on {processors} processors ({each})")


def run(stages: Stages, crew: Crew, count: Count) -> None:
    """Runs the stages one after another by `crew`, and counts each part in `count`. Parts that run beside start with
    the first stage. Stops if the proofs fail, because there is no program then."""
    beside = [it for stage in stages for it in stage if it.is_beside]
    for number, stage in enumerate(stages):
        here = [it for it in stage if not it.is_beside]
        for done in crew.run(count.with_needs([*here, *beside] if number == 0 else here)):
            is_well = count.add(done)
            if done.part.name == PROOFS.name:
                forget_records()
            later = [it.name for after in stages[number + 1:] for it in after]
            if not is_well and done.part.name == PROOFS.name and later:
                crew.end()
                tell(f"not done, since the proofs failed: {', '.join(later)}")
                return


def forget_records() -> None:
    """Removes the records of the sources that programs were built from, after `rt ci` has built the programs again."""
    for record in TOP.glob("crates/*/out/*.sources"):
        record.unlink()


def check(stages: Stages, left_out: list[str], room: Path) -> int:
    """Runs the stages with temporary files in the folder `room`. Returns the exit status. The status is 1 if a test
    failed or none ran, 128 plus a signal's number if a signal ended the check, and otherwise 0. `left_out` has texts
    about the parts that the command line leaves out. At the end no process and no file is left."""
    processors = len(os.sched_getaffinity(0))
    adopt_orphans()
    crew, count = Crew(room, processors), Count(left_out)
    try:
        HANDLER.begin()
        room.chmod(0o711)  # `rt ci` runs programs as the user nobody, in folders below this one.
        begin(stages, processors)
        run(stages, crew, count)
        return count.close(crew)
    except Killed as killed:
        HANDLER.end()
        unfinished = crew.end()
        tell(f"check: ended by {signal.Signals(killed.number).name}, in {', '.join(unfinished) or 'its beginning'}")
        count.failed += max(1, len(unfinished))
        count.close(crew)
        return 128 + killed.number
    finally:
        HANDLER.end()
        crew.end()
        shutil.rmtree(room, ignore_errors=True)
