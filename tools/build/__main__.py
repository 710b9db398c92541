"""Proves and builds programs of this clone.

    python3 -B -m tools.build PROGRAM..             builds these programs, except those that are built from their present sources
    python3 -B -m tools.build --built PROGRAM..     prints the paths of these programs up to the first that isn't built, and builds nothing

Proofs run on all processors, and proofs that this machine has made before are used again, unless the toolchain is too
old for that. The status is 0 if all these programs are built, 1 if not, and 127 if the toolchain that builds them is
missing. After a signal the build ends by that signal. The finished proofs are then kept, with the same exception.
"""
from __future__ import annotations

import os
import re
import shutil
import signal
import sys
import time
from pathlib import Path

from tools.build.crates import TOP, Uses, expected, needed
from tools.build.place import room
from tools.build.progress import Progress, duration_text
from tools.build.proving import Proving, at_once_of, jobs_of, processors
from tools.build.running import Screen, Stopped, can_keep, end_with_parent, note_signals, raise_if_signalled
from tools.build.sources import is_built, program_of, sum_of_sources, write_record

WRONG = re.compile(r"error|: (not proved|no proof)|NOT PROVED|run rt fmt|^rt: (FAILED|note|the disk)")
MOST_SHOWN = 5  # the most lines that are shown of a failure
ALONE = 0.2  # the share of a proof that runs in one process, however many processors there are
NO_TOOLCHAIN = 127  # the status of a shell that doesn't find a command


def say(line: str) -> None:
    """Prints a line on standard error, as the progress line is."""
    print(f"mml: {line}", file=sys.stderr, flush=True)


def progress_of(crates: Uses, number: int) -> Progress:
    """Returns the progress of a build of these crates on `number` processors, with no crate proved and no proof
    begun. Of each proof's time, the share ALONE stays, and the rest is divided by the number of its processes."""
    share = ALONE + (1 - ALONE) / jobs_of(number)
    return Progress(crates, {crate: seconds * share for crate, seconds in expected(crates).items()}, at_once_of(number))


def tell_beginning(programs: list[str], progress: Progress) -> None:
    """Prints what the build of these programs does, how long it takes by this progress, and what the user can do
    instead."""
    side = processors()
    time_text = f"{duration_text(progress.left(0.0))} on {side} processor{'s' if side > 1 else ''}, as measured on another machine"
    begins = f"building {' and '.join(programs)}, after proving {len(progress.crates)} crates"
    if can_keep():
        say(f"{begins}; proofs that this machine has already are reused")
        say(f"if nothing is proved yet, that takes {time_text}; you can stop the build, and the next one continues it; ./try runs the program "
            "without proofs")
    else:
        say(f"{begins}; this toolchain reuses no proofs of earlier builds")
        say(f"that takes {time_text}; if you stop the build, the next one begins from nothing; ./try runs the program without proofs")


def tell_failure(log: Path, programs: list[str]) -> None:
    """Prints why the build failed, with lines from the file `log`, the output of `rt ci`. Keeps a copy of this file
    beside the last of these programs, and prints its path."""
    lines = log.read_text(encoding="utf-8", errors="replace").splitlines()
    for line in [it for it in lines if WRONG.search(it)][:MOST_SHOWN] or lines[-MOST_SHOWN:]:
        print(line, file=sys.stderr)
    kept = TOP / "crates" / programs[-1] / "build.log"
    shutil.copyfile(log, kept)
    say(f"the build failed, see {kept}; if there was an older program, it is kept")


def prove(programs: list[str]) -> int:
    """Proves and builds programs, and prints the progress. Returns the exit status: 0 if all are built, and 1 if
    not."""
    crates = needed(programs)
    progress, screen = progress_of(crates, processors()), Screen()
    tell_beginning(programs, progress)
    began = time.time()
    with room() as here:
        try:
            failed = Proving(here, crates, progress, screen).all()
        finally:
            screen.close(progress)
        if failed:
            tell_failure(failed, programs)
            return 1
    for program in programs:
        (TOP / "crates" / program / "build.log").unlink(missing_ok=True)
        # The time of a new file may be a little earlier than the clock's, so one second is allowed.
        if not program_of(program).exists() or program_of(program).stat().st_mtime < began - 1:
            say(f"the build failed: it has ended without an error, but hasn't made {program}")
            return 1
    return 0


def build(programs: list[str]) -> int:
    """Builds those of these programs that aren't built from their present sources. Returns the exit status."""
    sums = {it: sum_of_sources(it) for it in programs}
    lacking = [it for it in programs if not is_built(it, sums[it])]
    if not lacking:
        return 0
    if shutil.which("rt") is None:
        say("the program has to be built, and the toolchain's command rt is not on the path")
        say("a release runs without it, on x86_64 Linux with Bash, and Python 3.11 for ./class (docs/OPERATE.md); "
            "./release makes one in a clone where rt is, once ./mml build has built the program there (docs/MAINTAINING.md)")
        return NO_TOOLCHAIN
    status = prove(lacking)
    if status == 0:
        for program in lacking:
            write_record(program, sums[program])
    return status


def tell_built(programs: list[str]) -> int:
    """Prints the paths of these programs in turn, up to the first one that isn't built from its present sources. For that
    one prints an error line. Returns the exit status: 0 if all are built, and otherwise 1."""
    for program in programs:
        if not is_built(program, sum_of_sources(program)):
            say(f"{program} isn't built from these sources")
            return 1
        print(program_of(program))
    return 0


def main(words: list[str]) -> int:
    """Builds the programs that these words name, or with `--built` only prints their paths. Returns the exit status. A
    signal stops a build and then ends this process."""
    if words[:1] == ["--built"]:
        return tell_built(words[1:])
    end_with_parent()
    note_signals()
    try:
        status = build(words)
        raise_if_signalled()
        return status
    except Stopped as stopped:
        say("stopped; what is proved is kept, and the next build continues from there" if can_keep() else
            "stopped; the next build begins from nothing, since this toolchain reuses no proofs of earlier builds")
        signal.signal(stopped.number, signal.SIG_DFL)
        os.kill(os.getpid(), stopped.number)
        return 1  # This isn't reached, because the signal ends this process.
    except OSError as error:
        say(f"the build failed: {error.filename or 'output'}: {error.strerror}")
        return 1


if __name__ == "__main__":
    sys.exit(main(sys.argv[1:]))
