"""Runs `rt` as if there were twice as many processors: `python3 -B wide.py [--alone] WORDS`.

`rt ci` divides the processors among the proofs that can begin. `rt ci` counts the tests of a crate as a proof of their
own, even if there are none. So a crate that is alone in its repository would get only half of the processors.

With `--alone`, `rt` also runs as if twice as much memory were free. This is for a crate beside which no other is proved.
`rt` estimates how much memory a proof may take. For the largest crates the estimate is about three times what a proof
takes. So on a machine with 16 GB, they would be proved by one process.
"""
from __future__ import annotations

import builtins
import io
import os
import re
import runpy
import shutil
import sys
from typing import Any

ALONE = "--alone"
MEMORY = "/proc/meminfo"  # the file in which the system says how much memory is free
OPEN = open


def doubled(number: int) -> set[int]:
    """Returns a set with twice as many numbers of processors as `number`: those from 0 on."""
    return {*range(2 * number)}


def with_numbers_doubled(text: str) -> str:
    """Returns the text with twice each number."""
    return re.sub(r"\d+", lambda found: str(2 * int(found[0])), text)


def open_doubled(file: Any, *arguments: Any, **named: Any) -> Any:
    """Opens a file, as `open` does. If it is the file `MEMORY`, each number in it seems to be twice as great."""
    opened = OPEN(file, *arguments, **named)
    if file != MEMORY:
        return opened
    with opened:
        return io.StringIO(with_numbers_doubled(opened.read()))


def main() -> None:
    """Runs the `rt` on the path with the arguments of this process, and makes it see twice as many processors as there
    are. If the first argument is `--alone`, makes it see twice the free memory, too. Exits with an error line if `rt`
    isn't on the path."""
    rt = shutil.which("rt")
    if rt is None:
        sys.exit("the toolchain's command rt is not on the path")
    found = doubled(len(os.sched_getaffinity(0)))
    os.sched_getaffinity = lambda _: found
    if sys.argv[1:2] == [ALONE]:
        del sys.argv[1]
        builtins.open = open_doubled
    sys.argv[0] = rt
    runpy.run_path(rt, run_name="__main__")


if __name__ == "__main__":
    main()
