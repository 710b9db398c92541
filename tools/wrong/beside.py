"""Tries the wrong bodies of crates while `rt ci` proves the crates, with the processors that it leaves idle. In all
functions here, `tree` is the copy of the repository."""
from __future__ import annotations

import contextlib
import os
import shutil
from collections.abc import Iterable, Iterator
from pathlib import Path

from tools.wrong.checks import Running
from tools.wrong.libraries import Tree

LAST_IN_TURN = 19  # the lowest priority, as a niceness
FIRST_TO_END = 500  # is added to the score by which the system chooses the process to end if memory runs out


def give_way() -> None:
    """Gives this process the lowest priority for processors. Also makes it one of the first to be ended if the system
    runs out of memory."""
    os.nice(LAST_IN_TURN)
    changes = {"oom_score_adj": FIRST_TO_END}
    if os.getsid(0) == os.getpid():
        # Linux may schedule all processes of a session as one group, which has a priority of its own.
        changes["autogroup"] = LAST_IN_TURN
    for file, number in changes.items():
        with contextlib.suppress(OSError):
            Path(f"/proc/self/{file}").write_text(str(number), encoding="ascii")


def keep_library(tree: Tree, crate: str) -> None:
    """Keeps a copy of a crate's library in the tree's folder of libraries, because `rt ci` puts the older library back
    at its end. Keeps only a link to the library if the folders are on different disks. Does nothing if the crate has no
    library."""
    if not (tree.left(crate) / "format").is_file():
        return
    try:
        shutil.copytree(tree.left(crate), tree.library(crate), copy_function=os.link)
    except OSError:  # The folders are on different disks.
        shutil.rmtree(tree.library(crate), ignore_errors=True)
        tree.library(crate).symlink_to(tree.left(crate))


def as_proved(tree: Tree, crates: list[str], names: Iterable[str], running: Running) -> Iterator[str]:
    """Yields each of these crates once the crate, and all that it uses directly or by others, are proved. Yields the
    remaining ones at the end. `names` are the names of proved crates, as they come, until all proofs have ended. Keeps
    the library of each of them, as `keep_library` does. After the last name, the checks of `running` may use all
    processors."""
    left, proved = [*crates], set[str]()
    for name in map(str.strip, names):
        if name in tree.uses and name not in proved:
            keep_library(tree, name)
            proved.add(name)
        for crate in [it for it in left if {it, *tree.below(it)} <= proved]:
            left.remove(crate)
            yield crate
    running.go_on_alone()
    yield from left
