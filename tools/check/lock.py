"""One check at a time in a tree."""
from __future__ import annotations

import fcntl
import os
from collections.abc import Iterator
from contextlib import contextmanager

from tools.check.parts import TOP


class Taken(Exception):
    """Raised if another check is running in this tree."""


@contextmanager
def alone() -> Iterator[None]:
    """Locks the tree's file `check` during a block. Raises `Taken` if another process has locked it. The system
    releases the lock if this process ends."""
    file = os.open(TOP / "check", os.O_RDONLY | os.O_CLOEXEC)
    try:
        fcntl.flock(file, fcntl.LOCK_EX | fcntl.LOCK_NB)
    except BlockingIOError:
        os.close(file)
        raise Taken from None
    try:
        yield
    finally:
        os.close(file)
