"""Plain files in a folder that other users may fill. A plain file is a regular one, neither a pipe nor a device, so
that reading it never waits. Such a file is read up to a limit only."""
from __future__ import annotations

import os
import stat
from pathlib import Path
from typing import BinaryIO

from classroom.core.program import Fault
from classroom.core.statuses import FAILED

MOST_KEPT = 1 << 16  # the most bytes that are read of a file that `run` keeps for itself
DIGITS = 19  # the most digits of a number in a record


def open_plain(path: Path) -> BinaryIO:
    """Opens a plain file for reading, and returns it. Raises `Fault` if the file is a pipe or a device, or can't be
    opened."""
    try:
        file = os.open(path, os.O_RDONLY | os.O_NONBLOCK | os.O_NOCTTY | os.O_CLOEXEC)
    except OSError as error:
        raise Fault(f"{path}: {error.strerror}", FAILED) from None
    if not stat.S_ISREG(os.fstat(file).st_mode):
        os.close(file)
        raise not_plain(path)
    return os.fdopen(file, "rb")


def not_plain(path: Path) -> Fault:
    """Returns the fault to raise if a path isn't that of a plain file."""
    return Fault(f"{path}: this isn't a plain file, but a folder, a pipe or a device", FAILED)


def read(path: Path, most: int) -> bytes:
    """Returns the bytes of a plain file. Raises `Fault` if the file isn't plain, can't be opened, or has more than
    `most` bytes."""
    with open_plain(path) as it:
        is_large = os.fstat(it.fileno()).st_size > most  # The file can still grow before it is read.
        content = b"" if is_large else it.read(most + 1) or b""
    if is_large or len(content) > most:
        raise Fault(f"{path}: this file is too large: it has more than {most} bytes", FAILED)
    return content


def tail(path: Path, most: int) -> bytes:
    """Returns the last `most` bytes of a plain file, or all bytes if there are fewer. Raises `Fault` if the file isn't
    plain or can't be opened."""
    with open_plain(path) as it:
        it.seek(max(0, os.fstat(it.fileno()).st_size - most))
        return it.read(most) or b""


def require_plain(path: Path) -> None:
    """Raises `Fault` if the path is that of something other than a plain file, or of a link whose target is missing.
    Raises no error if nothing is at the path."""
    if os.path.lexists(path) and not path.is_file():
        raise not_plain(path)


def number(text: bytes) -> int | None:
    """Returns the number that at most DIGITS decimal digits spell, or None for any other bytes."""
    return int(text) if text.isdigit() and len(text) <= DIGITS else None
