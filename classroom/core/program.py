"""The proved program: its path, and its answers to calls."""
from __future__ import annotations

import os
import re
import shlex
import sys
from collections.abc import Callable
from dataclasses import dataclass
from functools import cache
from pathlib import Path
from typing import TypeVar

from classroom.core.processes import run
from classroom.core.statuses import FAILED

LAST_PORT = 65535
PORTS = 50  # the number of ports that are tried, of which the first free one is taken
LISTENING = re.compile(r"(?m)^listening on port (?P<port>\d+)(?:, desk on port (?P<desk>\d+))?$")  # the first words that a server prints
Opened = TypeVar("Opened")
TOP = Path(__file__).resolve().parents[2]


# The command by which this was called, for the commands that messages quote.
CLASS = shlex.quote(sys.argv[0]) if Path(sys.argv[0]).name == "class" else "./class"


class Fault(Exception):
    """An error that ends a subcommand: a line for people, and the exit status."""

    def __init__(self, text: str, status: int = 1) -> None:
        """`text` is the line that the subcommand prints, and `status` its exit status."""
        super().__init__(text)
        self.status = status


@dataclass(frozen=True)
class Answer:
    """The output of a call of the program, and its exit status."""

    status: int
    output: str
    error: str


def is_clone() -> bool:
    """Returns whether this is a clone of the repository, in which programs are built, rather than a release."""
    return (TOP / "crates").is_dir()


def built() -> Path:
    """Returns the path at which the program is when it is built, in a clone or in a release. Raises `Fault` if the
    release needs a newer C library."""
    if is_clone():
        return TOP / "crates/mml_host/out/mml_host"
    if error := library_error():
        raise Fault(error, FAILED)
    return TOP / "bin/mml"


@cache
def library_error() -> str:
    """Returns an error line if the system has an older C library than this release needs, or one that isn't the GNU C
    library. Otherwise returns an empty text. Without this line, users would get the message of the system's loader,
    which doesn't help them. The script `mml` prints the same line."""
    proved = TOP / "PROVED"
    wanted = re.search(r"(?m)^# wants glibc ([0-9.]+)$", proved.read_text(encoding="utf-8")) if proved.exists() else None
    here = library_version() if wanted else ""
    if wanted is None or numbers(here) >= numbers(wanted[1]):
        return ""
    return (f"this release needs the GNU C library {wanted[1]} or later, and this machine has {here or 'another one'}. "
            "Use a newer system; Debian 12, for example, has 2.36")


def library_version() -> str:
    """Returns the version of the GNU C library, or an empty text if the system has another C library."""
    try:
        told = os.confstr("CS_GNU_LIBC_VERSION")
    except (OSError, ValueError):
        told = None
    return (told or "").removeprefix("glibc ")


def numbers(version: str) -> list[int]:
    """Returns the numbers in the text of a version, in their order."""
    return [int(number) for number in re.findall("[0-9]+", version)]


def program(variable: str = "MML_PROGRAM") -> Path:
    """Returns the path of the program, or of the one that the environment variable with the name `variable` names.
    Raises `Fault` if there is no such program that can be run, or if a release needs a newer C library."""
    path = Path(os.environ.get(variable) or built())
    if not os.access(path, os.X_OK) or path.is_dir():
        raise Fault("the program mml isn't built. Type `./mml build` to build it; this needs `rt`, the command of the Rattle toolchain" if is_clone() else
                    "the program bin/mml of this release is missing, or isn't executable. Unpack the archive of the release again")
    return path


def host() -> Path:
    """Returns the path of the program for the commands `host`, `resume`, `verify`, `tally`, `answer` and `limits`, for
    which the environment variable MML_HOST can name another one. Raises `Fault` if it isn't built, or if a release
    needs a newer C library."""
    return program("MML_HOST")


def require_built() -> None:
    """Raises `Fault` if one of the programs that `program` and `host` return isn't built, or if a release needs a newer
    C library."""
    program()
    host()


def first_free(port: int, opened: Callable[[int], Opened | None], what: str = "") -> Opened:
    """Returns the result of `opened` for the first free port, from `port` on. `opened` is called with one port after
    another, and returns None if that port is taken. Raises `Fault` if none of the first PORTS ports is free, with
    `what` in its text between `all ports` and their numbers."""
    last = min(port + PORTS - 1, LAST_PORT)
    for number in range(port, last + 1):
        it = opened(number)
        if it is not None:
            return it
    raise Fault(f"all ports {what}from {port} to {last} are in use. Name another port in the command", 4)


def call(*words: str | Path) -> Answer:
    """Runs the proved program with these arguments to its end. Returns its output and exit status. Raises `Fault` if it
    isn't built."""
    return answer_of(program(), *words)


def host_call(*words: str | Path, files: tuple[int, ...] = ()) -> Answer:
    """Runs the program that `host` returns with these arguments to its end. Returns its output and exit status. The
    program inherits the open files with these descriptors. Raises `Fault` if it isn't built."""
    return answer_of(host(), *words, files=files)


def answer_of(path: Path, *words: str | Path, files: tuple[int, ...] = ()) -> Answer:
    """Runs the program at a path with these arguments to its end. Returns its output and exit status. The program
    inherits the open files with these descriptors."""
    # SIGXFSZ stays ignored, as it is here: if a file may not grow further, only a write fails, and nothing ends.
    done = run([path, *map(plain, words)], restore_signals=False, pass_fds=files)
    return Answer(done.returncode, done.stdout.decode(errors="replace"), done.stderr.decode(errors="replace").strip())


def plain(word: str | Path) -> str:
    """Returns an argument of a program. `./` is added before the name of a file that begins with `-`, so that it isn't
    read as an option."""
    return f"./{word}" if str(word).startswith("-") else str(word)
