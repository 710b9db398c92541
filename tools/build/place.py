"""The folders in which a build proves: small repositories with the sources of a crate and of those below it.

In such a repository `rt ci` works as at the top of a clone: it proves what no earlier run on this machine has proved,
and leaves programs and libraries there. Files of the clone can be edited meanwhile without an effect on the build, and
the results of `rt check` in the clone stay as they are.
"""
from __future__ import annotations

import os
import re
import shutil
import tempfile
from collections.abc import Iterator
from contextlib import contextmanager
from dataclasses import dataclass
from pathlib import Path

from tools.build.crates import TOP, Uses, lines

PREFIX = "mml-build-"
# The files of a crate that a proof reads, and the files that its program is run on.
FOLDERS = ("src", "specs", "proofs", "data")
FILES = ("stdin", "stdout", "args", "status")
NOT_SOURCES = shutil.ignore_patterns(".*", "*~")


@dataclass(frozen=True)
class Place:
    """A repository, a folder for temporary files, and the path of the file with the output of `rt ci` there."""

    repository: Path
    temporary: Path
    log: Path


@dataclass
class Room:
    """The folder with the repositories of a build, the sources as they were at its beginning, and a folder for
    temporary files."""

    folder: Path
    temporary: Path
    count: int = 0

    def place(self, crates: Uses) -> Place:
        """Makes a new repository with these crates, as their sources were at the beginning of the build. The first call
        needs all crates of the build, because it keeps a copy of their sources for the later calls."""
        self.count += 1
        place = Place(self.folder / str(self.count), self.temporary, self.folder / f"{self.count}.log")
        fill(place.repository, crates, self.folder / "sources" if self.count > 1 else TOP)
        if self.count == 1:
            fill(self.folder / "sources", crates, place.repository)
        return place


def homes() -> list[Path]:
    """Returns two folders: the one in which repositories are made, and the one for temporary files. Repositories are in
    Git's own folder if this clone has one: it is on the clone's disk, and no check looks into it. Libraries take
    gigabytes, which may be too much for temporary files."""
    git, temporary = TOP / ".git", Path(tempfile.gettempdir())
    return [git if git.is_dir() and os.access(git, os.W_OK) else temporary, temporary]


def sweep() -> None:
    """Removes the folders that earlier builds left because they were killed. The name of such a folder has the number of
    the process of its build."""
    for folder in [folder for home in homes() for folder in home.glob(f"{PREFIX}*")]:
        of = re.match(rf"{PREFIX}(\d+)-", folder.name)
        if of and not Path(f"/proc/{of[1]}").exists():
            shutil.rmtree(folder, ignore_errors=True)


@contextmanager
def room() -> Iterator[Room]:
    """Yields the folders of a build, and removes them at the end."""
    sweep()
    folders = []
    try:
        for home in homes():
            folders.append(Path(tempfile.mkdtemp(prefix=f"{PREFIX}{os.getpid()}-", dir=home)))
        folders[1].chmod(0o711)  # As root, `rt ci` runs programs as nobody, in folders below.
        yield Room(folders[0], folders[1])
    finally:
        for folder in [*folders, *folders]:  # Twice: a process that was killed may still have written.
            shutil.rmtree(folder, ignore_errors=True)


def fill(top: Path, crates: Uses, of: Path) -> None:
    """Makes a repository at `top`, and copies into it from the folder `of`: the sources of these crates, with their
    lines of `crates.txt`, and the file HANDLES."""
    (top / ".git").mkdir(parents=True)  # `rt ci` wants to be at the top of a repository.
    every = lines(of)
    (top / "crates.txt").write_text("".join(f"{every[crate]}\n" for crate in crates), encoding="utf-8")
    if (of / "HANDLES").exists():
        shutil.copyfile(of / "HANDLES", top / "HANDLES")
    for crate in crates:
        here, there = of / "crates" / crate, top / "crates" / crate
        there.mkdir(parents=True)
        for name in FOLDERS:
            if (here / name).is_dir():
                shutil.copytree(here / name, there / name, ignore=NOT_SOURCES)
        for name in FILES:
            if (here / name).is_file():
                shutil.copyfile(here / name, there / name)


def take_library(top: Path, crate: str) -> None:
    """Moves the library of a crate from the repository at `top` to this clone, for trying wrong bodies. A library that
    `rt check` has built here, which has a stamp, isn't replaced."""
    made, to = (it / "crates" / crate / "out/rlib" for it in (top, TOP))
    if made.is_dir() and not (to / "stamp").exists():
        to.parent.mkdir(exist_ok=True)
        shutil.rmtree(to, ignore_errors=True)
        shutil.move(made, to)


def take(top: Path, program: str) -> bool:
    """Copies a program from the repository at `top` to its place in this clone. Returns whether the repository has the
    program."""
    made, to = top / "crates" / program / "out" / program, TOP / "crates" / program / "out" / program
    if not made.is_file():
        return False
    to.parent.mkdir(exist_ok=True)
    new = to.with_name(f"{program}.{os.getpid()}.new")
    shutil.copyfile(made, new)
    new.chmod(0o755)
    new.replace(to)
    return True
