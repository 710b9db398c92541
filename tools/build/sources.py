"""Whether a program of this clone is built from its present sources.

The *record* of a program, a file beside it, has two lines: a hash of the sources from which the program was built, and
a hash of the program. Without a record of the program, as after `rt ci`, it has to be newer than all its sources.
"""
from __future__ import annotations

import hashlib
import os
from collections.abc import Iterator
from contextlib import suppress
from pathlib import Path

from tools.build.crates import TOP, needed

NO_SOURCES = ("out", "must-fail", "wrong")  # names of folders without sources
ENDINGS = (".rt", ".antt")


def program_of(name: str) -> Path:
    """Returns the path of a program in this clone."""
    return TOP / "crates" / name / "out" / name


def record_of(name: str) -> Path:
    """Returns the path of a program's record."""
    return program_of(name).with_name(f"{name}.sources")


def places(name: str) -> Iterator[Path]:
    """Yields the files that may be sources of a program, and the folders that have such files. A folder is as new as
    the last change of the names in it."""
    yield TOP / "crates.txt"
    for crate in needed([name]):
        for place in (TOP / "crates" / crate).glob("[!.]*"):
            if place.name not in NO_SOURCES:
                yield place
                for folder, folders, files in os.walk(place):
                    folders[:] = [it for it in folders if it not in NO_SOURCES]
                    yield from (Path(folder, it) for it in (*folders, *files))


def is_source(place: Path) -> bool:
    """Returns whether a file is a source, and not one that an editor has left."""
    return place.suffix in ENDINGS and not place.name.startswith(".") and place.is_file() and not place.is_symlink()


def sum_of_sources(name: str) -> str:
    """Returns a hash of the names and contents of a program's sources."""
    whole = hashlib.sha256()
    sources = sorted(str(it.relative_to(TOP)) for it in places(name) if it.name == "crates.txt" or is_source(it))
    for source in sources:
        whole.update(f"{hashlib.sha256((TOP / source).read_bytes()).hexdigest()}  {source}\n".encode())
    return whole.hexdigest()


def sum_of_program(name: str) -> str:
    """Returns a hash of a program that is built. Raises `OSError` if it isn't built."""
    return hashlib.sha256(program_of(name).read_bytes()).hexdigest()


def write_record(name: str, sources: str) -> None:
    """Writes the record of a program that was built from sources with the hash `sources`, if its folder can be written
    to."""
    record = record_of(name)
    new = record.with_name(f"{record.name}.{os.getpid()}.new")
    with suppress(OSError):
        new.write_text(f"{sources}\n{sum_of_program(name)}\n", encoding="ascii")
        new.replace(record)


def is_newest(name: str) -> bool:
    """Returns whether no source of a program, and no folder that has sources, is newer than the program."""
    made = program_of(name).stat().st_mtime_ns
    return all(it.lstat().st_mtime_ns <= made for it in places(name) if it.is_dir() or it.suffix in ENDINGS or it.name == "crates.txt")


def is_built(name: str, sources: str) -> bool:
    """Returns whether a program is built from its present sources, whose hash is `sources`. Writes the record if there
    is none of this program, and the program is newer than its sources."""
    if not os.access(program_of(name), os.X_OK):
        return False
    record = record_of(name)
    written = record.read_text(encoding="ascii").splitlines() if record.exists() else []
    # The second line of the record says of which program it is. If that is another one, only the times of files count.
    if written[1:] == [sum_of_program(name)]:
        return written[0] == sources
    if is_newest(name):
        write_record(name, sources)
        return True
    return False
