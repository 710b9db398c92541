"""The folder of a class of several networks: `class.json` names them, and each network has the folder of its run in it.

A *run* is one network's journal and other files, and a *lab* is the file that defines the network and its students. The
*desk* of a network is the teacher's connection to its server. A *door* is a port at which students on other machines
connect.
"""
from __future__ import annotations

import json
import os
import re
from collections.abc import Sequence
from dataclasses import asdict, dataclass
from pathlib import Path

from classroom.core import lab as labs
from classroom.core import folders, plain
from classroom.core.folders import Process, new_folder, of_folder
from classroom.core.program import LAST_PORT, Fault
from classroom.core.statuses import FAILED

FILE = folders.CLASS
NAME = re.compile(r"[^/\0]+")


@dataclass(frozen=True)
class Network:
    """One network of a class: its name, which is also the name of its folder, its room, and the file of its lab."""

    name: str
    room: str
    lab: str

    def is_valid(self) -> bool:
        """Returns whether all values are strings without NUL, and `name` can be the name of a folder."""
        texts = (self.name, self.room, self.lab)
        return all(isinstance(text, str) and "\0" not in text for text in texts) and bool(NAME.fullmatch(self.name)) \
            and self.name not in (".", "..")


@dataclass(frozen=True)
class Class:
    """The contents of the file `class.json` in the folder of a class."""

    networks: list[Network]
    desk: Process  # The process that holds the desks of all networks.
    left: bool = False  # Whether the terminal of that process was closed.
    page: int | None = None
    looks: str | None = None  # The token in the address of the page for all networks.
    ends: str | None = None  # When the lesson ends, as a date and a time.
    door: str | None = None  # The folder of the door that leads to the networks.

    @staticmethod
    def read(folder: Path) -> Class | None:
        """Returns the class that the file `class.json` in a folder describes, or None if the folder has no such file.
        Raises `Fault` if the file can't be read, or doesn't describe a class."""
        if not os.path.lexists(folder / FILE):
            return None
        try:
            it = json.loads(plain.read(folder / FILE, plain.MOST_KEPT))
            made = Class(**it | {"networks": [Network(**each) for each in it["networks"]], "desk": Process(**it["desk"])})
            sound = made.is_valid()
        except (ValueError, KeyError, TypeError, RecursionError, AttributeError):
            sound = False
        if not sound:
            raise Fault(f"{folder / FILE}: this file is damaged, so the networks of the class aren't known. Name the folder of each network instead", FAILED)
        return made

    def is_valid(self) -> bool:
        """Returns whether all values are valid. They are checked because another user may have written the file. The
        types have to be right. There has to be a network, and all networks have to be valid and have different names.
        `page` has to be a possible port, `looks` and `ends` have to be ASCII, and `door` has no NUL."""
        names = [network.name for network in self.networks]
        return (
            bool(names) and len(set(names)) == len(names) and all(network.is_valid() for network in self.networks)
            and isinstance(self.left, bool) and type(self.desk.number) is int and isinstance(self.desk.start, str)
            and (self.page is None or type(self.page) is int and 0 <= self.page <= LAST_PORT)
            and all(text is None or isinstance(text, str) and text.isascii() for text in (self.looks, self.ends))
            and (self.door is None or isinstance(self.door, str) and "\0" not in self.door)
        )

    def write(self, folder: Path) -> None:
        """Writes these values as `class.json` into the folder of the class. If the file can't be written, as on a full
        disk, the old file stays, and no error is raised."""
        new = folder / f"{FILE}.new"
        try:
            new.write_text(json.dumps(asdict(self)) + "\n", encoding="utf-8")
            new.replace(folder / FILE)
        except OSError:
            new.unlink(missing_ok=True)


def title(folder: Path) -> str:
    """Returns the title of a class: its name and its day, from the name of its folder. Returns the folder's name
    unchanged if that has no day."""
    found = re.fullmatch(r"(?P<day>\d{4}-\d\d-\d\d)T\d{4}-(?P<name>.+)", folder.absolute().name)
    return f"{found['name']}, {found['day']}" if found else folder.absolute().name


def is_class(folder: Path) -> bool:
    """Returns whether a folder is the folder of a class, that is, whether it has a file `class.json`."""
    return (folder / FILE).is_file()


def name_of(files: Sequence[Path]) -> str:
    """Returns the name of a class by the files of its labs, such as `maths` for `maths-1.toml` and `maths-2.toml`. It
    is the common beginning of the files' names. If that ends with a hyphen or a similar character, and perhaps a number
    after it, these are left out. Returns `class` if the names have no common beginning."""
    common = os.path.commonprefix([file.stem for file in files])
    return re.sub(r"[-_. ]\d*$", "", common) or "class"


def make_folder(into: Path, networks: list[Network]) -> Path:
    """Makes the folder of a class of these networks below `into`, and returns it. The folder's `class.json` names this
    process as the one that holds the desks. The folder's name has the minute and the name of the class. Raises `Fault`
    if the folder can't be made."""
    # `new_folder` takes the name of a folder from the file of a lab, so the name of the class is passed as such a file.
    folder = new_folder(into, Path(f"{name_of([Path(network.lab) for network in networks])}.toml"))
    Class(networks, Process.of(os.getpid())).write(folder)
    return folder


def runs_of(folder: Path) -> list[Path]:
    """Returns the folders of the runs of a class, in the order of its networks and without those that weren't started.
    If `folder` isn't that of a class, returns only `folder` itself. Raises `Fault` if no network was started, or the
    file `class.json` is wrong."""
    found = Class.read(folder)
    if found is None:
        return [folder]
    there = [folder / network.name for network in found.networks if (folder / network.name).is_dir()]
    if not there:
        raise Fault(f"{folder}: no network of this class was started, so the class has no run", FAILED)
    return there


def run_of(folder: Path, name: str) -> Path:
    """Returns the folder of the only run of a class whose lab has a student or teacher of that name. If `folder` isn't
    that of a class, returns `folder` itself. Raises `Fault` if no run or several have such a person, or a run can't be
    read."""
    if not is_class(folder):
        return folder
    runs = [(run, labs.read(of_folder(run)[0])) for run in runs_of(folder)]
    found = [run for run, lab in runs if name in lab.students or name == lab.teacher[0]]
    if not found:
        raise Fault(f"{folder}: no network of this class has a student called {name}. The students' slips have their names")
    if len(found) > 1:
        raise Fault(f"{folder}: several networks of this class have a student called {name}. Name the folder of one network: {' or '.join(map(str, found))}")
    return found[0]


def given(words: list[str]) -> list[tuple[Path, Path]]:
    """Returns the lab and the journal of each run that the arguments name: folders of runs, folders of classes, or a
    lab and its journals. Raises `Fault` if a folder has no run, or a single argument isn't a folder. Doesn't check
    whether the files of a lab and its journals exist."""
    first = Path(words[0])
    if first.is_dir():
        return [of_folder(run) for word in words for run in runs_of(Path(word))]
    if len(words) == 1:
        raise Fault(f"{first} isn't the folder of a run or of a class. If it is the file of a lab, name one of its journals after it")
    return [(first, Path(word)) for word in words[1:]]
