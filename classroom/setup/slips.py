"""Slips: the data that each student needs to connect, as a file for programs and on a page to print."""
from __future__ import annotations

import os
import shutil
from dataclasses import dataclass
from pathlib import Path

from classroom.client import NoSlip, port_of
from classroom.core import plain
from classroom.core.lab import Lab, write_new
from classroom.core.program import Fault
from classroom.door.routes import network

FIRST_PORT, FIRST_PAGE = 4711, 4790  # the usual ports of a network's server and of its page to play


@dataclass(frozen=True)
class Way:
    """The way into a network, which is the same on all its slips. The way has the network's name and room, the ports of
    its server and of its page to play, and a door with its fingerprint or an account for ssh. A *door* is a TLS port
    for students on other machines."""

    port: int
    network: str
    room: str = ""
    page: int = FIRST_PAGE
    door: str = ""
    fingerprint: str = ""
    ssh: str = ""

    def lines(self) -> list[str]:
        """Returns the lines of a slip that have these values, without the port and without empty values. Those of a
        door are last."""
        told = {"network": self.network, "room": self.room, "page": str(self.page), "ssh": self.ssh, "door": self.door,
                "fingerprint": self.fingerprint}
        return [f"{word} {value}" for word, value in told.items() if value]

    @staticmethod
    def read(lab: Path) -> Way | None:
        """Returns the way that the slips of a lab's students have, or None if there is no readable slip."""
        for file in sorted(folder_of(lab).glob("*.slip")):
            try:
                pairs = [line.partition(" ") for line in plain.read(file, plain.MOST_KEPT).decode().splitlines()]
                it = {word: rest.strip() for word, _, rest in pairs}
                return Way(port_of(it["port"]), it.get("network") or network(lab), it.get("room", ""),
                           port_of(it.get("page", str(FIRST_PAGE))), it.get("door", ""), it.get("fingerprint", ""), it.get("ssh", ""))
            except (Fault, NoSlip, KeyError, UnicodeDecodeError):
                continue
        return None


def folder_of(lab: Path) -> Path:
    """Returns the folder with the slips of a lab's students, one file each."""
    return lab.with_name(f"{lab.stem}-slips")


def page_of(lab: Path) -> Path:
    """Returns the file of the page with a lab's slips for printing."""
    return lab.with_name(f"{lab.stem}-slips.html")


def teacher_of(lab: Path) -> Path:
    """Returns the file of the teacher's slip, which is apart from the students' slips."""
    return lab.with_name(f"{lab.stem}-teacher.slip")


def slip(made: Lab, name: str, port: int) -> list[str]:
    """Returns the lines that every client reads in the slip of the student or teacher `name`: the port of the server,
    the name, the key and the nodes. The slip is for the lab `made`."""
    key = made.students[name] if name in made.students else made.teacher[1]
    nodes = ",".join(map(str, made.nodes_of(name)))
    return [f"port {port}", f"name {name}", f"key {key}", *([f"nodes {nodes}"] if nodes else [])]


def text(made: Lab, name: str, way: Way) -> str:
    """Returns the text of the file with the slip of the student or teacher `name` of the lab `made`. `way` is the way
    into the lab's network."""
    return "".join(f"{line}\n" for line in (*slip(made, name, way.port), *way.lines()))


def write_all(made: Lab, way: Way, folder: Path) -> None:
    """Writes a slip for each student of the lab `made` into a new folder that no other user can read. `way` is the way
    into the lab's network. Raises `Fault` if the folder exists already, or if it or one of the slips can't be written.
    In this case no new folder is left."""
    try:
        folder.mkdir(mode=0o700)
    except OSError as error:
        raise Fault(f"{folder}: {error.strerror}", 4) from None
    try:
        for name in made.without_house().students:
            write_new(folder / f"{name}.slip", text(made, name, way))
    except BaseException:
        shutil.rmtree(folder)
        raise


def replace(path: Path, content: str) -> None:
    """Writes a file that no other user can read, with this content. An older file at `path` stays until the new one is
    complete. Raises `Fault` if the new one can't be written."""
    other = path.with_name(f".{path.name}.{os.getpid()}")
    write_new(other, content)
    other.replace(path)
