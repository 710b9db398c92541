"""Slips for students, which have the data that a student needs to connect: made by `new`, or made again by `./class
slips`. The *way* into a network is what all its slips have in common, such as the port. A *door* is a TLS port for
students on other machines."""
from __future__ import annotations

import argparse
import csv
import io
from dataclasses import replace
from pathlib import Path

from classroom.client import NoSlip, door_of
from classroom.core import lab as labs
from classroom.core.program import LAST_PORT, Fault
from classroom.core.printable import guarded
from classroom.door import certificate
from classroom.door.opening import own_host_name
from classroom.door.routes import network
from classroom.setup import printed, slips
from classroom.setup.slips import FIRST_PAGE, FIRST_PORT, Way

HEADS = ("name", "e-mail", "network", "room", "file")


def port(word: str) -> int:
    """Returns the port that an argument names. Raises `ArgumentTypeError` if it names none."""
    if not (word.isascii() and word.isdecimal() and 1 <= int(word) <= LAST_PORT):
        raise argparse.ArgumentTypeError(f"{word} isn't a port: write a number from 1 to {LAST_PORT}")
    return int(word)


def door(word: str) -> str:
    """Returns the address of a door, such as `class.example:4700`, that an argument names. A port alone is one of this
    machine. Raises `ArgumentTypeError` for any other argument, or if a door can't have this machine's own name."""
    place = word
    if word.isdecimal():
        host = own_host_name()
        if why := certificate.refusal_of(host):
            raise argparse.ArgumentTypeError(why)
        place = f"{host}:{word}"
    try:
        door_of(place)
    except NoSlip as error:
        raise argparse.ArgumentTypeError(str(error)) from None
    return place


def add_way(words: argparse.ArgumentParser) -> None:
    """Adds the options about the way into a network to a parser: its ports, its door and its account for ssh."""
    words.add_argument("--port", type=port, help=f"the port on the slips; of several labs, the port of the first ({FIRST_PORT})")
    words.add_argument("--page-port", type=port, metavar="PORT",
                       help=f"the port of the page for playing by hand; of several labs, the port of the first ({FIRST_PAGE})")
    words.add_argument("--door", type=door, metavar="HOST:PORT", help="the address by which students reach the door of `run --door`")
    words.add_argument("--certificate", type=Path, metavar="FILE",
                       help="the door's key and certificate (door.pem in the folder of the first lab; it is made if it is missing)")
    words.add_argument("--ssh", metavar="NAME@HOST", help="without a door: the account that students use for ssh (NAME at this machine)")


def add_words(words: argparse.ArgumentParser) -> None:
    """Adds the arguments of `slips` to its parser."""
    words.add_argument("labs", nargs="+", metavar="LAB", help="the labs of a class, in the order in which `run` takes them")
    add_way(words)
    words.set_defaults(work=remake_slips)


def ways(words: argparse.Namespace, files: list[Path], rooms: list[str], before: list[Way | None] | None = None) -> list[Way]:
    """Returns the way into the network of each lab, for the labs in these files. `rooms` has the room of each network,
    and `before` the way on each lab's earlier slips, or None. Each value is that of the arguments, or else that in
    `before`, or else a default. The arguments and the defaults name the first lab's ports, and each further lab has the
    next ones. If the arguments name a door, a way has no ssh account; if they name only such an account, a way has no
    door. Without any door or account, a way has the account `NAME` at this machine. Makes the certificate of a door in
    the arguments if it is missing. Raises `Fault` if that fails, if two networks have the same name, or if a port is
    too high."""
    found, names = [], [network(file) for file in files]
    if len(set(names)) < len(names):
        same = next(name for name in names if names.count(name) > 1)
        raise Fault(f"several of these labs would have the same network name, {same}. Rename the files of the labs")
    fingerprint = certificate.make_if_missing(words.certificate or certificate.beside(files[0]), door_of(words.door)[0]) if words.door else ""
    for index, (name, room) in enumerate(zip(names, rooms, strict=True)):
        old = before[index] if before else None
        at = words.port + index if words.port else old.port if old else FIRST_PORT + index
        page = words.page_port + index if words.page_port else old.page if old else FIRST_PAGE + index
        if max(at, page) > LAST_PORT:
            raise Fault(f"{len(files)} labs need as many ports, and some would be above {LAST_PORT}, the highest port. Name a lower --port or --page-port")
        way = Way(port=at, network=name, room=room, page=page)
        if words.door:
            way = replace(way, door=words.door, fingerprint=fingerprint)
        elif old and not words.ssh:
            way = replace(way, door=old.door, fingerprint=old.fingerprint, ssh=old.ssh)
        else:
            way = replace(way, ssh=words.ssh or f"NAME@{own_host_name()}")
        found.append(way)
    return found


def rewrite_slips(made: labs.Lab, way: Way, lab: Path) -> None:
    """Writes the page with the slips of the lab `made`, and the slips of its students and its teacher, beside the lab's
    file `lab`. `way` is the way into its network. Replaces older files. Raises `Fault` if a file can't be
    written."""
    folder = slips.folder_of(lab)
    folder.mkdir(mode=0o700, exist_ok=True)
    for name in made.without_house().students:
        slips.replace(folder / f"{name}.slip", slips.text(made, name, way))
    slips.replace(slips.teacher_of(lab), slips.text(made, made.teacher[0], way))
    slips.replace(slips.page_of(lab), printed.page(made, way))


def remake_slips(words: argparse.Namespace) -> int:
    """Makes the slips of the labs in the arguments again, with the way in that the arguments name, or else with that of
    the earlier slips. Prints the files. Returns the exit status. Raises `Fault` if a lab can't be read, two networks
    have the same name, a port is too high, or the door's certificate can't be made."""
    files = [Path(lab) for lab in words.labs]
    every = [labs.read(file) for file in files]
    before = [Way.read(file) for file in files]
    every_way = ways(words, files, [way.room if way else "" for way in before], before)
    for made, way, file in zip(every, every_way, files, strict=True):
        rewrite_slips(made, way, file)
        print(f"slips for printing: {slips.page_of(file)}; for programs: {slips.folder_of(file)}; your own slip, for you alone: {slips.teacher_of(file)}")
    if any(way.door and not printed.has_squares(way) for way in every_way):
        print(printed.NO_SQUARE)
    return 0


def merge_table(parts: list[tuple[labs.Lab, Way, Path]]) -> str:
    """Returns the table for a mail merge as CSV, with a row for each student that names the file of the student's slip.
    `parts` has each lab with the way into its network and its file."""
    out = io.StringIO()
    rows = csv.writer(out, lineterminator="\n")
    rows.writerow(HEADS)
    for made, way, lab in parts:
        for name in made.without_house().students:
            person = made.people[name]
            file = slips.folder_of(lab) / f"{name}.slip"
            rows.writerow([guarded(cell) for cell in (person.written, person.email, way.network, way.room, str(file))])
    return out.getvalue()
