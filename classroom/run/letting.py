"""A door for the runs of a class: its options, and the lines that are printed about it. A *door* is a TLS port at which
students on other machines connect, and its folder has its data. A *slip* is the file with what a student needs to
connect, and a page's *token* is the random text in its address. In each function, a folder of None means that there is
no door."""
from __future__ import annotations

import argparse
from collections.abc import Callable, Iterable, Iterator
from contextlib import contextmanager
from pathlib import Path

from classroom.client import door_of
from classroom.core.program import CLASS
from classroom.door import certificate, opening
from classroom.door.opening import Place
from classroom.door.routes import ALL, DoorData, announce_all, network
from classroom.run.teller import FROM_ELSEWHERE, TO_LOOK, TO_PLAY

WHERE = "[ADDRESS:]PORT"


def add_words(words: argparse.ArgumentParser) -> None:
    """Adds the options of a door to a parser."""
    words.add_argument("--door", type=Place.of, metavar=WHERE,
                       help="open a door for students on other machines, by TLS, at this port of all addresses or of one")
    words.add_argument("--certificate", type=Path, metavar="FILE",
                       help="the door's key and certificate (door.pem in the folder of the first lab; it is made if it is missing)")
    words.add_argument("--door-at", metavar="FOLDER", help=argparse.SUPPRESS)  # A door that another process has opened.


@contextmanager
def door(words: argparse.Namespace, labs: Iterable[Path], tell: Callable[[str], None], before: str | None = None) -> Iterator[str | None]:
    """Opens a door if the options in `words` ask for one, or opens the one whose folder is `before` again. Yields the
    door's folder, or None if there is none, and closes the door at the end. A door that another process has opened
    stays open. `labs` are the files of the labs, and `tell` prints a line. Raises `Fault` if the door can't be
    opened."""
    every, opened, folder = [*labs], None, words.door_at
    if words.door is not None:
        file = words.certificate or certificate.beside(every[0])
        certificate.make_if_missing(file, words.door.address or opening.own_host_name())
        opened = opening.open_door(words.door, Path(words.into), file, tell)
        for line in door_lines(opened, every, file):
            tell(line)
    elif before is not None and folder is None:
        opened, folder = opening.reopen(Path(before), tell), before
    try:
        yield str(opened.folder) if opened is not None else folder
    finally:
        if opened is not None:
            opened.close()


def door_lines(opened: opening.OpenDoor, labs: list[Path], file: Path) -> Iterator[str]:
    """Yields the lines about an open door: its port, its certificate in `file`, and the labs whose slips name another
    address. Raises `Fault` if the file has no certificate."""
    yield f"the door is open at port {opened.port}; its certificate is {file}, with the SHA-256 fingerprint {certificate.fingerprint(file)}"
    wrong = opening.misled_labs(labs, file, opened.port)
    if wrong:
        yield (f"the slips of {', '.join(wrong)} don't have the address of this door. To make them again, type: {CLASS} slips {' '.join(map(str, labs))} "
               f"--door HOST:{opened.port}")


def route_to(folder: str | None, lab: Path, run: Path) -> None:
    """Makes the door, whose folder is `folder`, forward connections for a network to the run in the folder `run`. The
    network is that of the lab in the file `lab`. Does nothing without a door."""
    if folder is not None:
        opening.route_to(Path(folder), lab, run)


def page_lines(folder: str | None, lab: Path, looks: str | None) -> Iterator[str]:
    """Yields lines with the addresses of a run's pages through the door whose folder is `folder`. `lab` is the file of
    the run's lab. `looks` is the token of the page to look at, or None if there is no such page. Yields nothing if
    `folder` is None, which means that there is no door, or if it lacks the door's data."""
    place = place_of(folder, lab)
    if place is None:
        return
    yield f"{TO_PLAY}{FROM_ELSEWHERE} https://{place.spelled()}/{network(lab)}/"
    if looks is not None:
        yield f"{TO_LOOK}{FROM_ELSEWHERE} https://{place.spelled()}/{network(lab)}/look/{looks}/"


def place_of(folder: str | None, lab: Path) -> Place | None:
    """Returns the address and port of the door whose folder is `folder`. Returns None if `folder` is None, or if it
    lacks the door's data. The address is the one in the slips of the lab in the file `lab`. If they name none, it is
    that of the door or the name of this machine."""
    kept = DoorData.read(Path(folder)) if folder is not None else None
    if kept is None:
        return None
    hosts = [door_of(slip.door)[0] for slip in opening.slips_of(lab) if slip.door]
    return Place(next(iter(hosts), kept.address or opening.own_host_name()), kept.port)


def route_to_page_for_all(folder: str | None, lab: Path, port: int, looks: str) -> str:
    """Makes the door whose folder is `folder` forward requests for the page for all networks of a class, which this
    process serves at `port`. Returns the address of the page through the door, or an empty text if `folder` is None or
    lacks the door's data. `looks` is the token of the page. The door's address is that in the slips of the lab in the
    file `lab`."""
    place = place_of(folder, lab)
    if folder is None or place is None:
        return ""
    announce_all(Path(folder), port, looks)
    return f"https://{place.spelled()}/{ALL}/look/{looks}/"
