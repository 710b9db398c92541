"""The networks of a class that a door forwards connections to, and the ports of each, which are in the folder of its
run. A *door* is the port at which students on other machines connect. The folder of a door has a file for each network,
a *route*. A *slip* is the file with what a student needs to connect, and a page's *token* is the random text in its
address."""
from __future__ import annotations

import json
import os
import re
import time
import unicodedata
from dataclasses import asdict, dataclass, field
from pathlib import Path

from classroom.core import plain
from classroom.core.folders import RECORD, Process, Record
from classroom.core.program import Fault

DOOR, NETWORK = "door.json", ".network"
ALL, HALL = "all", "all.json"  # the name in the address of the page for all networks, and the file that says at which port that page is
NEW = 60.0  # seconds in which a run that was announced has to begin
MOST_NAME = 32
NAME = re.compile(r"[a-z][a-z0-9-]{0,31}")


def network(lab: Path) -> str:
    """Returns the name of a lab's network at a door: the name of the lab's file, in the form of a host's name."""
    plain_form = unicodedata.normalize("NFKD", lab.stem).lower()
    name = re.sub("[^a-z0-9]+", "-", "".join(char for char in plain_form if not unicodedata.combining(char))).strip("-")
    return (name if name[:1].isalpha() else f"n-{name}")[:MOST_NAME].rstrip("-")


@dataclass(frozen=True)
class Route:
    """A route: the run of a network, and the host names that the network's slips have for the door."""

    name: str
    folder: Path
    hosts: tuple[str, ...]
    announced: float  # the time of the announcement, in seconds of the system's clock

    @staticmethod
    def read(file: Path) -> Route | None:
        """Returns the route in a file, or None if the file can't be read or isn't complete."""
        try:
            it = json.loads(plain.read(file, plain.MOST_KEPT))
            hosts = tuple(map(str, it["hosts"]))
            return Route(file.name.removesuffix(NETWORK), Path(str(it["folder"])), hosts, file.stat().st_mtime)
        except (Fault, OSError, ValueError, KeyError, TypeError, RecursionError):
            return None


@dataclass(frozen=True)
class DoorData:
    """The data of a door, as they are in its folder: its address, its certificate and its process."""

    address: str
    port: int
    certificate: str
    process: Process

    @staticmethod
    def read(folder: Path) -> DoorData | None:
        """Returns the data of the door in a folder, or None if their file can't be read or isn't complete."""
        try:
            it = json.loads(plain.read(folder / DOOR, plain.MOST_KEPT))
            return DoorData(str(it["address"]), int(it["port"]), str(it["certificate"]), Process(**it["process"]))
        except (Fault, ValueError, KeyError, TypeError, RecursionError):
            return None

    def write(self, folder: Path) -> None:
        """Writes the data into the folder of the door."""
        write_json(folder / DOOR, asdict(self))


def write_json(file: Path, value: object) -> None:
    """Replaces a file by one with a value as JSON. Readers see either the old or the new content, never a part."""
    new = file.with_name(f"{file.name}.new")
    new.write_text(json.dumps(value) + "\n", encoding="utf-8")
    new.replace(file)


def announce(folder: Path, name: str, run: Path, hosts: list[str]) -> None:
    """Makes the door in `folder` forward connections for the network `name` to the run in the folder `run`. `hosts` are
    the host names that the network's slips have for the door."""
    write_json(folder / f"{name}{NETWORK}", {"folder": str(run.resolve()), "hosts": hosts})


def announce_all(folder: Path, port: int, looks: str) -> None:
    """Makes the door in `folder` forward requests for the page for all networks, which this process serves at `port`.
    `looks` is the token in the page's address."""
    write_json(folder / HALL, {"port": port, "looks": looks, "process": asdict(Process.of(os.getpid()))})


def page_for_all(folder: Path) -> Record | None:
    """Returns a `Record` with the port and the token of the page for all networks, from the door's folder. A `Record`
    otherwise has the content of a run's `run.json`; this one has no other port. Returns None if no process serves that
    page."""
    try:
        it = json.loads(plain.read(folder / HALL, plain.MOST_KEPT))
        desk = Process(**it["process"])
        record = Record("", 0, 0, it["port"], "", None, desk, desk, looks=it["looks"])
        return record if record.is_valid() and record.goes_on() else None
    except (Fault, ValueError, KeyError, TypeError, RecursionError):
        return None


def forget(folder: Path) -> None:
    """Removes all routes, and the file about the page for all networks, from the folder of a door."""
    for file in (*folder.glob(f"*{NETWORK}"), folder / HALL):
        file.unlink(missing_ok=True)


@dataclass
class Routes:
    """The networks in a door's folder. The file of a run is read again only if it has changed."""

    folder: Path
    networks: dict[str, Route] = field(default_factory=dict)
    # For each network, the content of its `run.json`, after the time of its last change and its inode.
    records: dict[str, tuple[tuple[int, int], Record | None]] = field(default_factory=dict)

    def reload(self) -> None:
        """Reads the files of the routes again."""
        found = [Route.read(file) for file in sorted(self.folder.glob(f"*{NETWORK}"))]
        self.networks = {it.name: it for it in found if it is not None and NAME.fullmatch(it.name)}

    def running(self, name: str) -> Record | None:
        """Returns the content of the file `run.json` of the network `name`, which has the ports of the network's server
        and pages. For the name ALL, returns the port of the page for all networks in the same form. Returns None if
        there is no such network or page, or if the run has ended."""
        if name not in self.networks:
            self.reload()
        network = self.networks.get(name)
        if network is None:
            return page_for_all(self.folder) if name == ALL else None
        record = self.run_json(network)
        return record if record is not None and not record.ended and record.goes_on() else None

    def run_json(self, network: Route) -> Record | None:
        """Returns the content of the file `run.json` in the folder of a network's run, or None if it can't be read.
        Reads the file only if it has changed since the last call for this network."""
        try:
            stat = os.stat(network.folder / RECORD)
        except OSError:
            return None
        version = stat.st_mtime_ns, stat.st_ino
        read_before = self.records.get(network.name)
        if read_before is None or read_before[0] != version:
            read_before = self.records[network.name] = version, Record.read(network.folder)
        return read_before[1]

    def named(self, name: str | None) -> str:
        """Returns the name of the network that a client asks for by `name`, the host name in its handshake. If `name`
        is None or the name of a host, returns the only network, if there is just one. Otherwise returns an empty text.
        The name of an unknown network doesn't lead to the only network, since its own run may be about to begin."""
        if name not in self.networks:
            self.reload()
        if name in self.networks:
            return name
        # A name that no network can have, such as one with dots, is a host's.
        is_host = not name or name == "localhost" or name in self.hosts() or NAME.fullmatch(name) is None
        return next(iter(self.networks)) if is_host and len(self.networks) == 1 else ""

    def hosts(self) -> set[str]:
        """Returns the host names that the slips of all networks have for the door."""
        return {host for network in self.networks.values() for host in network.hosts}

    def is_about_to_begin(self, network: Route) -> bool:
        """Returns whether a network's route is less than NEW seconds old, and its run hasn't written its ports yet."""
        try:
            has_told = (network.folder / RECORD).stat().st_mtime >= network.announced
        except OSError:
            has_told = False
        return not has_told and time.time() - network.announced < NEW

    def has_networks(self) -> bool:
        """Returns whether the run of any network continues or is about to begin."""
        self.reload()
        return any(self.running(name) is not None or self.is_about_to_begin(it) for name, it in self.networks.items())
