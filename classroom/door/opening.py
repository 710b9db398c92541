"""Opens a door for the runs of a class, and restarts its process if it ends too early. A *door* is a TLS port at which
students on other machines connect. A door has a folder with its data. A *slip* is a file with what a student needs to
connect."""
from __future__ import annotations

import argparse
import signal
import socket
import subprocess
import sys
import threading
from collections.abc import Callable, Iterable
from dataclasses import dataclass
from pathlib import Path

from classroom.client import NoSlip, Slip, door_of
from classroom.core.folders import Process
from classroom.core.program import TOP, Fault
from classroom.core.statuses import FAILED, how_ended
from classroom.door import certificate
from classroom.door.routes import DoorData, announce, forget, network

BACKLOG = 256
TIMES = 5  # how often a door is restarted at most
FOLDER = ".door-{}"  # the name of a door's folder, by its port, in the folder that has the runs' folders


@dataclass(frozen=True)
class Place:
    """The address at which a door listens: a port of an address or name, or of all addresses of this machine."""

    address: str
    port: int

    @staticmethod
    def of(word: str) -> Place:
        """Returns the address in an argument such as `4700` or `class.example:4700`. Without a host the address is
        empty, and the door then listens at all addresses of this machine. Raises `ArgumentTypeError` for any other
        argument."""
        address, _, port = word.rpartition(":")
        try:
            # `door_of` wants a host before the port. The host `any` isn't used.
            return Place(*door_of(word)) if address else Place("", door_of(f"any:{port}")[1])
        except NoSlip:
            raise argparse.ArgumentTypeError(f"{word!r} isn't the address of a door. Write a port, such as 4700, or an address with a port, "
                                             "such as 192.0.2.7:4700") from None

    def spelled(self) -> str:
        """Returns the address as it is written in arguments and on slips."""
        return f"{f'[{self.address}]' if ':' in self.address else self.address}:{self.port}"


def own_host_name() -> str:
    """Returns the full name of this machine in its network, or its short host name if no full name is known."""
    name = socket.getfqdn()
    return socket.gethostname() if name.startswith("localhost") else name


def listen(place: Place) -> socket.socket:
    """Returns a socket that listens at an address. Raises `Fault` if the address can't be used."""
    try:
        if not place.address and socket.has_dualstack_ipv6():
            return socket.create_server(("", place.port), family=socket.AF_INET6, dualstack_ipv6=True, backlog=BACKLOG)
        family = socket.getaddrinfo(place.address or "0.0.0.0", place.port, type=socket.SOCK_STREAM)[0][0]
        return socket.create_server((place.address, place.port), family=family, backlog=BACKLOG)
    except OSError as error:
        at = place.spelled() if place.address else f"port {place.port}"
        raise Fault(f"the door can't be opened at {at}: {error.strerror or error}. Name another address by --door [ADDRESS:]PORT", FAILED) from None


class OpenDoor:
    """A door that this process has opened."""

    def __init__(self, folder: Path, listener: socket.socket, tell: Callable[[str], None]) -> None:
        """Starts the process that serves the door in `folder`. `listener` is its listening socket, and the callback
        prints a line."""
        self.folder, self.listener, self.tell = folder, listener, tell
        self.port: int = listener.getsockname()[1]
        self.closes = threading.Event()
        self.child = self.start_process()
        threading.Thread(target=self.watch, daemon=True).start()

    def start_process(self) -> subprocess.Popen[bytes]:
        """Starts the process that serves the door, and returns it. The process inherits the listening socket."""
        number = self.listener.fileno()
        words = [sys.executable, "-m", "classroom.door.serving", str(self.folder), str(number)]
        with (self.folder / "door.txt").open("ab") as prints:
            return subprocess.Popen(words, cwd=TOP, stdin=subprocess.DEVNULL, stdout=prints, stderr=prints,
                                    pass_fds=[number], start_new_session=True)

    def watch(self) -> None:
        """Waits for the end of the door's process, and then closes the listening socket. If the process has ended
        unexpectedly, restarts it instead, at most TIMES times. Prints a line each time, and one if the door stays
        closed."""
        restarts = 0
        while self.child.wait() != 0 and not self.closes.is_set():
            if restarts == TIMES:
                self.tell(f"the process of the door has ended too often, so the door stays closed. Students on other machines can't connect. "
                          f"The file {self.folder / 'door.txt'} has the reason")
                break
            self.tell(f"the process of the door has ended unexpectedly, {how_ended(self.child.returncode)}. The door is opened again")
            self.child = self.start_process()
            restarts += 1
        self.listener.close()

    def close(self) -> None:
        """Makes the door close as soon as the runs of all its networks have ended. Doesn't wait for that."""
        self.closes.set()
        self.listener.close()
        if self.child.poll() is None:
            self.child.send_signal(signal.SIGTERM)  # The process then ends when no run continues (`Serving.hurry`).


def open_door(place: Place, into: Path, file: Path, tell: Callable[[str], None]) -> OpenDoor:
    """Opens a door at `place` with the certificate in `file`, and returns it. The door's folder is made in `into`, the
    folder of the runs. The callback prints a line. Raises `Fault` if the certificate, the address or the folder can't
    be used."""
    certificate.context(file)  # Only checks the certificate. The process of the door loads it again.
    listener = listen(place)
    folder = (into / FOLDER.format(listener.getsockname()[1])).resolve()
    try:
        folder.mkdir(0o700, parents=True, exist_ok=True)
        forget(folder)
        # The process of the door writes the data again, with its own number.
        DoorData(place.address, place.port, str(file.resolve()), Process(0, "")).write(folder)
    except OSError as error:
        listener.close()
        raise Fault(f"{folder}: {error.strerror}", FAILED) from None
    return OpenDoor(folder, listener, tell)


def reopen(folder: Path, tell: Callable[[str], None]) -> OpenDoor | None:
    """Opens the door of a folder again, at its earlier address, and returns it. The callback prints a line. Returns
    None if the door is still open. Raises `Fault` if the folder has no door, or its certificate or address can't be
    used."""
    kept = DoorData.read(folder)
    if kept is None:
        raise Fault(f"{folder}: the data of the door in this folder are missing or damaged. Open a door by --door [ADDRESS:]PORT", FAILED)
    if kept.process.lives():
        return None
    certificate.context(Path(kept.certificate))  # Only checks the certificate, as in `open_door`.
    return OpenDoor(folder, listen(Place(kept.address, kept.port)), tell)


def slips_of(lab: Path) -> list[Slip]:
    """Returns the students' slips of the lab in the file `lab`: those in the folder beside it that has the lab's name
    with `-slips`, sorted by file name. Leaves out files that can't be read."""
    found = []
    for file in sorted(lab.with_name(f"{lab.stem}-slips").glob("*.slip")):
        try:
            found.append(Slip.read(file))
        except NoSlip:
            pass
    return found


def route_to(folder: Path, lab: Path, run: Path) -> None:
    """Makes the door in `folder` forward connections for the network of the lab in the file `lab` to the run in the
    folder `run`. The door then also accepts requests for the host names in the students' slips."""
    hosts = {door_of(slip.door)[0] for slip in slips_of(lab) if slip.door}
    announce(folder, network(lab), run, sorted(hosts))


def misled_labs(labs: Iterable[Path], file: Path, port: int) -> list[str]:
    """Returns the files of those labs that have a slip with another door than this one, or with none. This door has the
    certificate in `file` and this port. Raises `Fault` if the certificate can't be read."""
    known = certificate.fingerprint(file)

    def leads(slip: Slip, lab: Path) -> bool:
        """Returns whether a slip of a lab leads to the door."""
        return bool(slip.door) and (door_of(slip.door)[1], slip.network, slip.fingerprint) == (port, network(lab), known)

    return [str(lab) for lab in labs if not all(leads(slip, lab) for slip in slips_of(lab))]
