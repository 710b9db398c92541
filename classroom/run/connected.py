"""The connections to a port of this machine, as far as the system reports them (only on Linux). A connection has two
*ends*, the server's and the client's, each a socket with a port and a number. A connection takes a *seat* at the
server. The *desk* is the teacher's own connection, and the *record* is what the server keeps about the connections and
their requests."""
from __future__ import annotations

import os
import time
from collections.abc import Iterator
from pathlib import Path

PROC = Path("/proc")
ESTABLISHED, LISTENING = "01", "0A"
ELSEWHERE = "a program of another user"
PAUSE = 1.0  # seconds between two looks
AGAIN = 0.02  # seconds between two readings of one look
READINGS = 5
Row = tuple[int, int, str, str]  # a socket: its own port, the port of the other end, its state and its number


def rows() -> Iterator[Row]:
    """Yields each of the system's TCP sockets over IPv4 with its own port, the other end's port, its state and its
    number. Raises `OSError` if the system doesn't report them."""
    for line in (PROC / "net/tcp").read_text(encoding="ascii").splitlines()[1:]:
        _, own, other, state, _, _, _, _, _, number, *_ = line.split()  # An address is written as `0100007F:1267`, in hexadecimal digits.
        yield int(own.rpartition(":")[2], 16), int(other.rpartition(":")[2], 16), state, number


def leads_to(end: Path, wanted: str) -> bool:
    """Returns whether a process's file descriptor, given by its path `end` in /proc, is the socket `wanted`. Returns
    false if the descriptor has been closed. Raises `OSError` if this user may not read it."""
    try:
        return os.readlink(end) == wanted
    except FileNotFoundError:
        return False


def owner(number: str) -> str:
    """Returns a text with the process that has the socket with this number. If no process of this user and machine has
    it, returns ELSEWHERE."""
    wanted = f"socket:[{number}]"
    for process in PROC.iterdir():
        if not process.name.isdecimal():
            continue
        try:
            if any(leads_to(end, wanted) for end in (process / "fd").iterdir()):
                return f"process {process.name}"
        except OSError:
            continue
    return ELSEWHERE


class Connected:
    """The connections to the students' port, with lines about those that begin and end."""

    def __init__(self, port: int, seats: int, but: int, names: dict[int, str] | None = None,
                 tells: bool = True) -> None:
        """`port` is the students' port, and `seats` the number of seats. `but` is the port of the desk's own end, which
        isn't counted. `names` has a text for each client that isn't shown by its process, by the port of the client's
        end. If `tells` is false, only full seats are reported, since the run's record shows who connects."""
        self.port, self.seats, self.but, self.tells = port, seats, but, tells
        self.names = {} if names is None else names
        self.known: dict[int, str] = {}  # the text of each client that is connected, by the port of the client's end
        self.full = False  # whether a line has said that no seat is free
        self.due = 0.0  # the time of the next check

    def news(self) -> list[str]:
        """Returns lines about the connections that began or ended since the last check, and a line when newcomers can't
        connect for the first time. Returns none if the last check is less than a second ago, or if the system reports
        no sockets."""
        now = time.monotonic()
        if now < self.due:
            return []
        self.due = now + PAUSE
        try:
            return self.changes(self.look())
        except OSError:
            return []

    def look(self) -> list[Row]:
        """Returns the system's sockets. Reads them a few times if the list has a server's end without its client's end,
        because the system doesn't list all sockets at the same moment. The list never has the ends of clients on other
        machines. If only full seats are reported, reads them once. Raises `OSError` if the system doesn't report its
        sockets."""
        for _ in range(READINGS):
            found = list(rows())
            if not self.tells or self.client_ports(found) <= self.client_sockets(found).keys() | self.known.keys():
                break
            time.sleep(AGAIN)
        return found

    def client_sockets(self, found: list[Row]) -> dict[int, str]:
        """Returns the number of each socket in `found` that is a client's end on this machine, by its port."""
        return {own: number for own, other, state, number in found if other == self.port and state == ESTABLISHED}

    def client_ports(self, found: list[Row]) -> set[int]:
        """Returns the ports of all clients, without the desk's. They are taken from the server's ends in `found`."""
        return {other for own, other, state, _ in found if own == self.port and state == ESTABLISHED} - {self.but}

    def changes(self, found: list[Row]) -> list[str]:
        """Returns lines about the connections that began or ended since the last call. Also returns a line, but only
        once, if newcomers aren't let in: all seats are taken, or the server has stopped listening. `found` are the
        system's sockets."""
        ends, here = self.client_sockets(found), self.client_ports(found)
        gone = [self.known.pop(port) for port in sorted(self.known.keys() - here)]
        come = sorted(here - self.known.keys())
        self.known |= {port: self.names.get(port) or self.process(ends.get(port)) for port in come}
        lines = [f"connected: {self.known[port]}" for port in come] + [f"disconnected: {who}" for who in gone] if self.tells else []
        listens = any(own == self.port and state == LISTENING for own, _, state, _ in found)
        if not self.full and (len(here) >= self.seats or not listens):
            self.full = True
            lines.append("all seats are taken, so newcomers are turned away; type `who` to see which students have the seats" if listens else
                         "this server has accepted as many connections as `sessions` in the lab allows, so nobody else can connect in this run")
        return lines

    def process(self, number: str | None) -> str:
        """Returns a text with the process that has the socket with this number. Returns ELSEWHERE if there is no such
        socket or process, or if only full seats are reported, so that nobody reads the text."""
        return owner(number) if self.tells and number is not None else ELSEWHERE

    def count(self) -> int:
        """Returns the number of seats that are taken, or 0 if the system doesn't report it."""
        try:
            return len(self.client_ports(list(rows())))
        except OSError:
            return 0

    def who(self) -> str:
        """Returns a text with the number of seats that are taken, and their holders in the order in which they came."""
        names = [self.names.get(port, who) for port, who in self.known.items()]
        return f"{', '.join(names) or 'nobody'} ({len(self.known)} of {self.seats} seats are taken)"
