"""The first connection at a host's desk. The connection is tried while the host starts, before any other process can
know the desk's port. The *host* is the server of a class, and its *desk* is the port for the teacher."""
from __future__ import annotations

import socket
import time
from types import TracebackType

BETWEEN = 0.001  # seconds between two tries
LONGEST = 1.0  # seconds that one try may take


def reserve(port: int) -> socket.socket:
    """Returns a socket that is bound to a port, or to a free one if the port is 0, and doesn't listen. While it is
    open, the system gives the port to no other program, but a host can listen there, since both set SO_REUSEADDR. If
    the port is taken, the socket isn't bound, and no error is raised."""
    it = socket.socket()
    it.setsockopt(socket.SOL_SOCKET, socket.SO_REUSEADDR, 1)
    try:
        it.bind(("127.0.0.1", port))
    except OSError:  # Another program has it; the host will say so.
        pass
    return it


class Knock:
    """A connection to a port of this machine, which is made as soon as a program listens there."""

    def __init__(self, port: int) -> None:
        """Reserves the port, or a free one if `port` is 0. Reserves nothing if another program has the port, since the
        host reports that when it starts."""
        self.held = reserve(port)
        self.port: int = port or self.held.getsockname()[1]
        self.connection: socket.socket | None = None

    def __enter__(self) -> Knock:
        return self

    def __exit__(self, kind: type[BaseException] | None, error: BaseException | None, trace: TracebackType | None) -> None:
        self.held.close()
        if self.connection is not None:
            self.connection.close()

    def wait(self, seconds: float) -> None:
        """Waits for `seconds`. Meanwhile tries to connect again and again, unless it is connected already."""
        end = time.monotonic() + seconds
        while time.monotonic() < end:
            if self.connection is None:
                self.connection = try_to_connect(self.port)
            time.sleep(BETWEEN)

    def take_connection(self) -> socket.socket | None:
        """Returns the connection, which the caller has to close, or None if there is none."""
        it, self.connection = self.connection, None
        return it


def try_to_connect(port: int) -> socket.socket | None:
    """Returns a connection to a port of this machine, or None if no program accepts it within LONGEST seconds."""
    try:
        return socket.create_connection(("127.0.0.1", port), timeout=LONGEST)
    except OSError:
        return None
