"""Connections to ports of this machine."""
import socket
from typing import Optional


def open_connection(port: int, limit: float, source: Optional[str] = None) -> socket.socket:
    """Returns a connection to a port of this machine, from its address `source` if there is one. Each call on it waits
    `limit` seconds at most. Raises `ConnectionRefusedError` if no program listens at the port.

    If nothing listens at a port, the system can choose this port for the new socket too. Then it connects the socket to
    itself, and the socket receives what it sends. Such a connection is refused here."""
    it = socket.create_connection(("127.0.0.1", port), limit, (source, 0) if source else None)
    if it.getsockname() == ("127.0.0.1", port):
        it.close()
        raise ConnectionRefusedError(f"no program listens at port {port}, so the system connected the socket to itself")
    return it
