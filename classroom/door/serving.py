"""The process of a door: accepts connections, and ends after the runs of all its networks have ended.

    python3 -m classroom.door.serving FOLDER LISTENER

A *door* is the port at which students on other machines connect. FOLDER is the folder of the door's data, and LISTENER
the file descriptor of the listening socket.
"""
from __future__ import annotations

import asyncio
import os
import resource
import signal
import socket
import ssl
import sys
from dataclasses import dataclass, field
from pathlib import Path

from classroom.core.folders import Process
from classroom.door.bounds import Bounds, origin
from classroom.door.certificate import context
from classroom.door.passing import Door, serve_connection
from classroom.door.routes import DOOR, DoorData, Routes, forget

LOOK = 0.5  # seconds between two looks at which networks there are
PATIENCE = 10.0  # seconds that a door stays open after its last network has ended
FILES = 4096  # how many files the door's process may have open
LAST_WORD = 3.0  # seconds that open connections have to finish when the door closes
AGAIN = 0.1  # seconds until the next attempt if a connection couldn't be accepted


def note_network(it: ssl.SSLObject, name: str | None, _: ssl.SSLContext) -> None:
    """Stores the server name of a handshake in the TLS object. `Secured.network` returns it."""
    setattr(it, "network", name)


@dataclass
class Serving:
    """A door that serves, with a task for each connection. `patience` is how many seconds it stays open after the last
    run has ended."""

    listener: socket.socket
    door: Door
    tasks: set[asyncio.Task[None]] = field(default_factory=set)
    patience: float = PATIENCE

    async def accept(self) -> None:
        """Accepts connections for ever, and serves each in a task of its own. Closes a connection at once if the limits
        have no room for it."""
        loop = asyncio.get_running_loop()
        while True:
            try:
                sock, address = await loop.sock_accept(self.listener)
            except OSError:
                await asyncio.sleep(AGAIN)
                continue
            of = origin(str(address[0]))
            if not self.door.bounds.enter(of):
                sock.close()
                continue
            task = loop.create_task(self.serve_one(sock, of))
            self.tasks.add(task)
            task.add_done_callback(self.tasks.discard)

    async def serve_one(self, sock: socket.socket, of: str) -> None:
        """Serves the connection on the socket `sock`, which is counted for the address `of`, and stops counting it at
        the end."""
        try:
            await serve_connection(sock, of, self.door)
        finally:
            self.door.bounds.leave(of)

    def hurry(self) -> None:
        """Makes the door end at once when no network's run continues."""
        self.patience = 0.0

    async def run(self) -> None:
        """Serves until no network's run has gone on for the last `patience` seconds. Then closes the listening socket,
        and waits at most LAST_WORD seconds for the end of the open connections."""
        asyncio.get_running_loop().add_signal_handler(signal.SIGTERM, self.hurry)
        accepting = asyncio.ensure_future(self.accept())
        silent = 0.0
        while (goes_on := self.door.routes.has_networks()) or silent < self.patience:
            silent = 0.0 if goes_on else silent + LOOK
            await asyncio.sleep(LOOK)
        self.listener.close()
        accepting.cancel()
        if self.tasks:
            await asyncio.wait(self.tasks, timeout=LAST_WORD)


def own_names() -> set[str]:
    """Returns the names and addresses by which this machine calls itself."""
    return {"localhost", "127.0.0.1", "::1", socket.gethostname(), socket.getfqdn()}


def serve(folder: Path, listener: socket.socket) -> None:
    """Serves the door in a folder to its end, at the listening socket `listener`. Writes the number of this process
    into the folder. Exits with an error line if the folder has no door. Raises `Fault` if its certificate can't be
    used."""
    kept = DoorData.read(folder)
    if kept is None:
        raise SystemExit(f"{folder / DOOR}: this file is missing or damaged, so the door can't be opened")
    soft, hard = resource.getrlimit(resource.RLIMIT_NOFILE)
    most = FILES if hard == resource.RLIM_INFINITY else min(FILES, hard)
    resource.setrlimit(resource.RLIMIT_NOFILE, (max(soft, most), hard))
    speaks = context(Path(kept.certificate))
    speaks.sni_callback = note_network
    listener.setblocking(False)
    door = Door(Routes(folder), Bounds(), speaks, listener.getsockname()[1], own_names() | ({kept.address} if kept.address else set()))
    door.routes.reload()
    DoorData(kept.address, door.port, kept.certificate, Process.of(os.getpid())).write(folder)
    with asyncio.Runner() as runner:
        runner.get_loop().set_exception_handler(lambda *_: None)  # An error in one connection has no effect on the others.
        runner.run(Serving(listener, door).run())
    forget(folder)


if __name__ == "__main__":
    signal.signal(signal.SIGHUP, signal.SIG_IGN)  # The door continues if the terminal is closed.
    signal.signal(signal.SIGINT, signal.SIG_IGN)
    serve(Path(sys.argv[1]), socket.socket(fileno=int(sys.argv[2])))
