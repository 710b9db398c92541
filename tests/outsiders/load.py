"""Outsiders (clients without a key) who come at a constant rate.

    python3 -B -m tests.outsiders.load KIND RATE SECONDS PORT..

KIND is the behaviour of each outsider: `idle` sends nothing, `closing` closes at once, `half` sends half a line,
`braces` sends `{}`, and `all` is one kind after the other. `names` are two students of the built-in lab, with their
keys. Outsiders that don't close at once stay for two seconds, whatever the replies are. They connect to the ports in
turn, from many addresses of this machine, since a single address has no free port after a minute. Prints their number
at the end.
"""
from __future__ import annotations

import errno
import resource
import selectors
import socket
import subprocess
import sys
import time
from collections import Counter, deque
from dataclasses import dataclass
from pathlib import Path
from types import TracebackType

from tests.common.lines import hello

# For each kind, what its outsiders send: each of them sends one of these pieces.
PIECES = {"idle": [b""], "closing": [b""], "half": [b'{"do":"hel'], "braces": [b"{}\n"], "names": [hello("ben"), hello("cyd")]}
ALL = ("idle", "closing", "half", "braces")
STAY = 2.0  # seconds for which an outsider stays, if it doesn't close at once
MOST = 3000  # the most connections that are open at a time
BURST = 20  # the most connections that are opened at once if the machine is too slow
SOURCES = 200  # addresses of this machine
NO_PORT = 24  # IP_BIND_ADDRESS_NO_PORT of <linux/in.h>: the port is chosen by `connect` instead of `bind`
TOP = Path(__file__).resolve().parents[2]


@dataclass
class Outsider:
    """A connection, until it is closed."""

    socket: socket.socket
    since: float
    piece: bytes
    closes: bool


class Load:
    """All connections of the outsiders."""

    def __init__(self, kind: str, ports: list[int]) -> None:
        """`kind` is what the outsiders do, and `ports` are those that they come to."""
        self.kinds = [(each, piece) for each in (ALL if kind == "all" else (kind,)) for piece in PIECES[each]]
        self.ports = ports
        self.selector = selectors.DefaultSelector()
        self.there: deque[Outsider] = deque()  # the connections in the order in which they were opened; some are closed already
        self.counts: Counter[str] = Counter()

    def run(self, rate: float, seconds: float) -> None:
        """Opens `rate` connections a second for `seconds` seconds, or fewer if the machine is too slow."""
        begun = time.monotonic()
        due = begun
        while (now := time.monotonic()) < begun + seconds:
            due = max(due, now - BURST / rate)  # if the machine is too slow, overdue connections are given up, except for BURST
            while due <= now:
                self.come(now)
                due += 1 / rate
            for key, _ in self.selector.select(max(0.0, min(due - time.monotonic(), 0.05))):
                self.act_for(key.data)
            while self.there and (self.there[0].since < now - STAY or len(self.there) > MOST):
                self.close(self.there.popleft())
        for each in self.there:
            self.close(each)

    def come(self, now: float) -> None:
        """Begins to open one more connection. Its kind, port and source address depend on how many came before it."""
        number = self.counts["come"]
        self.counts["come"] += 1
        kind, piece = self.kinds[number // len(self.ports) % len(self.kinds)]
        it = socket.socket()
        it.setblocking(False)
        it.setsockopt(socket.IPPROTO_IP, NO_PORT, 1)
        try:
            it.bind((f"127.0.1.{number % SOURCES + 1}", 0))
            error = it.connect_ex(("127.0.0.1", self.ports[number % len(self.ports)]))
        except OSError as refused:
            error = refused.errno or errno.EIO
        if error not in (0, errno.EINPROGRESS):
            self.counts["not let in"] += 1
            return it.close()
        outsider = Outsider(it, now, piece, kind == "closing")
        self.there.append(outsider)
        self.selector.register(it, selectors.EVENT_WRITE, outsider)

    def act_for(self, outsider: Outsider) -> None:
        """Acts for an outsider whose connection is open now: sends its piece, or closes the connection if it closes at
        once."""
        self.selector.unregister(outsider.socket)
        self.counts["let in"] += 1
        if outsider.closes:
            return outsider.socket.close()
        try:
            outsider.socket.send(outsider.piece)
        except OSError:
            self.counts["cut off"] += 1

    def close(self, outsider: Outsider) -> None:
        """Closes the connection of an outsider unless it is closed already."""
        if outsider.socket.fileno() >= 0:
            if outsider.socket in self.selector.get_map():
                self.selector.unregister(outsider.socket)
            outsider.socket.close()


class Outsiders:
    """A load in its own process, which runs until the `with` block ends."""

    def __init__(self, kind: str, rate: int, ports: list[int], seconds: float = 3600.0) -> None:
        """Starts the process, and waits until the outsiders begin to come. `kind` is what they do, `rate` is their
        number a second, and they come to `ports` in turn."""
        words = [kind, str(rate), str(seconds), *map(str, ports)]
        self.process = subprocess.Popen([sys.executable, "-B", "-m", "tests.outsiders.load", *words], cwd=TOP,
                                        stdin=subprocess.PIPE, stdout=subprocess.PIPE, text=True)
        self.begun = time.monotonic()
        assert self.process.stdout is not None
        self.process.stdout.readline()

    def __enter__(self) -> Outsiders:
        return self

    def __exit__(self, kind: type[BaseException] | None, error: BaseException | None, trace: TracebackType | None) -> None:
        self.process.kill()
        self.process.communicate()


def main() -> None:
    """Runs the load that the arguments describe, with as many open files as the system allows. Prints a line when it
    begins, and the counts at its end."""
    kind, rate, seconds, *ports = sys.argv[1:]
    most = resource.getrlimit(resource.RLIMIT_NOFILE)[1]
    resource.setrlimit(resource.RLIMIT_NOFILE, (most, most))
    it = Load(kind, [int(port) for port in ports])
    print("outsiders come", flush=True)
    begun = time.monotonic()
    it.run(float(rate), float(seconds))
    told = ", ".join(f"{count} {what}" for what, count in it.counts.items())
    print(f"{told}, in {time.monotonic() - begun:.1f} seconds")


if __name__ == "__main__":
    main()
