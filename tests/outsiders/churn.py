"""Clients come and go at a class's host and at its page. This is run by hand, for an hour unless SECONDS says
otherwise.

    python3 -m tests.outsiders.churn [SECONDS]

Each minute all clients leave for a moment, and the number of threads and descriptors and the memory of the host and of
`./class run` are printed. At the end these are as after the first minute.
"""
import json
import random
import re
import socket
import subprocess
import sys
import tempfile
import threading
import time
from collections.abc import Callable
from dataclasses import dataclass
from pathlib import Path

from classroom.core.folders import RECORD, Record
from tests.common.hosting import HOST, Caller, lab_of, let_in
from tests.common.lines import BYE, NODES, WRONG, hello, line_of, look
from tests.common.preload import LIMIT, PROGRAM, TOP, fail

SECONDS = 3600.0
ROUND = 60.0  # seconds after which all clients leave for a moment
COMING = 12  # the number of clients at a time
PAUSE = 0.02  # seconds between two actions of a client
MORE = 6144  # kilobytes that the events of an hour may add
FORM = b"POST / HTTP/1.1\r\nContent-Type: text/plain\r\n\r\n"


@dataclass(frozen=True)
class Held:
    """The threads, descriptors and memory of a process."""

    threads: int
    files: int
    kilobytes: int

    @classmethod
    def of(cls, number: int) -> "Held":
        """Returns the threads, descriptors and memory that the process with this number has now."""
        root = Path(f"/proc/{number}")
        size = int((root / "status").read_text(encoding="ascii").split("VmRSS:", 1)[1].split()[0])
        return cls(len(list((root / "task").iterdir())), len(list((root / "fd").iterdir())), size)

    def is_as(self, first: "Held") -> bool:
        """Returns whether this is the same number of threads and descriptors as `first`, and hardly more memory. The
        memory may have grown by a tenth and by MORE."""
        return (self.threads, self.files) == (first.threads, first.files) and self.kilobytes <= first.kilobytes * 1.1 + MORE

    def __str__(self) -> str:
        """Returns a line about what the process has."""
        return f"{self.threads} threads, {self.files} files, {self.kilobytes} kB"


def wait_until(find: Callable[[], object]) -> None:
    """Waits until a function returns a true value, which shows that the class has begun. Fails after a time limit."""
    end = time.monotonic() + LIMIT
    while not find():
        if time.monotonic() > end:
            fail("churn: the class doesn't begin")
        time.sleep(0.05)


class Class:
    """A running class with its page."""

    def __init__(self, room: Path) -> None:
        """Starts the class in the folder `room`. Waits until its server listens and the address of its page is
        known."""
        lab, runs = lab_of(room, 16, 100_000), room / "runs"
        words: list[str | Path] = ["run", lab, "--into", runs, "--port", "20000", "--page", "25000", "--typed"]
        self.process = subprocess.Popen(
            [sys.executable, "-B", TOP / "class", *words], stdin=subprocess.PIPE, stdout=subprocess.PIPE, text=True,
            env={"PATH": "/usr/bin:/bin", "MML_HOST": str(HOST), "MML_PROGRAM": str(PROGRAM)},
        )
        self.printed: list[str] = []
        threading.Thread(target=lambda: self.printed.extend(self.process.stdout or ()), daemon=True).start()
        wait_until(lambda: [*runs.glob(f"*/{RECORD}")] and self.address())
        record = Record.read(next(runs.glob("*")))
        assert record is not None
        # The number of the host's process, and its two ports.
        self.host, self.port, self.desk = record.server.number, record.port, record.desk

    def address(self) -> tuple[str, ...]:
        """Returns the port and the path of the page, which the class prints, or an empty tuple before that."""
        told = re.search(r"page for the projector http://127\.0\.0\.1:(\d+)(/[^/\s]+/)", "".join(self.printed))
        return told.groups() if told else ()

    def type(self, line: str) -> None:
        """Types a line at the class's desk."""
        assert self.process.stdin is not None
        self.process.stdin.write(line + "\n")
        self.process.stdin.flush()

    def end(self) -> None:
        """Ends the class, and checks that it ends well."""
        self.type("end")
        # The status 5 means that the run is done, with warnings.
        if self.process.wait(LIMIT) not in (0, 5):
            fail(f"churn: the class ends with {self.process.returncode}: {self.printed[-5:]}")


class Comings:
    """The actions of clients that come to the class, by random choices. Each method in `kinds` is one action. Its
    argument `draw` is the source of the random numbers."""

    def __init__(self, it: Class) -> None:
        """The clients come to the ports and the page of the class `it`."""
        (port, self.path), self.port, self.desk = it.address(), it.port, it.desk
        self.page, self.count = int(port), 0
        self.kinds = [self.asks, self.resets, self.plays, self.comes_without_key, self.knocks, self.looks_at_page, self.hears_news,
                      self.sends_part_to_page, self.knocks_at_desk]

    def asks(self, draw: random.Random) -> None:
        """Connects as a student, looks some times, and says bye or closes the connection without it."""
        name = draw.choice([*NODES])
        caller, _ = let_in(self.port, hello(name))
        for _ in range(draw.randrange(20)):
            caller.ask(look(name))
        if draw.random() < 0.5:
            caller.ask(BYE)
        caller.close()

    def resets(self, draw: random.Random) -> None:
        """Connects as a student, sends looks and a part of one, and resets the connection before it has read the
        replies."""
        caller, _ = let_in(self.port, hello("cyd"))
        caller.send(look("cyd") * draw.randrange(50) + look("cyd")[:draw.randrange(20)])
        caller.reset()

    def plays(self, draw: random.Random) -> None:
        """Connects as a student, asks for the enabled move of the student's node, if there is one, and leaves."""
        name = draw.choice([*NODES])
        caller, _ = let_in(self.port, hello(name))
        seen = json.loads(caller.ask(look(name)) or b"{}")
        if seen.get("rule") not in (None, "marriage"):
            caller.ask(line_of(at=seen["at"], do="move", node=NODES[name], rule=seen["rule"]))
        elif seen.get("rule"):
            other = next(each["node"] for each in seen["near"] if each["p"] == NODES[name])
            caller.ask(line_of(**{"at": seen["at"], "do": "move", "node": NODES[name], "rule": "marriage", "with": other}))
        caller.close()

    def comes_without_key(self, draw: random.Random) -> None:
        """Connects without a key: sends wrong hellos, a web form, lines that are no requests, a line that is too long,
        or a part of a line. Then reads one line and closes."""
        caller = Caller(self.port)
        caller.send(draw.choice([WRONG * 3, FORM + hello("tess"), b"{}\n" * 5, b" " * 5000, b'{"do":']))
        caller.line()
        caller.close()

    def knocks(self, draw: random.Random) -> None:
        """Connects, sends nothing, and closes at once or after half a second."""
        caller = Caller(self.port)
        time.sleep(draw.choice([0, 0.5]))
        caller.close()

    def knocks_at_desk(self, draw: random.Random) -> None:
        """Connects to the desk while the teacher is there, reads one line and closes."""
        caller = Caller(self.desk)
        caller.send(draw.choice([b"", hello("ana"), WRONG]))
        caller.line()
        caller.close()

    def request(self, what: str) -> socket.socket:
        """Connects to the page's server, and sends a request for the path `what` below the page. Returns the connection."""
        it = socket.create_connection(("127.0.0.1", self.page), LIMIT)
        it.sendall(f"GET {self.path}{what} HTTP/1.1\r\nHost: 127.0.0.1:{self.page}\r\nConnection: close\r\n\r\n".encode())
        return it

    def looks_at_page(self, draw: random.Random) -> None:
        """Requests the page, or a missing one."""
        with self.request(draw.choice(["", "", "none"])) as it:
            while it.recv(65536):
                pass

    def hears_news(self, draw: random.Random) -> None:
        """Requests the page's stream of events, reads its beginning or nothing, and closes after a moment."""
        with self.request("events") as it:
            if draw.random() < 0.7:
                it.recv(65536)
            time.sleep(draw.random())

    def sends_part_to_page(self, draw: random.Random) -> None:
        """Sends a part of a request to the page. Then closes the connection, or waits for the server to end it."""
        with socket.create_connection(("127.0.0.1", self.page), LIMIT) as it:
            it.sendall(b"GET /"[:draw.randrange(6)])
            if draw.random() < 0.2:
                it.recv(1)

    def act_until(self, end: float, seed: int) -> None:
        """Runs one action after another until the time `end`. The seed determines which. Ignores `OSError`, because a
        connection may be ended at any time."""
        draw = random.Random(seed)
        while time.monotonic() < end:
            try:
                draw.choice(self.kinds)(draw)
            except OSError:
                pass
            self.count += 1
            time.sleep(PAUSE)


def held_at_rest(of: Callable[[], Held], first: Held | None) -> Held:
    """Returns what a process has once its clients have left. `of` returns what it has at a moment. If `first` is given,
    waits until the process has the same again, thirty seconds at most. Otherwise waits fifteen seconds, and then until
    `of` returns the same number of threads twice in a row."""
    end = time.monotonic() + 30
    while True:
        time.sleep(1)
        held, again = of(), of()
        if first is None and time.monotonic() > end - 15 and held.threads == again.threads:
            return held
        if first is not None and (held.is_as(first) or time.monotonic() > end):
            return held


def churn(room: Path, seconds: float) -> None:
    """Runs clients for `seconds` seconds, and prints after each minute what the host and `./class run` have. Fails if
    it is more at the end than after the first minute."""
    it = Class(room)
    comings = Comings(it)
    first: tuple[Held, Held] | None = None
    end, seed = time.monotonic() + seconds, 0
    while time.monotonic() < end:
        it.type("shake 1" if seed % 3 else "report")  # The teacher acts too.
        until = min(end, time.monotonic() + ROUND)
        clients = [threading.Thread(target=comings.act_until, args=[until, seed * COMING + at]) for at in range(COMING)]
        for client in clients:
            client.start()
        for client in clients:
            client.join()
        host = held_at_rest(lambda: Held.of(it.host), first[0] if first else None)
        page = held_at_rest(lambda: Held.of(it.process.pid), first[1] if first else None)
        first = first or (host, page)
        seed += 1
        print(f"{seed}: {comings.count} clients; host {host}; class {page}", flush=True)
    it.end()
    if first is None or not host.is_as(first[0]) or not page.is_as(first[1]):
        fail(f"churn: at the end they hold {host}, and {page}; first {first}")
    print(f"churn: {comings.count} clients in {seconds:.0f} seconds; host {host}; class {page}")


if __name__ == "__main__":
    with tempfile.TemporaryDirectory() as name:
        churn(Path(name), float(sys.argv[1]) if sys.argv[1:] else SECONDS)
