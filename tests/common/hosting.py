"""A host (the server of a class) as its user runs it, connections to it, and the replies of the rules to the same
lines.

A host has two ports: students connect to one of them, and the teacher to the other, the desk. A connection that the
host serves has a *seat*. If no seat is free, the host answers `busy` and closes the connection. A `Caller` is one
connection, and a `Talk` notes what is said on several connections, to compare it with a script of the same lines. The
environment variable MML_HOST can name another host than the one that is built here.
"""
import os
import re
import socket
import struct
import subprocess
import sys
import time
from collections.abc import Mapping, Sequence
from pathlib import Path
from types import TracebackType
from typing import Optional

from tests.common.connections import open_connection
from tests.common.lines import BUSY, BYE, BID
from tests.common.preload import LIMIT, TOP, Ended, built_in, fail, good

HOST = Path(os.environ.get("MML_HOST") or TOP / "crates/mml_host/out/mml_host")
LISTENS = re.compile(rb"listening on port (\d+), desk on port (\d+)\n")
# A program that sends each of its arguments as a line to a port, and prints the replies. Then it sends half a line,
# prints that, and waits for the end of the connection.
BOT = """
import socket, sys
with socket.create_connection(("127.0.0.1", int(sys.argv[1]))) as it, it.makefile("r", encoding="ascii") as replies:
    for line in sys.argv[2:]:
        it.sendall(line.encode() + b"\\n")
        print(replies.readline(), end="", flush=True)
    it.sendall(b'{"do":"lo')
    print("half", flush=True)
    replies.read()
"""


def lab_of(room: Path, sessions: int, events: int = 1000) -> Path:
    """Writes the built-in lab with these limits of sessions and events into the folder `room`, and returns its path."""
    lab = room / f"{sessions}-{events}.toml"
    text = built_in(room).read_text(encoding="utf-8")
    text = text.replace("sessions = 4\n", f"sessions = {sessions}\n").replace("events = 100\n", f"events = {events}\n")
    lab.write_text(text, encoding="utf-8")
    return lab


class Host:
    """A host's process, which listens or has already ended. The process is killed at the end of its `with` block."""

    def __init__(
        self, *words: object, word: str = "host", before: Sequence[str] = (),
        variables: Optional[Mapping[str, str]] = None,
    ) -> None:
        """Starts the host with the arguments `words`, and waits for its first line or its end. `word` is its command,
        `host` or `resume`. `before` is a command that is put before the call, and `variables` are added to its
        environment."""
        self.process = subprocess.Popen(
            [*before, HOST, word, *map(str, words)], stdin=subprocess.DEVNULL, stdout=subprocess.PIPE,
            stderr=subprocess.PIPE, env={"PATH": "/usr/bin:/bin", **(variables or {})},
        )
        assert self.process.stdout is not None
        told = LISTENS.fullmatch(self.process.stdout.readline())
        self.listens = told is not None
        self.port, self.desk = (int(told[1]), int(told[2])) if told else (0, 0)

    def __enter__(self) -> "Host":
        return self

    def __exit__(
        self, kind: Optional[type[BaseException]], error: Optional[BaseException], trace: Optional[TracebackType]
    ) -> None:
        self.process.kill()
        self.process.communicate()

    def kill(self) -> Ended:
        """Kills the host. Returns its status, and its output after the first line."""
        self.process.kill()
        out, error = self.process.communicate()
        return Ended(self.process.returncode, out, error)

    def is_running(self) -> bool:
        """Returns whether the host is running."""
        return self.process.poll() is None

    def end(self, seconds: float = LIMIT) -> Ended:
        """Waits until the host ends by itself. Returns its status, and its output after the first line. Fails if this
        takes more than `seconds` seconds."""
        try:
            out, error = self.process.communicate(timeout=seconds)
        except subprocess.TimeoutExpired:
            fail(f"host: it doesn't end within {seconds} seconds")
        return Ended(self.process.returncode, out, error)

    def dismiss(self, teacher: "Caller", seconds: float = LIMIT) -> Ended:
        """Says bye on the teacher's connection at the desk, which ends the class, and waits for the end of the host.
        Returns the host's status, and its output after the first line. Fails if the bye isn't answered, or if the host
        doesn't end within `seconds` seconds. A `Talk` doesn't notice this bye, so the caller has to `note` it."""
        if (teacher.ask(BYE), teacher.line()) != (BID, b""):
            fail("host: another reply to the teacher's bye at the desk, or none")
        return self.end(seconds)

    def kilobytes(self) -> int:
        """Returns the resident memory of the host in kilobytes."""
        status = Path(f"/proc/{self.process.pid}/status").read_text(encoding="ascii")
        return int(status.split("VmRSS:", 1)[1].split()[0])

    def threads(self) -> int:
        """Returns the number of the host's threads."""
        return len(list(Path(f"/proc/{self.process.pid}/task").iterdir()))

    def files(self) -> int:
        """Returns the number of the host's open files."""
        return len(list(Path(f"/proc/{self.process.pid}/fd").iterdir()))

    def settles(self, threads: int, files: int, when: str) -> None:
        """Waits until the host has this number of threads and of open files. Fails with the text `when` if it doesn't
        get there."""
        for _ in range(int(LIMIT / 0.05)):
            if (self.threads(), self.files()) == (threads, files):
                return
            time.sleep(0.05)
        fail(f"host: {self.threads()} threads and {self.files()} files, not {threads} and {files}, {when}")


class Caller:
    """A connection that sends lines and reads replies."""

    def __init__(self, port: int, source: str = "127.0.0.1") -> None:
        """Connects to a port from the address `source` of this machine. Raises `ConnectionError` if the host doesn't
        listen there."""
        self.socket = open_connection(port, LIMIT, source)
        self.replies = self.socket.makefile("rb")

    def send(self, content: bytes) -> None:
        """Sends bytes. Ignores an error, since the lines that the host sent before it hung up can still be read."""
        try:
            self.socket.sendall(content)
        except ConnectionError:
            pass

    def line(self) -> bytes:
        """Returns the next line, or no bytes if the host has hung up. Fails if neither happens within a time limit."""
        try:
            line = self.replies.readline()
        except ConnectionError:
            return b""
        except TimeoutError:
            fail("host: a connection is neither answered nor ended")
        return line if line.endswith(b"\n") else b""

    def ask(self, line: bytes) -> bytes:
        """Sends a line, and returns its reply, or no bytes if the host has hung up."""
        self.send(line)
        return self.line()

    def close(self) -> None:
        """Closes the connection."""
        self.replies.close()
        self.socket.close()

    def reset(self) -> None:
        """Closes the connection with a reset, so that the host's next read or write fails."""
        self.socket.setsockopt(socket.SOL_SOCKET, socket.SO_LINGER, struct.pack("ii", 1, 0))
        self.close()


def connect(port: int, source: str = "127.0.0.1") -> Caller:
    """Connects to a port from the address `source` of this machine, and returns the connection. Tries again while the
    host doesn't accept any, and fails after a time limit. Fails at once if no host listens at the port."""
    end = time.monotonic() + LIMIT
    while True:
        try:
            return Caller(port, source)
        except ConnectionRefusedError:
            fail("host: nobody listens any more")
        except OSError as error:
            if time.monotonic() > end:
                fail(f"host: nobody takes a connection: {error}")
            time.sleep(0.01)


def let_in(port: int, line: bytes) -> tuple[Caller, bytes]:
    """Connects to a port with `line` as the first line, and again as long as there is no seat (the reply is `busy` or
    is missing). Returns the connection that got a seat, and the reply to `line`. Fails after a time limit."""
    end = time.monotonic() + LIMIT
    while time.monotonic() < end:
        caller = connect(port)
        reply = caller.ask(line)
        if reply and reply != BUSY:
            return caller, reply
        caller.close()
        time.sleep(0.01)
    fail("host: no seat has become free")


class Talk:
    """A sequence of lines on connections that come and go, with their replies. A script of the same lines gives
    the expected replies and the expected journal. Each connection has a number in this script. When a connection has
    ended, a later one gets its number."""

    def __init__(self, lab: Path, sessions: int, room: Path) -> None:
        """Begins a talk in which nothing has been said yet. `lab` is the lab of the host, and `sessions` is the number
        of sessions that this lab allows. `check` will write its script, and the journal of this script, into the folder
        `room`."""
        self.lab, self.room = lab, room
        self.free = list(range(1, sessions + 1))  # the numbers that no open connection has
        self.numbers: dict[object, int] = {}  # the number of each open connection
        self.script: list[bytes] = []
        self.found: list[Optional[bytes]] = []  # for each line of the script its reply, or None if it isn't compared

    def note(self, who: object, line: bytes, reply: Optional[bytes]) -> None:
        """Notes a line of the connection `who` and its reply, or None if nobody has read the reply."""
        if who not in self.numbers:
            self.numbers[who] = self.free.pop(0)
        number = b"%d " % self.numbers[who]
        self.script.append(number + line)
        self.found.append(None if reply is None else number + reply)

    def ask(self, caller: Caller, line: bytes) -> bytes:
        """Sends a line on a connection, and returns its reply. Notes both."""
        reply = caller.ask(line)
        self.note(caller, line, reply)
        return reply

    def comes(self, port: int, line: bytes) -> Caller:
        """Connects to a port with `line` as the first line, until there is a seat. Notes the line and its reply, and
        returns the connection."""
        caller, reply = let_in(port, line)
        self.note(caller, line, reply)
        return caller

    def note_end(self, who: object) -> None:
        """Notes that the connection `who` has ended without a bye."""
        # In a script only a bye ends a connection. The reply to this bye isn't compared.
        self.note(who, BYE, None)
        self.free.append(self.numbers.pop(who))

    def leaves(self, caller: Caller) -> None:
        """Says bye on a connection, and closes it. Fails if the host doesn't answer the bye, or doesn't hang up
        then."""
        if self.ask(caller, BYE) != BID or caller.line():
            fail("host: a connection goes on after its bye")
        caller.close()
        self.free.append(self.numbers.pop(caller))

    def events(self) -> int:
        """Returns the number of granted events. Only the reply to a granted event has the event's place."""
        return sum(b'"place":' in reply for reply in self.found if reply)

    def check(self, journal: Path) -> None:
        """Runs a script of all noted lines. Checks that the noted replies are those to the script, and that the file
        `journal` has the script's journal, which passes the audit."""
        script, plain = self.room / "plain.script", self.room / "plain.journal"
        script.write_bytes(b"".join(self.script))
        plain.unlink(missing_ok=True)
        wanted = good(["script", str(self.lab), str(script), str(plain)]).splitlines(keepends=True)
        for at, (line, reply, rule) in enumerate(zip(self.script, self.found, wanted, strict=True), 1):
            if reply not in (None, rule):
                fail(f"host: another reply to line {at}, {line!r}: {reply!r}, not {rule!r}")
        if journal.read_bytes() != plain.read_bytes():
            fail("host: another journal than that of the rules")
        audit(self.lab, journal, self.events())


def audit(lab: Path, journal: Path, events: int) -> bytes:
    """Checks that a journal with this number of events passes the audit. Returns the audit's output."""
    said = good(["audit", str(lab), str(journal)])
    if not said.startswith(b"ok: %d events, " % events):
        fail(f"host: the audit of a journal of {events} events says {said!r}")
    return said


class Bot:
    """A separate process that sends lines, and waits in the middle of one to be killed."""

    def __init__(self, talk: Talk, port: int, lines: Sequence[bytes]) -> None:
        """Starts the process, which sends these lines to a port and then half a line. Notes the lines and their replies
        in `talk`."""
        words = [line.decode().rstrip("\n") for line in lines]
        self.process = subprocess.Popen(
            [sys.executable, "-c", BOT, str(port), *words], stdin=subprocess.DEVNULL, stdout=subprocess.PIPE
        )
        self.talk = talk
        assert self.process.stdout is not None
        for line in lines:
            talk.note(self, line, self.process.stdout.readline())
        if self.process.stdout.readline() != b"half\n":
            fail("host: a bot doesn't come to its half line")

    def kill(self) -> None:
        """Kills the process, and notes in the talk that its connection has ended."""
        self.process.kill()
        self.process.communicate()
        self.talk.note_end(self)
