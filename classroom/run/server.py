"""Starting and ending servers. No other module does that. A *host* is the server for a class, with a port for students
and one for the teacher, the desk. `mml serve` is the simpler server, with one port and a fixed number of connections. A
server writes the events of a run to its *journal*, and a host also keeps a *record* of the requests and replies."""
from __future__ import annotations

import os
import re
import signal
import socket
import subprocess
import time
from collections.abc import Callable
from dataclasses import dataclass, fields
from pathlib import Path

from classroom.core import record
from classroom.core.folders import Process, Record
from classroom.core.program import LISTENING, Fault, first_free, host, plain, program
from classroom.core.statuses import how_ended
from classroom.run.knocking import Knock

AGAIN = 0.01  # seconds between two looks at what a server has printed
LOST = re.compile(r"(?m)^host: the journal's file (was .*): nothing more is granted$")


@dataclass
class Server:
    """A listening server. The server's output goes to `server.txt` in its folder."""

    process: Process
    port: int  # the port for students
    desk: int  # the port for the teacher; that for students if the server isn't a host
    hosted: bool  # Whether the server is a host.
    output: Path  # the file with its output
    child: subprocess.Popen[bytes] | None = None  # None if another process has started it.
    first: socket.socket | None = None  # The first connection at the desk, until the hello on it is sent.

    def has_ended(self, seconds: float = 0.0) -> bool:
        """Returns whether the process has ended. Waits at most `seconds` seconds for that."""
        if self.child is None:
            end = time.monotonic() + seconds
            while self.process.lives():
                if time.monotonic() >= end:
                    return False
                time.sleep(AGAIN)
            return True
        try:
            self.child.wait(seconds)
        except subprocess.TimeoutExpired:
            return False
        return True

    def status(self) -> int:
        """Returns the exit status of a server that has ended. If another process started it, the status isn't known. It
        is then 0 if the last line of the output says that the server is done, and otherwise 4."""
        if self.child is not None:
            return self.child.wait()
        return 0 if self.printed().rpartition("\n")[2].startswith("done: ") else 4

    def how(self) -> str:
        """Returns a text about how the server ended, with its output if there is any."""
        status, printed = self.status(), self.printed()
        return f"{how_ended(status)}; it printed: {printed}" if printed else how_ended(status)

    def lacks_record(self) -> bool:
        """Returns whether the server ended well, but its record isn't complete."""
        lines = self.printed().splitlines()
        return lines[-1:] == ["record fault"] and any(line.startswith("done: ") for line in lines)

    def lost_journal(self) -> str:
        """Returns what happened to the journal's file, for example `was changed`, or an empty text if the server has
        reported nothing."""
        told = LOST.search(self.printed())
        return told[1] if told else ""

    def replace_by(self, other: Server) -> None:
        """Replaces all values by those of another server, which continues the class of this one."""
        for each in fields(self):
            setattr(self, each.name, getattr(other, each.name))

    def stop(self) -> int:
        """Ends the server by a signal if it hasn't ended yet, and waits for its end. Returns its exit status."""
        if not self.has_ended():
            os.kill(self.process.number, signal.SIGTERM)
        while not self.has_ended(AGAIN):
            pass
        return self.status()

    def printed(self) -> str:
        """Returns the server's output after the line with its ports."""
        text = self.output.read_text(encoding="utf-8", errors="replace")
        return LISTENING.split(text)[-1].strip()


def first_line(process: subprocess.Popen[bytes], output: Path, before: int, wait: Callable[[float], None] = time.sleep) -> str:
    """Waits for the line with a server's ports, and returns the line. If the server ends before it prints this line,
    returns all its output. `output` is the file with the output, which had `before` bytes when the process was started,
    and `wait` waits between two reads of the file."""
    while True:
        ended = process.poll() is not None  # This is asked before the text is read, so that the text of an ended server is complete.
        text = output.read_bytes()[before:].decode(errors="replace")
        told = LISTENING.search(text)
        if told or ended:
            return told[0] if told else text.strip()
        wait(AGAIN)


def require_built(by_number: bool) -> None:
    """Raises `Fault` if the program isn't built. If `by_number` is set, the server is to be `mml serve`, which serves a
    number of connections and needs no host."""
    program()
    if not by_number:
        host()


@dataclass
class Call:
    """The command that starts a server, without its ports."""

    folder: Path  # the folder of the run
    lab: Path
    journal: Path
    by_number: int | None  # the number of connections for `mml serve`, or None for a host
    is_resumed: bool  # Whether the server continues the journal.
    record: Path  # the folder in which a host keeps its record

    def start_at(self, port: int, desk: int = 0) -> Server | None:
        """Starts a server that listens at this port, and returns it, or None if a port is taken. `desk` is the desk's
        port, or 0 for any free one. While a host starts, this process already tries to connect to its desk, so that no
        other process is first. Raises `Fault` if the server doesn't start for another reason than a taken port."""
        hosting = host() if self.by_number is None else None
        if hosting is None:
            return self.start([program(), "serve"], port, self.by_number or 0, None)
        with Knock(desk) as knock:
            return self.start([hosting, "resume" if self.is_resumed else "host"], port, knock.port, knock)

    def start(self, words: list[str | Path], port: int, number: int, knock: Knock | None) -> Server | None:
        """Starts a server by the command `words`, waits until it listens at `port`, and returns it, or None if a port
        is taken. `number` is the desk's port for a host, and otherwise the number of connections to serve. `knock`
        tries to connect to a host's desk meanwhile, and is None for `mml serve`. Raises `Fault` if the server doesn't
        start for another reason."""
        output = self.folder / "server.txt"
        with output.open("ab" if self.is_resumed else "wb") as prints:
            before = prints.tell()
            # SIGXFSZ stays ignored, as it is here: if a file may not grow further, a write fails, and nothing ends.
            process = subprocess.Popen(
                [*words, plain(self.lab), str(port), str(number), plain(self.journal), *([plain(self.record)] if knock else [])],
                stdin=subprocess.DEVNULL, stdout=prints, stderr=prints, start_new_session=True, restore_signals=False,
            )
        line = first_line(process, output, before, knock.wait if knock else time.sleep)
        told = LISTENING.fullmatch(line)
        if told:
            desk, first = int(told["desk"] or told["port"]), knock.take_connection() if knock else None
            return Server(Process.of(process.pid), int(told["port"]), desk, knock is not None, output, process, first)
        status = process.wait()
        if not line.endswith("cannot listen"):
            raise Fault(f"the server can't be started. It ended {how_ended(status)}, and printed: {line or 'nothing'}", status or 4)
        return None


def start(folder: Path, lab: Path, port: int, journal: Path, by_number: int | None = None,
          resumed: Record | None = None) -> Server:
    """Starts a host for a lab at `port` or the next free port, with its output and record in the folder, and returns
    it. The server writes the events to the file `journal`. If `resumed` is given, the host continues the run with that
    record, if possible at its own ports. If `by_number` is given, starts `mml serve` instead for that number of
    connections, one of which is the teacher's. Raises `Fault` if no server can be started."""
    require_built(by_number is not None)
    call = Call(folder, lab, journal, by_number, resumed is not None, folder / record.FOLDER)
    again = call.start_at(resumed.port, resumed.desk) if resumed is not None else None
    return again or first_free(port, call.start_at)
