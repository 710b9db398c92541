"""Helpers of the tests: calls of `./class`, labs, and clients of running classes. A *run* is a class from its start to
its end. Its *desk* is the process that runs the teacher's commands and prints lines, and its *room* in a test is a
folder."""
from __future__ import annotations

import fcntl
import http.client
import json
import os
import pty
import random
import re
import select
import shlex
import signal
import socket
import subprocess
import sys
import tempfile
import termios
import threading
import time
import unittest
from collections.abc import Callable, Iterator
from contextlib import contextmanager
from pathlib import Path
from typing import Any
from urllib.parse import urlsplit

from classroom.core.lab import read
from classroom.core.program import TOP, call

EXAMPLES = TOP / "examples"
CYCLE = EXAMPLES / "cycle.toml"
KEYS = {"gus": "heron-31", "hana": "swift-86", "ines": "finch-05", "jonas": "plover-48"}
CLASS = shlex.quote(str(TOP / "class"))  # the path of `class`, quoted for a shell
LIMIT = 300  # seconds after which a command counts as hanging; even a slow machine needs only a small part of them


def call_class(*given: str | Path, typed: str | None = None, **more: str) -> subprocess.CompletedProcess[str]:
    """Runs `./class` with these arguments to its end, with `typed` as its input and `more` in its environment. Returns
    its result. Raises an error if it takes longer than LIMIT seconds."""
    return subprocess.run(
        [sys.executable, TOP / "class", *given], input=typed or "", capture_output=True, text=True, check=False,
        env={**os.environ, **more}, timeout=LIMIT,
    )


def a_port() -> int:
    """Returns a free port below the range from which Linux chooses ports by itself, so that the port stays free."""
    while True:
        port = random.randint(20000, 32000)
        with socket.socket() as it:
            it.setsockopt(socket.SOL_SOCKET, socket.SO_REUSEADDR, 1)  # As for a server, a connection that has ended doesn't keep the port.
            try:
                it.bind(("127.0.0.1", port))
            except OSError:
                continue
        return port


@contextmanager
def no_server() -> Iterator[int]:
    """Yields a port on which no program listens, and reserves it meanwhile."""
    with socket.socket() as it:
        it.bind(("127.0.0.1", 0))
        yield it.getsockname()[1]


def wait_until(holds: Callable[[], object], what: str = "") -> None:
    """Waits until a function returns a true value. Raises an error with the text `what` after a time limit."""
    end = time.monotonic() + LIMIT
    while not holds():
        assert time.monotonic() < end, what
        time.sleep(0.05)


def stop(process: int) -> None:
    """Stops a process by the signal SIGSTOP, and waits until all its threads are stopped. Until then, one of them could
    still answer a request."""
    os.kill(process, signal.SIGSTOP)
    while any(state(task) != "T" for task in Path(f"/proc/{process}/task").iterdir()):
        time.sleep(0.01)


def state(task: Path) -> str:
    """Returns the letter for the state of a thread, whose folder in /proc is given."""
    # The state is after the name of the program, which is in parentheses and may contain any character.
    return (task / "stat").read_text(encoding="utf-8", errors="replace").rpartition(") ")[2][:1]


class InRoom(unittest.TestCase):
    """A test with its own folder, the room."""

    def setUp(self) -> None:
        """Makes the test's folder, which is removed at the end."""
        room = tempfile.TemporaryDirectory()
        self.addCleanup(room.cleanup)
        self.room = Path(room.name)

    def file(self, name: str, text: str) -> Path:
        """Writes a new file with this name and text into the room, and returns its path."""
        path = self.room / name
        path.write_text(text, encoding="utf-8")
        return path


class Going:
    """A run whose commands the test types, and whose printed lines it reads one by one. `port` is the students' port,
    `folder` is the run's folder, and `lines` has all lines that were read so far."""

    def __init__(self, test: InRoom, lab: Path | None, *more: str | Path, before: tuple[str, ...] = (), ready: str = "^commands: ",
                 **environment: str) -> None:
        """Starts `./class run` with this lab, a free port and the options `more`. Without a lab, `more` are all
        arguments of `./class`. `before` is a command that gets this call as its last arguments, and `environment` is
        added to the environment. Reads the printed lines up to one that matches `ready`. The run is ended after the
        test."""
        self.lines: list[str] = []
        words: list[str | Path] = ["run", lab, "--into", test.room / "runs", "--port", str(a_port()), *more] if lab else [*more]
        self.process = subprocess.Popen(
            # With `--typed` the run reads commands from its input, although this isn't a terminal.
            [*before, sys.executable, TOP / "class", *words, "--typed"],
            stdin=subprocess.PIPE, stdout=subprocess.PIPE, stderr=subprocess.STDOUT, text=True,
            env={**os.environ, **environment},
        )
        test.addCleanup(self.close)
        told = re.search(r"^port (\d+), .*; folder (.*)$", self.until("^port .*folder"))
        assert told is not None
        self.port, self.folder = int(told[1]), Path(told[2])
        self.until(ready)

    def until(self, pattern: str) -> str:
        """Reads lines until one matches the pattern, and returns it. Raises an error if the run ends before."""
        for line in self.read():
            if re.search(pattern, line):
                return line
        raise AssertionError(f"no {pattern} in {self.lines}")

    def until_each(self, *patterns: str) -> None:
        """Reads lines until each of these patterns has matched one, in any order. Raises an error if the run ends
        before."""
        left = list(patterns)
        while left:
            line = self.until("|".join(left))
            left = [pattern for pattern in left if not re.search(pattern, line)]

    def read(self) -> Iterator[str]:
        """Yields the next lines of the run's output until the caller needs no more. Ends the run if this takes longer
        than LIMIT seconds."""
        assert self.process.stdout is not None
        late = threading.Timer(LIMIT, self.process.terminate)
        late.start()
        try:
            for line in self.process.stdout:
                self.lines.append(line.rstrip("\n"))
                yield self.lines[-1]
        finally:
            late.cancel()

    def type(self, line: str) -> None:
        """Sends a line to the run's desk, as if it were typed."""
        assert self.process.stdin is not None
        self.process.stdin.write(line + "\n")
        self.process.stdin.flush()

    def end(self) -> int:
        """Ends the run by a command, and returns its exit status."""
        self.type("end\nend")  # If the network isn't stable, the desk asks for a second `end`.
        return self.wait_for_end()

    def wait_for_end(self) -> int:
        """Reads all lines until the run ends, without ending it. Returns its exit status."""
        for _ in self.read():
            pass
        return self.process.wait(LIMIT)

    def server(self) -> int:
        """Returns the number of the server's process, the only child of the run's process."""
        children = Path(f"/proc/{self.process.pid}/task/{self.process.pid}/children").read_text(encoding="ascii").split()
        assert len(children) == 1
        return int(children[0])

    def close(self) -> None:
        """Ends the run if it is still going on, and closes its input and output."""
        if self.process.poll() is None:
            self.process.send_signal(signal.SIGTERM)
            self.process.communicate(timeout=LIMIT)
        for pipe in (self.process.stdin, self.process.stdout):
            if pipe is not None and not pipe.closed:
                try:
                    pipe.close()
                except OSError:  # Closing the input sends what its buffer still has, but the run has ended.
                    pass


class Rows:
    """The lines that the page on which a student plays by hand receives after a hello. `bytes` has all bytes that came,
    with those of the headers."""

    def __init__(self, address: str, name: str, key: str) -> None:
        """Sends the hello of a student, with this name and key, to the page's server at an address. Raises an error if
        the answer's status isn't 200."""
        parts = urlsplit(address)
        self.connection = http.client.HTTPConnection("127.0.0.1", parts.port or 0, timeout=LIMIT)
        self.connection.request("POST", "/enter", json.dumps({"name": name, "key": key}), {"Host": parts.netloc})
        self.answer = self.connection.getresponse()
        assert self.answer.status == 200
        self.bytes = bytes(str(self.answer.headers), "utf-8")

    def next(self) -> dict[str, Any]:
        """Reads lines until one has values, and returns these. A line without any shows only that the server is still
        there."""
        while True:
            line = self.answer.readline()
            self.bytes += line
            row: dict[str, Any] = json.loads(line)
            if row:
                return row

    def at(self, number: int) -> dict[str, Any]:
        """Reads up to the line about the configuration with this number, and returns its values."""
        while (row := self.next())["at"] != number:
            pass
        return row

    def rest(self) -> list[dict[str, Any]]:
        """Returns the values in all remaining lines."""
        text = self.answer.read()
        self.bytes += text
        return [json.loads(line) for line in text.splitlines()]


class InTerminal:
    """A run in its own terminal, a pseudo-terminal whose other end (`ours`) the test has."""

    def __init__(self, test: InRoom, *words: str | Path) -> None:
        """Starts `./class` with these arguments. Without any, starts a run of the cycle whose steps are closed by hand,
        and whose folder is in the room of `test`. Reads the terminal up to the line with the commands."""
        self.ours, theirs = pty.openpty()
        given = words or ("run", CYCLE, "--into", test.room / "runs", "--close", "by-hand")
        self.process = subprocess.Popen(
            [sys.executable, TOP / "class", *given], stdin=theirs, stdout=theirs, stderr=theirs, start_new_session=True,
            # The new session gets this terminal, so that Ctrl-C and the end of the terminal send signals to it.
            preexec_fn=lambda: fcntl.ioctl(0, termios.TIOCSCTTY, 0),
        )
        os.close(theirs)
        self.text = b""
        self.until(b"commands: ")

    def until(self, wanted: bytes) -> None:
        """Reads the terminal until the text `wanted` was printed. Raises an error if nothing is printed for LIMIT
        seconds."""
        while wanted not in self.text:
            if not select.select([self.ours], [], [], LIMIT)[0]:
                raise AssertionError(f"no {wanted!r} in {self.text!r}")
            self.text += os.read(self.ours, 4096)

    def type(self, line: bytes, wanted: bytes) -> None:
        """Types a line when the line editor is ready, and reads until the text `wanted` was printed."""
        end = time.monotonic() + LIMIT
        # While the terminal itself edits lines (ICANON, in the local flags), the desk's line editor isn't reading yet.
        while termios.tcgetattr(self.ours)[3] & termios.ICANON:
            assert time.monotonic() < end, self.text
            time.sleep(0.01)
        os.write(self.ours, line)
        self.until(wanted)


class Cycle(InRoom):
    """Runs of the cycle of `examples/`, or of another lab with the same students."""

    def bot(self, going: Going, name: str, *command: str | Path) -> subprocess.Popen[bytes]:
        """Starts the bot of a student in a run, and returns its process. `command` starts the bot, and gets the
        student's slip as its last argument. By default it is the example in Python."""
        bot = subprocess.Popen(
            [*(command or (sys.executable, EXAMPLES / "bot.py")), self.slip(going.port, name)],
            stdin=subprocess.DEVNULL, stdout=subprocess.DEVNULL, stderr=subprocess.DEVNULL,
        )
        self.addCleanup(bot.wait)
        self.addCleanup(bot.kill)
        return bot

    def slip(self, port: int, name: str) -> Path:
        """Writes the slip of a student of the cycle with this port, and returns its path."""
        nodes = ",".join(map(str, read(CYCLE).nodes_of(name)))
        # The slip isn't written again, since a client that was started with it earlier may be reading it.
        made = self.room / f"{name}-{port}.slip"
        return made if made.exists() else self.file(made.name, f"port {port}\nname {name}\nkey {KEYS[name]}\nnodes {nodes}\n")

    def check_complete(self, folder: Path) -> int:
        """Checks that the folder of an ended run is complete: only its owner may open it, it has all files, and its
        journal passes the audit. Returns the number of the run's events."""
        self.assertEqual(folder.stat().st_mode & 0o777, 0o700)
        for name in ("lab.toml", "journal", "audit.txt", "marks.txt", "marks.json", "run.html", "run.txt", "server.txt"):
            self.assertTrue((folder / name).is_file(), name)
        self.assertEqual(call("audit", folder / "lab.toml", folder / "journal").status, 0)
        events: int = json.loads((folder / "marks.json").read_text(encoding="utf-8"))["runs"][0]["events"]
        return events
