"""Runs the program with and without a preloaded library.

A preloaded library makes calls of the C library fail, or refuses requests for memory, and counts them. The libraries are
built from the tests' C sources by the toolchain's clang. The expected replies of a run come from a run without a library
of the lines that were answered. MML_PROGRAM can name another program than the one that is built here.
"""
import os
import shutil
import socket
import struct
import subprocess
import sys
import tempfile
from collections.abc import Callable, Mapping, Sequence
from pathlib import Path
from typing import NoReturn, Optional

from model import Ended as Ended
from tests.common.connections import open_connection
from tests.common.lines import refusal_of

HERE = Path(__file__).resolve().parent
TOP = HERE.parent.parent
PROGRAM = Path(os.environ.get("MML_PROGRAM") or TOP / "crates/mml_host/out/mml_host")
LIMIT = 300.0
# The refusals that any line may get if memory runs out or the journal can't be written. Such a line has no effect.
REFUSED = (refusal_of("memory"), refusal_of("journal"))


def fail(why: str) -> NoReturn:
    """Prints a line with the reason, and exits with status 1."""
    print(f"FAILED: {why}")
    sys.exit(1)


def build_library(source: str, room: Path) -> Path:
    """Builds the library of a C source in the folder `room`, and returns its path. `source` is the path below the
    tests' folder. Fails if there is no toolchain on the search path, or the source doesn't compile."""
    rt = shutil.which("rt")
    if rt is None:
        fail("no rt on the path, so no clang")
    clang = Path(rt).resolve().parent.parent / "toolchain/bin/clang"
    library = room / Path(source).with_suffix(".so").name
    words: list[str | Path] = ["-O2", "-Wall", "-Wextra", "-Werror", "-shared", "-fPIC", "-nostdlib", "-fuse-ld=lld", "-I", HERE]
    done = subprocess.run([clang, *words, "-o", library, HERE.parent / source], check=False)
    if done.returncode != 0:
        fail(f"{source} can't be built")
    return library


class Preloaded:
    """A library, with its environment variables and the counts that it writes into a file."""

    def __init__(self, source: str, room: Path, counts: str) -> None:
        """Builds the library of the C source `source` in the folder `room`. `counts` is the environment variable that
        names the file for its counts."""
        self.library = build_library(source, room)
        self.variable = counts
        self.file = room / f"{self.library.stem}.counts"

    def variables(self, more: Mapping[str, str]) -> dict[str, str]:
        """Returns the environment of a run with the library and the variables in `more`. Sets the library's counts to
        zero."""
        self.file.write_bytes(bytes(16))  # two numbers of eight bytes
        return {"LD_PRELOAD": str(self.library), self.variable: str(self.file), **more}

    def counts(self) -> tuple[int, int]:
        """Returns the two numbers that the library has written in the last run. The comment at the head of its source
        says what they are. Mostly they are the number of calls, and the number of those that failed."""
        made, failed = struct.unpack("=QQ", self.file.read_bytes())
        return made, failed


def run(words: list[str], given: bytes, variables: Mapping[str, str], program: Path = PROGRAM) -> Ended:
    """Runs the program with the arguments `words`, `given` on standard input, and these environment variables. Returns
    its status and output."""
    done = subprocess.run([program, *words], input=given, capture_output=True, env=variables, timeout=LIMIT, check=False)
    return Ended(done.returncode, done.stdout, done.stderr)


def good(words: list[str], given: bytes = b"", program: Path = PROGRAM) -> bytes:
    """Runs the program with the arguments `words` and `given` on standard input, without a library, and returns its
    output. Fails if the program prints an error, or if its status isn't 0."""
    ended = run(words, given, {}, program)
    if ended.status != 0 or ended.error:
        fail(f"a plain run ended with {ended.status}: {words}")
    return ended.out


class Story:
    """A script for a lab, with the expected replies and journal, also for the case that some lines are left out."""

    def __init__(self, lab: Path, script: bytes, room: Path) -> None:
        """Takes the lines of the script. Runs of it with the lab are made in the folder `room` when they are needed."""
        self.lab = lab
        self.lines = script.splitlines(keepends=True)
        self.room = room
        self.known: dict[frozenset[int], tuple[list[bytes], bytes]] = {}  # the results of `plain`, by its argument
        self.audited: dict[bytes, bytes] = {}  # the outputs of the audit, by journal

    def script(self, without: frozenset[int] = frozenset()) -> bytes:
        """Returns the script without the lines with these numbers."""
        return b"".join(line for index, line in enumerate(self.lines) if index not in without)

    def plain(self, without: frozenset[int]) -> tuple[list[bytes], bytes]:
        """Runs the script without the lines with these numbers, unless this was done before. Returns the replies, with
        an empty one in place of each missing line's, and the journal."""
        if without not in self.known:
            script, journal = self.room / "plain.script", self.room / "plain.journal"
            script.write_bytes(self.script(without))
            replies = iter(good(["script", str(self.lab), str(script), str(journal)]).splitlines(keepends=True))
            indices = range(len(self.lines))
            self.known[without] = [b"" if at in without else next(replies) for at in indices], journal.read_bytes()
        return self.known[without]

    def refused(self, replies: list[bytes]) -> frozenset[int]:
        """Returns the numbers of the lines whose replies are refusals, because memory ran out or because the journal
        couldn't be written."""
        return frozenset(at for at, reply in enumerate(replies) if reply.endswith(REFUSED))

    def fault_in(self, replies: list[bytes], unasked: frozenset[int], lost: frozenset[int] = frozenset()) -> str:
        """Returns what is wrong with the replies to the script, or an empty text. A refused line changes nothing, so
        all other replies must be those of a run without this line. Lines in `unasked` have no reply, and the replies in
        `lost` aren't checked."""
        refused = self.refused(replies)
        wanted, _ = self.plain(refused | unasked)
        for at, reply in enumerate(replies):
            if at not in refused and at not in lost and reply != wanted[at]:
                return f"another reply to line {at + 1}: {reply!r}, not {wanted[at]!r}"
            if at in refused and reply.split(b" ", 1)[0] != self.lines[at].split(b" ", 1)[0]:
                return f"a reply to another connection than that of line {at + 1}: {reply!r}"
        return ""

    def journal_of(self, replies: list[bytes], unasked: frozenset[int]) -> bytes:
        """Returns the journal that a run must have written if it gave these replies. It is the journal of the script
        without the lines that were refused, and without the lines with the numbers in `unasked`, which got no reply."""
        return self.plain(self.refused(replies) | unasked)[1]

    def audit(self, journal: bytes) -> bytes:
        """Returns the audit's output for a journal. Fails if the journal doesn't pass."""
        if journal not in self.audited:
            file = self.room / "audited.journal"
            file.write_bytes(journal)
            self.audited[journal] = good(["audit", str(self.lab), str(file)])
        return self.audited[journal]


def built_in(room: Path) -> Path:
    """Writes the built-in lab into the folder `room`, without the comment at its head, and returns its path."""
    text = (TOP / "examples/built-in.toml").read_text(encoding="utf-8")
    lab = room / "built-in.toml"
    lab.write_text(text.partition("\n\n")[2], encoding="utf-8")
    return lab


def held_port() -> socket.socket:
    """Returns a socket that is bound to a free port and doesn't listen. While it is open, the system gives the
    port to no other program that asks for any port. A program that asks for it by number can still listen there,
    since both set SO_REUSEADDR."""
    held = socket.socket()
    held.setsockopt(socket.SOL_SOCKET, socket.SO_REUSEADDR, 1)
    held.bind(("127.0.0.1", 0))
    return held


class Server:
    """The program as it serves a lab (the command `serve`), with or without a library. It ends by itself after its last
    connection."""

    def __init__(self, words: Callable[[int], list[str]], variables: Mapping[str, str], before: Sequence[str] = ()) -> None:
        """Starts the server, and waits for its first line or its end. `words` returns its arguments for a port,
        `variables` is its environment, and `before` is a command that is put before the call."""
        # Nobody else can take the port while it is held. Otherwise a second try might be necessary, and a library would
        # count its calls in addition to those of the first.
        self.held = held_port()
        self.port: int = self.held.getsockname()[1]
        self.process = subprocess.Popen(
            [*before, PROGRAM, *words(self.port)],
            stdin=subprocess.DEVNULL,
            stdout=subprocess.PIPE,
            stderr=subprocess.PIPE,
            env=variables,
        )
        assert self.process.stdout is not None
        self.first = self.process.stdout.readline()
        self.listens = self.first == b"listening on port %d\n" % self.port
        if not self.listens:
            self.ended = self._end()

    def _end(self) -> Ended:
        """Waits for the end of the process. Returns its status and output. Fails, and kills the process, if it doesn't
        end within a time limit."""
        try:
            out, error = self.process.communicate(timeout=LIMIT)
        except subprocess.TimeoutExpired:
            self.process.kill()
            fail("a server doesn't end")
        self.held.close()
        return Ended(self.process.returncode, out, error)

    def end(self) -> Ended:
        """Waits until the server ends. Returns its status, and its output after the first line."""
        if self.listens:
            self.ended = self._end()
        return self.ended


class Client:
    """A connection that sends a line, and waits for its reply."""

    def __init__(self, port: int) -> None:
        """Connects to a port. If no server listens there, each reply is empty."""
        self.open: Optional[socket.socket] = None
        try:
            self.open = open_connection(port, LIMIT)
            self.replies = self.open.makefile("rb")
        except ConnectionError:
            pass

    def ask(self, line: bytes) -> bytes:
        """Sends a line, and returns its reply. If the server has hung up, or hangs up within the reply, closes the
        connection and returns no bytes."""
        reply = b""
        if self.open is not None:
            try:
                self.open.sendall(line)
                reply = self.replies.readline()
            except ConnectionError:
                pass
        if not reply.endswith(b"\n"):
            self.close()
            return b""
        return reply

    def close(self) -> None:
        """Ends the connection."""
        if self.open is not None:
            self.replies.close()
            self.open.close()
            self.open = None


def play(story: Story, port: int, in_turn: bool = False) -> tuple[list[bytes], frozenset[int]]:
    """Plays the script of a story on connections to a port. Sends each line after the reply to the one before, or after
    that connection's end. With `in_turn`, closes each connection before the next one sends. Returns the replies in the
    form of a script's output, and the numbers of the lines without a reply."""
    asked = [line.split(b" ", 1) for line in story.lines]
    numbers = sorted({number for number, _ in asked})
    clients = {number: Client(port) for number in numbers}
    replies = [b""] * len(asked)
    # Without `in_turn` there is a single turn, in which all connections send.
    for turn in numbers if in_turn else [b""]:
        for at, (number, line) in enumerate(asked):
            if turn in (b"", number):
                reply = clients[number].ask(line)
                replies[at] = number + b" " + reply if reply else b""
        if turn:
            clients[turn].close()
    for client in clients.values():
        client.close()
    return replies, frozenset(at for at, reply in enumerate(replies) if not reply)


def in_room(work: Callable[[Path], str]) -> None:
    """Calls a function with a temporary folder, and prints the text that it returns."""
    with tempfile.TemporaryDirectory() as name:
        print(work(Path(name)))
