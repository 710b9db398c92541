"""Plays two honest clients of a server, or of a host, beside fourteen hostile ones.

    python3 -m tests.hostile [SECONDS] [host]

The replies to the honest clients are those of a script of the same lines. At the end the server has no more memory than
after their first hundred lines. The thread of each closed connection has ended, and its open files are closed. Before
that, clients that send many lines and read late find all replies. Meanwhile a client of another server is silent for a
minute, and is answered then.

Each hostile client is a function that acts on a port until a time, with random choices, and returns what is wrong or an
empty text. The program is a *server* (the command `serve`), which serves a given number of connections. With the
argument `host` it is a *host* (the command `host`), which serves a class.
"""
import math
import random
import socket
import statistics
import struct
import sys
import time
from collections.abc import Callable
from concurrent.futures import Future, ProcessPoolExecutor
from pathlib import Path

from tests.common.hosting import HOST, Host, let_in
from tests.common.lines import BID, BYE, LONG, MALFORMED, denial_of, hello, line_of
from tests.common.preload import LIMIT, Client, Ended, Server, Story, built_in, fail, in_room

SECONDS = 20.0  # how long the hostile clients act, unless the command line says otherwise
SILENCE = 61.0  # seconds for which a client of another server is silent
QUIET = 300.0  # the most seconds between the two halves of a line, less than the ten minutes of a host
UNREAD = 10.0  # seconds after which a host ends a connection that takes no reply
OVER_HOST = "host" in sys.argv[1:]
MOST_LINES = 18_000  # lines of the honest clients, whose script has to fit into a megabyte
PAUSE = 0.001  # seconds between two lines of an honest client
# A request that every hostile client may send, since the node doesn't exist, and the replies to it.
SEE = line_of(do="see", node=99)
NOT_GREETED = denial_of("not-greeted")
HIDDEN = denial_of("hidden")
# A host closes connections that don't greet, so the hostile clients of a host say hello first.
DENIED = HIDDEN if OVER_HOST else NOT_GREETED
Program = Server | Host
# A hostile client is a function of a port, the time when it ends, and a source of random numbers. It returns what is
# wrong with the replies, or an empty text.
Hostile = Callable[[int, float, random.Random], str]


def connect(port: int) -> socket.socket:
    """Connects to a port, and says hello if the server is a host. Returns the connection, which sends the bytes of each
    call at once."""
    it = let_in(port, hello("cyd"))[0].socket if OVER_HOST else socket.create_connection(("127.0.0.1", port), LIMIT)
    it.setsockopt(socket.IPPROTO_TCP, socket.TCP_NODELAY, 1)
    return it


def begin(it: socket.socket, until: float, draw: random.Random) -> None:
    """Sends a line on a connection and waits for its reply, so that the session's thread has all its memory. Then waits
    for a random part of the time until `until`."""
    it.sendall(SEE)
    with it.makefile("rb") as replies:
        replies.readline()
    time.sleep(max(0.0, until - time.monotonic()) * draw.uniform(0.3, 0.6))


def noise(port: int, until: float, draw: random.Random) -> str:
    """Sends lines of random bytes, with the byte 255 in a string. Each is answered as malformed, and the next one
    correctly."""
    with connect(port) as it, it.makefile("rb") as replies:
        while time.monotonic() < until:
            lines = [draw.randbytes(draw.randrange(1, 300)).replace(b"\n", b" ") for _ in range(20)]
            lines.append(b'{"do":"hello","name":"\xff","key":"chalk"}')
            it.sendall(b"".join(line + b"\n" for line in lines) + SEE)
            if any(replies.readline() != MALFORMED for _ in lines):
                return "noise was answered as something else"
            if replies.readline() != DENIED:
                return "a line after noise was answered as something else"
            time.sleep(0.02)
    return ""


def long_line(port: int, until: float, draw: random.Random) -> str:
    """Sends a line that is one byte too long. The connection is ended without a reply, or by a host with the line
    `long`."""
    with connect(port) as it:
        begin(it, until, draw)
        it.sendall(b" " * (4097 - len(SEE) + 1) + SEE)  # 4097 bytes before the newline, which SEE has
        try:
            with it.makefile("rb") as replies:
                return "" if replies.read() == (LONG if OVER_HOST else b"") else "a line that is too long was answered"
        except ConnectionError:  # The end may also come as a reset.
            return ""


def half_line(port: int, until: float, draw: random.Random) -> str:
    """Sends a line in two halves, the second one at the end. If the server is a host, the second half comes within
    QUIET seconds, because a host waits for ten minutes only."""
    middle = draw.randrange(1, len(SEE) - 1)
    with connect(port) as it, it.makefile("rb") as replies:
        it.sendall(SEE)
        replies.readline()
        while True:
            it.sendall(SEE[:middle])
            time.sleep(max(0.0, min(until - time.monotonic(), QUIET)))
            it.sendall(SEE[middle:])
            if replies.readline() != DENIED:
                return "a line in two halves wasn't answered"
            if time.monotonic() >= until:
                return ""


def byte_by_byte(port: int, until: float, draw: random.Random) -> str:
    """Sends requests one byte at a time, and checks that each is answered correctly."""
    with connect(port) as it, it.makefile("rb") as replies:
        while time.monotonic() < until:
            for at in range(len(SEE)):
                it.sendall(SEE[at:at + 1])
                time.sleep(draw.uniform(0, 0.002))
            if replies.readline() != DENIED:
                return "a line of single bytes was answered otherwise"
    return ""


def reset(port: int, until: float, draw: random.Random) -> str:
    """Sends requests without reading their replies, and resets the connection, so that the server's next read or write
    fails."""
    with connect(port) as it:
        begin(it, until, draw)
        it.sendall(SEE * draw.randrange(1, 200))
        it.setsockopt(socket.SOL_SOCKET, socket.SO_LINGER, struct.pack("ii", 1, 0))
    return ""


def pour(port: int, until: float, draw: random.Random) -> int:
    """Sends requests on a new connection to a port without reading their replies, until the time `until` or until the
    connection ends. `draw` makes the random choices. Returns the number of bytes that were taken."""
    caller, _ = let_in(port, hello("cyd") if OVER_HOST else SEE)
    caller.socket.setblocking(False)
    sent = 0
    try:
        while time.monotonic() < until:
            try:
                sent += caller.socket.send(SEE * draw.randrange(1, 100))
            except BlockingIOError:
                time.sleep(0.01)
    except ConnectionError:
        pass
    finally:
        caller.close()
    return sent


def flood(port: int, until: float, draw: random.Random) -> str:
    """Sends requests without end and without reading their replies. A host ends that after ten seconds, and then a
    new connection continues."""
    sent = 0
    while (begun := time.monotonic()) < until:
        sent += pour(port, until, draw)
        now = time.monotonic()
        if now < until and (not OVER_HOST or now - begun < UNREAD):
            return "a connection that doesn't read was ended"
    return "" if sent > 100_000 else "nothing was taken of a flood"


def gone(port: int, until: float, draw: random.Random) -> str:
    """Opens a connection, sends nothing, and closes it after a random part of the time until `until`."""
    with socket.create_connection(("127.0.0.1", port), LIMIT):
        time.sleep(max(0.0, until - time.monotonic()) * draw.uniform(0.3, 0.6))
    return ""


def occupy_process() -> str:
    """Keeps its process busy for half a second, so that the pool uses another process for the next call. Returns an
    empty text, as a hostile client does if nothing is wrong."""
    time.sleep(0.5)
    return ""


ALL: list[Hostile] = [noise, long_line, half_line, byte_by_byte, reset, flood, gone] * 2


def honest_lines() -> bytes:
    """Returns a script of two honest clients, a student and the teacher: views and denied requests, and now and then a
    move, its close, and a fault that makes the move possible again. It has at least MOST_LINES lines."""
    lines = ['1 {"do":"hello","key":"a-key","name":"ana"}', '2 {"do":"hello","key":"chalk","name":"tess"}']
    number = 0
    while len(lines) < MOST_LINES:
        lines += ['1 {"do":"look","node":1}', '2 {"do":"report"}', '1 {"do":"report"}', '2 {"do":"close"}'] * 50
        lines += [
            '1 {"at":%d,"do":"move","node":1,"rule":"seduction"}' % number,
            '2 {"do":"close"}',
            '2 {"do":"fault","m":false,"node":1,"p":null}',
        ]
        number += 2
    return "".join(line + "\n" for line in lines).encode()


def kilobytes(server: Program) -> int:
    """Returns the resident memory of the server in kilobytes."""
    status = Path(f"/proc/{server.process.pid}/status").read_text(encoding="ascii")
    return int(status.split("VmRSS:", 1)[1].split()[0])


def threads(server: Program) -> int:
    """Returns the number of threads of the server."""
    return len(list(Path(f"/proc/{server.process.pid}/task").iterdir()))


class Honest:
    """Two clients that ask one line after another: a student and the teacher, who is at the desk of a host."""

    def __init__(self, story: Story, server: Program) -> None:
        """Connects both clients to the server. `story` has the expected replies."""
        self.lines = [line.split(b" ", 1) for line in story.lines]
        self.wanted, _ = story.plain(frozenset())
        desk = server.desk if isinstance(server, Host) else server.port
        self.clients = {b"1": Client(server.port), b"2": Client(desk)}
        self.at = 0

    def ask(self) -> float:
        """Sends the next line. Fails if its reply isn't that of a script of the same lines. Returns the seconds that
        the reply took."""
        number, line = self.lines[self.at]
        begun = time.monotonic()
        reply = self.clients[number].ask(line)
        taken = time.monotonic() - begun
        if number + b" " + reply != self.wanted[self.at]:
            fail(f"hostile: another reply to line {self.at + 1}: {reply!r}, not {self.wanted[self.at]!r}")
        self.at += 1
        return taken

    def play(self, most: int, pause: float, until: float = math.inf) -> list[float]:
        """Sends `most` lines, with `pause` seconds after each. Sends fewer if the time `until` comes first, or if there
        are no further lines. Returns the seconds that each reply took."""
        times: list[float] = []
        while self.at < len(self.lines) and len(times) < most and time.monotonic() < until:
            times.append(self.ask())
            time.sleep(pause)
        return times

    def end(self, server: Program) -> Ended:
        """Closes both connections, for a host by the teacher's bye, and waits for the server. Returns its end."""
        if isinstance(server, Host):
            self.clients[b"2"].ask(BYE)
        for client in self.clients.values():
            client.close()
        return server.end()


def start_server(lab: Path, connections: int) -> Program:
    """Starts and returns a server for this number of connections, or a host, which has no such number. Fails if it
    doesn't listen."""
    server: Program
    if OVER_HOST:
        server = Host(lab, 0, 0)
    else:
        server = Server(lambda port: ["serve", str(lab), str(port), str(connections)], {})
    if not server.listens:
        fail(f"hostile: the server doesn't listen: {server.end()}")
    return server


def start_with_clients(story: Story, connections: int) -> tuple[Program, Honest]:
    """Starts a server for this number of connections (a host has no such number), and its honest clients. Returns
    both."""
    server = start_server(story.lab, connections)
    return server, Honest(story, server)


def end_both(honest: Honest, server: Program) -> None:
    """Closes the honest clients. Checks that the server ends well, and has had no other events than theirs."""
    events = sum(b'"place":' in reply for reply in honest.wanted[:honest.at])
    end = honest.end(server)
    if end.status != 0 or end.error or not end.out.startswith(b"done: %d events, " % events):
        fail(f"hostile: the server ended otherwise: {end}")


def wait_for_all(futures: list[Future[str]]) -> None:
    """Waits until all hostile clients have ended. Fails if one of them has returned a text about an error."""
    for future in futures:
        if future.result():
            fail(f"hostile: {future.result()}")


def wait_for_threads(server: Program, wanted: int, when: str) -> None:
    """Waits until the server has `wanted` threads. Fails with the text `when` if that takes too long."""
    for _ in range(int(LIMIT / 0.05)):
        if threads(server) == wanted:
            return
        time.sleep(0.05)
    fail(f"hostile: {threads(server)} threads, not {wanted}, {when}")


def handles(server: Program) -> int:
    """Returns the number of open files of the server."""
    return len(list(Path(f"/proc/{server.process.pid}/fd").iterdir()))


def wait_for_handles(server: Program, wanted: int, when: str) -> None:
    """Waits until the server has `wanted` open files. Fails with the text `when` if that takes too long."""
    for _ in range(int(LIMIT / 0.05)):
        if handles(server) == wanted:
            return
        time.sleep(0.05)
    fail(f"hostile: {handles(server)} files are open, not {wanted}, {when}")


def read_late(lab: Path) -> None:
    """Checks sixteen clients that read late. Each sends a hundred lines, and then either a bye and more bytes or a line
    that is too long. All replies have to arrive, and then the end."""
    server = start_server(lab, 16)
    for tail, said in [(BYE + b"x" * 5000, BID), (b"x" * 20_000, b"")] * 8:
        with connect(server.port) as it, it.makefile("rb") as replies:
            it.sendall(SEE * 100 + tail)
            time.sleep(0.1)
            try:
                found = replies.read()
            except ConnectionError:
                found = b"a reset"
            if found != DENIED * 100 + (said or (LONG if OVER_HOST else b"")):
                fail(f"hostile: a late reader finds {len(found)} bytes: {found[-100:]!r}")
    end = server.dismiss(let_in(server.desk, hello("tess"))[0]) if isinstance(server, Host) else server.end()
    if end != Ended(0, b"done: 0 events, configuration 0\n", b""):
        fail(f"hostile: the server of late readers ended otherwise: {end}")


class Silent:
    """A client that sends nothing for a minute, and whose connection stays open."""

    def __init__(self, lab: Path) -> None:
        """Starts another server for a lab, and connects to it."""
        self.server = Server(lambda port: ["serve", str(lab), str(port), "1"], {})
        self.open = connect(self.server.port)
        self.until = time.monotonic() + SILENCE

    def end(self) -> None:
        """Waits until the minute is over and sends a line. Checks that it is answered, and that the server then
        ends."""
        time.sleep(max(0.0, self.until - time.monotonic()))
        with self.open as it, it.makefile("rb") as replies:
            it.sendall(SEE)
            if replies.readline() != NOT_GREETED:
                fail("hostile: a client that was silent for a minute isn't answered")
        if self.server.end() != Ended(0, b"done: 0 events, configuration 0\n", b""):
            fail("hostile: the server of a silent client ended otherwise")


def resting(server: Program) -> tuple[int, int]:
    """Returns the number of threads and open files of a server that has only its two honest clients. Such a server has
    the main thread and one for each client, the standard streams, and two files for each client. A host also has those
    for accepting others."""
    return (threads(server), handles(server)) if isinstance(server, Host) else (3, 7)


def work(room: Path) -> str:
    """Checks the clients that read late, a run of the honest clients alone, and their run beside the hostile clients.
    Unless the program is a host, a silent client is connected to another server all the time. Returns a line about the
    last run."""
    numbers = [float(word) for word in sys.argv[1:] if word != "host"]
    seconds = numbers[0] if numbers else SECONDS
    if OVER_HOST and not HOST.is_file():
        fail("the program isn't built")
    lab = room / "hostile.toml"
    text = built_in(room).read_text(encoding="utf-8")
    limits = text.replace("sessions = 4\n", "sessions = 16\n").replace("events = 100\n", "events = 100000\n")
    lab.write_text(limits, encoding="utf-8")
    story = Story(lab, honest_lines(), room)
    silent = None if OVER_HOST else Silent(lab)
    read_late(lab)

    server, honest = start_with_clients(story, 2)
    quiet = statistics.median(honest.play(500, PAUSE))
    end_both(honest, server)

    server, honest = start_with_clients(story, 2 + len(ALL))
    honest.play(2, PAUSE)
    rest = resting(server)
    with ProcessPoolExecutor(len(ALL)) as pool:
        # The processes are started before the time is measured, so that all clients run at once for `seconds` seconds.
        wait_for_all([pool.submit(occupy_process) for _ in ALL])
        until = time.monotonic() + seconds
        futures = [
            pool.submit(client, server.port, until, random.Random(seed)) for seed, client in enumerate(ALL)
        ]
        wait_for_threads(server, rest[0] + len(ALL), "once all are there")
        times = honest.play(100, 10 * PAUSE)
        held = kilobytes(server)
        times += honest.play(MOST_LINES, max(PAUSE, seconds / MOST_LINES), until)
        wait_for_all(futures)
    wait_for_threads(server, rest[0], "once the hostile clients have gone")
    wait_for_handles(server, rest[1], "once the hostile clients have gone")
    holds = kilobytes(server)
    # A host may hold much less than before, since it returns the memory of the threads of those connections.
    if holds * 10 > held * 11 or isinstance(server, Server) and holds * 10 < held * 9:
        fail(f"hostile: the server holds {holds} kB, not {held} kB as after a hundred lines")
    end_both(honest, server)
    if silent is not None:
        silent.end()
    beside = statistics.median(times)
    # A reply that waited for a hostile client would take seconds. The clients' load on the processors costs less.
    if beside > 20 * quiet + 0.5:
        fail(f"hostile: a reply takes {beside * 1e6:.0f} microseconds, alone {quiet * 1e6:.0f}")
    kind = "a host" if isinstance(server, Host) else "a server"
    return (
        f"{kind} beside {len(ALL)} hostile clients: {len(times)} lines as in a quiet run, "
        f"{beside * 1e6:.0f} microseconds each (alone {quiet * 1e6:.0f}), {holds} kB ({held} after 100 lines)"
    )


if __name__ == "__main__":
    in_room(work)
