"""Tests of the command `serve` with clients that come at the same time, race, disappear or end within a line. The
expected replies are written by hand.

    python3 -B -m tests.program.serving
"""
import socket
import time
from pathlib import Path

from tests.common.lines import BID, BYE, CLOSE, closed, denial_of, fault_at, greeted, hello, line_of, seduced, seduction
from tests.common.limits import MOST
from tests.common.preload import LIMIT, TOP, Client, Ended, Server, built_in, fail, in_room

ROUNDS = 300  # the number of races for a move, and of races for a close


def lab_of(room: Path, old: str, new: str) -> Path:
    """Writes the built-in lab with the text `new` instead of `old`, and returns its path."""
    lab = room / "changed.toml"
    lab.write_text(built_in(room).read_text(encoding="utf-8").replace(old, new, 1), encoding="utf-8")
    return lab


def start_server(lab: Path, connections: int, *journal: str) -> Server:
    """Starts a server for `connections` connections, and returns it when it listens."""
    server = Server(lambda port: ["serve", str(lab), str(port), str(connections), *journal], {})
    if not server.listens:
        fail(f"serving: it doesn't listen: {server.end()}")
    return server


def ends(server: Server, done: bytes) -> None:
    """Waits for the end of a server, and checks that it ends well, with this last line."""
    ended = server.end()
    if ended != Ended(0, done, b""):
        fail(f"serving: another end: {ended}, not {done!r}")


def opened(server: Server) -> socket.socket:
    """Opens a connection to a server, and returns it."""
    return socket.create_connection(("127.0.0.1", server.port), LIMIT)


def whole(it: socket.socket) -> bytes:
    """Returns all bytes that a connection receives until the server ends it."""
    with it.makefile("rb") as replies:
        return replies.read()


def in_a_line(room: Path) -> None:
    """An incomplete line isn't answered, and ends only its own connection."""
    server = start_server(built_in(room), 4)
    texts = [b'{"do":"hel', hello("ana") + seduction(0), b"", BYE + BYE[:-1]]
    wanted = [b"", greeted("ana") + seduced(0, 1), b"", BID]
    clients = [opened(server) for _ in texts]
    for client, text in zip(clients, texts):
        client.sendall(text)
        client.shutdown(socket.SHUT_WR)
    found = [whole(client) for client in clients]
    for client in clients:
        client.close()
    if found != wanted:
        fail(f"serving: other replies to lines without an end: {found}")
    ends(server, b"done: 1 events, configuration 0\n")


def gone_before_the_reply(room: Path) -> None:
    """If a client closes its connection before it reads the reply to its move, the move is still made. Another client
    is served to its end."""
    server = start_server(built_in(room), 2)
    with opened(server) as client:
        client.sendall(hello("ana") + seduction(0))
    teacher = Client(server.port)
    if teacher.ask(hello("tess")) != greeted("tess"):
        fail("serving: another reply beside a client that is gone")
    while (reply := teacher.ask(CLOSE)) == denial_of("empty"):  # until the server has granted the move
        time.sleep(0.01)
    if reply != closed(1, 2, 1):
        fail(f"serving: the move of a client that is gone doesn't stand: {reply!r}")
    teacher.close()
    ends(server, b"done: 2 events, configuration 1\n")


def most_connections(room: Path) -> None:
    """As many connections as a server may have send the beginning of a line at the same time. When each of them sends
    the rest, it is answered correctly. All of them use the same name."""
    server = start_server(lab_of(room, "sessions = 4", f"sessions = {MOST['sessions']}"), MOST["sessions"])
    lines, replies = (
        b"".join(line[2:] for line in (TOP / f"examples/first-look.{end}").read_bytes().splitlines(keepends=True))
        for end in ("script", "out")
    )
    clients = [opened(server) for _ in range(MOST["sessions"])]
    for client in clients:
        client.sendall(lines[:10])
    threads = Path(f"/proc/{server.process.pid}/task")
    begun = time.monotonic()
    while len(list(threads.iterdir())) != MOST["sessions"] + 1:
        if time.monotonic() - begun > LIMIT:
            fail("serving: not each client has a thread")
        time.sleep(0.01)
    for client in clients:
        client.sendall(lines[10:])
        client.shutdown(socket.SHUT_WR)
    for client in clients:
        if whole(client) != replies:
            fail("serving: one of many is answered otherwise")
        client.close()
    ends(server, b"done: 0 events, configuration 0\n")


def race(one: Client, two: Client, line: bytes, granted: bytes, denied: bytes) -> int:
    """Sends a line on two connections at the same time. Checks that one is granted and the other denied. Returns
    the index of the granted one."""
    for client in (one, two):
        assert client.open is not None
        client.open.sendall(line)
    found = [client.replies.readline() for client in (one, two)]
    if sorted(found) != sorted([granted, denied]):
        fail(f"serving: a race is answered {found}, not {granted!r} and {denied!r}")
    return found.index(granted)


def races(room: Path) -> None:
    """If both owners of a node ask for its move at the same time, one of them is granted the move, and the journal
    names this one. If the teacher closes the step on two connections at the same time, one of them is granted."""
    journal = room / "raced.journal"
    lab = lab_of(room, 'owner = "ana"', 'owners = ["ana", "ben"]')
    server = start_server(raise_event_limit(lab), 4, str(journal))
    clients = [Client(server.port) for _ in range(4)]
    for client, name in zip(clients, ("ana", "ben", "tess", "tess")):
        client.ask(hello(name))
    ana, ben, tess, other = clients
    lines = []
    for turn in range(ROUNDS):
        number, place = 2 * turn, 3 * turn
        pairs = ((ana, ben), (tess, other)) if turn % 2 else ((ben, ana), (other, tess))
        winner = race(*pairs[0], seduction(number), seduced(number, place + 1), denial_of("chosen"))
        race(*pairs[1], CLOSE, closed(number + 1, place + 2, 1), denial_of("empty"))
        if tess.ask(fault_at(1)) != line_of(at=number + 2, dropped=0, node=1, ok="fault", place=place + 3):
            fail("serving: another reply to a fault after a race")
        name = "ana" if pairs[0][winner] is ana else "ben"
        lines += [f"{place + 1} {number} grant {name} 1 seduction", f"{place + 2} {number} close",
                  f"{place + 3} {number + 1} fault 1 - false"]
    for client in clients:
        client.close()
    ends(server, b"done: %d events, configuration %d\n" % (3 * ROUNDS, 2 * ROUNDS))
    if journal.read_text(encoding="ascii").splitlines() != lines:
        fail("serving: another journal of races")


def raise_event_limit(lab: Path) -> Path:
    """Replaces the limit of events in the file of a lab by a higher one. Returns the file's path."""
    lab.write_text(lab.read_text(encoding="utf-8").replace("events = 100\n", "events = 10000\n"), encoding="utf-8")
    return lab


def work(room: Path) -> str:
    """Checks servers with incomplete lines, clients that disappear, many connections, and requests at the same time.
    Returns a line with the number of races."""
    for case in (in_a_line, gone_before_the_reply, most_connections, races):
        case(room)
    return f"servers of clients that meet, race and go away: 4, {2 * ROUNDS} races"


if __name__ == "__main__":
    in_room(work)
