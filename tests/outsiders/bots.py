"""Two outsiders, clients without a key, attack a class with the bots of fourteen students, which connect and
disconnect.

    python3 -m tests.outsiders.bots [SECONDS]

The class reaches a stable end while the outsiders are there. The output says how long honest clients wait for a seat
and for a reply. These times are bounded by those without outsiders. Each action of an outsider is a function of the two
ports, that of the students and the desk.
"""
import json
import multiprocessing
import random
import socket
import sys
import threading
import time
from collections.abc import Callable
from dataclasses import dataclass, field
from pathlib import Path

from tests.common.hosting import HOST, Caller, Host, audit
from tests.common.lines import BUSY, BYE, CLOSE, LATE, REPORT, fault_at, hello, line_of
from tests.common.preload import LIMIT, fail, in_room
from tests.resume.players import asked

SECONDS = 30.0  # seconds for which the outsiders act while the class plays, unless the command line says otherwise
QUIET = 5.0  # seconds for which the class plays without outsiders before that
STUDENTS = 14
WAIT = 2.0  # seconds that an honest client may wait
SLOWER = 20  # the most that an honest client may wait, as a multiple of its wait without outsiders
KNOCK = 0.05  # seconds between two silent connections of an outsider
GUESS = line_of(do="hello", key="no-key", name="s-1")


def lab_of_bots(room: Path) -> Path:
    """Writes a lab with a cycle in which each student owns a node, and returns its path."""
    rows = ["events = 100000", "sessions = 16"]
    rows += [f"links = {[[node, node % STUDENTS + 1] for node in range(1, STUDENTS + 1)]}"]
    rows += ['teacher = {name = "tess", key = "chalk"}']
    for node in range(1, STUDENTS + 1):
        rows += [f'[[student]]\nname = "s-{node}"\nkey = "key-{node}"', f'[[node]]\nid = {node}\nowner = "s-{node}"']
    lab = room / "bots.toml"
    # In TOML the keys of the file come before its tables, which begin with a bracket.
    lab.write_text("\n".join(sorted(rows, key=lambda row: row[0] == "[")) + "\n", encoding="utf-8")
    return lab


def knocks(ports: tuple[int, int]) -> None:
    """Opens silent connections one after another, at both ports, and keeps the last two hundred open. Ends only by an
    `OSError`."""
    kept: list[socket.socket] = []
    for turn in range(10**9):
        kept.append(socket.create_connection(("127.0.0.1", ports[turn % 2]), LIMIT))
        if len(kept) > 200:
            kept.pop(0).close()
        time.sleep(KNOCK)


def guesses(ports: tuple[int, int]) -> None:
    """Sends ten hellos with a wrong key on a connection, and reads until the host ends it."""
    with socket.create_connection(("127.0.0.1", ports[0]), LIMIT) as it, it.makefile("rb") as replies:
        it.sendall(GUESS * 10)
        replies.read()


def holds(ports: tuple[int, int]) -> None:
    """Holds a seat by sending lines other than a hello, one every half second, until the host ends the connection."""
    with socket.create_connection(("127.0.0.1", ports[0]), LIMIT) as it, it.makefile("rb") as replies:
        it.sendall(b"{}\n")
        while replies.readline() not in (b"", BUSY, LATE):
            time.sleep(0.5)
            it.sendall(b"{}\n")


def stays(ports: tuple[int, int]) -> None:
    """Opens connections one after another, at both ports, and sends a line for which the host ends each of them. Keeps
    its own ends of the last two hundred open. Ends only by an `OSError`."""
    kept: list[socket.socket] = []
    for turn in range(10**9):
        kept.append(socket.create_connection(("127.0.0.1", ports[turn % 2]), LIMIT))
        kept[-1].sendall(b"x\n")
        if len(kept) > 200:
            kept.pop(0).close()
        time.sleep(KNOCK)


def outsider(ports: tuple[int, int]) -> None:
    """Does all actions of an outsider at the same time, over and over."""
    def without_end(act: Callable[[tuple[int, int]], None]) -> None:
        """Does one action for ever. Waits a moment after each `OSError`."""
        while True:
            try:
                act(ports)
            except OSError:
                time.sleep(0.01)

    for act in (knocks, stays, guesses, guesses, holds, holds):
        threading.Thread(target=without_end, args=[act], daemon=True).start()
    time.sleep(1e6)  # Until the test kills this process.


@dataclass
class Waits:
    """How many seconds honest clients waited for the desk, for a student's seat, and for a reply."""

    desk: list[float] = field(default_factory=list)
    seats: list[float] = field(default_factory=list)
    replies: list[float] = field(default_factory=list)

    def __str__(self) -> str:
        """Returns a line about the waiting times."""
        return ", ".join(f"{len(found)} for {of}: {sorted(found)[len(found) // 2]:.3f} seconds, at most {max(found):.2f}"
                         for of, found in vars(self).items())


class Honest:
    """A connection of a client with a key."""

    def __init__(self, port: int, line: bytes, waits: Waits) -> None:
        """Connects to a port with the hello `line`, again and again until it is granted. Appends the seconds that this
        took to `waits`. Fails after a time limit."""
        self.port, self.line, self.waits = port, line, waits
        found = waits.desk if line == hello("tess") else waits.seats
        begun = time.monotonic()
        while b'"ok":"hello"' not in (said := self.greets()):
            if said not in (b"", BUSY):
                fail(f"outsiders: an honest hello is answered {said!r}")
            if time.monotonic() - begun > LIMIT:
                fail("outsiders: an honest client isn't let in")
        found.append(time.monotonic() - begun)

    def greets(self) -> bytes:
        """Connects and says hello. Keeps the connection in `caller`, and closes it if the hello isn't granted. Returns the
        reply."""
        self.caller = Caller(self.port)
        said = self.caller.ask(self.line)
        if b'"ok"' not in said:
            self.caller.close()
        return said

    def ask(self, line: bytes) -> dict[str, object]:
        """Sends a line, and returns the values of its reply. Appends the seconds that it took to the waiting times.
        Fails if there is no reply, or it is a refusal."""
        begun = time.monotonic()
        reply = self.caller.ask(line)
        self.waits.replies.append(time.monotonic() - begun)
        found: dict[str, object] = json.loads(reply or b"{}")
        if not found or "refuse" in found:
            fail(f"outsiders: an honest client is answered {reply!r}")
        return found


@dataclass
class Class:
    """A class with bots, and the waiting times of its clients. `work` replaces `waits` when the outsiders come."""

    host: Host
    waits: Waits = field(default_factory=Waits)
    is_over: threading.Event = field(default_factory=threading.Event)

    def bot(self, node: int) -> None:
        """Runs the bot of a student at a node. The bot asks for enabled moves, and connects again after some looks."""
        draw = random.Random(node)
        while not self.is_over.is_set():
            it = Honest(self.host.port, line_of(do="hello", key=f"key-{node}", name=f"s-{node}"), self.waits)
            for _ in range(draw.randrange(1, 8)):
                seen = it.ask(line_of(do="look", node=node))
                if seen["rule"] is not None and seen["chosen"] is None:
                    it.ask(asked(seen, node))
                self.is_over.wait(0.1)
            if draw.random() < 0.5:
                it.ask(BYE)
            it.caller.close()

    def teach(self, seconds: float) -> None:
        """Closes steps as the teacher for `seconds` seconds, and causes a fault at a node now and then."""
        draw, end = random.Random(0), time.monotonic() + seconds
        while time.monotonic() < end:
            it = Honest(self.host.desk, hello("tess"), self.waits)
            for _ in range(10):
                it.ask(CLOSE)
                time.sleep(0.1)
            it.ask(fault_at(draw.randrange(1, STUDENTS + 1), m=True))
            it.caller.close()

    def come_to_rest(self) -> Honest:
        """Closes steps as the teacher until no node is privileged. Returns the teacher's connection."""
        it, end = Honest(self.host.desk, hello("tess"), self.waits), time.monotonic() + LIMIT
        while not it.ask(REPORT)["stable"]:
            it.ask(CLOSE)
            time.sleep(0.05)
            if time.monotonic() > end:
                fail("outsiders: the class doesn't reach a stable end")
        return it


def check_waits(waits: Waits, quiet: Waits) -> None:
    """Checks each kind of waiting times in `waits`, of which at most a tenth may be longer than a limit. The limit is
    WAIT plus SLOWER times the longest time of this kind in `quiet`, the times without outsiders. So it is higher on a
    slow machine."""
    for of, found in vars(waits).items():
        most = WAIT + SLOWER * max(vars(quiet)[of])
        late = sum(each > most for each in found)
        if late * 10 > len(found):
            fail(f"outsiders: {late} of {len(found)} waits for {of} take more than {most:.2f} seconds")


def work(room: Path) -> str:
    """Runs a class alone for a moment, and then beside the outsiders until it is stable. Fails if the class doesn't end
    well, if its journal isn't legal, or if honest clients wait too long. Returns a line about the class."""
    seconds = float(sys.argv[1]) if sys.argv[1:] else SECONDS
    lab, journal = lab_of_bots(room), room / "journal"
    with Host(lab, 0, 0, journal) as host:
        it = Class(host)
        bots = [threading.Thread(target=it.bot, args=[node]) for node in range(1, STUDENTS + 1)]
        for bot in bots:
            bot.start()
        it.teach(QUIET)
        quiet, it.waits = it.waits, Waits()
        outsiders = [multiprocessing.get_context("spawn").Process(target=outsider, args=[(host.port, host.desk)], daemon=True) for _ in range(2)]
        for each in outsiders:
            each.start()
        it.teach(seconds)
        teacher = it.come_to_rest()
        it.is_over.set()
        for bot in bots:
            bot.join()
        ended = host.dismiss(teacher.caller)
        for each in outsiders:
            each.kill()
    events = len(journal.read_bytes().splitlines())
    if ended.status != 0 or b", stable" not in audit(lab, journal, events) or b"hellos had no right key" not in ended.error:
        fail(f"outsiders: the class of bots ends otherwise: {ended}")
    check_waits(it.waits, quiet)
    return f"two outsiders for {seconds:.0f} seconds, {events} events to a stable end; alone waits {quiet}; beside them {it.waits}"


if __name__ == "__main__":
    if not HOST.is_file():
        fail("the program isn't built")
    in_room(work)
