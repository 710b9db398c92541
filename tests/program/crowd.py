"""Plays three clients of one server at the same time: two ask for moves and views, and the teacher closes steps
and causes faults.

    python3 -B -m tests.program.crowd [SEED]

Each reply has to be the plain model's after some prefix of the journal, and the prefixes of one client never
become shorter. Each event is at the place in the journal that its reply names.
"""
import json
import sys
import threading
from pathlib import Path
from random import Random

from model import Lab, audit, read_lab
from model.events import apply
from model.journal import event_line
from model.run import answer
from tests.common.preload import Client, Ended, Server, fail, in_room

SEEDS = range(1, 5)
NODES = 64
TURNS = 250
HELLOS = {"ana": ("ana", "a-key"), "ben": ("ben", "b-key"), "tess": ("tess", "chalk")}
Heard = list[tuple[bytes, bytes]]  # the lines of a client with their replies


def lab_text() -> str:
    """Returns the text of a lab with a cycle, of which ana owns one half and ben the other."""
    links = ", ".join(f"[{node}, {node % NODES + 1}]" for node in range(1, NODES + 1))
    owned = [f'{{ id = {node}, owner = "{"ana" if 2 * node <= NODES else "ben"}" }}' for node in range(1, NODES + 1)]
    return (
        f'events = 100000\nsessions = 3\nlinks = [{links}]\nteacher = {{ name = "tess", key = "chalk" }}\n'
        'student = [{ name = "ana", key = "a-key" }, { name = "ben", key = "b-key" }]\n'
        f"node = [{', '.join(owned)}]\n"
    )


def line_of(**keys: object) -> bytes:
    """Returns the line of a request with these values."""
    return json.dumps(keys, sort_keys=True, separators=(",", ":")).encode() + b"\n"


class Player:
    """A client that keeps its lines and their replies."""

    def __init__(self, port: int, name: str) -> None:
        """Connects to a port, and greets as the student or teacher `name`."""
        self.client, self.heard = Client(port), Heard()
        self.name = name
        who, key = HELLOS[name]
        self.ask([line_of(do="hello", key=key, name=who)])

    def ask(self, lines: list[bytes]) -> bytes:
        """Sends several lines at once, and waits for all replies. Returns the last reply."""
        assert self.client.open is not None
        self.client.open.sendall(b"".join(lines))
        replies = [self.client.replies.readline() for _ in lines]
        self.heard += zip(lines, replies)
        return replies[-1]

    def moves(self, rng: Random, first: int) -> None:
        """Sends TURNS times three requests at once: a move, a request to see a random node, and a look at one of the
        student's own nodes. The move is the one that the look before it showed as enabled, or one that is denied.
        `first` is the lowest of the student's nodes."""
        half = NODES // 2
        move = line_of(do="see", node=0)  # Before the first look there is no move to ask for.
        for _ in range(TURNS):
            node = first + rng.randrange(half)
            look = json.loads(self.ask([move, line_of(do="see", node=rng.randrange(NODES + 2)), line_of(do="look", node=node)]))
            asked = {"at": look["at"], "do": "move", "node": node, "rule": look["rule"] or "seduction"}
            suitors = [near["node"] for near in look["near"] if near["p"] == node]
            move = line_of(**asked, **({"with": suitors[0] if suitors else 0} if asked["rule"] == "marriage" else {}))

    def closes(self, rng: Random, others: list[threading.Thread]) -> None:
        """Closes steps as the teacher until the threads `others` have ended, with a fault and a report now and then. At
        the end closes the last step, and asks for a report and to see all nodes."""
        while any(other.is_alive() for other in others):
            lines = [line_of(do="close")] * rng.randrange(1, 4)
            if rng.randrange(8) == 0:
                lines.append(line_of(do="fault", m=bool(rng.randrange(2)), node=rng.randrange(1, NODES + 1), p=None))
            if rng.randrange(16) == 0:
                lines.append(line_of(do="report"))
            self.ask(lines)
        nodes = [line_of(do="see", node=node) for node in range(1, NODES + 1)]
        self.ask([line_of(do="close"), line_of(do="report"), *nodes])


class Replay:
    """The plain model after a prefix of a journal, which grows event by event."""

    def __init__(self, lab: Lab, journal: bytes) -> None:
        """Begins before the first event of a journal of a lab."""
        self.lab = lab
        _, self.events = audit(lab, journal)
        self.world = lab.opening()
        self.known: str | None = None  # the name that has greeted on the client's connection

    def step(self) -> bool:
        """Applies the next event. Returns whether there is one."""
        if self.world.place == len(self.events):
            return False
        apply(self.world, self.events[self.world.place].asked)
        return True

    def gives(self, line: bytes, reply: bytes) -> bool:
        """Returns whether the model gives this reply to a line after the present prefix. If the line is granted as an
        event, this has to be the journal's next event, and is applied."""
        found = answer(self.lab, self.world, self.known, line[:-1])
        if found.reply.encode() + b"\n" != reply:
            return False
        if found.event is not None:
            own = event_line(self.world, str(found.known), found.event)
            if self.world.place == len(self.events) or own != self.line():
                return False
            apply(self.world, found.event)
        self.known = found.known
        return True

    def line(self) -> str:
        """Returns the next event as a line of the journal."""
        event = self.events[self.world.place]
        return event_line(self.world, event.who, event.asked)

    def meets(self, heard: Heard) -> str:
        """Replays the lines of one client. Each reply has to be the model's after the present prefix or a longer one.
        Returns a text about the first reply that isn't, or an empty text."""
        for line, reply in heard:
            while not self.gives(line, reply):
                if not self.step():
                    return f"{reply!r} to {line!r}"
        return ""


def play_all(server: Server, seed: int) -> list[Player]:
    """Starts three clients of a server, and returns them after they have played at the same time."""
    players = [Player(server.port, name) for name in HELLOS]
    ana, ben, tess = players
    students = [
        threading.Thread(target=one.moves, args=[Random(f"{seed} {one.name}"), first])
        for one, first in ((ana, 1), (ben, NODES // 2 + 1))
    ]
    for student in students:
        student.start()
    tess.closes(Random(f"{seed} tess"), students)
    for student in students:
        student.join()
    for player in players:
        player.client.close()
    return players


def run_crowd(room: Path, seed: int) -> int:
    """Runs the clients once, and checks all replies. Returns the number of events."""
    file, kept = room / "crowd.toml", room / "crowd.journal"
    file.write_text(lab_text(), encoding="ascii")
    lab = read_lab(file.read_bytes())
    kept.unlink(missing_ok=True)
    server = Server(lambda port: ["serve", str(file), str(port), "3", str(kept)], {})
    players = play_all(server, seed)
    ended = server.end()
    for player in players:
        replay = Replay(lab, kept.read_bytes())
        fault = replay.meets(player.heard)
        # The teacher's last lines come after all events, so her replay ends with the whole journal.
        if fault or player.name == "tess" and replay.world.place != len(replay.events):
            fail(f"crowd {seed}: {player.name} is answered what no beginning of the list gives from there on: {fault}")
    told = sum(b'"place":' in reply for player in players for _, reply in player.heard)
    # The last replay is that of tess, at the end of the journal.
    events, number = len(replay.events), replay.world.number
    if told != events or number == 0 or ended != Ended(0, b"done: %d events, configuration %d\n" % (told, number), b""):
        fail(f"crowd {seed}: {told} events were reported of {events}, and it ended so: {ended}")
    return told


def work(room: Path) -> str:
    """Runs three clients at the same time, once for each seed. Returns a line with the number of runs and of their
    events."""
    seeds = [int(word) for word in sys.argv[1:] if word.isdigit()] or SEEDS
    return f"three at once, {len(seeds)} times: {sum(run_crowd(room, seed) for seed in seeds)} events"


if __name__ == "__main__":
    in_room(work)
