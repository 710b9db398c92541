"""Random scripts for a lab. Most requests fit the present world, which the model computes."""
from random import Random
from typing import Any

from model import Lab, Run
from model.world import RULES, Move
from tests.random.lines import odd, spelled

Asked = dict[str, Any]
GREATEST = 2**64 - 1
# Lines that no script may have: the connection's number is wrong, or no request follows it.
BAD_LINES = [
    b"", b"0 {}", b"01 {}", b"17 {}", b"1", b"1\t{}", b" 1 {}", b"{}", b"-1 {}", b"1 " + b" " * 4097, b"100 {}", b"x",
]
# The requests of a connection without a name.
NAMELESS = [{"do": "close"}, {"do": "report"}, {"do": "bye"}]


class Drawing:
    """A builder of a random script. It applies each line to the model, so that later lines fit the world after it."""

    def __init__(self, rng: Random, lab: Lab) -> None:
        """`rng` makes all random choices."""
        self.rng, self.lab = rng, lab
        self.model = Run(lab)
        self.nodes = self.model.world.nodes()

    def node(self) -> int:
        """Returns a random node, sometimes one that doesn't exist."""
        if self.rng.random() < 0.04:
            return self.rng.choice([0, 1, 65535, 65536, GREATEST])
        return self.rng.choice(self.nodes)

    def hello(self) -> Asked:
        """Returns a random hello, mostly of a person who isn't connected. The key is mostly the right one, and
        sometimes another person's. Sometimes the name is one that the lab doesn't have."""
        names = list(self.lab.keys)
        absent = [name for name in names if name not in self.model.names.values()]
        name = self.rng.choice(absent if absent and self.rng.random() < 0.8 else names)
        key = self.lab.keys[self.rng.choice(names) if self.rng.random() < 0.1 else name]
        return {"do": "hello", "name": name if self.rng.random() < 0.97 else "nobody", "key": key}

    def move(self, who: str) -> Asked:
        """Returns a random move of the person `who`, mostly an enabled one of an own node in the present
        configuration."""
        world, rng = self.model.world, self.rng
        own = [i for i in self.nodes if who in self.lab.owners[i]]
        some = rng.sample(own, min(len(own), 8))
        ready = [i for i in some if i not in world.chosen and world.enabled(i) is not None]
        i = rng.choice(ready or own) if own and rng.random() < 0.9 else self.node()
        moves = world.moves(i) if i in world.links else []
        move = rng.choice(moves) if moves and rng.random() < 0.9 else Move(rng.choice(RULES), self.node())
        stale = [0, max(world.number - 1, 0), world.number + 1, GREATEST]
        at = world.number if rng.random() < 0.9 else rng.choice(stale)
        asked = {"do": "move", "node": i, "at": at, "rule": move.rule}
        return {**asked, "with": move.partner} if move.rule == "marriage" else asked

    def fault(self) -> Asked:
        """Returns a random fault, mostly with a pointer that is null or a neighbour."""
        i = self.node()
        near = self.model.world.near(i) if i in self.model.world.links else []
        p = self.rng.choice([None, *near]) if self.rng.random() < 0.8 else self.node()
        return {"do": "fault", "node": i, "p": p, "m": self.rng.random() < 0.5}

    def change(self) -> Asked:
        """Returns a random link or cut, mostly a possible one."""
        do = self.rng.choice(["link", "cut"])
        a, b = self.node(), self.node()
        near = self.model.world.near(a) if a in self.model.world.links else []
        if do == "cut" and near and self.rng.random() < 0.7:
            b = self.rng.choice(near)
        return {"do": do, "a": a, "b": b}

    def release(self) -> Asked:
        """Returns a random release, mostly of a chosen node."""
        chosen = list(self.model.world.chosen)
        return {"do": "release", "node": self.rng.choice(chosen) if chosen and self.rng.random() < 0.8 else self.node()}

    def asked(self, connection: int) -> Asked:
        """Returns the next request of a connection."""
        rng = self.rng
        who = self.model.names.get(connection)
        if who is None:
            return self.hello() if rng.random() < 0.9 else rng.choice([*NAMELESS, self.move("")])
        if rng.random() < 0.03:
            return rng.choice([{"do": "bye"}, self.hello()])
        views: list[dict[str, Any]] = [{"do": "see", "node": self.node()}, {"do": "look", "node": self.node()}, {"do": "report"}]
        if who == self.lab.teacher:
            acts = [self.fault(), self.change(), self.release(), self.move(who)]
            closes: list[dict[str, Any]] = [{"do": "close"}] * 3
            return rng.choice(closes + acts if rng.random() < 0.6 else views)
        if rng.random() < 0.05:
            return rng.choice([{"do": "close"}, self.fault(), self.change(), self.release()])
        return self.move(who) if rng.random() < 0.7 else rng.choice(views)

    def drawn(self, connection: int) -> bytes:
        """Returns the next line of a connection."""
        asked = self.asked(connection)
        return odd(self.rng, asked) if self.rng.random() < 0.06 else spelled(self.rng, asked)

    def line(self, connection: int) -> bytes:
        """Returns the next line of a connection, and applies it to the model."""
        line = self.drawn(connection)
        self.model.answer(connection, line)
        return line


def drawn_script(rng: Random, lab: Lab, lines: int) -> bytes:
    """Returns a random script of `lines` lines for a lab. Some end with a wrong line, or without the last newline."""
    drawing = Drawing(rng, lab)
    connections = [rng.randint(1, lab.sessions) for _ in range(4)]
    text = b""
    for _ in range(lines):
        connection = rng.choice(connections)
        text += b"%d %s\n" % (connection, drawing.line(connection))
    kind = rng.randrange(10)
    if kind == 0:
        return text + rng.choice(BAD_LINES) + b"\n" + text[:200]
    if kind == 1:
        return text + b'1 {"do":"bye"}' * rng.choice([1, 1, 400])
    return text
