"""Runs of large meshes. A *mesh* is a ring of nodes, in which each node is also linked to another one further on. The
events of these runs are random and always granted. After each of them the teacher asks for a report and for looks."""
import json
from random import Random
from typing import Any, Optional

from model import Lab, Run
from model.world import Move

Asked = dict[str, Any]
PEOPLE = """teacher = { name = "teacher", key = "t-key" }
student = [{ name = "student", key = "s-key" }]
sessions = 2
events = 2000
"""
HELLOS = ['{"do":"hello","key":"s-key","name":"student"}', '{"do":"hello","key":"t-key","name":"teacher"}']


def mesh(count: int) -> str:
    """Returns the text of a lab with a ring of `count` nodes, in which each node is also linked to another one further
    on. One student owns all nodes."""
    ids = range(1, count + 1)
    links = [[i, i % count + 1] for i in ids] + [[i, (i + count // 3) % count + 1] for i in ids]
    nodes = "".join(f'  {{ id = {i}, owner = "student" }},\n' for i in ids)
    return f"{PEOPLE}links = {json.dumps(links)}\nnode = [\n{nodes}]\n"


class Meshing:
    """A builder of a script of random events in a mesh. It applies each line to the model, and asks only for events
    that the model grants."""

    def __init__(self, rng: Random, lab: Lab) -> None:
        """`rng` makes all random choices."""
        self.rng = rng
        self.model = Run(lab)
        self.lines: list[str] = []

    def ask(self, connection: int, line: str) -> None:
        """Appends a line on a connection to the script, and applies it to the model."""
        self.lines.append(f"{connection} {line}\n")
        self.model.answer(connection, line.encode())

    def after(self, start: int, steps: int) -> int:
        """Returns the node that is `steps` nodes after `start` in the ring."""
        return (start + steps - 1) % len(self.model.world.links) + 1

    def grant(self, start: int) -> Optional[Asked]:
        """Returns the request for a move of the first node from `start` on that can move and isn't chosen, or None if
        there is none."""
        world = self.model.world
        for steps in range(len(world.links)):
            i = self.after(start, steps)
            moves: list[Move] = [] if i in world.chosen else world.moves(i)
            if moves:
                asked = {"do": "move", "node": i, "rule": moves[0].rule, "at": world.number}
                return {**asked, "with": moves[0].partner} if moves[0].rule == "marriage" else asked
        return None

    def release(self, start: int) -> Optional[Asked]:
        """Returns the request for a release of the first chosen node from `start` on, or None if there is none."""
        chosen = self.model.world.chosen
        nodes = [i for i in (self.after(start, steps) for steps in range(len(self.model.world.links))) if i in chosen]
        return {"do": "release", "node": nodes[0]} if nodes else None

    def fault(self, start: int) -> Asked:
        """Returns the request for a fault that sets the pointer of the node `start` to a neighbour or to null."""
        p = self.rng.choice([None, *self.model.world.near(start)])
        return {"do": "fault", "node": start, "p": p, "m": self.rng.random() < 0.5}

    def drawn(self) -> Asked:
        """Returns the next request, which the model grants: mostly a move, and sometimes another event. If the drawn one
        isn't possible now, returns a fault, which always is."""
        world, start = self.model.world, self.rng.choice(self.model.world.nodes())
        kind = self.rng.randrange(16)
        asked: Optional[Asked] = None
        if kind <= 8:
            asked = self.grant(start)
        elif kind == 9 and world.chosen:
            asked = {"do": "close"}
        elif kind in (10, 11):
            asked = self.release(start)
        elif kind in (12, 13):
            end = self.rng.choice(world.nodes())
            asked = None if end == start or end in world.links[start] else {"do": "link", "a": start, "b": end}
        elif kind == 14 and world.links[start]:
            asked = {"do": "cut", "a": start, "b": world.near(start)[-1]}
        return asked or self.fault(start)

    def add_event(self) -> None:
        """Appends an event, a report, and looks at the nodes of the event and at their neighbours."""
        asked = self.drawn()
        self.ask(1 if asked["do"] == "move" else 2, json.dumps(asked))
        self.ask(2, '{"do":"report"}')
        world = self.model.world
        named = {asked[key] for key in ("node", "a", "b") if key in asked}
        for i in sorted(named.union(*(world.links[i] for i in named))):
            self.ask(2, f'{{"do":"look","node":{i}}}')


def mesh_script(rng: Random, lab: Lab, events: int) -> bytes:
    """Returns a script of `events` events for a lab."""
    meshing = Meshing(rng, lab)
    for connection, line in enumerate(HELLOS, 1):
        meshing.ask(connection, line)
    for _ in range(events):
        meshing.add_event()
    return "".join(meshing.lines).encode()
