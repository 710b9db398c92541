"""The house of a run: the second owner of each node, which plays for absent students in its own name. A granted move is
*chosen* until a step applies it. The class *waits* for a node that has an enabled rule and no chosen move."""
from __future__ import annotations

import time
from collections.abc import Callable, Collection

from classroom.client import Client, Closed, Denied, Refused
from classroom.core.journal import Event
from classroom.core.lab import HOUSE, Lab
from classroom.core.program import Fault
from classroom.run.wording import nodes_in_words

LIMIT = 5.0  # seconds that the server's answer may take
AGAIN = 2.0  # seconds after which the house connects again if no seat was free
WAITS = "the house begins when the first student has said hello"
HOW = "With --stand-in, `./class new` makes a lab in which the house is the second owner of each node"


def require_house(lab: Lab, file: object) -> None:
    """Raises `Fault`, which names the lab's file `file`, if the lab has no house."""
    if not lab.house_nodes():
        raise Fault(f"{file}: the house can't play in this lab, since no node has `{HOUSE}` as its second owner. {HOW}")


class House:
    """The house, which asks for the moves of nodes that the class waits for. For each request the house takes a seat of
    the server for a moment."""

    def __init__(self, lab: Lab, port: int, seconds: float | None, tell: Callable[[str], None], played: Collection[str] = (),
                 keep: Callable[[list[str]], None] = lambda names: None) -> None:
        """Prepares to play in `lab`, which has a house. If `seconds` isn't None, the house plays each node for which
        the class has waited for `seconds` seconds. The house plays at once for the students named in `played`, and
        `keep` stores their names when they change. `port` is the students' port, and the first callback prints a
        line."""
        self.port, self.seconds, self.tell = port, seconds, tell
        self.key = lab.students[HOUSE]
        self.held = set(lab.house_nodes())
        self.students = {name: self.held.intersection(nodes) for name in lab.without_house().students if (nodes := lab.nodes_of(name))}
        self.played, self.keep = {name for name in played if name in self.students}, keep
        self.since: dict[int, float] = {}  # for each node, the time from which the class waits for it
        self.student_came = False  # Whether a student has come. Until then, the house waits.
        self.again = 0.0  # the time before which the house doesn't connect again
        self.told_busy = False  # Whether a line has said that no seat is free for the house.

    def play(self, name: str) -> str:
        """Makes the house play the nodes of the student `name` from now on, without waiting. Returns the line that
        reports it. Raises `ValueError` if there is no such student."""
        self.played.add(self.require_student(name))
        self.keep(sorted(self.played))
        return f"the house now plays for {name}, at {nodes_in_words(sorted(self.students[name]))}"

    def stop(self, name: str) -> str:
        """Ends the house's playing for the student `name`. Returns the line that reports it. Raises `ValueError` if
        there is no such student, or if the house doesn't play for this student."""
        if self.require_student(name) not in self.played:
            raise ValueError(f"there is nothing to stop: the house doesn't play for {name}")
        self.played.discard(name)
        self.keep(sorted(self.played))
        return f"the house no longer plays for {name}"

    def require_student(self, name: str) -> str:
        """Returns the name if it is the name of a student with nodes. Raises `ValueError` otherwise."""
        if name not in self.students:
            raise ValueError(f"there is no student {name} with a node. The students are: {', '.join(self.students)}")
        return name

    def played_line(self) -> str:
        """Returns the line that says for whom the house plays."""
        names = ", ".join(name for name in self.students if name in self.played)
        late = f"at each node for which the class has waited {self.seconds:g} seconds" if self.seconds is not None else ""
        whom = " and ".join(filter(None, (f"for {names}" if names else "", late)))
        return f"the house plays {whom or 'for nobody'}{f'; {WAITS}' if self.waits() else ''}"

    def waits(self) -> bool:
        """Returns whether the house plays after some seconds, but doesn't count them yet, because no student has
        come."""
        return self.seconds is not None and not self.student_came

    def note(self, event: Event) -> None:
        """Notes an event. The class no longer waits for a node whose move was granted."""
        if event.kind == "grant":
            self.since.pop(event.nodes[0], None)

    def due(self, waiting: Collection[int], now: float) -> list[int]:
        """Returns the nodes in `waiting`, those that the class waits for, that the house may play at the time `now`.
        The node for which the class has waited longest comes first. Notes since when the class waits for each of them.
        No time is counted before a first student has come."""
        before = self.since if self.student_came else {}
        self.since = {node: before.get(node, now) for node in waiting if node in self.held}
        at_once = set[int]().union(*(self.students[name] for name in self.played))
        late = [node for node, since in self.since.items() if self.seconds is not None and now - since >= self.seconds]
        return sorted(at_once.intersection(self.since).union(late), key=lambda node: (self.since[node], node))

    def turn(self, waiting: Collection[int], most: int) -> None:
        """Asks for moves of nodes that the house may play now, at most `most`. `waiting` are the nodes that the class
        waits for. If the server refuses or ends the connection, the house asks again AGAIN seconds later at the
        earliest."""
        now = time.monotonic()
        nodes = self.due(waiting, now)[:most]
        if not nodes or now < self.again:
            return
        try:
            with Client(self.port, HOUSE, self.key, limit=LIMIT) as me:
                for node in nodes:
                    self.ask(me, node)
            self.told_busy = False
        except Refused as refused:
            self.again = now + AGAIN
            if refused.word == "busy" and not self.told_busy:
                self.told_busy = True
                self.tell("the house would play now, but no seat is free for it; type `who` to see which students have the seats")
        except Closed:
            self.again = now + AGAIN

    def ask(self, me: Client, node: int) -> None:
        """Asks on the house's connection `me` for the move by a node's enabled rule. Does nothing if no rule is enabled
        or a move is chosen, for example because the student was quicker. A denial is ignored."""
        look = me.look(node)
        if look.rule is None or look.chosen is not None:
            return
        try:
            me.move(look)
        except Denied:
            pass
