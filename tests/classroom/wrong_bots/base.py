"""A correct bot in small parts, which computes rules by itself. Each wrong bot changes one part."""
from __future__ import annotations

import sys
import time
from pathlib import Path

sys.path.append(str(Path(__file__).resolve().parents[3]))
from classroom.client import Client, Closed, Denied, Look, Near, Refused, Rule, Slip, again, enter  # noqa: E402

PAUSE = 0.05


class Bot:
    """A correct bot. `slip` names its nodes, and `me` is its connection."""

    def __init__(self, slip: Slip) -> None:
        """Makes a bot for the nodes of a slip. `play` connects it."""
        self.slip = slip
        self.me: Client

    # The connection.

    def play(self) -> None:
        """Greets, and plays until the class is over. Connects again if the connection is lost, or is ended by the
        refusal `busy`. Goes on after the refusal `memory`. Raises any other refusal, each denial that `denied` raises,
        and what `again` raises at the end."""
        self.me = self.enter()
        while True:
            try:
                self.loop()
            except (Closed, Refused) as lost:
                if isinstance(lost, Closed) or lost.word == "busy":
                    self.me = self.again(lost)
                elif lost.word != "memory":
                    raise

    def enter(self) -> Client:
        """Connects and greets. Tries again each second, for a minute, while no seat is free or the server is out of
        memory."""
        return enter(self.slip)

    def again(self, lost: Closed | Refused) -> Client:
        """Connects again after the error `lost` has ended a connection, and tries this for a minute. Raises `lost` if
        it doesn't succeed, or the class is over."""
        return again(self.slip, lost)

    def loop(self) -> None:
        """Looks at its nodes again and again, with a pause after each turn. Ends only by an error."""
        while True:
            self.turn()
            time.sleep(PAUSE)

    def turn(self) -> None:
        """Looks at each of its nodes, and asks for enabled moves."""
        for node in self.slip.nodes:
            self.at(self.me.look(node))

    def at(self, look: Look) -> None:
        """Asks for the enabled rule of the node of `look`, unless a move of this node is chosen already."""
        rule = self.rule(look)
        if rule and look.chosen is None:
            self.ask(look, rule)

    def ask(self, look: Look, rule: Rule) -> bool:
        """Asks for a move by the rule at the node of `look`. Returns whether it was granted. If it was denied, returns
        or raises what `denied` does."""
        try:
            self.me.move(look, rule, self.partner(look))
        except Denied as denied:
            return self.denied(denied, look, rule)
        return True

    def denied(self, denied: Denied, look: Look, rule: Rule) -> bool:
        """Handles the denial of the move by `rule` at the node of `look`. Returns false, so that the bot looks again.
        Raises any denial that a correct bot doesn't get, all but `stale` and `chosen`."""
        if denied.name not in ("stale", "chosen"):
            raise denied
        return False

    # The rules.

    def rule(self, look: Look) -> Rule | None:
        """Returns the rule that is enabled at the node of `look`, or None if none is."""
        if look.m != self.is_married(look):
            return "update"
        if look.p is None:
            if self.suitors(look):
                return "marriage"
            return "seduction" if self.candidates(look) else None
        return "abandonment" if self.gives_up(look) else None

    def is_married(self, look: Look) -> bool:
        """Returns whether the node and a neighbour point at each other."""
        return any(near.node == look.p and near.p == look.node for near in look.near)

    def suitors(self, look: Look) -> list[int]:
        """Returns the neighbours that point at the node."""
        return [near.node for near in look.near if near.p == look.node]

    def partner(self, look: Look) -> int | None:
        """Returns the neighbour to marry, the highest that points at the node, or None if none does."""
        return max(self.suitors(look), default=None)

    def candidates(self, look: Look) -> list[int]:
        """Returns the neighbours that the node may seduce."""
        return [near.node for near in look.near if near.node > look.node and near.p is None and not near.m]

    def pointed(self, look: Look) -> Near:
        """Returns the neighbour that the node points at. The node must point at one."""
        return next(near for near in look.near if near.node == look.p)

    def gives_up(self, look: Look) -> bool:
        """Returns whether the node abandons the neighbour that it points at. The node must point at one."""
        it = self.pointed(look)
        return it.p != look.node and (it.m or it.node < look.node)
