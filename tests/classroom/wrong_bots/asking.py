"""Bots with mistakes in their requests and their timing.

A method without a docstring replaces the method of `base.Bot` as the docstring of its class says. Values that a bot
remembers are in `__dict__`, so that it needs no `__init__`.
"""
from __future__ import annotations

import time

from classroom.client import Denied, Look, Rule
from tests.classroom.wrong_bots.base import PAUSE, Bot


class AsksWhateverIsShown(Bot):
    """Asks for an update if no rule is enabled."""

    def rule(self, look: Look) -> Rule | None:
        return super().rule(look) or "update"


class AsksAgainWhileChosen(Bot):
    """Asks again and again for a move that waits for the step to close."""

    def at(self, look: Look) -> None:
        if rule := self.rule(look):
            self.ask(look, rule)


class StopsAtStale(Bot):
    """Ends at the denial `stale`, as if it were an error."""

    def denied(self, denied: Denied, look: Look, rule: Rule) -> bool:
        if denied.name == "stale":
            raise SystemExit("the move was denied")
        return super().denied(denied, look, rule)


class StopsAtChosen(Bot):
    """Ends if a move is chosen at its node for which it didn't ask, as if that were an error."""

    def at(self, look: Look) -> None:
        """Exits if the node has a chosen move for which this bot didn't ask. Otherwise asks for its enabled rule."""
        if look.chosen is not None and (look.node, look.at) not in self.__dict__.setdefault("mine", set()):
            raise SystemExit("somebody else moves this node")
        super().at(look)

    def ask(self, look: Look, rule: Rule) -> bool:
        """Notes the node and the configuration, and asks for the move. Returns whether it was granted."""
        self.__dict__.setdefault("mine", set()).add((look.node, look.at))
        return super().ask(look, rule)


class RepeatsTheLine(Bot):
    """Sends a denied move ten more times, without a new look."""

    def denied(self, denied: Denied, look: Look, rule: Rule) -> bool:
        for _ in range(10):
            try:
                self.me.move(look, rule, self.partner(look))
            except Denied:
                time.sleep(PAUSE)
        return False


class TakesTheNumberOfADenial(Bot):
    """Asks again with the number in the denial `stale`, without a new look."""

    def denied(self, denied: Denied, look: Look, rule: Rule) -> bool:
        if denied.name != "stale" or denied.at is None:
            return super().denied(denied, look, rule)
        return self.ask(Look(look.node, look.p, look.m, denied.at, look.rule, look.chosen, look.near), rule)


class TakesTheNewestNumber(Bot):
    """Asks with the newest number that it sees in a turn, even if the look at this node has another."""

    def turn(self) -> None:
        looks = [self.me.look(node) for node in self.slip.nodes]
        newest = max(look.at for look in looks)
        for look in looks:
            # The reply to `see` may have a number that is newer than that of each look.
            self.at(Look(look.node, look.p, look.m, max(newest, self.me.see(look.near[0].node).at), look.rule, look.chosen, look.near))


class WaitsForTheNextNumber(Bot):
    """After a grant it looks at the node, but asks for nothing until the number changes."""

    def at(self, look: Look) -> None:
        asked = self.__dict__.setdefault("asked", {})
        rule = self.rule(look)
        if rule and look.chosen is None and asked.get(look.node) != look.at and self.ask(look, rule):
            asked[look.node] = look.at


class WaitsForTheStep(Bot):
    """After a grant it waits for the step to close before it looks at another node."""

    def ask(self, look: Look, rule: Rule) -> bool:
        if not super().ask(look, rule):
            return False
        while self.me.look(look.node).at == look.at:
            time.sleep(PAUSE)
        return True


class TakesAGrantForAStep(Bot):
    """Believes that a granted marriage has changed p at once, and asks for the update that would follow."""

    def ask(self, look: Look, rule: Rule) -> bool:
        granted = super().ask(look, rule)
        if granted and rule == "marriage":
            self.me.move(look, "update")
        return granted


class PlaysOneNode(Bot):
    """Plays only the first node of its slip."""

    def turn(self) -> None:
        self.at(self.me.look(self.slip.nodes[0]))


class LeavesTheMarriedAlone(Bot):
    """Never looks again at a node that was married and had m true."""

    def turn(self) -> None:
        done = self.__dict__.setdefault("done", set())
        for node in self.slip.nodes:
            if node not in done:
                look = self.me.look(node)
                self.at(look)
                if look.m and self.is_married(look):
                    done.add(node)
        if len(done) == len(self.slip.nodes):
            self.me.see(self.slip.nodes[0])  # so that it notices the end of its connection


class TakesTheEldestNumber(Bot):
    """Asks always with the number of its first look, whichever node that was at."""

    def at(self, look: Look) -> None:
        first = self.__dict__.setdefault("first", look.at)
        super().at(Look(look.node, look.p, look.m, first, look.rule, look.chosen, look.near))


class LooksAtTheNeighbours(Bot):
    """Looks at its neighbours as at its own nodes."""

    def at(self, look: Look) -> None:
        for near in look.near:
            self.me.look(near.node)
        super().at(look)


class NeverPauses(Bot):
    """Sends look after look, and never waits before the next ones."""

    def turn(self) -> None:
        """Looks at each node, then sends a hundred further looks at the first one."""
        super().turn()
        self.me._socket.sendall(b'{"do":"look","node":%d}\n' % self.slip.nodes[0] * 100)
        for _ in range(100):
            self.me._line()

    def loop(self) -> None:
        """Looks at its nodes again without a pause."""
        while True:
            self.turn()


class SendsNumbersAsTexts(Bot):
    """Puts the node's number into quotes in each look, and ignores the reply."""

    def turn(self) -> None:
        for node in self.slip.nodes:
            self.me._socket.sendall(b'{"do":"look","node":"%d"}\n' % node)
            self.me._line()


class MarriesWithoutAName(Bot):
    """Asks for each move without a partner, for a marriage too."""

    def ask(self, look: Look, rule: Rule) -> bool:
        try:
            self.me.ask(do="move", node=look.node, at=look.at, rule=rule)
        except Denied as denied:
            return self.denied(denied, look, rule)
        return True


ASKING = (
    AsksWhateverIsShown, AsksAgainWhileChosen, StopsAtStale, StopsAtChosen, RepeatsTheLine, TakesTheNumberOfADenial, TakesTheNewestNumber,
    WaitsForTheNextNumber, WaitsForTheStep, TakesAGrantForAStep, PlaysOneNode, LeavesTheMarriedAlone, TakesTheEldestNumber,
    LooksAtTheNeighbours, NeverPauses, SendsNumbersAsTexts, MarriesWithoutAName,
)
