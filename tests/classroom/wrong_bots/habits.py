"""Bots with bad habits: no pause, too many connections, and values that are mistaken for others.

A method without a docstring replaces the method of `base.Bot` as the docstring of its class says. Values that a bot
remembers are in `__dict__`, so that it needs no `__init__`.
"""
from __future__ import annotations

import time
from contextlib import suppress

from classroom.client import Client, Closed, Look, Refused, Rule
from tests.classroom.wrong_bots.base import Bot


class PollsBusily(Bot):
    """Looks at its nodes again without a pause."""

    def loop(self) -> None:
        while True:
            self.turn()


class LeavesConnectionsOpen(Bot):
    """Connects anew each second, and leaves the old connections open."""

    def turn(self) -> None:
        if time.monotonic() - self.__dict__.setdefault("since", time.monotonic()) > 1:
            self.__dict__.setdefault("kept", []).append(self.me)
            self.me, self.__dict__["since"] = self.enter(), time.monotonic()
        super().turn()


class HangsUpNowAndThen(Bot):
    """Says bye each second, and connects anew."""

    def turn(self) -> None:
        if time.monotonic() - self.__dict__.setdefault("since", time.monotonic()) > 1:
            with suppress(Closed):
                self.me.bye()
            try:
                self.me = self.enter()
            except Closed as lost:
                self.me = self.again(lost)
            self.__dict__["since"] = time.monotonic()
        super().turn()


class ComesTooOftenWhenBusy(Bot):
    """Connects again a tenth of a second after `busy`."""

    def enter(self) -> Client:
        while True:
            with suppress(Refused):
                return Client.of(self.slip)
            time.sleep(0.1)


class MovesOneNode(Bot):
    """Looks at all its nodes, and asks for moves of the last one alone."""

    def at(self, look: Look) -> None:
        if look.node == self.slip.nodes[-1]:
            super().at(look)


class WatchesOneNode(Bot):
    """Looks at the first node of its slip, and at the others only if the number has changed since there was nothing to
    do."""

    def turn(self) -> None:
        first = self.me.look(self.slip.nodes[0])
        self.at(first)
        if first.at != self.__dict__.get("newest"):
            super().turn()
            if not any(self.rule(look) or look.chosen for look in map(self.me.look, self.slip.nodes)):
                self.__dict__["newest"] = first.at


class PollsAlmostBusily(Bot):
    """Waits a thousandth of a second when it has looked at its nodes."""

    def loop(self) -> None:
        while True:
            self.turn()
            time.sleep(0.001)


class TakesNullForZero(Bot):
    """Takes a null pointer for a pointer at node 0, which is less than all others."""

    def rule(self, look: Look) -> Rule | None:
        if look.p is None and look.m == self.is_married(look) and not self.suitors(look):
            return "abandonment"
        return super().rule(look)


class TakesChosenForTheRule(Bot):
    """Asks for the rule in `chosen`, as if the server wanted it."""

    def at(self, look: Look) -> None:
        """Asks for the rule in `chosen`, or for the enabled one if there is none."""
        if rule := look.chosen or self.rule(look):
            self.ask(look, rule)

    def partner(self, look: Look) -> int | None:
        """Returns the neighbour to marry, or the first neighbour if none points at the node."""
        return max(self.suitors(look), default=look.near[0].node)


class WaitsUntilChosen(Bot):
    """Asks only for nodes that are chosen, as if the daemon had to choose them first."""

    def at(self, look: Look) -> None:
        if look.chosen is not None:
            super().at(look)


class AbandonsByTexts(Bot):
    """Compares identifiers as texts when it abandons, so that 10 is less than 9."""

    def gives_up(self, look: Look) -> bool:
        it = self.pointed(look)
        return it.p != look.node and (it.m or str(it.node) < str(look.node))


class SortsTexts(Bot):
    """Takes the last neighbour in the order of texts for the greatest, and seduces it if it is free."""

    def candidates(self, look: Look) -> list[int]:
        greatest = max(look.near, key=lambda near: str(near.node))
        return [greatest.node] if greatest.node > look.node and greatest.p is None and not greatest.m else []


HABITS = (
    PollsBusily, PollsAlmostBusily, WatchesOneNode, LeavesConnectionsOpen, HangsUpNowAndThen, ComesTooOftenWhenBusy, MovesOneNode, TakesNullForZero,
    TakesChosenForTheRule, WaitsUntilChosen, AbandonsByTexts, SortsTexts,
)
