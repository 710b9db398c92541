"""Bots with mistakes after a change during a run: of a register, a neighbour or a connection.

A method without a docstring replaces the method of `base.Bot` as the docstring of its class says. Values that a bot
remembers are in `__dict__`, so that it needs no `__init__`.
"""
from __future__ import annotations

import json
import time
from contextlib import suppress
from dataclasses import replace

from classroom.client import Client, Closed, Denied, Look, Near, NoServer, Over, Refused, Rule
from tests.classroom.wrong_bots.base import PAUSE, Bot
from tests.classroom.wrong_bots.staying import Reads


class TakesTheRuleOfAStaleLook(Bot):
    """After `stale` it looks again, takes the new number, and asks for the old rule."""

    def denied(self, denied: Denied, look: Look, rule: Rule) -> bool:
        if denied.name != "stale":
            return super().denied(denied, look, rule)
        return self.ask(self.me.look(look.node), rule)


class RepeatsTheLostLine(Bot):
    """Sends a move whose reply was lost again on the new connection, before a look."""

    def ask(self, look: Look, rule: Rule) -> bool:
        try:
            return super().ask(look, rule)
        except Closed as lost:
            self.me = self.again(lost)
            return super().ask(look, rule)


class MixesItsConnections(Bot):
    """Looks at all its nodes, and waits for a second. Then it asks by these looks, on a new connection if the old one
    was lost."""

    def turn(self) -> None:
        looks = [self.me.look(node) for node in self.slip.nodes]
        for _ in range(20):
            time.sleep(PAUSE)
        for look in looks:
            try:
                self.at(look)
            except Closed as lost:
                self.me = self.again(lost)
                self.at(look)


class KeepsOldNeighbours(Bot):
    """Adds the neighbours in each look to those that it knows, and never forgets one."""

    def at(self, look: Look) -> None:
        known: dict[int, Near] = self.__dict__.setdefault("known", {}).setdefault(look.node, {})
        known.update({near.node: near for near in look.near})
        super().at(replace(look, near=tuple(known.values())))


class SeesNoNewNeighbours(Bot):
    """Takes the list of its neighbours from its first look, and their registers from each."""

    def at(self, look: Look) -> None:
        """Drops the neighbours that weren't in the first look at the node."""
        first: Look = self.__dict__.setdefault("first", {}).setdefault(look.node, look)
        ids = {near.node for near in first.near}
        super().at(replace(look, near=tuple(near for near in look.near if near.node in ids)))

    def gives_up(self, look: Look) -> bool:
        """Returns false if the node points at a neighbour that was dropped. Otherwise returns whether it abandons the
        neighbour that it points at."""
        return any(near.node == look.p for near in look.near) and super().gives_up(look)


class KeepsItsOwnRegisters(Bot):
    """Computes its registers from its own moves, and reads them only once."""

    def at(self, look: Look) -> None:
        """Replaces the registers in the look by those that the bot has computed."""
        own: dict[int, tuple[int | None, bool]] = self.__dict__.setdefault("own", {})
        p, m = own.setdefault(look.node, (look.p, look.m))
        super().at(replace(look, p=p, m=m))

    def ask(self, look: Look, rule: Rule) -> bool:
        """Asks for the move. If the move is granted, notes the registers that the move would lead to, before a step
        applies it. Returns whether it was granted."""
        if not super().ask(look, rule):
            return False
        p, m = look.p, look.m
        if rule == "update":
            m = not m
        elif rule == "marriage":
            p = self.partner(look)
        elif rule == "seduction":
            p = max(self.candidates(look))
        else:
            p = None
        self.__dict__["own"][look.node] = (p, m)
        return True


class WaitsForItsMove(Bot):
    """After a grant it asks nothing at a node until the move has changed its registers."""

    def at(self, look: Look) -> None:
        """Does nothing while the registers are those at the grant."""
        waits: dict[int, tuple[int | None, bool]] = self.__dict__.setdefault("waits", {})
        if waits.get(look.node) == (look.p, look.m):
            return
        waits.pop(look.node, None)
        super().at(look)

    def ask(self, look: Look, rule: Rule) -> bool:
        """Asks for the move. Notes the node's registers if it is granted. Returns whether it was granted."""
        granted = super().ask(look, rule)
        if granted:
            self.__dict__["waits"][look.node] = (look.p, look.m)
        return granted


class TakesTheLookBefore(Bot):
    """Asks with the number of its previous look at the node, and after the first look with that look's own."""

    def at(self, look: Look) -> None:
        before: dict[int, int] = self.__dict__.setdefault("before", {})
        at, before[look.node] = before.get(look.node, look.at), look.at
        super().at(replace(look, at=at))


class WaitsForNews(Bot):
    """Reads a line without a request after some turns with nothing to ask, as if the server sent lines by itself."""

    def loop(self) -> None:
        calm = 0
        while True:
            looks = [self.me.look(node) for node in self.slip.nodes]
            for look in looks:
                self.at(look)
            calm = calm + 1 if not any(self.rule(look) or look.chosen for look in looks) else 0
            if calm > 3:
                self.me.limit = 1000.0  # the seconds for which it waits
                self.me._line()
            time.sleep(PAUSE)


class EndsWhenMarried(Bot):
    """Ends when all its nodes are married and have m true."""

    def turn(self) -> None:
        super().turn()
        if all(look.m and self.is_married(look) for look in map(self.me.look, self.slip.nodes)):
            raise SystemExit("all are married")


class EndsAfterTenSeconds(Bot):
    """Ends when nothing has changed for ten seconds."""

    most = 10

    def loop(self) -> None:
        newest, since = -1, time.monotonic()
        while time.monotonic() - since < self.most:
            for node in self.slip.nodes:
                look = self.me.look(node)
                self.at(look)
                newest, since = (look.at, time.monotonic()) if look.at > newest else (newest, since)
            time.sleep(PAUSE)
        raise SystemExit("nothing was new")


class EndsAfterHalfAMinute(EndsAfterTenSeconds):
    """Ends when nothing has changed for half a minute."""

    most = 30


class EndsWhenClosed(Bot):
    """Ends when its connection is lost."""

    def again(self, lost: Closed | Refused) -> Client:
        raise lost


class EndsWhenNobodyListens(Bot):
    """Connects again once, after a second, and ends if nobody listens."""

    def again(self, lost: Closed | Refused) -> Client:
        if isinstance(lost, Over):
            raise lost
        time.sleep(1)
        return Client.of(self.slip)


class GivesUpAfterThreeSeconds(Bot):
    """Tries to connect again for three seconds."""

    def again(self, lost: Closed | Refused) -> Client:
        if isinstance(lost, Over):
            raise lost
        for _ in range(10):
            time.sleep(0.3)
            with suppress(NoServer):
                return Client.of(self.slip)
        raise SystemExit("nobody listens")


class ComesAgainTwice(Bot):
    """Connects again twice in all, and ends when its connection is lost for the third time."""

    def again(self, lost: Closed | Refused) -> Client:
        self.__dict__["lost"] = self.__dict__.get("lost", 0) + 1
        if self.__dict__["lost"] > 2:
            raise lost
        return super().again(lost)


class GivesUpAtThreeDenials(Bot):
    """Ends when three moves in a row are denied."""

    def ask(self, look: Look, rule: Rule) -> bool:
        granted = super().ask(look, rule)
        self.__dict__["denials"] = 0 if granted else self.__dict__.get("denials", 0) + 1
        if self.__dict__["denials"] == 3:
            raise SystemExit("three denials")
        return granted


class EndsAtMemory(Bot):
    """Ends at any refusal. After one of them, `memory`, a bot has to ask again."""

    def turn(self) -> None:
        try:
            super().turn()
        except Refused as refused:
            raise SystemExit(str(refused)) from None


class EndsWhenItsSeatGoes(Bot):
    """Ends at the reply `busy` on a connection after its hello."""

    def turn(self) -> None:
        try:
            super().turn()
        except Refused as refused:
            raise SystemExit(str(refused)) if refused.word == "busy" else refused from None


class KeepsHalfAReply(Reads):
    """Keeps the part of a reply that it had read when its connection was closed, and prepends it to the next one's
    first reply."""

    def reading(self, it: Client) -> Client:
        """Prepends the kept part to the bytes that the connection `it` has received, and returns the connection. From
        then on, a line that isn't JSON raises `ValueError`."""
        it._rest, whole = self.__dict__.pop("half", b"") + it._rest, it._line

        def line() -> bytes:
            """Returns the next line. Raises `ValueError` if it isn't JSON."""
            found = whole()
            json.loads(found)
            return found

        it.__dict__["_line"] = line
        return it

    def again(self, lost: Closed | Refused) -> Client:
        """Keeps the incomplete reply, and connects again."""
        self.__dict__["half"] = self.me._rest
        return super().again(lost)


CHANGING = (
    TakesTheRuleOfAStaleLook, RepeatsTheLostLine, MixesItsConnections, KeepsOldNeighbours, SeesNoNewNeighbours, KeepsItsOwnRegisters,
    WaitsForItsMove, TakesTheLookBefore, WaitsForNews, EndsWhenMarried, EndsAfterTenSeconds, EndsAfterHalfAMinute, EndsWhenClosed,
    EndsWhenNobodyListens, GivesUpAfterThreeSeconds, ComesAgainTwice, GivesUpAtThreeDenials, EndsAtMemory,
    EndsWhenItsSeatGoes, KeepsHalfAReply,
)
