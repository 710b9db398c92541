"""Bots with mistakes in the guards.

A method without a docstring replaces the method of `base.Bot` as the docstring of its class says. Values that a bot
remembers are in `__dict__`, so that it needs no `__init__`.
"""
from __future__ import annotations

from classroom.client import Look, Rule
from tests.classroom.wrong_bots.base import Bot


class NeverUpdates(Bot):
    """Never asks for an update, and asks for nothing at a node that needs one."""

    def rule(self, look: Look) -> Rule | None:
        return None if look.m != self.is_married(look) else super().rule(look)


class NeverAbandons(Bot):
    """Waits for ever for the neighbour that it points at."""

    def gives_up(self, look: Look) -> bool:
        return False


class NeverSeduces(Bot):
    """Waits until a neighbour points at it, and never seduces."""

    def candidates(self, look: Look) -> list[int]:
        return []


class UpdatesOnlyToTrue(Bot):
    """Sets m to true when it is married, but never to false."""

    def is_married(self, look: Look) -> bool:
        return look.m or super().is_married(look)


class TakesAPointerForAPair(Bot):
    """Believes that a node is married as soon as it points at a neighbour."""

    def is_married(self, look: Look) -> bool:
        return look.p is not None


class TakesASuitorForAPair(Bot):
    """Believes that a node is married as soon as a neighbour points at it."""

    def is_married(self, look: Look) -> bool:
        return any(near.p == look.node for near in look.near)


class SeducesTheMarried(Bot):
    """Doesn't check that m of the seduced node is false."""

    def candidates(self, look: Look) -> list[int]:
        return [near.node for near in look.near if near.node > look.node and near.p is None]


class SeducesThePointing(Bot):
    """Doesn't check that p of the seduced node is null."""

    def candidates(self, look: Look) -> list[int]:
        return [near.node for near in look.near if near.node > look.node and not near.m]


class SeducesTheLower(Bot):
    """Seduces neighbours of lower identifiers too."""

    def candidates(self, look: Look) -> list[int]:
        return [near.node for near in look.near if near.p is None and not near.m]


class SeducesBeforeItMarries(Bot):
    """Seduces although a neighbour points at it."""

    def rule(self, look: Look) -> Rule | None:
        if look.m == self.is_married(look) and look.p is None and self.candidates(look):
            return "seduction"
        return super().rule(look)


class MarriesTheFirst(Bot):
    """Marries its first neighbour, whoever points at it."""

    def partner(self, look: Look) -> int | None:
        return look.near[0].node


class MarriesWhilePointing(Bot):
    """Marries a suitor although it points at somebody else."""

    def rule(self, look: Look) -> Rule | None:
        if look.m == self.is_married(look) and not self.is_married(look) and self.suitors(look):
            return "marriage"
        return super().rule(look)


class RulesBeforeUpdate(Bot):
    """Updates last: only if no other rule seems enabled."""

    def rule(self, look: Look) -> Rule | None:
        found: Rule | None
        if look.p is None:
            found = "marriage" if self.suitors(look) else "seduction" if self.candidates(look) else None
        else:
            found = "abandonment" if self.gives_up(look) else None
        return found or super().rule(look)


class AbandonsOnlyTheMarried(Bot):
    """Abandons only neighbours whose m is true, and never a lower one that doesn't point back."""

    def gives_up(self, look: Look) -> bool:
        it = self.pointed(look)
        return it.p != look.node and it.m


class AbandonsOnlyTheLower(Bot):
    """Abandons only lower neighbours, and never a higher one that is married to another node."""

    def gives_up(self, look: Look) -> bool:
        it = self.pointed(look)
        return it.p != look.node and it.node < look.node


class AbandonsAtOnce(Bot):
    """Abandons each neighbour that doesn't point back at once."""

    def gives_up(self, look: Look) -> bool:
        return self.pointed(look).p != look.node


class ComparesTexts(Bot):
    """Compares identifiers as texts when it seduces, so that 10 is less than 9."""

    def candidates(self, look: Look) -> list[int]:
        return [near.node for near in look.near if str(near.node) > str(look.node) and near.p is None and not near.m]


class LeavesOutItsOwn(Bot):
    """Never seduces a node of its own student."""

    def candidates(self, look: Look) -> list[int]:
        return [node for node in super().candidates(look) if node not in self.slip.nodes]


class RemembersTheNeighbours(Bot):
    """Uses for ever the registers that the neighbours had in its first look at a node."""

    def at(self, look: Look) -> None:
        first = self.__dict__.setdefault("first", {}).setdefault(look.node, look)
        super().at(Look(look.node, look.p, look.m, look.at, look.rule, look.chosen, first.near))


GUARDS = (
    NeverUpdates, NeverAbandons, NeverSeduces, UpdatesOnlyToTrue, TakesAPointerForAPair, TakesASuitorForAPair, SeducesTheMarried,
    SeducesThePointing, SeducesTheLower, SeducesBeforeItMarries, MarriesTheFirst, MarriesWhilePointing, RulesBeforeUpdate,
    AbandonsOnlyTheMarried, AbandonsOnlyTheLower, AbandonsAtOnce, ComparesTexts, LeavesOutItsOwn, RemembersTheNeighbours,
)
