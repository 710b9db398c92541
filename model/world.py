"""The network, its registers, and the four rules of the algorithm."""
from dataclasses import dataclass, field

RULES = ("update", "marriage", "seduction", "abandonment")


@dataclass(frozen=True)
class Move:
    """A rule, and for a marriage the neighbour to marry."""

    rule: str
    partner: int | None = None


@dataclass
class World:
    """A configuration with its number, the chosen moves, and the place of the last event.

    Node i has two registers: `p[i]`, which is None or names the neighbour that i points at, and `m[i]`, which says
    whether i believes that it is married. `links[i]` is the set of the neighbours of i.
    """

    links: dict[int, set[int]]
    p: dict[int, int | None]
    m: dict[int, bool]
    chosen: dict[int, Move] = field(default_factory=dict)
    number: int = 0
    place: int = 0

    def nodes(self) -> list[int]:
        """Returns all nodes in rising order."""
        return sorted(self.links)

    def near(self, i: int) -> list[int]:
        """Returns the neighbours of node i in rising order."""
        return sorted(self.links[i])

    def married(self, i: int) -> bool:
        """Returns whether node i and one of its neighbours point at each other."""
        return any(self.p[i] == j and self.p[j] == i for j in self.links[i])

    def candidates(self, i: int) -> list[int]:
        """Returns the neighbours that node i may seduce, in rising order: higher ones that point at none, with m false."""
        return [j for j in self.near(i) if self.p[j] is None and j > i and not self.m[j]]

    def guard(self, i: int, move: Move) -> bool:
        """Returns whether the guard of a move holds at node i. Each guard reads node i and its neighbours only."""
        j = self.p[i]
        # Update: m_i differs from married(i).
        if move.rule == "update":
            return self.m[i] != self.married(i)
        # The other three rules need m_i to equal married(i).
        if self.m[i] != self.married(i):
            return False
        # Marriage with k: p_i is null, k is a neighbour, and p_k = i.
        if move.rule == "marriage":
            return j is None and move.partner in self.links[i] and self.p[move.partner] == i
        # Seduction: p_i is null, no neighbour points at i, and there is a neighbour to seduce.
        if move.rule == "seduction":
            return j is None and all(self.p[k] != i for k in self.links[i]) and self.candidates(i) != []
        # Abandonment: p_i = j is not null, p_j differs from i, and m_j is true or j < i.
        return j is not None and self.p[j] != i and (self.m[j] or j < i)

    def effect(self, i: int, move: Move) -> tuple[int | None, bool]:
        """Returns the registers p and m of node i after a move."""
        # Update: m_i becomes married(i).
        if move.rule == "update":
            return self.p[i], self.married(i)
        # Marriage with k: p_i becomes k.
        if move.rule == "marriage":
            return move.partner, self.m[i]
        # Seduction: p_i becomes the greatest neighbour that can be seduced.
        if move.rule == "seduction":
            return self.candidates(i)[-1], self.m[i]
        # Abandonment: p_i becomes null.
        return None, self.m[i]

    def moves(self, i: int) -> list[Move]:
        """Returns all moves whose guards hold at node i. There are several only if several neighbours point at it."""
        alone = [Move(rule) for rule in RULES if rule != "marriage"]
        marriages = [Move("marriage", j) for j in self.near(i) if self.p[j] == i]
        return [move for move in alone + marriages if self.guard(i, move)]

    def enabled(self, i: int) -> str | None:
        """Returns the rule whose guard holds at node i, or None if there is none. There is never more than one."""
        rules = {move.rule for move in self.moves(i)}
        assert len(rules) <= 1, f"{rules} are enabled at {i}"
        return rules.pop() if rules else None

    def stable(self) -> bool:
        """Returns whether no node is privileged, that is, whether no rule is enabled at any node."""
        return all(self.enabled(i) is None for i in self.links)

    def renew(self) -> None:
        """Makes the present configuration a new one: counts it, and drops all chosen moves."""
        self.number += 1
        self.chosen = {}

    def step(self) -> None:
        """Applies all chosen moves at once. All read the same configuration, and each writes the registers of its own node."""
        after = {i: self.effect(i, move) for i, move in self.chosen.items()}
        for i, registers in after.items():
            self.p[i], self.m[i] = registers
        self.renew()

    def fault(self, i: int, p: int | None, m: bool) -> None:
        """Sets the registers of node i to p and m. Begins a new configuration."""
        self.p[i], self.m[i] = p, m
        self.renew()

    def link(self, a: int, b: int) -> None:
        """Links the nodes a and b, and changes no register. Begins a new configuration."""
        self.links[a].add(b)
        self.links[b].add(a)
        self.renew()

    def cut(self, a: int, b: int) -> None:
        """Removes the link between the nodes a and b. Sets pointers along it to null, and leaves m unchanged. Begins a new configuration."""
        self.links[a].remove(b)
        self.links[b].remove(a)
        self.p[a] = None if self.p[a] == b else self.p[a]
        self.p[b] = None if self.p[b] == a else self.p[b]
        self.renew()
