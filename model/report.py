"""What views show of the world, the network with its registers and chosen moves: a node's registers, a look at its neighbours, and the report. A node is
*privileged* if a rule is enabled there, and *free* if it is in no pair. An *open* link joins two free nodes. Each view is the values of its reply."""
from typing import Any

from model.world import World


def registers(world: World, i: int) -> dict[str, Any]:
    """Returns node i and its registers, as `see` shows them."""
    return {"node": i, "p": world.p[i], "m": world.m[i]}


def look(world: World, i: int) -> dict[str, Any]:
    """Returns node i with its registers and its neighbours, the rule of its chosen move, and its enabled rule. A rule is None if there is none."""
    return {
        **registers(world, i),
        "near": [registers(world, j) for j in world.near(i)],
        "chosen": world.chosen[i].rule if i in world.chosen else None,
        "rule": world.enabled(i),
    }


def witness(world: World, rules: dict[int, str | None], a: int, b: int) -> tuple[int, str]:
    """Returns the witness of the open link with the ends a and b, a the lower one, and its enabled rule. `rules` has the enabled rule of each node.

    A walk follows the pointers from a, and then one from b, to the first node that is privileged or points at none. The
    walk's end is the witness if a rule other than seduction is enabled there. If neither end is it, the witness is a, by seduction."""
    for i in (a, b):
        j = world.p[i]
        # This loop ends: a free node that isn't privileged points at none, or at one with a greater number that is free or privileged.
        while rules[i] is None and j is not None:
            i, j = j, world.p[j]
        rule = rules[i]
        if rule is not None and rule != "seduction":
            return i, rule
    return a, "seduction"


def report(world: World) -> dict[str, Any]:
    """Returns the pairs, the free nodes, the privileged nodes, and the open links, each with its witness."""
    rules = {i: world.enabled(i) for i in world.nodes()}
    free = {i for i in world.nodes() if not world.married(i)}
    links = [(a, b) for a in world.nodes() for b in world.near(a) if a < b]
    privileged = [[i, rule] for i, rule in rules.items() if rule is not None]
    return {
        "pairs": [[a, b] for a, b in links if world.p[a] == b and world.p[b] == a],
        "free": sorted(free),
        "privileged": privileged,
        "open": [[a, b, *witness(world, rules, a, b)] for a, b in links if a in free and b in free],
        "stable": not privileged,
    }
