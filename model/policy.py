"""The policy: who may see and do what. The clauses of each request are checked in order, and the first one that fails is the denial. A clause is
returned as its name for programs. The *world* is the network with its registers and chosen moves, and `who` is the name of the one who asks."""
from model.lab import Lab
from model.requests import Request
from model.world import World

# Each denial with the number of its clause, and its text.
DENIALS = {
    "not-greeted": (0, "say hello first"),
    "greeted": (1, "this connection has a name already"),
    "unknown": (2, "name and key do not match"),
    "hidden": (1, "this node is not shown to you"),
    "not-owner": (1, "you do not own this node"),
    "stale": (2, "this is not the current configuration"),
    "chosen": (3, "this node is already chosen"),
    "guard": (4, "the guard of this rule does not hold"),
    "not-teacher": (1, "only the teacher may do this"),
    "empty": (2, "no node is chosen"),
    "no-node": (2, "there is no such node"),
    "bad-register": (3, "p must be null or a neighbour"),
    "loop": (3, "a node is not linked to itself"),
    "linked": (4, "these nodes are linked already"),
    "not-linked": (3, "these nodes are not linked"),
    "not-chosen": (3, "this node is not chosen"),
}


def visible(lab: Lab, world: World, who: str, i: int) -> bool:
    """Returns whether node i is visible to `who`: to the teacher, its owners and its neighbours' owners."""
    return who == lab.teacher or any(who in lab.owners[j] for j in [i, *world.links[i]])


def denial_of_hello(lab: Lab, known: str | None, asked: Request) -> str | None:
    """Returns the name of the first clause of a hello that fails, or None if it may be granted. `known` is the connection's name, or None."""
    # Clause 1: the connection has no name yet.
    if known is not None:
        return "greeted"
    # Clause 2: the teacher or a student has that name and key.
    return None if lab.keys.get(asked.name) == asked.key else "unknown"


def denial_of_view(lab: Lab, world: World, who: str, asked: Request) -> str | None:
    """Returns the name of the first clause that fails for a see, a look or a report by `who`, or None if it may be granted."""
    exists = asked.node in world.links
    # See, clause 1: the node exists and is visible to the one who asks.
    if asked.do == "see":
        return None if exists and visible(lab, world, who, asked.node) else "hidden"
    # Look, clause 1: the node exists, and the one who asks owns it or is the teacher.
    if asked.do == "look":
        return None if exists and who in [lab.teacher, *lab.owners[asked.node]] else "not-owner"
    # Report, clause 1: the teacher asks.
    return None if who == lab.teacher else "not-teacher"


def denial_of_move(lab: Lab, world: World, who: str, asked: Request) -> str | None:
    """Returns the name of the first clause that fails for a move that `who` asks for, or None if it may be granted."""
    # Clause 1: the node exists and is the asker's own.
    if asked.node not in world.links or who not in lab.owners[asked.node]:
        return "not-owner"
    # Clause 2: `at` is the number of the current configuration.
    if asked.at != world.number:
        return "stale"
    # Clause 3: the node has no chosen move.
    if asked.node in world.chosen:
        return "chosen"
    # Clause 4: the guard of the rule holds there, for a marriage with the node that `with` names.
    return None if world.guard(asked.node, asked.move) else "guard"


def denial_of_act(lab: Lab, world: World, who: str, asked: Request) -> str | None:
    """Returns the name of the first clause that fails for a close, fault, release, link or cut by `who`, or None if it may be granted."""
    # Clause 1 of each: the teacher asks.
    if who != lab.teacher:
        return "not-teacher"
    # Close, clause 2: some node has a chosen move.
    if asked.do == "close":
        return None if world.chosen else "empty"
    # Clause 2 of the others: the node exists, or both nodes of a link or cut do.
    named = [asked.node] if asked.do in ("fault", "release") else [asked.a, asked.b]
    if any(i not in world.links for i in named):
        return "no-node"
    # Fault, clause 3: `p` is null or names a neighbour.
    if asked.do == "fault":
        return None if asked.p is None or asked.p in world.links[asked.node] else "bad-register"
    # Release, clause 3: the node has a chosen move.
    if asked.do == "release":
        return None if asked.node in world.chosen else "not-chosen"
    are_linked = asked.b in world.links[asked.a]
    # Cut, clause 3: the nodes are linked.
    if asked.do == "cut":
        return None if are_linked else "not-linked"
    # Link, clause 3: the nodes are two.
    if asked.a == asked.b:
        return "loop"
    # Link, clause 4: they are not linked.
    return "linked" if are_linked else None


def denial(lab: Lab, world: World, who: str, asked: Request) -> str | None:
    """Returns the name of the first clause that fails for a request by `who`, other than a hello or bye, or None if it may be granted."""
    if asked.do in ("see", "look", "report"):
        return denial_of_view(lab, world, who, asked)
    return (denial_of_move if asked.do == "move" else denial_of_act)(lab, world, who, asked)
