"""Events: what a granted request does to the world (network, registers, chosen moves), and the values in its reply. A *place* is an event's number."""
from typing import Any

from model.requests import Request
from model.world import World


def reply_values(world: World, asked: Request) -> dict[str, Any]:
    """Returns the values that the reply to a granted request, which makes an event, has beside its word `ok`. `world` is the one before the event."""
    place, number = world.place + 1, world.number
    if asked.do == "move":
        return {"at": number, "place": place, "node": asked.node, "rule": asked.move.rule}
    if asked.do == "release":
        return {"at": number, "place": place, "node": asked.node}
    if asked.do == "close":
        return {"at": number + 1, "place": place, "moved": sorted(world.chosen)}
    # A fault, a link and a cut drop all chosen moves, and the reply says how many.
    named = {"node": asked.node} if asked.do == "fault" else {"a": asked.a, "b": asked.b}
    return {"at": number + 1, "place": place, "dropped": len(world.chosen), **named}


def apply(world: World, asked: Request) -> None:
    """Applies the event of a granted request to the world. The place of the world becomes that of the event."""
    world.place += 1
    if asked.do == "move":
        world.chosen[asked.node] = asked.move
    elif asked.do == "release":
        del world.chosen[asked.node]
    elif asked.do == "close":
        world.step()
    elif asked.do == "fault":
        world.fault(asked.node, asked.p, asked.m)
    elif asked.do == "link":
        world.link(asked.a, asked.b)
    else:
        world.cut(asked.a, asked.b)
