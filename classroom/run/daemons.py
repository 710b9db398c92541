"""Daemons, which decide when a step is closed, and which of the chosen moves it applies. A *chosen* move was granted
and waits for the close, and a *privileged* node is one that can move. The *schedule* and the *adversary* are daemons
that make a run long (`classroom.run.adversary`)."""
from __future__ import annotations

import argparse
import math
import random
import re
from collections.abc import Callable, Sequence
from dataclasses import dataclass

FORMS = "central, synchronous, random:P, schedule, adversary, when-idle:SECONDS, every:SECONDS, by-hand"
PLAIN = ("central", "synchronous", "schedule", "adversary", "by-hand")
SEARCHING = ("schedule", "adversary")  # the daemons that make a run long
Search = Callable[[Sequence[int]], list[int]]  # a function that returns the nodes that such a daemon chooses among those that may move


@dataclass(frozen=True)
class Daemon:
    """A kind of daemon, with its parameter: the probability of `random`, or the seconds of `every` and `when-idle`."""

    kind: str
    value: float = 0.0

    @staticmethod
    def of(word: str, seconds: float = 2.0) -> Daemon:
        """Returns the daemon that a word names, such as `random:0.5`. `seconds` is the default for `every` and
        `when-idle`, and 0.5 the one for `random`. Raises `ValueError` if the word names no daemon."""
        found = re.fullmatch(r"(?P<kind>random|every|when-idle)(?::(?P<number>\d+(?:\.\d+)?))?", word)
        if word in PLAIN:
            return Daemon(word)
        if not found or found["kind"] == "random" and found["number"] and not 0 < float(found["number"]) <= 1:
            raise ValueError(f"{word!r} isn't a daemon. The daemons are: {FORMS}. P is a number above 0 and at most 1")
        default = 0.5 if found["kind"] == "random" else seconds
        return Daemon(found["kind"], float(found["number"]) if found["number"] else default)

    def spelled(self) -> str:
        """Returns the word that names the daemon."""
        return self.kind if self.kind in PLAIN else f"{self.kind}:{self.value:g}"


def daemon(word: str) -> Daemon:
    """Returns the daemon that an argument names. Raises `ArgumentTypeError` if it names none."""
    try:
        return Daemon.of(word)
    except ValueError as error:
        raise argparse.ArgumentTypeError(str(error)) from None


def daemons(word: str) -> list[Daemon]:
    """Returns the daemons that an argument names, separated by commas. Raises `ArgumentTypeError` if a part names
    none."""
    return [daemon(each) for each in word.split(",")]


@dataclass(frozen=True)
class Sight:
    """The state that a daemon decides by: the privileged nodes, the chosen moves in the order of their grants, and the
    seconds since the last event and since the last close."""

    privileged: Sequence[int]
    chosen: Sequence[int]
    idle: float
    since: float

    def is_full(self) -> bool:
        """Returns whether each privileged node has a chosen move."""
        return set(self.privileged) <= set(self.chosen)


def heads(nodes: Sequence[int], probability: float, chance: random.Random) -> list[int]:
    """Tosses a coin for each node. A coin shows heads with this probability. Returns the nodes with heads, or one
    random node if no coin shows heads. `chance` tosses the coins and chooses this node."""
    found = [node for node in nodes if chance.random() < probability]
    return found or [chance.choice(list(nodes))]


def applied(how: Daemon, sight: Sight, chance: random.Random, patience: float, search: Search = list) -> list[int]:
    """Returns the nodes whose moves a close under the daemon `how` applies now, or none if no step is closed yet.
    `sight` has what the daemon decides by. The other chosen moves are released before the close. The central daemon
    applies the move that was granted first. The random daemon tosses coins with `chance`, and the schedule and the
    adversary call `search`. These three wait until each privileged node has a chosen move, or no event came for
    `patience` seconds. The other daemons apply all chosen moves. The synchronous one also waits for all privileged
    nodes, and `every` and `when-idle` wait for their number of seconds. Under `by-hand` only the teacher closes
    steps."""
    if not sight.chosen:
        return []
    if how.kind == "central":
        return [sight.chosen[0]]
    if how.kind in ("random", *SEARCHING):
        if not (sight.is_full() or sight.idle >= patience):
            return []
        return heads(sight.chosen, how.value, chance) if how.kind == "random" else search(sight.chosen)
    due = {
        "synchronous": sight.is_full(),
        "every": sight.since >= how.value,
        "when-idle": sight.idle >= how.value,
    }
    return list(sight.chosen) if due.get(how.kind, False) else []


def movers(how: Daemon, privileged: Sequence[int], chance: random.Random, search: Search = list) -> list[int]:
    """Returns those of the nodes in `privileged` that move in the next step of an experiment under the daemon `how`.
    Under the central daemon this is a random one, under the random daemon those whose coins show heads, and under a
    timed one those that ask in time (`in_time`). The schedule and the adversary choose by calling `search`. Under any
    other daemon all of them move. `chance` makes the random choices."""
    if how.kind == "central":
        return [chance.choice(list(privileged))]
    if how.kind == "random":
        return heads(privileged, how.value, chance)
    if how.kind in ("every", "when-idle"):
        return in_time(how, privileged, chance)
    return search(privileged) if how.kind in SEARCHING else list(privileged)


def in_time(how: Daemon, nodes: Sequence[int], chance: random.Random) -> list[int]:
    """Simulates one step under a timed daemon. Each node asks after a random time, which `chance` draws: one second on
    average. Returns the nodes that have asked when the step is closed. Under `every`, that is at the first tick after a
    request. Under `when-idle`, it is when no node has asked for `how.value` seconds."""
    asks = sorted((chance.expovariate(1.0), node) for node in nodes)
    first = end = asks[0][0]
    if how.kind == "every" and how.value:
        end = math.ceil(first / how.value) * how.value
    found = []
    for when, node in asks:
        if how.kind == "when-idle" and when - end <= how.value:
            end = when
        if when <= end:
            found.append(node)
    return found
