#!/usr/bin/env python3
"""A correct bot that looks at all its nodes in one configuration, and then asks for all moves."""
from __future__ import annotations

import sys
import time
from pathlib import Path

sys.path.append(str(Path(__file__).resolve().parents[3]))
from classroom.client import Client, Closed, Denied, Moving, Refused, Slip, again, enter, run  # noqa: E402


def ask(me: Client, nodes: tuple[int, ...]) -> None:
    """Looks at all nodes in one configuration, asks for all enabled rules, and waits. Looks again if the configuration
    changes meanwhile. Raises a denial that shows a mistake."""
    while True:
        try:
            for look in me.snapshot(nodes).values():
                if look.rule and not look.chosen:
                    me.move(look)
        except Moving:
            pass
        except Denied as denied:
            if denied.name not in ("stale", "chosen"):
                raise
        time.sleep(0.1)


def play(words: list[str]) -> None:
    """Plays the nodes of the slip in the arguments until the class is over."""
    slip = Slip.read(words[0])
    me = enter(slip)
    while True:
        try:
            ask(me, slip.nodes)
        except (Closed, Refused) as lost:  # After `memory` too, the bot asks again on a new connection.
            me = again(slip, lost)


run(play, __doc__ or "")
