#!/usr/bin/env python3
"""A slow correct bot: it waits between look and move, and longer between two looks."""
from __future__ import annotations

import sys
import time
from pathlib import Path

sys.path.append(str(Path(__file__).resolve().parents[3]))
from classroom.client import Client, Closed, Denied, Refused, Slip, again, enter, goes_on, run  # noqa: E402

THINKING, WAITING = 0.3, 0.5  # seconds


def ask(me: Client, nodes: tuple[int, ...]) -> None:
    """Looks at one node after another, again and again, and waits before it asks for the enabled rule. Raises a denial
    or refusal after which a bot can't go on."""
    while True:
        for node in nodes:
            try:
                look = me.look(node)
                if look.rule is None or look.chosen is not None:
                    continue
                time.sleep(THINKING)
                me.move(look)
            except (Denied, Refused) as no:
                if not goes_on(no):
                    raise
        time.sleep(WAITING)


def play(words: list[str]) -> None:
    """Plays the nodes of the slip in the arguments until the class is over."""
    slip = Slip.read(words[0])
    me = enter(slip)
    while True:
        try:
            ask(me, slip.nodes)
        except (Closed, Refused) as lost:
            if isinstance(lost, Refused) and lost.word != "busy":
                raise
            me = again(slip, lost)


run(play, __doc__ or "")
