#!/usr/bin/env python3
"""My bot: python3 bot.py SLIP

It connects, looks at each of its nodes again and again, and asks for the rule that `rule_of` returns. Write `rule_of` first.
"""
from __future__ import annotations

import sys
import time
from pathlib import Path

sys.path.append(str(Path(__file__).resolve().parent.parent / "classroom"))  # in a clone; else client.py is beside this file
from client import Client, Closed, Denied, Look, Refused, Rule, Slip, again, enter, run  # noqa: E402


def rule_of(look: Look) -> Rule | None:
    """Returns the rule whose guard holds at my node: "update", "marriage", "seduction", "abandonment", or None.

    `look.node` is my node, `look.p` and `look.m` are its registers, and each of `look.near` has `node`, `p` and `m`.
    """
    return None  # Yours to write.


def play(me: Client, nodes: tuple[int, ...]) -> None:
    """Looks at each of the nodes again and again, and asks for the rule that `rule_of` returns. Runs until the
    connection is lost, the class is over, or a denial shows a mistake, and then raises that error."""
    while True:
        for node in nodes:
            try:
                look = me.look(node)
                rule = rule_of(look)
                # Asks only if there is a rule, and no granted move of this node waits for the end of the step.
                if rule is not None and look.chosen is None:
                    print(me.move(look, rule), flush=True)
            except (Denied, Refused) as no:
                print(no, flush=True)
                # These three also happen to a correct bot, which then looks again. All others show a mistake.
                if no.word not in ("stale", "chosen", "memory"):
                    raise
        time.sleep(0.1)


def main(words: list[str]) -> None:
    """Connects by the slip that the arguments name, and plays. Connects again if the connection is lost, until the
    class is over."""
    slip = Slip.read(words[0])
    me = enter(slip)
    while True:
        try:
            play(me, slip.nodes)
        except (Closed, Refused) as lost:
            if isinstance(lost, Refused) and lost.word != "busy":  # `busy`: the seat went to a newcomer.
                raise
            me = again(slip, lost)


run(main, __doc__ or "")
