#!/usr/bin/env python3
"""A correct bot with a thread and a connection for each of its nodes."""
from __future__ import annotations

import os
import threading
import sys
import time
from pathlib import Path

sys.path.append(str(Path(__file__).resolve().parents[3]))
from classroom.client import Client, Closed, Denied, Refused, Slip, again, enter, stop  # noqa: E402


def ask(me: Client, node: int) -> None:
    """Looks at a node again and again, and asks for its enabled rule. Raises a denial that shows a mistake."""
    while True:
        look = me.look(node)
        try:
            if look.rule and not look.chosen:
                me.move(look)
        except Denied as denied:
            if denied.name not in ("stale", "chosen"):
                raise
        time.sleep(0.1)


def play(slip: Slip, node: int) -> None:
    """Plays a node on a connection of its own. Ends the program when the class is over, or at a denial that shows a
    mistake."""
    try:
        me = enter(slip)
        while True:
            try:
                ask(me, node)
            except (Closed, Refused) as lost:
                me = again(slip, lost)
    except (Closed, Denied, Refused) as error:
        os._exit(stop(error)[0])


if __name__ == "__main__":
    slip = Slip.read(sys.argv[1])
    for node in slip.nodes:
        threading.Thread(target=play, args=(slip, node)).start()
