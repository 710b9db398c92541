"""Plays the nodes of many slips, each on its own connection, which is made again when it is lost:

    crowd.py FILE SLIP..

FILE gets a line with the name for each granted hello.
"""
from __future__ import annotations

import sys
import threading
import time
from pathlib import Path

sys.path.insert(0, str(Path(__file__).resolve().parents[3]))

from classroom.client import Client, Closed, Denied, NoServer, Over, Refused, Slip, again, enter, goes_on

PAUSE = 0.3  # seconds between two looks


def play(slip: Slip, log: Path) -> None:
    """Plays the nodes of a slip until the class is over or the slip's key has changed. After each granted hello,
    appends a line with the slip's name to the file `log`."""
    me = come(slip)
    while True:
        with log.open("a", encoding="utf-8") as it:
            it.write(f"{slip.name}\n")
        try:
            turns(me, slip)
        except Over:
            return
        except (Closed, Refused) as lost:
            me.hang_up()
            me = again(slip, lost, 300)


def come(slip: Slip) -> Client:
    """Returns a connection by a slip after its hello. Tries again while the class hasn't begun."""
    while True:
        try:
            return enter(slip, 300)
        except NoServer:
            time.sleep(1)


def turns(me: Client, slip: Slip) -> None:
    """Looks at the nodes of a slip, and asks for the rules that looks show, again and again. Raises each denial or
    refusal after which a bot can't go on."""
    while True:
        for node in slip.nodes:
            try:
                look = me.look(node)
                if look.rule and not look.chosen:
                    me.move(look)
            except (Denied, Refused) as no:
                if not goes_on(no):
                    raise
        time.sleep(PAUSE)


threads = [threading.Thread(target=play, args=[Slip.read(file), Path(sys.argv[1])]) for file in sys.argv[2:]]
for thread in threads:
    thread.start()
for thread in threads:
    thread.join()
