#!/usr/bin/env python3
"""Plays a student's nodes, until the run ends or nothing was new for SECONDS:
bot.py SLIP [SECONDS], or bot.py PORT NAME KEYFILE NODE,.. [SECONDS]
If SLIP is -, the slip is read from the environment's CENDUWA_SLIP. If KEYFILE is -, the key is read from CENDUWA_KEY."""
import sys
import time
from pathlib import Path

sys.path.append(str(Path(__file__).resolve().parent.parent / "classroom"))
from client import Client, Closed, Denied, NoSlip, Refused, Slip, again, enter, goes_on, run


def ask(me: Client, nodes: tuple[int, ...], patience: float) -> None:
    """Looks at each node again and again, and asks for its enabled rule. Returns if no new configuration came for
    `patience` seconds. Prints each denial and refusal, and raises those after which a bot doesn't go on."""
    newest, since = -1, time.monotonic()
    while time.monotonic() - since < patience:
        for node in nodes:
            try:
                look = me.look(node)
                if look.at > newest:
                    newest, since = look.at, time.monotonic()
                if look.rule and not look.chosen:
                    print(f"{me.name}: {me.move(look)}", flush=True)
            except (Denied, Refused) as no:  # A step was closed since, or another program was quicker.
                print(f"{me.name}: node {node}: {no}", flush=True)
                if not goes_on(no):
                    raise
        time.sleep(0.1)


def seconds_of(words: list[str]) -> float:
    """Returns how long a bot waits for a new configuration, in seconds: the only one of these words, or infinity if
    there is none. Raises `NoSlip` if they are no number of seconds."""
    try:
        seconds = float(words[0]) if words else float("inf")
    except ValueError:
        seconds = -1.0
    if len(words) > 1 or not seconds >= 0:
        raise NoSlip(f"after the slip only a number of seconds may follow, not {' '.join(words)}")
    return seconds


def play(words: list[str]) -> None:
    """Plays the nodes that the arguments name. Greets again if the connection is lost: what was granted stays granted.
    Raises `NoSlip` if the arguments don't name a slip with nodes."""
    slip, rest = Slip.of(words)
    if not slip.nodes:
        raise NoSlip(f"there are no nodes in {'the arguments' if words[0].isdecimal() else words[0]}")
    patience = seconds_of(rest)
    me = enter(slip, min(60.0, patience))
    while True:
        try:
            with me:
                return ask(me, slip.nodes, patience)
        except (Closed, Refused) as lost:
            if isinstance(lost, Refused) and lost.word != "busy":  # `busy` also ends a connection whose seat goes to a newcomer.
                raise
            me = again(slip, lost)


run(play, __doc__ or "")
