#!/usr/bin/env python3
"""Closes a step every half second until no node is privileged, and prints the nodes for which it waits:
teacher.py SLIP [LAB], or teacher.py PORT NAME KEYFILE [LAB]. With the lab's file it also prints their owners."""
import sys
import time
import tomllib
from pathlib import Path

sys.path.append(str(Path(__file__).resolve().parent.parent / "classroom"))
from client import Client, Denied, NoSlip, Slip, enter, run, text_of

PAUSE = 0.5  # seconds for the students before each close


def owners_of(lab: list[str]) -> dict[int, list[str]]:
    """Returns the owners of each node by the lab's file, which is the first of these arguments. Returns none if there
    is no argument. Raises `NoSlip` if the file isn't a lab."""
    if not lab:
        return {}
    try:
        nodes = tomllib.loads(text_of(lab[0]))["node"]
        return {node["id"]: [node["owner"]] if "owner" in node else node["owners"] for node in nodes}
    except (ValueError, KeyError, TypeError):
        raise NoSlip(f"{lab[0]}: this isn't the file of a lab") from None


def owned(names: list[str] | None) -> str:
    """Returns the owners of a node in parentheses, or an empty text if they aren't known."""
    return f" ({' and '.join(names)})" if names else ""


def close_steps(me: Client, owners: dict[int, list[str]]) -> None:
    """Closes a step every PAUSE seconds until no node is privileged. Before that, prints the privileged nodes without a
    chosen move, with their owners, if they aren't those of the last time. Goes on after the denial `empty` (no move is
    chosen), and raises any other."""
    report, told = me.report(), ""
    while not report.stable:
        time.sleep(PAUSE)
        waits = [(node, rule) for node, rule in report.privileged if me.look(node).chosen is None]
        said = ", ".join(f"node {node}{owned(owners.get(node))}: {rule}" for node, rule in waits)
        if said and said != told:
            print(f"{me.name}: waiting for {said}", flush=True)
        told = said
        try:
            close = me.close()
            print(f"{me.name}: configuration {close.at}; nodes that moved: {', '.join(map(str, close.moved))}", flush=True)
        except Denied as denied:
            if denied.name != "empty":
                raise
        report = me.report()
    pairs, free = ", ".join(f"{a}-{b}" for a, b in report.pairs), ", ".join(map(str, report.free))
    print(f"{me.name}: configuration {report.at} is stable; pairs: {pairs or 'none'}; free nodes: {free or 'none'}", flush=True)


def teach(words: list[str]) -> None:
    """Greets as the teacher whom the arguments name, and closes steps until no node is privileged. Raises `NoSlip` if
    the arguments name no slip, or a file that isn't a lab."""
    slip, lab = Slip.of(words)
    owners = owners_of(lab)
    with enter(slip) as me:
        close_steps(me, owners)


run(teach, __doc__ or "")
