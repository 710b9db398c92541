#!/usr/bin/env python3
"""A correct bot that uses no module of the release: it reads and writes lines and computes guards by itself."""
from __future__ import annotations

import json
import socket
import sys
import time
from typing import Any


class Over(Exception):
    """The class is over."""


class Lost(Exception):
    """The connection has ended, or the server has refused it."""


class Connection:
    """A connection that has said hello."""

    def __init__(self, slip: dict[str, str]) -> None:
        """Connects to a server, and says hello. `slip` has the port, name and key of a slip. Raises `Lost` if no server
        accepts the connection, the server refuses it or it ends, and `Over` if the class is over."""
        try:
            self.socket = socket.create_connection(("127.0.0.1", int(slip["port"])), timeout=30)
        except OSError:
            raise Lost from None
        self.rest = b""
        self.ask(do="hello", name=slip["name"], key=slip["key"])

    def ask(self, **request: object) -> dict[str, Any]:
        """Sends a request with these values, and returns the values of the reply. Raises `Over` if the class is over.
        Raises `Lost` if the connection has ended, or the server ends it with a refusal: `busy`, `late` or `long`."""
        try:
            self.socket.sendall(json.dumps(request).encode() + b"\n")
        except OSError:
            pass  # the server's last line may have arrived before the connection ended
        while b"\n" not in self.rest:
            try:
                more = self.socket.recv(1000)
            except OSError:
                raise Lost from None
            if not more:
                raise Lost
            self.rest += more
        line, self.rest = self.rest.split(b"\n", 1)
        reply: dict[str, Any] = json.loads(line)
        if reply.get("refuse") == "over":
            raise Over
        if reply.get("refuse") in ("busy", "late", "long"):
            raise Lost
        return reply


def rule_of(look: dict[str, Any]) -> dict[str, object] | None:
    """Returns the values of the enabled move of a node, computed from its registers and those of its neighbours in a
    look. Returns None if there is none."""
    i, p, m, near = look["node"], look["p"], look["m"], {each["node"]: each for each in look["near"]}
    married = p is not None and near[p]["p"] == i
    if m != married:
        return {"rule": "update"}
    suitors = [j for j, it in near.items() if it["p"] == i]
    if p is None and suitors:
        return {"rule": "marriage", "with": suitors[0]}
    if p is None:
        free = [j for j, it in near.items() if j > i and it["p"] is None and not it["m"]]
        return {"rule": "seduction"} if free else None
    return {"rule": "abandonment"} if near[p]["p"] != i and (near[p]["m"] or p < i) else None


def play(it: Connection, nodes: list[int]) -> None:
    """Looks at each node again and again, computes its move, and asks for it. Exits if a denial shows a mistake."""
    while True:
        for node in nodes:
            look = it.ask(do="look", node=node)
            if "refuse" in look:
                continue  # The server is out of memory, so the bot looks again later.
            move = rule_of(look)
            if move and look["chosen"] is None:
                reply = it.ask(do="move", node=node, at=look["at"], **move)
                if reply.get("deny") not in (None, "stale", "chosen"):
                    sys.exit(f"a mistake: {reply}")
        time.sleep(0.05)


def main() -> None:
    """Plays until the class is over. Connects again after a second if the connection is lost, and exits with an error
    when 60 connections were lost."""
    with open(sys.argv[1], encoding="utf-8") as file:
        slip = dict(line.rstrip("\n").split(" ", 1) for line in file if not line.startswith("#"))
    nodes = [int(node) for node in slip["nodes"].split(",")]
    for _ in range(60):
        try:
            play(Connection(slip), nodes)
        except Over:
            return
        except Lost:
            time.sleep(1)
    sys.exit("the connection was lost")


if __name__ == "__main__":
    main()
