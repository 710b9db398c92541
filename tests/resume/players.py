"""Three students and a teacher who play on a host, and connect again when its class is resumed after a kill."""
import json
import random
from typing import Any, Optional

from tests.common.hosting import Caller, Host
from tests.common.lines import CLOSE, NODES, REPORT, fault_at, hello, look

TEACHER = "tess"


class Gone(Exception):
    """Raised if the host has hung up, or accepts no connection."""


class Players:
    """The connections of all persons. `told` is the greatest place of an event in a reply so far."""

    def __init__(self, seed: int) -> None:
        """`seed` determines the random choices."""
        self.random = random.Random(seed)
        self.told = 0
        self.callers: dict[str, Caller] = {}

    def ask(self, name: str, line: bytes) -> dict[str, Any]:
        """Sends a line of the person `name`. Returns the values of the reply. Raises `Gone` if the host has hung up."""
        reply = self.callers[name].ask(line)
        if not reply:
            raise Gone
        found: dict[str, Any] = json.loads(reply)
        self.told = max(self.told, found.get("place", 0))
        return found

    def come(self, host: Host) -> None:
        """Connects to a host and greets for all persons. Raises `Gone` if the host doesn't accept a connection or hangs
        up."""
        self.callers = {}
        for name in [*NODES, TEACHER]:
            try:
                self.callers[name] = Caller(host.desk if name == TEACHER else host.port)
            except ConnectionError as error:
                raise Gone from error
            self.ask(name, hello(name))

    def step(self) -> bool:
        """Looks at each student's node, asks for the enabled move unless one is chosen already, and closes the step.
        Returns whether the network is stable then. Raises `Gone` if the host has hung up."""
        for name, node in NODES.items():
            seen = self.ask(name, look(name))
            if seen["rule"] is not None and seen["chosen"] is None:
                self.ask(name, asked(seen, node))
        self.ask(TEACHER, CLOSE)
        return bool(self.ask(TEACHER, REPORT)["stable"])

    def disturb(self) -> None:
        """Causes a fault at a random node as the teacher. Raises `Gone` if the host has hung up."""
        node = self.random.choice([*NODES.values()])
        self.ask(TEACHER, fault_at(node, self.random.choice([True, False])))

    def play_on(self, host: Host) -> None:
        """Plays, and causes a fault whenever the network is stable, until the host is gone. Then closes all
        connections."""
        try:
            self.come(host)
            while True:
                if self.step():
                    self.disturb()
        except Gone:
            pass
        self.leave()

    def play_out(self, host: Host) -> Caller:
        """Connects, and plays until no node is privileged. Returns the teacher's connection."""
        self.come(host)
        while not self.step():
            pass
        return self.callers[TEACHER]

    def leave(self) -> None:
        """Closes all connections."""
        for caller in self.callers.values():
            caller.close()


def asked(seen: dict[str, Any], node: int) -> bytes:
    """Returns the request for the move that a look shows as enabled. A marriage names the neighbour that points at
    the node."""
    line: dict[str, Any] = {"at": seen["at"], "do": "move", "node": node, "rule": seen["rule"]}
    if seen["rule"] == "marriage":
        line["with"] = partner_of(seen, node)
    return json.dumps(line).encode() + b"\n"


def partner_of(seen: dict[str, Any], node: int) -> Optional[int]:
    """Returns a neighbour that points at the node, or None."""
    return next((near["node"] for near in seen["near"] if near["p"] == node), None)
