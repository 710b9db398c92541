"""One process of `mml answer` that serves several runs over the same network, one after another. Each run begins by
setting all registers.

A *lab* is a network with its students. A node's enabled *rule* is the move that it can make, and the *report* is the
reply that lists the nodes with such a rule. One program serves many short runs, because starting one takes much longer
than a run.
"""
from __future__ import annotations

import json
from collections.abc import Callable, Sequence
from typing import Any

from classroom.core import lab as labs
from classroom.core import bounds, limits
from classroom.core.answering import Answering
from classroom.core.program import Fault

TEACHER, STUDENT = 1, 2
ROOM = 4  # the most events of a run for each move that its bound allows: the move and its close, and some to spare


def network(nodes: list[labs.Node], links: list[tuple[int, int]]) -> labs.Lab:
    """Returns a lab with these nodes and links, in which a student named `student` owns all nodes. The owners in
    `nodes` are ignored. The lab allows as many events as a lab can. Raises `Fault` if the program isn't built, since it
    prints that limit."""
    own = [labs.Node(node.id, ["student"], node.p, node.m) for node in nodes]
    return labs.Lab(limits.allowed().events, 2, ("teacher", "teacher"), {"student": "student"}, own, links)


class Bench:
    """A process of `mml answer` for one network. New runs begin on it until its events are used up."""

    def __init__(self, made: labs.Lab) -> None:
        """Starts `mml answer` for a lab that `network` has made, and greets as its teacher and as its student. Raises
        `Fault` if the program isn't built."""
        self.made, self.events = made, 0
        self.program = Answering(made)
        self.program.greet(TEACHER, made.teacher[0])
        self.program.greet(STUDENT, "student")
        self.requests: list[tuple[int, dict[str, Any]]] = []  # the requests of the current run, each with its connection
        self.before = 0  # the number of the configuration before the current run sets its registers

    def has_room(self, made: labs.Lab) -> bool:
        """Returns whether this process can also serve a run of the lab `made`. The lab has to have the same links.
        Enough events have to be left for setting all registers, and for as many moves as the proved bound allows.
        Raises `Fault` if the program isn't built."""
        most = ROOM * bounds.of_lab(made).moves + 2 * len(made.nodes)
        return made.links == self.made.links and self.events + most < self.made.events

    def ask_on(self, connection: int, requests: list[dict[str, Any]]) -> list[dict[str, Any]]:
        """Sends requests on one connection, and returns their replies. Raises `Fault` if a reply isn't `ok`, or if the
        program has ended."""
        return self.ask_all([(connection, request) for request in requests])

    def ask_all(self, requests: list[tuple[int, dict[str, Any]]]) -> list[dict[str, Any]]:
        """Sends requests, each on the connection with its number, and returns their replies. Adds the requests to those
        of the current run, and counts the events that they made. Raises `Fault` if a reply isn't `ok`, or if the
        program has ended."""
        lines = [(connection, json.dumps(request, separators=(",", ":")).encode()) for connection, request in requests]
        replies: list[dict[str, Any]] = [json.loads(reply) for reply in self.program.answers(lines)]
        for (_, request), reply in zip(requests, replies):
            if "ok" not in reply:
                raise Fault(f"`mml answer` didn't grant the request {json.dumps(request)}. Its reply is {json.dumps(reply)}. "
                            "This is an error of the program: report it to its developers", 4)
            self.events += "place" in reply
        self.requests += requests
        return replies

    def begin(self, made: labs.Lab) -> dict[str, Any]:
        """Begins a run: sets the registers to those of the lab `made`, which has the same network as this process.
        Returns the report on the configuration with these registers. Raises `Fault` if a reply isn't `ok`, or if the
        program has ended."""
        self.requests = []
        faults = [{"do": "fault", "node": node.id, "p": node.p, "m": node.m} for node in made.nodes]
        report = self.ask_on(TEACHER, [*faults, {"do": "report"}])[-1]
        self.before = report["at"] - len(faults)
        return report

    def present(self) -> labs.Lab:
        """Returns the network with its present registers, as a lab. Raises `Fault` if a reply isn't `ok`, or if the
        program has ended."""
        seen = self.ask_on(TEACHER, [{"do": "see", "node": node.id} for node in self.made.nodes])
        del self.requests[-len(seen):]  # The looks have no effect on the run.
        return network([labs.Node(it["node"], [], it["p"], it["m"]) for it in seen], self.made.links)

    def script(self) -> bytes:
        """Returns the script, a list of request lines, that repeats the current run with a new lab of this network. The
        script begins with the hellos and with setting all registers. Its moves name configurations by the numbers that
        they have in a new process, in which no other run came before."""
        hello = [(TEACHER, {"do": "hello", "name": "teacher", "key": "teacher"}), (STUDENT, {"do": "hello", "name": "student", "key": "student"})]
        own = [(who, request | {"at": request["at"] - self.before} if "at" in request else request) for who, request in self.requests]
        return "".join(f"{who} {json.dumps(request)}\n" for who, request in [*hello, *own]).encode()

    def step(self, report: dict[str, Any], nodes: list[int], partner_of: Callable[[Sequence[int]], int]) -> dict[str, Any]:
        """Moves these nodes in one step, each by its enabled rule in `report`, the latest report. A node whose rule is
        `marriage` takes the partner that `partner_of` chooses among the nodes that point at it. Returns the report
        after the step. Raises `Fault` if a reply isn't `ok`, or if the program has ended."""
        rules = dict(report["privileged"])
        suited = [node for node in nodes if rules[node] == "marriage"]
        looks = self.ask_on(STUDENT, [{"do": "look", "node": node} for node in suited])
        partner = {look["node"]: partner_of([near["node"] for near in look["near"] if near["p"] == look["node"]]) for look in looks}
        moves: list[tuple[int, dict[str, Any]]] = []
        for node in nodes:
            more = {"with": partner[node]} if node in partner else {}
            moves.append((STUDENT, {"do": "move", "node": node, "at": report["at"], "rule": rules[node], **more}))
        return self.ask_all([*moves, (TEACHER, {"do": "close"}), (TEACHER, {"do": "report"})])[-1]

    def close(self) -> None:
        """Ends the process of the program."""
        self.program.close()
