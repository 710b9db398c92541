"""Replaying a journal: its events are asked for again.

The events become scripts, lists of request lines, for a lab in which one student owns all nodes. The teacher looks at
nodes or asks for the report between them. Long journals are split into parts, each of which begins at the end of the
part before. In the replies of a part, places (the numbers of events) and the numbers of configurations begin at 0
again. This module knows nothing of the rules.
"""
from __future__ import annotations

import json
import tempfile
from collections.abc import Callable, Iterator, Sequence
from dataclasses import dataclass, field
from pathlib import Path
from typing import Any

from classroom.core import lab as labs
from classroom.core import desk_words
from classroom.core.answering import replies_to
from classroom.core.journal import Event
from classroom.core.program import Fault, call

SCRIPT_LIMIT = 1_000_000  # bytes of a part's events, fewer than those of the largest script
TEACHER, STUDENT, KEY = "teacher", "student", "key"
# Connection 1 is the teacher's, and 2 the student's.
HELLOS = [f'{who} {{"do":"hello","name":"{name}","key":"{KEY}"}}' for who, name in ((1, TEACHER), (2, STUDENT))]
REPORT = '1 {"do":"report"}'
Take = Callable[[dict[str, Any]], None]  # a function that handles the values of a reply
raw_decode, encode = json.JSONDecoder().raw_decode, json.JSONEncoder(separators=(",", ":")).encode


def request(at: int | str, words: Sequence[str]) -> str:
    """Returns the script's line that asks for the event with these words of the journal. A move asks in the
    configuration with the number `at`."""
    word, *rest = words
    if word == "grant":
        _, node, rule, *partner = rest  # The first value is the student's name.
        more = f',"with":{partner[0]}' if partner else ""
        return f'2 {{"do":"move","at":{at},"node":{node},"rule":"{rule}"{more}}}'
    return f"1 {encode(desk_words.request(word, rest))}"


def look(node: int) -> str:
    """Returns the script's line by which the teacher looks at a node, that is, asks for its registers and its move."""
    return f'1 {{"do":"look","node":{node}}}'


@dataclass
class Script:
    """The lines of a script, and for each the function that handles its reply."""

    lines: list[str] = field(default_factory=list)
    takes: list[Take | None] = field(default_factory=list)
    size: int = 0

    def ask(self, line: str, take: Take | None = None) -> None:
        """Appends a line, and the function `take` that handles its reply. If `take` is None, the reply isn't used."""
        self.lines.append(line)
        self.takes.append(take)
        self.size += len(line) + 1

    def cut(self, lines: int) -> None:
        """Removes all lines after the first `lines`. Doesn't update `size`, since a script is cut only when it is
        complete."""
        del self.lines[lines:], self.takes[lines:]


class Replay:
    """A replay of a journal's events. Subclasses ask for more after each event."""

    def __init__(self, lab: labs.Lab, events: list[Event]) -> None:
        """Begins with the lab's network. No event is asked for before `replay`."""
        self.lab, self.events = lab, events
        self.links = {labs.ordered(link) for link in lab.links}
        self.registers = {node.id: (node.p, node.m) for node in lab.nodes}
        self.place = self.number = 0  # the place, and the configuration's number, at which the current part begins
        self.now = (0, 0)  # the same after the last event that was answered

    def ask(self, script: Script, event: Event | None, named: set[int]) -> None:
        """Appends further requests to the script, after an event, or at the beginning if `event` is None. Here it does
        nothing; subclasses redefine it. `named` has the nodes of all events since the last configuration was made,
        including this event."""

    def note_reply(self, event: Event, reply: dict[str, Any]) -> None:
        """Handles the reply to an event. Here it does nothing; subclasses redefine it."""

    def replay(self) -> Iterator[None]:
        """Replays all events, and yields after each reply was handled. Raises `Fault` if an event isn't granted again
        or the program names another place for it."""
        left, is_first = self.events, True
        while is_first or left:
            self.place, self.number = self.now
            script, left = self.part(left, is_first)
            yield from self.run_script(script)
            is_first = False

    def part(self, events: list[Event], is_first: bool) -> tuple[Script, list[Event]]:
        """Returns a script with as many of these events as fit into it, and the remaining events. If `is_first` is set,
        the script begins with the requests before the first event. The script has all events, or those up to an event
        that made a configuration. In the second case it ends by asking for all registers, with which the next part
        begins. Raises `Fault` if too many events come without a new configuration."""
        script, fits, kept, named = Script(), 0, 0, set[int]()
        for line in HELLOS:
            script.ask(line)
        if is_first:
            self.ask(script, None, named)
        for index, event in enumerate(events):
            self.ask_event(script, event)
            named.update(event.nodes)
            self.ask(script, event, named)
            if event.makes_configuration:
                named = set()
                if script.size > SCRIPT_LIMIT:
                    break
                fits, kept = index + 1, len(script.lines)
        else:  # All events are asked for, but the last ones, which made no configuration, may have made the script too long.
            if script.size <= SCRIPT_LIMIT:
                return script, []
        if fits == 0:
            raise Fault(f"this run can't be replayed: after event {self.place} there are too many events before the next configuration", 3)
        script.cut(kept)
        for node in self.lab.nodes:
            script.ask(f'1 {{"do":"see","node":{node.id}}}', self.take_registers)
        return script, events[fits:]

    def ask_event(self, script: Script, event: Event) -> None:
        """Appends the request for an event to a script."""
        script.ask(request(event.at - self.number, event.words), lambda reply: self.take_event(event, reply))

    def take_event(self, event: Event, reply: dict[str, Any]) -> None:
        """Checks the place in the reply to an event, and passes the reply to `note_reply`. Updates the links, and the
        place and the configuration's number after the event. Raises `Fault` if the place is wrong."""
        place = reply["place"] + self.place
        if place != event.place:
            raise wrong_place(event.place, place)
        if event.links:
            change = self.links.add if event.links > 0 else self.links.remove
            change(labs.ordered((event.nodes[0], event.nodes[1])))
        self.now = place, event.at + event.makes_configuration
        self.note_reply(event, reply)

    def take_registers(self, reply: dict[str, Any]) -> None:
        """Copies the registers in a reply into those with which the next part begins."""
        self.registers[reply["node"]] = (reply["p"], reply["m"])

    def run_script(self, script: Script) -> Iterator[None]:
        """Runs a script, passes each reply to its function, and yields after each. Raises `Fault` if a reply isn't
        `ok`."""
        nodes = [labs.Node(node, [STUDENT], p, m) for node, (p, m) in self.registers.items()]
        with tempfile.TemporaryDirectory() as room:
            lab, lines = Path(room, "lab.toml"), Path(room, "script")
            lab.write_text(labs.text(alone(nodes, sorted(self.links), len(script.lines))), encoding="utf-8")
            lines.write_text("\n".join(script.lines) + "\n", encoding="utf-8")
            done = call("script", lab, lines)
        replies = done.output.splitlines()
        if done.status != 0 or len(replies) != len(script.lines):
            raise Fault(f"the journal can't be replayed: {done.error or f'the program printed {len(replies)} replies to {len(script.lines)} lines'}",
                        done.status or 4)
        for line, reply, take in zip(script.lines, replies, script.takes):
            told = values_of(reply)
            if "ok" not in told:
                raise wrong_reply(line, reply)
            if take is not None:
                take(told)
            yield


def alone(nodes: list[labs.Node], links: list[tuple[int, int]], events: int) -> labs.Lab:
    """Returns a lab with these nodes and links that allows `events` events, and in which one student owns all nodes."""
    return labs.Lab(events, 2, (TEACHER, KEY), {STUDENT: KEY}, nodes, links)


def values_of(reply: str) -> dict[str, Any]:
    """Returns the values of a script's reply, which begins with its connection number, a single digit, and a space."""
    told: dict[str, Any] = raw_decode(reply, 2)[0]
    return told


def wrong_reply(line: str, reply: str) -> Fault:
    """Returns the fault to raise if the program doesn't grant a line again that was granted in the run. `reply` is its
    reply to the line."""
    return Fault(f"the journal can't be replayed: the program answered the line {line[2:]} by {reply[2:]}. "
                 "This is an error of the program: report it to its developers", 4)


def wrong_place(expected: int, place: int) -> Fault:
    """Returns the fault to raise if the program counts the event of the journal with the number `expected` as event
    `place`."""
    return Fault(f"the journal can't be replayed: the program counted its event {expected} as event {place}. "
                 "This is an error of the program: report it to its developers", 4)


def report(lab: labs.Lab, lines: list[list[str]]) -> dict[str, Any]:
    """Returns the report after the events in these lines of a lab's journal. Each line is split into its words: the
    place, the number of the configuration, and the event. Raises `Fault` if an event isn't granted again, or if the
    program counts the events differently."""
    nodes = [labs.Node(node.id, [STUDENT], node.p, node.m) for node in lab.nodes]
    script = [*HELLOS, *(request(at, words) for _, at, *words in lines), REPORT]
    replies = replies_to(alone(nodes, lab.links, max(1, len(lines))), script)
    if replies.count('"ok":') != len(script):
        raise next(wrong_reply(line, reply) for line, reply in zip(script, replies.splitlines()) if '"ok":' not in reply)
    # The last two lines, before the empty text that follows the last newline: the replies to the last event and to the request for the report.
    last, told = replies.rsplit("\n", 3)[-3:-1]
    place: int = values_of(last).get("place", 0)  # Without an event, `last` is the reply to a hello, which has no place.
    if place != len(lines):
        raise wrong_place(len(lines), place)
    return values_of(told)
