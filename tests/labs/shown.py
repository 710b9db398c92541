"""The contents of a lab, as the program's replies to scripts and its audit show them.

The contents are written `EVENTS SESSIONS NODES LINKS STUDENTS`. For each node there follow, after a semicolon, its
identifier, m, its owners, and a mark for each node in rising order: `-` if the two are linked, `>` if the node also
points at that one, and otherwise `.`.
"""
import json
from collections.abc import Sequence
from pathlib import Path
from typing import Any

from tests.common.preload import Ended, fail, run
from tests.labs.rows import Row

Look = dict[str, Any]  # the reply to a look
PART = 100  # the number of people whose looks are in one script, which has to fit into a megabyte


def hello(name: str, key: str) -> str:
    """Returns the script's line of a hello on the first connection."""
    return f'1 {json.dumps({"do": "hello", "name": name, "key": key})}\n'


def looks(people: Sequence[tuple[str, str]], nodes: list[int]) -> list[str]:
    """Returns the script's lines of a look at each node by each of these people, who have names and keys."""
    lines = []
    for name, key in people:
        lines += [hello(name, key), *(f'1 {{"do":"look","node":{i}}}\n' for i in nodes), '1 {"do":"bye"}\n']
    return lines


class Shown:
    """A lab in a file, with the program's replies about it."""

    def __init__(self, row: Row, room: Path) -> None:
        """Writes the document of a row into the folder `room`."""
        self.row = row
        self.lab, self.script, self.journal = room / "shown.toml", room / "shown.script", room / "shown.journal"
        self.lab.write_bytes(row.document)

    def fail(self, why: str) -> None:
        """Fails with the name of the row and the reason `why`."""
        fail(f"{self.row.name}: {why}")

    def size(self) -> list[str]:
        """Returns the counts of nodes, links and students in the output of `check`, as texts."""
        said = run(["check", str(self.lab)], b"", {})
        words = said.out.decode().split()  # `ok: 3 nodes, 2 links, 3 students`
        if said.status != 0 or len(words) != 7:
            self.fail(f"no size: {said}")
        return words[1::2]

    def replies(self, people: Sequence[tuple[str, str]], nodes: list[int], sessions: int) -> list[dict[str, Any]]:
        """Returns the replies to all lines of `looks` for these people. Also checks that the lab has this number of
        sessions: a line on the last connection is answered, and a line on one more is a bad line of the script."""
        lines = looks(people, nodes)
        last = f'{sessions} {{"do":"bye"}}\n{sessions + 1} {{"do":"bye"}}\n'
        self.script.write_text("".join(lines) + last, encoding="utf-8")
        found = run(["script", str(self.lab), str(self.script)], b"", {})
        bad = b"script: line %d: bad line\n" % (len(lines) + 2)
        if (found.status, found.error) != (2, bad):
            self.fail(f"another number of sessions than {sessions}: {found.error!r}")
        # The last reply is that on the last connection, to a line that isn't one of `looks`.
        return [json.loads(line.split(b" ", 1)[1]) for line in found.out.splitlines()[:-1]]

    def all_replies(self, students: int, nodes: list[int], sessions: int) -> list[dict[str, Any]]:
        """Returns the replies to all lines of `looks` for the teacher and this number of students. Runs a script for
        each PART of these people, since a script may have a megabyte at most. Checks the number of sessions, as `replies`
        does."""
        people = [self.row.teacher, *self.row.students[:students]]
        replies = []
        for start in range(0, len(people), PART):
            replies += self.replies(people[start : start + PART], nodes, sessions)
        return replies

    def audit_of_faults(self, node: int, events: int) -> Ended:
        """Returns the result of the audit of a journal with `events` faults at a node."""
        lines = (f"{place} {place - 1} fault {node} - false\n" for place in range(1, events + 1))
        self.journal.write_text("".join(lines), encoding="ascii")
        return run(["audit", str(self.lab), str(self.journal)], b"", {})

    def check_limit(self, node: int, events: int) -> None:
        """Checks that the lab allows `events` events, which are faults at a node, and not one more."""
        found = self.audit_of_faults(node, events)
        if not found.out.startswith(b"ok: %d events, configuration %d, " % (events, events)):
            self.fail(f"fewer events than {events}: {found.error!r}")
        if self.audit_of_faults(node, events + 1).error != b"audit: line %d: over the limit of events\n" % (events + 1):
            self.fail(f"more events than {events}")


def mark(look: Look, node: int) -> str:
    """Returns the mark of `node` in a look at another node: linked, pointed at, or neither."""
    if not any(other["node"] == node for other in look["near"]):
        return "."
    return ">" if look["p"] == node else "-"


def text_of(nodes: list[int], students: list[str], replies: list[dict[str, Any]]) -> str:
    """Returns the text about all nodes, as the module's docstring says. `replies` are those of `all_replies`."""
    width = len(nodes) + 2  # replies to each person: to the hello, the looks and the bye
    seen = [replies[start + 1 : start + 1 + len(nodes)] for start in range(0, width * (len(students) + 1), width)]
    text = ""
    for at, look in enumerate(seen[0]):
        owners = "".join(name for name, own in zip(students, seen[1:]) if own[at].get("ok") == "look")
        marks = "".join(mark(look, node) for node in nodes)
        text += f"; {look['node']} {json.dumps(look['m'])} {owners} {marks}"
    return text


def compare(row: Row, room: Path) -> None:
    """Checks that the program reads from a row's document the lab that `row.shows` describes. Writes the files for that
    into the folder `room`."""
    shown = Shown(row, room)
    head, *parts = row.shows.split("; ")
    events, sessions = (int(word) for word in head.split()[:2])
    nodes = [int(part.split()[0]) for part in parts]
    size = shown.size()
    students = [name for name, _ in row.students[: int(size[2])]]
    replies = shown.all_replies(len(students), nodes, sessions)
    found = " ".join([str(events), str(sessions), *size]) + text_of(nodes, students, replies)
    if found != row.shows:
        shown.fail(f"it shows {found!r}, not {row.shows!r}")
    shown.check_limit(nodes[0], events)
