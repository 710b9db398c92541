"""A run: the reply to each line of each connection, and scripts. The *world* is the network with registers and chosen moves."""
import json
import re
from typing import Any, NamedTuple

from model.events import apply, reply_values
from model.journal import event_line
from model.lab import Lab
from model.policy import DENIALS, denial, denial_of_hello
from model.report import look, registers, report
from model.requests import Request, read_request
from model.world import World

LONGEST_REQUEST = 4096
LONGEST_LINE = 4099
SCRIPT_LINE = re.compile(rb"([1-9][0-9]?) (.*)", re.DOTALL)


class Answer(NamedTuple):
    """The reply to a line, the name of its connection afterwards, the request if it was granted as an event, and whether the reply is a view."""

    reply: str
    known: str | None
    event: Request | None = None
    is_view: bool = False


def text_of(**values: Any) -> str:
    """Returns the text of a reply: without spaces, and with its keys in the order of their bytes."""
    return json.dumps(values, sort_keys=True, separators=(",", ":"))


def denied(world: World, name: str) -> str:
    """Returns the text of the reply if the clause `name` denies a request. For `stale` it has the number of the present configuration."""
    clause, text = DENIALS[name]
    number = {"at": world.number} if name == "stale" else {}
    return text_of(clause=clause, deny=name, text=text, **number)


def answer(lab: Lab, world: World, known: str | None, line: bytes) -> Answer:
    """Returns the answer to a line of a connection. `known` is the name that the connection has greeted with, or None. Changes nothing."""
    asked = read_request(line)
    # A line that is no request is refused before any clause is tried.
    if asked is None:
        return Answer(text_of(refuse="malformed"), known)
    # A bye has no clause, and the connection has no name from then on.
    if asked.do == "bye":
        return Answer(text_of(ok="bye"), None)
    if asked.do == "hello":
        name = denial_of_hello(lab, known, asked)
        return Answer(denied(world, name), known) if name else Answer(text_of(ok="hello", who=asked.name), asked.name)
    # Any other request, clause 0: the connection has a name.
    if known is None:
        return Answer(denied(world, "not-greeted"), None)
    name = denial(lab, world, known, asked)
    if name:
        return Answer(denied(world, name), known)
    if asked.do in ("see", "look", "report"):
        shown = report(world) if asked.do == "report" else (registers if asked.do == "see" else look)(world, asked.node)
        return Answer(text_of(ok=asked.do, at=world.number, **shown), known, is_view=True)
    # After the clauses no event is granted if the lab has had all its events.
    if world.place == lab.events:
        return Answer(text_of(refuse="full"), known)
    return Answer(text_of(ok=asked.do, **reply_values(world, asked)), known, asked)


class Run:
    """The state of a run of a lab: its world, the name of each connection, and its output."""

    def __init__(self, lab: Lab) -> None:
        """Begins a run at the lab's first configuration."""
        self.lab = lab
        self.world = lab.opening()
        self.names: dict[int, str] = {}
        self.replies: list[str] = []
        self.journal: list[str] = []

    def answer(self, connection: int, line: bytes) -> str:
        """Returns the reply to a line of a connection, and applies the line's event. Line and reply have no newlines."""
        found = answer(self.lab, self.world, self.names.pop(connection, None), line)  # The name is put back if it stays.
        if found.known is not None:
            self.names[connection] = found.known
            if found.event is not None:
                self.journal.append(event_line(self.world, found.known, found.event))
                apply(self.world, found.event)
        self.replies.append(f"{connection} {found.reply}\n")
        return found.reply

    def printed(self) -> bytes:
        """Returns all replies so far as the output of a script."""
        return "".join(self.replies).encode("ascii")

    def written(self) -> bytes:
        """Returns the bytes of the journal so far."""
        return "".join(self.journal).encode("ascii")


def script_line(lab: Lab, line: bytes) -> tuple[int, bytes] | None:
    """Returns the connection's number and the request in a line of a script, or None if the line has another form or exceeds a limit."""
    found = SCRIPT_LINE.fullmatch(line)
    if found is None or int(found[1]) > lab.sessions or len(found[2]) > LONGEST_REQUEST:
        return None
    return int(found[1]), found[2]


def play(lab: Lab, script: bytes) -> tuple[Run, int | None]:
    """Runs a script for a lab to its end or its first wrong line. Returns the run, and the number of the wrong line, or None if there is none."""
    run = Run(lab)
    *lines, last = script.split(b"\n")
    for k, line in enumerate(lines, 1):
        read = script_line(lab, line)
        if read is None:
            return run, k
        run.answer(*read)
    # Bytes after the last newline are no line, and get no reply. But if they are more than a line may have, they are wrong.
    return run, len(lines) + 1 if len(last) > LONGEST_LINE else None
