"""The commands of a teacher's desk, which are typed or come from buttons: one table for all code that parses, runs,
shows, counts or replays a command. The *desk* is the teacher's connection to the server, with the terminal and the page
at which the teacher gives commands."""
from __future__ import annotations

from collections.abc import Callable, Sequence
from dataclasses import dataclass
from enum import Enum, auto
from typing import Any

from classroom.client import KEYS

PATTERNS = {
    "NODE": r"\d+", "NEIGHBOUR|null": r"\d+|null|-", "true|false": "true|false", "SECONDS": r"\d+(\.\d+)?", "WORD": r"\S+", "NAME": r"\S+",
    "K|all": r"[1-9]\d*|all", "SEED": r"\d+",
}
# For each kind of a request's values in `client.KEYS`, the function that parses such a value.
READ: dict[str, Callable[[str], object]] = {
    "a whole number": int, "a whole number or null": lambda value: None if value in ("-", "null") else int(value),
    "true or false": lambda value: value == "true",
}


class Action(Enum):
    """What the desk does for a command."""

    ASK = auto()  # sends the request that `client.KEYS` has under the word
    REPORT = auto()
    WAIT = auto()
    WHO = auto()
    PLAY = auto()
    STOP = auto()
    CLOSE_BY = auto()  # closes steps from now on as the word says
    DAEMON = auto()  # closes steps from now on as the word after it says
    SHAKE = auto()
    BREAK = auto()
    PAGE = auto()
    KEY = auto()
    HELP = auto()
    END = auto()


@dataclass(frozen=True)
class Button:
    """A button of the page on which the teacher acts, and the line that it sends. In the line, a word such as
    `#seconds` is replaced by the value of the page's field with this name, and `#picked` by the number of the clicked
    node."""

    name: str
    text: str
    line: str
    title: str = ""
    kind: str = ""


@dataclass(frozen=True)
class Word:
    """A command: its arguments, and its effect. Arguments in brackets are optional."""

    form: str
    help: str
    action: Action
    buttons: tuple[Button, ...] = ()
    is_edit: bool = False  # Whether its event changes registers or links.
    links: int = 0  # the change of the number of links by its event

    @property
    def is_on_page(self) -> bool:
        """Returns whether the page can send the command, by a button or by clicks on two nodes."""
        return bool(self.buttons or self.links)

    @property
    def nodes(self) -> int:
        """Returns the number of nodes that the command has as arguments."""
        return self.form.split().count("NODE")


WORDS = {
    "close": Word("", "close the step: all granted moves are applied together", Action.ASK, (
        Button("close", "Close the step", "close", "closes the step: all granted moves are applied together"),
    )),
    "fault": Word("NODE NEIGHBOUR|null true|false", "make a fault: set the registers p and m of a node", Action.ASK, (
        Button("set", "Set them", "fault #picked #p #m", "makes a fault: sets the registers of this node to these values"),
    ), is_edit=True),
    "shake": Word("K|all [SEED]", "set the registers of K random nodes, or of all, to random values; the same SEED makes the same choices", Action.SHAKE, (
        Button("shake", "Shake", "shake #count", "sets the registers of some random nodes to random values; the number of nodes is beside this button"),
        Button("shake-all", "Shake all", "shake all", "sets the registers of all nodes to random values"),
    )),
    "break": Word("", "set all registers to values from which the run takes many moves", Action.BREAK,
                  (Button("break", "Worst start", "break", "sets all registers to values from which the run takes many moves"),)),
    "link": Word("NODE NODE", "link two nodes", Action.ASK, is_edit=True, links=1),
    "cut": Word("NODE NODE", "remove the link between two nodes", Action.ASK, is_edit=True, links=-1),
    "release": Word("NODE", "drop the granted move of a node", Action.ASK, (
        Button("release", "Release its move", "release #picked", "drops the granted move of this node", kind="button"),
    )),
    "report": Word("", "print the matching, and how many events are used", Action.REPORT),
    "wait": Word("", "print the nodes that the class waits for, with their students", Action.WAIT),
    "who": Word("", "print which students are connected, and which haven't had a granted move yet", Action.WHO),
    "play": Word("NAME", "let the house play the nodes of the student NAME", Action.PLAY),
    "stop": Word("NAME", "stop the house from playing for the student NAME", Action.STOP),
    "every": Word("SECONDS", "from now on close a step each time this number of seconds has passed", Action.CLOSE_BY,
                  (Button("every", "by the clock", "every #seconds", "from now on closes a step each time this number of seconds has passed"),)),
    "when-idle": Word("SECONDS", "from now on close a step when no move was granted for this number of seconds", Action.CLOSE_BY,
                      (Button("when-idle", "when idle", "when-idle #seconds",
                              "from now on closes a step when no move was granted for this number of seconds"),)),
    "by-hand": Word("", "from now on close a step only when you type `close`", Action.CLOSE_BY, (
        Button("by-hand", "by hand", "by-hand", "from now on closes a step only when you press Close the step, or type `close`"),
    )),
    "daemon": Word("WORD", "from now on close steps by this daemon: central, synchronous, random:P, schedule, adversary, when-idle:SECONDS, "
                           "every:SECONDS or by-hand", Action.DAEMON),
    "page": Word("", "change the address of the page on which you can act; the old address no longer works", Action.PAGE),
    "key": Word("NAME", "give the student NAME a new key; the server restarts, and the class continues", Action.KEY),
    "help": Word("", "print this list of commands", Action.HELP),
    "end": Word("", "end the run", Action.END, (Button("end", "End the run …", "end", "asks you to confirm, and then ends the run", kind="button"),)),
}
EDITS = tuple(word for word, it in WORDS.items() if it.is_edit)
BUTTONS = {button.name: button for it in WORDS.values() for button in it.buttons}
BY_LINKS = {it.links: word for word, it in WORDS.items() if it.links}  # the command that adds a link, at 1, and the one that removes a link, at -1


def request(word: str, values: Sequence[str]) -> dict[str, Any]:
    """Returns the values of the request that the command `word` sends to the server. The command's action has to be
    `ASK`. `values` are its arguments, as they are typed or as a line of the journal has them. Raises `ValueError` if an
    argument can't be read."""
    return {"do": word} | {key: READ[kind](value) for (key, kind), value in zip(KEYS[word].items(), values)}


def links_after(word: str) -> int:
    """Returns by how much an event changes the number of links. `word` is the first word of the event. The result is 1
    for a link, -1 for a cut, and 0 for any other event."""
    return WORDS[word].links if word in WORDS else 0
