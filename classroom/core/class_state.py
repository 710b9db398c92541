"""The state of a class of several networks, as its pages show it. This module documents the form.

The state of one network is a JSON object. The run of a network of a class writes it to `state.json` in its folder, at most once
a second and only if something has changed:

- `configuration`: the number of the present configuration
- `stable`: whether it is stable
- `privileged`: a list of [node, rule], with each node that can move
- `pairs`: a list of [node, node], the married pairs
- `open`: how many open links there are, that is, links between two nodes that are in no pair
- `moves`, `most`: the moves since the last fault, link or cut, and how many there can be at most (null if that isn't known)
- `events`, `limit`: how many events the journal has, and how many it may have
- `closing`: how steps are closed, as an argument of the command `daemon`
- `waiting`: a list of {`node`, `owners`, `rule`}: the privileged nodes that have no chosen move
- `missing`: the students with a node who have no connection, as a list of names (null if the run has no record)
- `idle`: the students whom no move was granted yet, as a list of names
- `links`: a list of [node, node]
- `nodes`: a list of [node, p or null, m, the rule of its chosen move or null]; empty unless the network has a page

The state of the class is a JSON object, which the page for all networks receives (`classroom.pages.hall`):

- `title`: what the class is called
- `ended`: whether the class is over
- `lines`: the last lines that the class's desk printed, each a text
- `networks`: a list with an object for each network, in the order of their numbers:
  - `number`, `name`, `room`: the number from 1, the name, and the room (an empty text if none was named)
  - `port`: the students' port, or null before the server listens
  - `page`: the address of the network's own page, or an empty text; on the page to act it is the address to act at
  - `seats`, `students`: how many there are
  - `status`: `starts`, `runs`, `down` (its server or its desk is gone: an alarm) or `ended`
  - `alarm`: if it is down what has happened and what helps, as a text; otherwise an empty text
  - `state`: the state of the network as above, or null if it isn't known

Names of students are those that the pages show: short names, or numbers if the class is anonymous.
"""
from __future__ import annotations

import json
from dataclasses import asdict, dataclass, field
from pathlib import Path
from typing import Any

from classroom.core import plain
from classroom.core.folders import STATE
from classroom.core.program import Fault

MOST = 1 << 20  # the most bytes of a network's state
STARTS, RUNS, DOWN, ENDED = "starts", "runs", "down", "ended"


@dataclass
class NetworkState:
    """The state of a network, as the page for all networks shows it."""

    number: int
    name: str
    room: str = ""
    port: int | None = None
    page: str = ""
    seats: int = 0
    students: int = 0
    status: str = STARTS
    alarm: str = ""
    state: dict[str, Any] | None = None


@dataclass
class ClassState:
    """The state of a class, as the page for all networks shows it."""

    title: str
    networks: list[NetworkState] = field(default_factory=list)
    lines: list[str] = field(default_factory=list)
    ended: bool = False

    def table(self) -> dict[str, Any]:
        """Returns the state as the JSON object that the page for all networks receives."""
        return asdict(self)


def write(folder: Path, state: dict[str, Any]) -> None:
    """Writes the state of a network, a JSON object of the form that this module documents, into the folder of its run.
    If the state can't be written, as on a full disk, the old file stays, and no error is raised."""
    new = folder / f"{STATE}.new"
    try:
        new.write_text(json.dumps(state, separators=(",", ":")) + "\n", encoding="utf-8")
        new.replace(folder / STATE)
    except OSError:
        new.unlink(missing_ok=True)


def read(folder: Path) -> dict[str, Any] | None:
    """Returns the state of a network from the folder of its run. Returns None if there is no such file, if the file
    can't be read or is too large, or if it isn't a JSON object."""
    try:
        it = json.loads(plain.read(folder / STATE, MOST))
    except (Fault, ValueError, RecursionError):
        return None
    return it if isinstance(it, dict) else None
