"""The tables of a class's networks that its desk prints: at the start, and later with the state of each. A *privileged*
node has an enabled rule."""
from __future__ import annotations

from collections.abc import Sequence

from classroom.core.class_state import DOWN, RUNS, NetworkState
from classroom.core.counts import plural

NONE = "-"
MOST_NAMED = 3  # the most missing students that are named


def aligned(rows: Sequence[Sequence[str]]) -> list[str]:
    """Returns the rows of a table as lines with aligned columns. The first column is aligned to the right."""
    widths = [max(len(row[column]) for row in rows) for column in range(len(rows[0]))]
    lines = []
    for row in rows:
        cells = [cell.ljust(width) if column else cell.rjust(width) for column, (cell, width) in enumerate(zip(row, widths))]
        lines.append("  ".join(cells).rstrip())
    return lines


def start_table(networks: Sequence[NetworkState], play: Sequence[str]) -> list[str]:
    """Returns the lines of the table at the start: network, room, port, students, seats and pages. `play` has the
    address of each network's page to play. Empty columns are left out."""
    heads = ["", "network", "room", "port", "students", "seats", "page", "page to play"]
    rows = [
        [str(it.number), it.name, it.room or NONE, NONE if it.port is None else str(it.port), str(it.students), str(it.seats),
         it.page or NONE, address or NONE]
        for it, address in zip(networks, play)
    ]
    shown = [column for column in range(len(heads)) if any(row[column] != NONE for row in rows)]
    return aligned([[row[column] for column in shown] for row in [heads, *rows]])


def now_table(networks: Sequence[NetworkState]) -> str:
    """Returns the table with the present state of each network."""
    heads = ["", "network", "room", "status", "configuration", "moves", "events", "missing"]
    return "\n".join(aligned([heads, *map(now_row, networks)]))


def now_row(it: NetworkState) -> list[str]:
    """Returns the cells of a network for the table with the present states. The status of a network that runs is the
    number of its privileged nodes, or `stable`."""
    state = it.state or {}
    status = ("stable" if state.get("stable") else plural_privileged(len(state.get("privileged", [])))) if state and it.status == RUNS \
        else "DOWN" if it.status == DOWN else it.status
    moves = f"{state['moves']} of at most {state['most']}" if state.get("most") is not None else str(state.get("moves", NONE))
    events = f"{state['events']} of {state['limit']}" if state else NONE
    return [str(it.number), it.name, it.room or NONE, status, str(state.get("configuration", NONE)), moves, events,
            missing_in_words(state.get("missing") or [])]


def plural_privileged(count: int) -> str:
    """Returns the number of privileged nodes as a text."""
    return f"{count} privileged"


def missing_in_words(names: Sequence[str]) -> str:
    """Returns the number of missing students with the first MOST_NAMED of their names, as a text, or NONE if no student
    is missing."""
    if not names:
        return NONE
    more = f" and {len(names) - MOST_NAMED} more" if len(names) > MOST_NAMED else ""
    return f"{plural(len(names), 'student')}: {', '.join(names[:MOST_NAMED])}{more}"
