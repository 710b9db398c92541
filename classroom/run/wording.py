"""The texts of events at the desk: one line for each, and one line with a count for many of a kind."""
from __future__ import annotations

from collections import Counter
from collections.abc import Sequence

from classroom.core.counts import plural
from classroom.core.journal import Event

MOST_MOVES = 6  # the most moves of a step that are printed one by one
MOST_NODES = 6  # the most nodes that are named
KINDS = {"fault": "fault", "link": "added link", "cut": "removed link"}  # the texts for kinds of events


def moves(moved: Sequence[tuple[int, str, str]]) -> str:
    """Returns a text for the moves of a step, each with its node, student and rule. For many moves, the text has only
    the number of moves of each rule."""
    if len(moved) <= MOST_MOVES:
        return ", ".join(f"node {node} ({name}): {rule}" for node, name, rule in moved)
    count = Counter(rule for _, _, rule in moved)
    return f"{plural(len(moved), 'move')}, {', '.join(f'{number} {rule}' for rule, number in count.most_common())}"


def edit(event: Event) -> str:
    """Returns a text for an event other than a grant and a close. For an event of an unknown kind, the text is the
    words of its line."""
    if event.kind in ("link", "cut"):
        return f"{'added' if event.kind == 'link' else 'removed'} the link between {event.words[1]} and {event.words[2]}"
    if event.kind == "release":
        return f"dropped the granted move of node {event.words[1]}"
    if event.kind != "fault":
        return " ".join(event.words)
    _, node, p, m = event.words
    return f"fault at node {node}: p {'null' if p == '-' else p}, m {m}"


def edits(events: Sequence[Event]) -> str:
    """Returns one text for several events of one kind, which are faults, links or cuts. The text has their number and
    the nodes."""
    nodes = sorted({node for event in events for node in event.nodes})
    return f"{plural(len(events), KINDS[events[0].kind])} at {nodes_in_words(nodes)}"


def nodes_in_words(nodes: Sequence[int]) -> str:
    """Returns a text that lists nodes. For many nodes, the text has the first ones and the number of the others."""
    shown = ", ".join(map(str, nodes[:MOST_NODES]))
    more = len(nodes) - MOST_NODES
    return f"nodes {shown} and {more} more" if more > 0 else f"node{'s' if len(nodes) > 1 else ''} {shown}"


def some(texts: Sequence[str], most: int, what: str) -> str:
    """Returns a text that lists these texts, or the first `most` of them and the number of the others. `what` is the
    noun for one of them, such as `node`."""
    more = len(texts) - most
    return ", ".join(texts[:most]) + (f", and {plural(more, f'more {what}')}" if more > 0 else "")
