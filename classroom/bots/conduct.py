"""What a student's program knows from the replies that it got, and the first of its lines that a correct program
wouldn't have sent.

Each rule here is one that `docs/STUDENT.md` asks a bot to keep. Guards, the conditions under which a node may move,
aren't among them, because the server denies those moves. The *number* of a look or a move is that of the configuration
in which the program asked. A granted move is *chosen* until a step applies it, and `stale` is the denial of a move with
an old number. In the functions, `asked` has the values of a request, and `reply` those of its reply.
"""
from __future__ import annotations

from collections import Counter, deque
from dataclasses import dataclass, field
from typing import Any

# The most moves for nodes that a reply has shown to be chosen already, and the most `stale` answers for one node and
# number.
MOST_AGAIN = 2
# Moves with another number than that of the last look are a fault if they are more than MOST_BEHIND, and also more than
# one in SHARE of all moves. Fewer such moves are no fault, since the lines of two threads may overtake each other.
MOST_BEHIND, SHARE = 9, 4
MOST_ACROSS = 4  # the most moves on a new connection with the number of a look on a lost one, since threads may send late
FLOOD = 200  # the number of last lines among which pauses are counted
RATE = 50  # while nothing changes, a bot of n nodes may send n + 1 times this number of lines a second
QUITS = 4  # connections that a bot may end by itself, in addition to one for each node
MINUTE = 60.0
FLOODS = "the bot floods the server: it sends line after line without a pause; a bot waits a tenth of a second when it has looked at all its nodes"


def number_of(value: object) -> int:
    """Returns a value from a request if it is an integer, and otherwise 0. A truth value isn't an integer here."""
    return value if isinstance(value, int) and not isinstance(value, bool) else 0


def most_open(nodes: int) -> int:
    """Returns how many connections a bot with `nodes` nodes may have open at once. The number is two for each node, but
    at least `nodes + 2`."""
    return max(2 * nodes, nodes + 2)


def most_quits(nodes: int) -> int:
    """Returns how many connections a bot with `nodes` nodes may close by itself."""
    return nodes + QUITS


def polling_fault(lines: int, seconds: float, nodes: int) -> str:
    """Returns what is wrong with a bot of `nodes` nodes that sent `lines` lines in `seconds` seconds while nothing
    changed. Returns an empty text if these lines aren't too many."""
    if lines <= RATE * (nodes + 1) * seconds:
        return ""
    return (f"the bot sent {lines / seconds:.0f} lines a second while nothing changed: a bot waits a tenth of a second when it has looked at all its "
            "nodes")


def most_connections(nodes: int) -> int:
    """Returns how many connections a bot with `nodes` nodes may open in a minute."""
    return 20 + 10 * nodes


@dataclass
class Conduct:
    """The behaviour of one student's program, on all of its connections."""

    looked: set[tuple[int, int]] = field(default_factory=set)  # node and number of each look
    before: set[tuple[int, int]] = field(default_factory=set)  # node and number of each look on a lost connection
    unanswered: set[tuple[int, int]] = field(default_factory=set)  # node and number of each move whose reply was lost
    across: int = 0  # moves on a new connection with the number of a look on a lost one
    newest: dict[int, int] = field(default_factory=dict)  # the number of the last look, by node
    behind: int = 0  # moves with another number than that of the last look at their node
    asked: int = 0  # moves that it asked for
    seen: set[int] = field(default_factory=set)  # nodes that it looked at
    recent: set[int] = field(default_factory=set)  # nodes that it looked at since the class became stable
    chosen: dict[int, int] = field(default_factory=dict)  # the number at which a reply said that the node has a chosen move, by node
    in_vain: int = 0  # moves for nodes that it knew to be chosen
    stale: Counter[tuple[int, int]] = field(default_factory=Counter)  # `stale` answers by node and number
    pauses: deque[bool] = field(default_factory=lambda: deque(maxlen=FLOOD))  # whether there was a pause before the line, for each of the last lines
    rules_hidden: int = 0  # looks in which the enabled rule was replaced by null
    wrong: str = ""

    def take(self, asked: dict[str, Any], reply: dict[str, Any], paused: bool) -> None:
        """Notes a look of the program, or checks its request for a move, and records a fault in `wrong`. Doesn't check
        moves that were refused, or denied as `not-greeted` or `not-owner`. `asked` has the values of the line, and
        `reply` those of its reply, or none if the reply was lost. `paused` says whether the program waited before this
        line."""
        self.pauses.append(paused)
        node, at = number_of(asked.get("node")), number_of(asked.get("at"))
        if reply.get("ok") in ("look", "see"):
            self.take_look(reply)
        elif asked.get("do") == "move" and reply.get("deny") not in ("not-greeted", "not-owner") and "refuse" not in reply:
            self.check_move(node, at, reply)

    def take_look(self, reply: dict[str, Any]) -> None:
        """Notes the node, the number and the chosen move in `reply`, the values of a reply to `look` or `see`."""
        node, at = reply["node"], reply["at"]
        self.looked.add((node, at))
        self.seen.add(node)
        self.recent.add(node)
        self.newest[node] = at
        if reply.get("chosen") is not None:
            self.chosen[node] = at
        elif reply["ok"] == "look":  # A reply to `see` doesn't say whether a move is chosen.
            self.chosen.pop(node, None)

    def check_move(self, node: int, at: int, reply: dict[str, Any]) -> None:
        """Checks a request for a move of a node with the number `at` against what the program knew, and notes its
        reply. `reply` has the reply's values, or none if it was lost. Records a fault in `wrong`."""
        if not reply:
            self.unanswered.add((node, at))
        if (node, at) not in self.looked and (node, at) in self.before:
            self.across += 1
            if (node, at) in self.unanswered or self.across > MOST_ACROSS:
                self.note_fault(f"on a new connection the bot asks for a move of node {node} with the `at` of a look on the lost connection: after the hello, "
                                f"look at node {node} again")
        elif (node, at) not in self.looked:
            self.note_fault(f"the bot asks for a move of node {node} with `at` {at}, but none of its looks at node {node} had this `at`: look at the node "
                            "first, and ask with the `at` of that look")
        self.asked += 1
        is_behind = at != self.newest.get(node, at)
        self.behind += is_behind
        if is_behind and self.behind > MOST_BEHIND and SHARE * self.behind > self.asked:
            self.note_fault("the bot asks again and again with an `at` that isn't the one of its last look at the node, for instance for "
                            f"node {node} with `at` {at}: ask with the `at` of your last look at node {node}, which is {self.newest[node]}")
        if self.chosen.get(node) == at:
            self.in_vain += 1
            if self.in_vain > MOST_AGAIN:
                self.note_fault("the bot asks again and again for moves of nodes that have a granted move already, as replies said, for instance "
                                f"of node {node} with `at` {at}: after a grant look again a little later, and ask only if `chosen` is null")
        if reply.get("deny") == "stale":
            self.stale[node, at] += 1
            if self.stale[node, at] > MOST_AGAIN:
                self.note_fault(f"the bot asks again and again for a move of node {node} with `at` {at}, which was denied as `stale`: after `stale` look at "
                                "the node again")
        elif reply.get("ok") == "move" or reply.get("deny") == "chosen":
            self.chosen[node] = at

    def forget_looks(self) -> None:
        """Moves all looks to `before` after the program's last connection has ended. The program has to look again, so
        `check_move` accepts only a few moves with the numbers of these looks."""
        self.before |= self.looked
        self.looked.clear()

    def note_fault(self, why: str) -> None:
        """Records in `wrong` why a line is wrong. Keeps only the first fault."""
        self.wrong = self.wrong or why

    def is_flooding(self, nodes: int) -> bool:
        """Returns whether the last FLOOD lines of a bot with `nodes` nodes came almost without pauses. A correct bot
        pauses after it has looked at all its nodes, so one pause is enough for 4 * nodes + 4 lines. Returns false if
        the bot has sent fewer lines than FLOOD."""
        return len(self.pauses) == FLOOD and sum(self.pauses) * (4 * nodes + 4) < FLOOD
