"""A class without a server: students' programs play some nodes, the house plays the others, and a daemon closes steps.

The replies to all lines are those of the proved program. The *house* plays the nodes of the students without a program.
A granted move is *chosen* until a step applies it. The *daemon* decides when a step is closed, and which chosen moves
it applies. The *report* is the proved program's reply that lists the privileged nodes, those with an enabled rule. The
*relay* is the port to which students' programs connect, and the *adversary* searches for moves that make a run long. A
*clause* is one of the numbered conditions under which a request is granted. A *script* is a list of request lines that
repeats the run, each after the number of its connection.
"""
from __future__ import annotations

import json
import random
import re
import time
from collections import Counter
from collections.abc import Callable
from dataclasses import dataclass, field
from pathlib import Path
from types import TracebackType
from typing import Any

from classroom.bots.conduct import Conduct, number_of
from classroom.bots.relay import Relay
from classroom.client import Denied, reply_of, wrong
from classroom.core import lab as labs
from classroom.core.answering import Answering
from classroom.core.bench import network
from classroom.core.folders import title
from classroom.marks.hiding import Hider
from classroom.marks.history import Row, own_page
from classroom.run.adversary import Adversary
from classroom.run.daemons import Daemon, Sight, applied

TEACHER, HOUSE, FIRST = 1, 2, 3  # the numbers of connections: the teacher's, the house's, and the first one of a program
PACE = 0.02  # seconds between two looks of the house at its nodes
SHARED = 0.05  # the probability that at such a look the house asks for a node that a program plays too
KEPT_LINES = 20_000  # lines of a conversation that are kept
KEPT_ROWS = 2_000  # rows of all programs' own pages that are kept
SHOWN, SHOWN_LINE = 40, 120  # characters of a word and of a line that are shown in explanations
OWN_RULE = "with --own-rule the replies to looks don't name the rule whose guard holds: a bot has to find it from p, m and near (see docs/STUDENT.md)"
MEMORY = b'{"refuse":"memory"}'
RULE = re.compile(rb',"rule":"[a-z]+"}$')  # the enabled rule at the end of a reply to a look
PATIENCE = 0.5  # seconds without an event after which the random daemon, the schedule and the adversary close a step


@dataclass
class Heard:
    """The lines that one student's program sent, counted by their replies."""

    lines: int = 0
    asked: int = 0  # requests for moves
    granted: int = 0  # granted moves
    moved: int = 0  # moves that steps applied
    rules: Counter[str] = field(default_factory=Counter)  # the granted moves, by rule
    wanted: set[str] = field(default_factory=set)  # the rules that it asked for
    greeted: int = 0  # granted hellos
    denied: Counter[str] = field(default_factory=Counter)  # denials and refusals, by their word
    conduct: Conduct = field(default_factory=Conduct)
    last: str = ""  # the last line that came
    last_at: float = 0.0  # the time at which it came


@dataclass(frozen=True)
class NotGranted:
    """A line that wasn't granted, and the reason. `word` is that of the denial or refusal, and `text` explains it."""

    who: str
    word: str
    text: str
    kind: str  # a text that is the same for all lines with the same explanation
    line: bytes = b""  # the line, with the number of its connection before it, as in a script


@dataclass(frozen=True)
class Step:
    """A closed step: its number, who moved by which rule, and the report after it."""

    at: int
    moved: list[tuple[int, str, str]]
    report: dict[str, Any]


def request_of(line: bytes) -> dict[str, Any]:
    """Returns the values of the JSON object in a line. Returns no values if the line isn't an object."""
    try:
        asked = json.loads(line)
    except (ValueError, RecursionError):
        return {}
    return asked if isinstance(asked, dict) else {}


def kind_of(asked: dict[str, Any], reply: dict[str, Any]) -> str:
    """Returns a text for the kind of a denial, without its numbers: the request, the clause that denied it, and for a
    guard also the rule. `asked` has the request's values, and `reply` those of its reply. Denials of one kind are
    explained once."""
    what = str(asked.get("do"))[:SHOWN] + (f" by {asked.get('rule')}" if reply["deny"] == "guard" else "")
    return f"{what} is denied as {reply['deny']}, clause {reply['clause']}"


def request_in_words(asked: dict[str, Any]) -> str:
    """Returns a text for a request that the server has understood, such as `move at node 1 by marriage with 2`. `asked`
    has the request's values."""
    text = str(asked.get("do")) + (f" at node {asked['node']}" if "node" in asked else "")
    if asked.get("do") == "move":
        text += f" by {asked.get('rule')}" + (f" with {asked.get('with')}" if asked.get("rule") == "marriage" else "")
    return text


class Playing:
    """A class in this process, in which programs and the house play, with its port."""

    def __init__(self, lab: labs.Lab, programs: list[str], daemon: Daemon, seed: str, port: int = 0, own_rule: bool = False) -> None:
        """Begins the class of a lab, and opens its port, or any free one if `port` is 0. Students' programs play the
        students in `programs`, and the house plays all other students. `daemon` closes the steps, and `seed` determines
        all random choices. With `own_rule` no look shows a program the enabled rule. Raises `OSError` if the port is
        taken, and `Fault` if the proved program isn't built."""
        self.lab, self.programs, self.daemon = lab, programs, daemon
        self.chance, self.pace_chance = random.Random(f"{seed} daemon"), random.Random(f"{seed} house")
        self.adversary = Adversary(seed, max)  # `max`: of several possible partners, a student's client chooses the highest.
        self.heard = {name: Heard() for name in programs}
        self.hider = Hider({*lab.students.values(), lab.teacher[1]}, [*lab.students, lab.teacher[0]])
        self.names: dict[int, str] = {}  # the student who has greeted on each connection
        self.chosen: dict[int, tuple[str, str]] = {}  # by node: who asked for the chosen move there, and its rule
        self.conversation: list[str] = []  # the programs' lines and their replies, as texts
        self.rows: list[Row] = []  # the lines that the programs' own pages show
        self.owners: list[str] = []  # the student whose program sent the line of each row
        self.on_no: Callable[[NotGranted], None] = lambda no: None
        self.on_step: Callable[[Step], None] = lambda step: None
        self.own_rule = own_rule
        self.is_held = False  # whether steps stay open, regardless of the daemon
        self.links = lab.links  # the present links
        self.overtakes = 0  # before each of this many next moves, a new configuration is made
        self.turns = 0  # before each of this many next moves, its node's registers are set so that another rule is enabled
        self.short: Counter[str] = Counter()  # how many of the next lines with a `do` are refused as if out of memory
        self.forestalls = False  # whether the house asks for the move of a shared node just before its other owner does
        self.loses, self.has_lost = False, False  # whether to drop the reply to the next granted move, and whether one was dropped
        self.closes = self.moves = self.since_moves = 0  # closes, applied moves, and those since the last change
        self.news = self.closed = self.paced = time.monotonic()  # the last event, close, and look of the house
        self.program = Answering(lab)
        try:
            self.program.greet(TEACHER, lab.teacher[0])
            self.report = self.program.ask(TEACHER, do="report")
            self.relay = Relay(self.answer, self.say_bye, range(FIRST, lab.sessions + 1), port)
        except BaseException:
            self.program.close()
            raise

    # Lines of programs.

    def answer(self, connection: int, line: bytes, paused: bool) -> bytes:
        """Answers a program's line on the connection with this number, and records it. `paused` says whether the line
        came after a pause. A request for a move in the current configuration may first be disturbed (`interfere`), and
        any line may be refused as if out of memory (`take_refusal`). Returns the reply that the program gets. Returns
        no bytes if the reply is to be lost (`take_loss`); the relay then closes the connection. A move whose reply is
        lost stays granted."""
        request = request_of(line)
        if request.get("do") == "move" and request.get("at") == self.report["at"]:
            self.interfere(number_of(request.get("node")), str(request.get("rule")))
        raw = MEMORY if self.take_refusal(str(request.get("do"))) else self.program.answers([(connection, line)])[0]
        reply = reply_of(raw)
        self.program.keep(connection, line, reply)
        who = self.speaker(connection, reply)
        is_lost = self.take_loss(reply)
        shown = b"" if is_lost else self.hide_rule(who, raw, reply)
        self.log_conversation(connection, line, shown)
        self.heard[who].conduct.take(request, {} if is_lost else reply, paused)
        self.record_line(who, request, b"%d %s" % (connection, line), reply)
        if reply.get("ok") == "bye":
            self.forget(connection)
        return shown

    def speaker(self, connection: int, reply: dict[str, Any]) -> str:
        """Returns the student who has greeted on a connection, for whom its lines are counted. If nobody has greeted
        there, returns the first program's student. If this reply grants a hello, notes the name and counts the
        hello."""
        if reply.get("ok") == "hello":
            self.names[connection] = reply["who"]
            self.heard.setdefault(reply["who"], Heard()).greeted += 1
        return self.names.get(connection, self.programs[0])

    def take_loss(self, reply: dict[str, Any]) -> bool:
        """Returns whether the program doesn't get this reply, because `loses` is set and the reply grants a move.
        Clears `loses` then."""
        is_lost = self.loses and reply.get("ok") == "move"
        if is_lost:
            self.loses, self.has_lost = False, True
        return is_lost

    def take_refusal(self, do: str) -> bool:
        """Returns whether a request with this `do` is to be refused as if out of memory. Counts down the refusals that
        `short` has for it."""
        is_refused = self.short[do] > 0
        self.short[do] -= is_refused
        return is_refused

    def interfere(self, node: int, rule: str) -> None:
        """Disturbs a program's request for a move of this node by this rule, just before it is answered. If `overtakes`
        is set, makes a new configuration. Else, if `turns` is set and the house doesn't play the node, sets its
        registers so that another rule is enabled. Else, if `forestalls` is set and the house plays the node too, lets
        the house ask for its move, unless a move is chosen there. Otherwise does nothing."""
        if self.overtakes:
            self.overtakes -= 1
            self.next_configuration()
        elif self.turns and self.house_owner(node) is None:
            self.turns -= 1
            self.turn_to_another(node, rule)
        elif self.forestalls and node not in self.chosen and self.house_owner(node):
            self.ask_for_house_move(node)

    def hide_rule(self, who: str, raw: bytes, reply: dict[str, Any]) -> bytes:
        """Returns the bytes `raw` of a reply as the program of the student `who` gets them. With `own_rule`, the
        enabled rule in a look is replaced by null, and this is counted. `reply` has the values of the reply."""
        if not self.own_rule or reply.get("ok") != "look" or reply["rule"] is None:
            return raw
        self.heard[who].conduct.rules_hidden += 1
        return RULE.sub(b',"rule":null}', raw)

    def log_conversation(self, connection: int, line: bytes, reply: bytes) -> None:
        """Appends a line of the connection with this number, and its reply, to the conversation, unless the
        conversation has KEPT_LINES lines already."""
        if len(self.conversation) < KEPT_LINES:
            self.conversation += [f"{connection} > {line.decode(errors='backslashreplace')}", f"{connection} < {reply.decode() or '(lost)'}"]

    def record_line(self, who: str, asked: dict[str, Any], sent: bytes, reply: dict[str, Any]) -> None:
        """Counts a line of the program of the student `who` by its reply, and keeps a row about the line (`note_row`).
        If a move was granted, also notes that its node is chosen. Calls `on_no` if the line was denied or refused.
        `asked` has the line's values, and `sent` is the line, with the number of its connection before it. `reply` has
        the values of its reply."""
        heard, line = self.heard[who], sent.partition(b" ")[2]
        self.note_row(who, sent, reply)
        heard.lines += 1
        heard.last, heard.last_at = line[:SHOWN_LINE].decode(errors="backslashreplace"), time.monotonic()
        if asked.get("do") == "move":
            heard.asked += 1
            heard.wanted.add(str(asked.get("rule")))
        if reply.get("ok") == "move":
            heard.granted += 1
            heard.rules[reply["rule"]] += 1
            self.note_grant(reply["node"], who, reply["rule"])
        elif "deny" in reply:
            heard.denied[reply["deny"]] += 1
            self.on_no(NotGranted(who, reply["deny"], self.explain_denial(asked, reply), kind_of(asked, reply), sent))
        elif "refuse" in reply:
            heard.denied[reply["refuse"]] += 1
            note = wrong(line.decode(errors="surrogateescape").replace("\r", " ")) if reply["refuse"] == "malformed" else None
            text = f"a line is refused as {reply['refuse']}" + (f": {note}" if note else "")
            kind = text.partition(" (")[0]  # The correction in parentheses may contain a number.
            self.on_no(NotGranted(who, reply["refuse"], f"{text}; the line is {line[:SHOWN_LINE].decode(errors='backslashreplace')}", kind, sent))

    def note_row(self, who: str, sent: bytes, reply: dict[str, Any]) -> None:
        """Appends a row about a line to `rows`, which the programs' own pages show. Does so only if a move was granted,
        or if the line was denied or refused, and not once there are KEPT_ROWS rows. Keys in the line are hidden. `who`
        is the student, and `sent` is the line, with the number of its connection before it. `reply` has the values of
        its reply."""
        if reply.get("ok") not in ("move", None) or len(self.rows) >= KEPT_ROWS:
            return
        connection, _, line = sent.partition(b" ")
        # A row has the number of events before its line, and so without the event of a granted move.
        place = reply["place"] - 1 if "place" in reply else self.program.place
        text = json.dumps(reply, sort_keys=True, separators=(",", ":"))
        self.rows.append(Row(place, int(connection), 0, self.hider.line(line), text, reply.get("deny") or reply.get("refuse") or ""))
        self.owners.append(who)

    def own_rows(self, who: str) -> list[Row]:
        """Returns the rows about the lines of the program of the student `who`, in their order."""
        return [row for row, owner in zip(self.rows, self.owners) if owner == who]

    def explain_denial(self, asked: dict[str, Any], reply: dict[str, Any]) -> str:
        """Returns a text about a denial: its clause, the node's registers, and the rule that would be granted there.
        After the denials `not-owner`, `hidden` and `stale`, and if there is no such node, it has only the clause and
        the numbers of configurations. `asked` has the request's values, and `reply` those of its reply."""
        text = f"{request_in_words(asked)} is denied as {reply['deny']}, clause {reply['clause']}: {reply['text']}"
        if "at" in reply:
            text += f"; the request has `at` {asked.get('at')}, but the current configuration has the number {reply['at']}"
        node = number_of(asked.get("node"))
        if reply["deny"] in ("not-owner", "hidden", "stale") or node not in {each.id for each in self.lab.nodes}:
            return text
        look = self.program.ask(TEACHER, do="look", node=node)
        near = ", ".join(f"{each['node']} (p {each['p'] or 'null'}, m {str(each['m']).lower()})" for each in look["near"])
        text += f"; node {node} has p {look['p'] or 'null'} and m {str(look['m']).lower()}; its neighbours: {near or 'none'}"
        if look["chosen"]:
            return f"{text}; its move by {look['chosen']} is granted already, and waits for the end of the step"
        return f"{text}; {look['rule'] or 'no move'} would be granted there now"

    def explain_silence(self, who: str) -> str:
        """Returns a semicolon and the reason why the program of the student `who` sends no line, as far as its
        connections and earlier lines show the reason."""
        if self.relay.has_partial_line():
            return "; the bot sent a line without a newline at its end, so that the server waits for the rest of the line"
        if self.heard[who].greeted:
            return self.last_words(who)
        strangers = self.relay.came > sum(heard.greeted for heard in self.heard.values())
        return "; the bot connected, but sent no correct hello" if strangers else f"; the bot never connected to port {self.relay.port}"

    def last_words(self, who: str) -> str:
        """Returns a semicolon and a text about the program of the student `who`, which no longer sends lines. The text
        has the time of its last line, the line, and the nodes at which it never looked. If a rule was hidden from it,
        the text also says so."""
        heard = self.heard[who]
        ago = time.monotonic() - heard.last_at
        never = [f"node {node}" for node in self.lab.nodes_of(who) if node not in heard.conduct.seen]
        text = f"; the bot sent its last line {ago:.1f} seconds ago: {heard.last}"
        text += f"; the bot never looked at {' and '.join(never)}" * bool(never)
        hint = "; with --own-rule the key `rule` is null in each look: the bot has to find the rule from p, m and near"
        return text + hint * bool(heard.conduct.rules_hidden)

    def say_bye(self, connection: int) -> None:
        """Says bye to the proved program for a connection that has ended."""
        self.program.ask(connection, do="bye")
        self.forget(connection)

    def forget(self, connection: int) -> None:
        """Forgets who has greeted on a connection. If this was a program's last connection, the program's looks are
        forgotten too, since it has to look again."""
        who = self.names.pop(connection, None)
        if who is not None and who not in self.names.values():
            self.heard[who].conduct.forget_looks()

    # Granted moves, and changes of the network.

    def note_grant(self, node: int, who: str, rule: str) -> None:
        """Notes that a move of a node by the student `who` was granted with this rule, so that the node is chosen."""
        self.chosen[node] = (who, rule)
        self.news = time.monotonic()

    def renew_report(self) -> None:
        """Asks for the report of a new configuration. No node is chosen in it."""
        self.chosen.clear()
        self.report = self.program.ask(TEACHER, do="report")

    def fault(self, node: int, p: int | None, m: bool) -> None:
        """Sets a node's registers to `p` and `m`, as the teacher does by a fault. This makes a new configuration, in
        which no move is chosen."""
        self.program.ask(TEACHER, do="fault", node=node, p=p, m=m)
        self.since_moves = 0
        self.renew_report()
        self.news = time.monotonic()

    def turn_to_another(self, node: int, rule: str) -> None:
        """Sets a node's registers so that a rule other than `rule` is enabled there. If there are no such registers,
        leaves it at the last ones that were tried."""
        look = self.program.ask(TEACHER, do="look", node=node)
        for p in (None, *(each["node"] for each in look["near"])):
            for m in (False, True):
                self.fault(node, p, m)
                if dict(self.report["privileged"]).get(node) not in (None, rule):
                    return

    def relink(self, do: str, a: int, b: int) -> None:
        """Adds the link between the nodes a and b if `do` is `link`, or removes it if `do` is `cut`. This makes a new
        configuration, in which no move is chosen."""
        self.program.ask(TEACHER, do=do, a=a, b=b)
        ends = min(a, b), max(a, b)
        self.links = [*self.links, ends] if do == "link" else [link for link in self.links if set(link) != set(ends)]
        self.since_moves = 0
        self.renew_report()
        self.news = time.monotonic()

    def release(self, node: int) -> None:
        """Drops the chosen move of a node, without a close."""
        self.program.ask(TEACHER, do="release", node=node)
        self.chosen.pop(node)

    def next_configuration(self) -> None:
        """Makes a new configuration: closes a step with all chosen moves. If no move is chosen, makes a fault instead
        that sets a node's registers to their present values. The node is one that no program plays, if there is one."""
        if self.chosen:
            return self.close(list(self.chosen))
        node = next((each for each in self.lab.nodes if not set(each.owners) & set(self.programs)), self.lab.nodes[0])
        it = self.program.ask(TEACHER, do="see", node=node.id)
        self.fault(node.id, it["p"], it["m"])

    def close(self, nodes: list[int]) -> None:
        """Closes a step in which these chosen nodes move. Releases all other chosen moves first. Calls `on_step`."""
        for node in self.chosen.keys() - set(nodes):
            self.release(node)
        told = self.program.ask(TEACHER, do="close")
        moved = [(node, *self.chosen[node]) for node in told["moved"]]
        for _, who, _ in moved:
            if who in self.heard:
                self.heard[who].moved += 1
        self.closes, self.moves, self.since_moves = self.closes + 1, self.moves + len(moved), self.since_moves + len(moved)
        self.renew_report()
        self.news = self.closed = time.monotonic()
        self.on_step(Step(told["at"], moved, self.report))

    # Moves of the house, and the whole class.

    def house_owner(self, node: int) -> str | None:
        """Returns the first of a node's owners who has no program, or None if all of them have one. The house asks in
        the name of this owner."""
        return next((name for name in self.lab.owners(node) if name not in self.programs), None)

    def ask_for_house_moves(self) -> None:
        """Asks for moves of the privileged nodes that the house plays. Under the central daemon, whose closes apply one
        move, asks for one, and for none if a move is chosen already. Otherwise asks for all of them. Asks only now and
        then for a node that a program plays too."""
        nodes = [node for node, _ in self.report["privileged"] if node not in self.chosen and self.house_owner(node)]
        own = [node for node in nodes if not set(self.lab.owners(node)) & set(self.programs)]
        shared = [node for node in nodes if node not in own and self.pace_chance.random() < SHARED]
        if self.daemon.kind == "central":
            own = [] if self.chosen else [self.pace_chance.choice(own + shared)] if own + shared else []
            shared = []
        for node in own + shared:
            self.ask_for_house_move(node)

    def ask_for_house_move(self, node: int) -> None:
        """Asks for the enabled rule at a node that the house plays. Does nothing if no rule is enabled, or if a move is
        chosen there. A denial is ignored."""
        name = self.house_owner(node)
        assert name is not None
        self.program.greet(HOUSE, name)
        look = self.program.ask(HOUSE, do="look", node=node)
        if look["rule"] is None or look["chosen"] is not None:
            return
        move: dict[str, object] = {"do": "move", "node": node, "rule": look["rule"], "at": look["at"]}
        if look["rule"] == "marriage":
            move["with"] = self.pace_chance.choice([each["node"] for each in look["near"] if each["p"] == node])
        try:
            self.program.ask(HOUSE, **move)
            self.note_grant(node, name, look["rule"])
        except Denied:
            pass

    def turn(self) -> None:
        """Runs the class for a few milliseconds: answers lines, asks for the moves of the house, and closes a step if
        the daemon does. If `is_held` is set, closes no step."""
        self.relay.turn(PACE / 2)
        now = time.monotonic()
        if now - self.paced >= PACE:
            self.paced = now
            self.ask_for_house_moves()
        if self.is_held:
            return
        sight = Sight([node for node, _ in self.report["privileged"]], list(self.chosen), now - self.news, now - self.closed)
        rules = {node: rule for node, (_, rule) in self.chosen.items()}
        nodes = applied(self.daemon, sight, self.chance, PATIENCE, self.adversary.search_of(self.daemon, rules, self.present_lab))
        if nodes:
            self.close(nodes)

    def present_lab(self) -> labs.Lab:
        """Returns the network with its present registers and links, as a lab in which one student owns all nodes."""
        seen = [self.program.ask(TEACHER, do="see", node=node.id) for node in self.lab.nodes]
        return network([labs.Node(it["node"], [], it["p"], it["m"]) for it in seen], self.links)

    def is_stable(self) -> bool:
        """Returns whether no node is privileged."""
        return bool(self.report["stable"])

    def waiting(self) -> str:
        """Returns a text about what the class waits for. These are the moves that can be granted, each with its rule,
        node and owners. If there are none, it is the end of the step."""
        return ", ".join(f"{rule} at node {node} ({' and '.join(self.lab.owners(node))})"
                         for node, rule in self.report["privileged"] if node not in self.chosen) or "the step to be closed"

    def write(self, folder: Path) -> None:
        """Writes the lab, the script that repeats the run, and the conversation into the files `lab.toml`, `script` and
        `conversation.txt` of a folder. Raises `OSError` if that fails."""
        (folder / "lab.toml").write_text(labs.text(self.lab), encoding="utf-8")
        (folder / "script").write_bytes(self.program.script())
        (folder / "conversation.txt").write_text("".join(f"{line}\n" for line in self.conversation), encoding="utf-8")

    def own_page(self, folder: Path, who: str) -> str:
        """Returns the HTML page of what the program of the student `who` did: its requests, and each denial at its
        moment. `folder` must have the files of `write`, and the journal that the script makes."""
        lab, journal = folder / "lab.toml", folder / "journal"
        return own_page(f"{who}: {title(lab, journal)}", who, lab, journal, [], self.own_rows(who))

    def end(self) -> None:
        """Closes the port, and ends the proved program and the adversary, which searches for long runs."""
        self.relay.close()
        self.program.close()
        self.adversary.close()

    def __enter__(self) -> Playing:
        return self

    def __exit__(self, kind: type[BaseException] | None, error: BaseException | None, trace: TracebackType | None) -> None:
        self.end()
