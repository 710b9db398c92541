"""The run of a case: a class that becomes stable, and the troubles during the run. A bot meets each trouble in real
classes too.

Each trouble is a function here, whose `attempt` is the bot's attempt at the case. A node is *privileged* if a rule is
enabled there. Most of these functions make a fault at a node of the bot, so that the node becomes privileged and the
bot has to move it. Then they run the class until it is stable again. All raise `Fails` if the bot does something wrong
or is too late, and `Stopped` after an interrupt. The *number* is that of the present configuration, and a move is
*stale* if it has an earlier one. A granted move is *chosen* until a step applies it, and each connection takes a *seat*
at the server.
"""
from __future__ import annotations

import itertools
import time
from collections.abc import Callable

from classroom.bots import explaining, relay
from classroom.bots.attempt import AGAIN, ON, Attempt, Fails, Stopped
from classroom.bots.conduct import polling_fault
from classroom.bots.playing import TEACHER
from classroom.bots.suites import (
    BUSY, CUT, DROP, FAULT, LONG_REST, LOST, MEMORY, OPEN, OVER, OVERTAKE, RELEASE, RELINK, REST, RULES, SEAT, TAKEN, TURN,
)
from classroom.core import networks
from classroom.core.program import Fault

QUIET = 0.6  # seconds for which a bot is watched while its class is stable
LATE = 0.2  # seconds of rest after which a bot's requests are counted
RESTING, LONGEST_REST, LONG_OPEN, GONE, TURNED_AWAY = 12.0, 65.0, 2.0, 8.0, 3.0  # All are in seconds.
MOST_FAULTS = 4  # nodes of the bot at which faults are made one after another
OVERTAKES, ROUNDS = 5, 8  # the number of moves before which a step is closed, and the most faults that are made for them
TURNS = 2  # the number of moves before which their node is set to other registers
DRAWS, TRIES = 20, 12  # the number of different configurations at a node, and the most draws for each
LOOKED = 0.15  # seconds after a look within which a bot asks for a move, if it does


def run(attempt: Attempt) -> None:
    """Runs the whole case, from the bot's start to its last trouble. Raises `Fails` with what is wrong, and `Stopped`
    after an interrupt."""
    troubles = attempt.case.troubles
    attempt.playing.relay.busy = BUSY in troubles
    attempt.launch()
    if BUSY in troubles:
        turned_away(attempt)
    attempt.until_greeted()
    attempt.doing = ON
    attempt.until_stable()
    check_rest(attempt, QUIET)
    for trouble in troubles:
        if trouble in EACH:
            EACH[trouble](attempt)
    check_rest(attempt, QUIET)
    if OVER in troubles:
        over(attempt)


def check_rest(attempt: Attempt, seconds: float) -> None:
    """Runs the stable class for LATE seconds, in which the bot's lines don't count, and then for `seconds` seconds.
    Raises `Fails` if in this time the bot sends its lines too fast, or asks for more moves than it has nodes. One move
    for each node is accepted, because the bot may ask for it after an earlier look."""
    attempt.run_for(LATE)
    before, lines, since = attempt.heard.asked, attempt.heard.lines, time.monotonic()
    attempt.run_for(seconds)
    if wrong := polling_fault(attempt.heard.lines - lines, time.monotonic() - since, len(attempt.nodes())):
        raise Fails(wrong)
    asked = attempt.heard.asked - before
    if asked > len(attempt.nodes()):
        raise Fails(f"the bot asked for {asked} moves although no guard held at any node: ask only if a guard holds")


def hurt(attempt: Attempt, of: list[int] | None = None) -> int:
    """Makes a fault at a random node of the bot, so that this node becomes privileged, and returns the node. The node
    is one of those in `of`, or if `of` is None one that the bot owns alone. Raises `Fails` if no registers make one of
    these privileged."""
    playing, nodes = attempt.playing, attempt.nodes_owned_alone() if of is None else of
    for node in attempt.chance.sample(nodes, len(nodes)):
        look = playing.program.ask(TEACHER, do="look", node=node)
        ways = list(itertools.product([None, *(each["node"] for each in look["near"])], (True, False)))
        for p, m in attempt.chance.sample(ways, len(ways)):
            playing.fault(node, p, m)
            if node in privileged(attempt):
                return node
    raise Fails("no values of the registers make a node of the bot privileged, so this lab can't test the bot: give it other nodes")


def privileged(attempt: Attempt) -> dict[int, str]:
    """Returns the rule of each privileged node, as the proved program reports them."""
    return dict(attempt.playing.report["privileged"])


def until_granted(attempt: Attempt, node: int, what: str) -> None:
    """Runs the class until the bot's move of a node is granted. Raises `Fails` after the time limit. Its text begins
    with `what`, which says what happened before, and what the bot didn't do."""
    end = time.monotonic() + attempt.limits.seconds
    while node not in attempt.playing.chosen:
        if time.monotonic() > end:
            raise Fails(f"{what} within {attempt.limits.seconds:g} seconds{attempt.playing.explain_silence(attempt.case.who)}"
                        f"{explaining.of_waiting(attempt.playing, attempt.case.who)}")
        attempt.turn()


def fault(attempt: Attempt) -> None:
    """Makes faults at several nodes of the bot, one after another. Runs the class until it is stable after each. Raises
    `Fails` if the bot does something wrong or is too late."""
    for each in attempt.chance.sample(attempt.nodes_owned_alone(), min(MOST_FAULTS, len(attempt.nodes_owned_alone()))):
        node = hurt(attempt, [each])
        attempt.until_stable(f"a fault at node {node}")


def cut(attempt: Attempt) -> None:
    """Closes the bot's connections, and waits until it says hello again. If the case sends replies in pieces, closes
    them in the middle of a reply. Then makes a fault at a node of the bot. Raises `Fails` if the bot does something
    wrong or is too late."""
    before, port, end = attempt.heard.greeted, attempt.playing.relay, time.monotonic() + attempt.limits.seconds
    while attempt.case.piece and not any(caller.held for caller in port.callers) and time.monotonic() < end:
        attempt.turn()
    port.hang_up_all()
    attempt.until_greeted_again(before, "connection was closed")
    if attempt.case.piece:
        attempt.doing = f", after its connection was closed in the middle of a reply (a bot ignores a reply without its end){ON}"
    node = hurt(attempt)
    attempt.until_stable(f"the loss of the bot's connection and a fault at node {node}")
    attempt.doing = ON


def rest(attempt: Attempt, seconds: float = RESTING) -> None:
    """Runs the stable class for `seconds` seconds, and then makes a fault at a node of the bot. Raises `Fails` if the
    bot didn't look at all its nodes meanwhile, sent too many lines or requests for moves (`check_rest`), or doesn't
    move the node."""
    attempt.doing = f", after the network was stable for some seconds{ON}"
    recent = attempt.heard.conduct.recent
    recent.clear()
    check_rest(attempt, seconds)
    if missed := [f"node {node}" for node in attempt.nodes() if node not in recent]:
        raise Fails(f"the network was stable for {seconds:g} seconds, and the bot didn't look at {' and '.join(missed)}: look at all nodes again and again, "
                    "since a fault may come at any time")
    node = hurt(attempt)
    attempt.until_stable(f"{seconds:g} seconds in which the network was stable, and a fault at node {node}")
    attempt.doing = ON


def long_rest(attempt: Attempt) -> None:
    """Runs the stable class for more than a minute, and then makes a fault at a node of the bot. Raises `Fails` if the
    bot does something wrong meanwhile, or doesn't move the node."""
    rest(attempt, LONGEST_REST)


def open_step(attempt: Attempt) -> None:
    """Makes a fault at a node of the bot, and leaves the step open for LONG_OPEN seconds after the bot's move of this
    node was granted. Raises `Fails` if the bot does something wrong or is too late."""
    attempt.playing.is_held = True
    node = hurt(attempt)
    until_granted(attempt, node, f"the bot didn't ask for a move of node {node}, which a fault made privileged,")
    attempt.doing = f", while the step stayed open after its move was granted (the teacher may close the step much later){ON}"
    attempt.run_for(LONG_OPEN)
    attempt.playing.is_held, attempt.doing = False, ON
    attempt.until_stable(f"a fault at node {node} and a step that stayed open for {LONG_OPEN:g} seconds")


def release(attempt: Attempt) -> None:
    """Drops the bot's granted move without a close, so that the number of the configuration stays the same, and checks
    that the bot asks for it again. Raises `Fails` if it doesn't."""
    playing = attempt.playing
    playing.is_held = True
    node = hurt(attempt)
    until_granted(attempt, node, f"the bot didn't ask for a move of node {node}, which a fault made privileged,")
    attempt.run_for(LATE)
    playing.release(node)
    until_granted(attempt, node, f"the teacher released the bot's granted move of node {node} in configuration {playing.report['at']}, and the bot didn't ask "
                                 "again (look again a little later after a grant: `at` stays the same, but `chosen` is null)")
    playing.is_held = False
    attempt.until_stable(f"a fault at node {node} and the release of a granted move")


def overtake(attempt: Attempt) -> None:
    """Makes the bot's moves stale, OVERTAKES times. Each time, makes a new configuration between the bot's look and its
    move: closes a step, or makes a fault if no move is chosen (`Playing.next_configuration`). So that the bot has to
    move, makes faults at its nodes, ROUNDS at most. Raises `Fails` if the bot does something wrong or is too late."""
    attempt.doing = f", after a step was closed between its look and its move (`stale` is no error: look again){ON}"
    attempt.playing.overtakes = OVERTAKES
    for _ in range(ROUNDS):
        node = hurt(attempt)
        attempt.until_stable(f"a fault at node {node} and a step that was closed between look and move")
        if not attempt.playing.overtakes:
            break
    attempt.playing.overtakes, attempt.doing = 0, ON


def turn(attempt: Attempt) -> None:
    """Makes a fault at a node of the bot, TURNS times. Each time sets the node's registers again between the bot's look
    and its move, so that another rule is enabled there. Raises `Fails` if the bot does something wrong or is too
    late."""
    attempt.doing = f", after a fault between its look and its move (`stale` is no error: look again){ON}"
    for _ in range(TURNS):
        attempt.playing.turns = 1
        node = hurt(attempt)
        attempt.until_stable(f"a fault at node {node} and another fault there between look and move")
    attempt.playing.turns, attempt.doing = 0, ON


def drop(attempt: Attempt) -> None:
    """Drops the bot's granted move by a fault at another node, and checks that the bot asks for the move again. The
    fault sets the other node's registers to their present values. Raises `Fails` if the bot doesn't ask again."""
    playing = attempt.playing
    playing.is_held = True
    node = hurt(attempt)
    until_granted(attempt, node, f"the bot didn't ask for a move of node {node}, which a fault made privileged,")
    attempt.run_for(LATE)
    other = next(each.id for each in reversed(attempt.case.made.nodes) if each.id != node)
    it = playing.program.ask(TEACHER, do="see", node=other)
    playing.fault(other, it["p"], it["m"])
    until_granted(attempt, node, f"a fault at node {other} dropped the bot's granted move of node {node}, and the bot didn't ask again (a granted "
                         "move isn't applied yet: look again, and ask again if `chosen` is null)")
    playing.is_held = False
    attempt.until_stable(f"a fault at node {node} and another fault, which dropped the granted move")


def link_nodes(attempt: Attempt, node: int, other: int) -> None:
    """Links a node of the bot with the node `other`, which isn't its neighbour. Sets registers so that `other` is the
    only node that points at the bot's node, and checks that the bot asks for the marriage. Raises `Fails` if it
    doesn't."""
    playing = attempt.playing
    playing.is_held = True
    playing.relink("link", node, other)
    for each in near_of(attempt, node):
        # The old neighbours can't be seduced, because their m is true. So the marriage is the only rule that can be applied.
        playing.fault(each, node if each == other else None, each != other)
    playing.fault(node, None, False)
    until_granted(attempt, node, f"the teacher linked node {node} with node {other}, which points at node {node}, and the bot didn't ask for the "
                         "marriage (neighbours change in a run: take them from your last look)")
    playing.is_held = False
    attempt.until_stable(f"the teacher linked nodes {node} and {other}")


def cut_pair(attempt: Attempt, node: int, other: int) -> None:
    """Sets registers so that a node of the bot is married to its neighbour `other`. Waits until the bot has looked at
    the node, cuts the link between the two, and checks that the bot asks for a move of the node. Raises `Fails` if it
    doesn't."""
    playing = attempt.playing
    playing.is_held = True
    for each in near_of(attempt, node):
        playing.fault(each, node if each == other else None, True)
    playing.fault(node, other, True)
    until_looked(attempt, node)
    playing.relink("cut", node, other)
    until_granted(attempt, node, f"the teacher removed the link between the married nodes {node} and {other}, and the bot didn't ask for a move of node "
                         f"{node} (neighbours change in a run: take them from your last look)")
    playing.is_held = False
    attempt.until_stable(f"the teacher removed the link between nodes {node} and {other}")


def relink(attempt: Attempt) -> None:
    """Adds a link at a node of the bot and cuts it. If the node is linked with all other nodes, cuts a link first and
    adds it again. Raises `Fails` if the bot doesn't move the node after each change."""
    node = attempt.chance.choice(attempt.nodes_owned_alone())
    near = near_of(attempt, node)
    far = [each.id for each in attempt.case.made.nodes if each.id not in (node, *near)]
    other = attempt.chance.choice(far or near)
    for what in (link_nodes, cut_pair) if far else (cut_pair, link_nodes):
        what(attempt, node, other)


def memory(attempt: Attempt) -> None:
    """Makes a fault at a node of the bot. Then refuses two of the bot's looks and one request for a move with `memory`,
    as a server that is out of memory does. Raises `Fails` if the bot does something wrong or is too late afterwards."""
    attempt.doing = f", after the refusal `memory`, which means: ask again a little later{ON}"
    attempt.playing.short.update({"look": 2, "move": 1})
    node = hurt(attempt)
    attempt.until_stable(f"a fault at node {node} and some lines that were refused as `memory`")
    attempt.playing.short.clear()
    attempt.doing = ON


def seat(attempt: Attempt) -> None:
    """Closes the bot's connections with the line `busy`, as if newcomers needed its seats, waits until it says hello
    again, and makes a fault at a node of the bot. Raises `Fails` if the bot does something wrong or is too late."""
    before = attempt.heard.greeted
    attempt.playing.relay.end_all(relay.BUSY)
    attempt.until_greeted_again(before, "seat was given to a new connection, with the last line `busy`")
    node = hurt(attempt)
    attempt.until_stable(f"the loss of the bot's seat and a fault at node {node}")


def taken(attempt: Attempt) -> None:
    """Lets another owner of a shared node ask for its move first: once before the bot looks, and then between the bot's
    look and its move. Raises `Fails` if the bot does something wrong or is too late."""
    playing, shared = attempt.playing, [node for node in attempt.nodes() if node not in attempt.nodes_owned_alone()]
    attempt.doing = f", after another owner asked first for the move of a shared node (`chosen` is no error: look again a little later){ON}"
    playing.is_held = True
    playing.ask_for_house_move(hurt(attempt, shared))
    attempt.run_for(3 * LATE)
    playing.is_held = False
    attempt.until_stable("another owner asked first for the move of a shared node")
    playing.forestalls = True
    node = hurt(attempt, shared)
    attempt.until_stable(f"a fault at node {node}, for whose move another owner asked first")
    playing.forestalls, attempt.doing = False, ON


def lost(attempt: Attempt) -> None:
    """Drops the reply to a granted move of the bot and closes its connections. Then doesn't listen for GONE seconds,
    like the server of a class that is resumed. Raises `Fails` if the bot doesn't connect again or does something wrong,
    and `Fault` if another program has taken the port meanwhile."""
    playing = attempt.playing
    playing.is_held = playing.loses = True
    node, before = hurt(attempt), attempt.heard.greeted
    end = time.monotonic() + attempt.limits.seconds
    while not playing.has_lost:
        if time.monotonic() > end:
            raise Fails(f"the bot didn't ask for a move of node {node}, which a fault made privileged, within {attempt.limits.seconds:g} seconds"
                        f"{playing.explain_silence(attempt.case.who)}{explaining.of_waiting(playing, attempt.case.who)}")
        attempt.turn()
    what = f"server was stopped for {GONE:g} seconds"
    attempt.doing = f", after its {what} ({AGAIN})"
    playing.relay.hang_up_all()
    playing.relay.pause()
    end = time.monotonic() + GONE
    while time.monotonic() < end:
        attempt.turn()
    try:
        playing.relay.resume()
    except OSError as error:
        raise Fault(f"port {playing.relay.port} can't be opened again: {error.strerror}; try the bot again", 4) from None
    attempt.until_greeted_again(before, what)
    playing.is_held = playing.loses = playing.has_lost = False
    attempt.until_stable(f"a fault at node {node} and {GONE:g} seconds without a server")


def turned_away(attempt: Attempt) -> None:
    """Answers the bot's connections with `busy` for TURNED_AWAY seconds, and then waits for its hello. Raises `Fails`
    if the bot connects too often meanwhile, or says no hello in time."""
    port, end = attempt.playing.relay, time.monotonic() + attempt.limits.seconds
    while not port.calls:
        if time.monotonic() > end:
            raise attempt.no_hello()
        attempt.turn()
    attempt.doing = ", after the reply `busy`: all seats are taken, so a bot connects again a second later"
    came, since = len(port.calls), time.monotonic()
    attempt.run_for(TURNED_AWAY)
    most = len(attempt.nodes()) * (time.monotonic() - since + 2)  # for each node, one connection a second and two to spare
    if len(port.calls) - came > most:
        raise Fails(f"the bot connected {len(port.calls) - came} times in {TURNED_AWAY:g} seconds in which the reply was `busy`: connect again a second later")
    port.busy, attempt.doing = False, ""
    attempt.until_greeted()


def over(attempt: Attempt) -> None:
    """Ends the class, and waits for the end of the bot. Raises `Fails` if the bot keeps running or is killed, and
    `Stopped` after an interrupt."""
    assert attempt.kept is not None
    attempt.playing.relay.end_class()
    end = time.monotonic() + attempt.limits.seconds
    while not (how := attempt.kept.ended()):
        if time.monotonic() > end:
            raise Fails(f"the bot is still running {attempt.limits.seconds:g} seconds after it got the line `over`: a bot ends when the class is over")
        if attempt.stop.is_set():
            raise Stopped
        attempt.playing.turn()
    if how.startswith("killed"):
        raise Fails(attempt.end_reason(how))


def near_of(attempt: Attempt, node: int) -> list[int]:
    """Returns the present neighbours of a node."""
    return networks.neighbours([each.id for each in attempt.case.made.nodes], attempt.playing.links)[node]


def until_looked(attempt: Attempt, node: int) -> None:
    """Runs the class until the bot has looked at a node in the present configuration. Raises `Fails` after the time
    limit."""
    at, end = attempt.playing.report["at"], time.monotonic() + attempt.limits.seconds
    while (node, at) not in attempt.heard.conduct.looked:
        if time.monotonic() > end:
            raise Fails(f"the bot didn't look at node {node} again within {attempt.limits.seconds:g} seconds"
                        f"{attempt.playing.explain_silence(attempt.case.who)}")
        attempt.turn()


def draw_registers(attempt: Attempt, node: int, known: set[tuple[str | None, int, bool]]) -> None:
    """Sets the registers of a node and its neighbours to drawn values, each by a fault. Repeats this until the node is
    of a kind that isn't in `known`, and adds the kind there. The kind has three parts: the node's enabled rule as the
    proved program reports it, a number for its p, and its m. The number is 0 for null, 1 for a higher node, and -1 for
    a lower one. After TRIES draws without a new kind, the last drawn values stay."""
    near = networks.neighbours([each.id for each in attempt.case.made.nodes], attempt.case.made.links)
    for _ in range(TRIES):
        for each in (*near[node], node):  # The node is the last, so p and m are its own after the loop.
            p, m = attempt.chance.choice([None, attempt.chance.choice(near[each]), node if each != node else None]), attempt.chance.random() < 0.5
            attempt.playing.fault(each, p, m)
        sign = (privileged(attempt).get(node), 0 if p is None else 1 if p > node else -1, m)
        if sign not in known:
            known.add(sign)
            return


def rules(attempt: Attempt) -> None:
    """Draws configurations around a node of the bot, one after another without a close. Checks that in each the bot
    asks for the rule that the proved program reports, and for nothing if there is none. Raises `Fails` if it
    doesn't."""
    playing, links = attempt.playing, attempt.case.made.links
    # The lowest node that has both a lower and a higher neighbour, if there is one, so that there are more kinds.
    node = max(attempt.nodes_owned_alone(), key=lambda node: (any(node == b for a, b in links) + any(node == a for a, b in links), -node))
    known: set[tuple[str | None, int, bool]] = set()
    playing.is_held = True
    for _ in range(DRAWS):
        draw_registers(attempt, node, known)
        rule = privileged(attempt).get(node)
        if rule is not None:
            until_granted(attempt, node, f"the bot didn't ask for {rule} at node {node}, which is privileged,")
            continue
        until_looked(attempt, node)
        attempt.run_for(LOOKED)  # A request for a move would be denied now, which fails the case.
    playing.is_held = False
    attempt.until_stable(f"faults at node {node} and its neighbours")


EACH: dict[str, Callable[[Attempt], None]] = {
    FAULT: fault, CUT: cut, REST: rest, OPEN: open_step, RELEASE: release, OVERTAKE: overtake, LOST: lost, TAKEN: taken,
    RULES: rules, LONG_REST: long_rest, TURN: turn, DROP: drop, RELINK: relink, MEMORY: memory, SEAT: seat,
}
