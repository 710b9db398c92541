"""Explains the moves of a script that are denied, and what could be asked for at its end:

    python3 -B -m model.explain LAB SCRIPT

A line each: the number of the script's line, or `now`, then the node, then the explanation. It is for people who look
for a mistake. It has no effect on what is granted, denied or counted.
"""
import sys
from pathlib import Path

from model.fault import Fault, read_file
from model.lab import Lab, read_lab
from model.requests import Request, read_request
from model.run import Run, script_line, text_of
from model.world import Move, World

MOST = 16 << 20  # bytes of a file


def pointer_text(value: int | None) -> str:
    """Returns a node's pointer as a text, `null` if it points at none."""
    return "null" if value is None else str(value)


def no_update(world: World, i: int) -> str:
    """Returns why Update isn't enabled at node i, namely that m says correctly whether the node is married."""
    return f"m of node {i} is {str(world.m[i]).lower()} and node {i} is {'' if world.m[i] else 'not '}married, so there is nothing to update"


def no_marriage(world: World, i: int, k: int | None) -> str:
    """Returns the part of the guard of Marriage with node k that fails at node i. The part that all guards have, about m of i, must hold."""
    if world.p[i] is not None:
        return f"p of node {i} isn't null, but {world.p[i]}"
    if k not in world.links[i]:
        return f"node {k} is no neighbour of node {i}"
    return f"p of node {k} isn't {i}, but {pointer_text(world.p[k])}"


def no_seduction(world: World, i: int) -> str:
    """Returns the part of the guard of Seduction that fails at node i. The part that all guards have, about m of i, must hold."""
    if world.p[i] is not None:
        return f"p of node {i} isn't null, but {world.p[i]}"
    suitors = [k for k in world.near(i) if world.p[k] == i]
    if suitors:
        return f"p of node {suitors[0]} is {i}, so node {i} may marry, but not seduce"
    higher = [j for j in world.near(i) if j > i]
    if not higher:
        return f"no neighbour of node {i} has a greater number"
    j = higher[-1]  # None of them can be seduced. The text says why for the greatest one.
    return (f"no neighbour of node {i} with a greater number has p null and m false: "
            + (f"p of node {j} is {world.p[j]}" if world.p[j] is not None else f"m of node {j} is true"))


def no_abandonment(world: World, i: int) -> str:
    """Returns the part of the guard of Abandonment that fails at node i. The part that all guards have, about m of i, must hold."""
    j = world.p[i]
    if j is None:
        return f"p of node {i} is null, so there is nobody to abandon"
    if world.p[j] == i:
        return f"p of node {j} is {i}, so nodes {i} and {j} are a pair"
    return f"m of node {j} is false and {j} is not less than {i}, so node {i} has to wait for node {j}"


def failing(world: World, i: int, move: Move) -> str:
    """Returns the first part of the guard of a move that fails at node i, or an empty text if the guard holds."""
    if world.guard(i, move):
        return ""
    if move.rule == "update":
        return no_update(world, i)
    if world.m[i] != world.married(i):
        return f"m of node {i} is {str(world.m[i]).lower()} and node {i} is {'' if world.married(i) else 'not '}married, so the update comes first"
    if move.rule == "marriage":
        return no_marriage(world, i, move.partner)
    return (no_seduction if move.rule == "seduction" else no_abandonment)(world, i)


def right_line(world: World, i: int) -> str:
    """Returns as a text which line a correct bot would send for node i now, or why it would send none. If i may marry several nodes, names all of them."""
    if i in world.chosen:
        return f"a correct bot would send nothing for node {i}, because its granted move waits for the end of the step"
    moves = world.moves(i)
    if not moves:
        return f"a correct bot would send nothing for node {i}, because no guard holds there"
    asked = {"do": "move", "node": i, "rule": moves[-1].rule, "at": world.number}
    more = {} if moves[-1].partner is None else {"with": moves[-1].partner}
    others = f", or with {' or '.join(str(move.partner) for move in moves[:-1])}" if len(moves) > 1 else ""
    return f"a correct bot would send {text_of(**asked, **more)}{others}"


def explained(world: World, asked: Request) -> str:
    """Returns the explanation of a requested move, in the world before its answer. Returns an empty text if the request isn't a move of an existing node.
    Begins with the part of the guard that fails, if the request names the present configuration and a node without a chosen move. Ends with `right_line`."""
    if asked.do != "move" or asked.node not in world.links:
        return ""
    parts = [failing(world, asked.node, asked.move)] if asked.at == world.number and asked.node not in world.chosen else []
    return "; ".join(each for each in (*parts, right_line(world, asked.node)) if each)


def explanations(lab: Lab, script: bytes) -> list[str]:
    """Returns the lines to print: one for each denied move of a script up to its first wrong line, and one for each node that could move then."""
    run, found = Run(lab), []
    for number, line in enumerate(script.splitlines(), 1):
        read = script_line(lab, line)
        if read is None:
            break
        asked = read_request(read[1])
        # The explanation comes first, since an answer that grants the request changes the world.
        text = explained(run.world, asked) if asked is not None else ""
        if '"deny"' in run.answer(*read) and text and asked is not None:
            found.append(f"{number} {asked.node} {text}")
    return found + [f"now {i} {right_line(run.world, i)}" for i in run.world.nodes() if run.world.enabled(i) and i not in run.world.chosen]


def main(words: list[str]) -> int:
    """Prints the explanations for a script. Returns the exit status: 1 for wrong arguments, or the status of an error."""
    if len(words) != 2:
        print(__doc__, file=sys.stderr)
        return 1
    try:
        for line in explanations(read_lab(read_file(Path(words[0]), "lab", MOST)), read_file(Path(words[1]), "script", MOST)):
            print(line)
    except Fault as fault:
        print(fault.line, file=sys.stderr)
        return fault.status
    return 0


if __name__ == "__main__":
    sys.exit(main(sys.argv[1:]))
