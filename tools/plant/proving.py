"""The prover's verdicts on plants, bugs that are put into bodies of the crates. One check of a crate tries all plants
that are in different functions and texts. What one check tries is a *round*. In
all functions here, `tree` is the copy of the repository."""
from __future__ import annotations

import tempfile
from collections.abc import Iterator
from dataclasses import replace
from pathlib import Path

from tools.plant.plants import Plant, PlantFault
from tools.wrong.checks import Running, try_round
from tools.wrong.edits import Refusal, rounds_of
from tools.wrong.libraries import Tree
from tools.wrong.outputs import Told, read_output
from tools.wrong.saved import find_name, hand_on

REFUSED, LET_THROUGH, UNDECIDED = "refused", "let through", "undecided"
ANY = "any"  # in place of a goal, because no particular goal has to be left open


def verdict(function: str, told: Told) -> str:
    """Returns the verdict on the plant (the planted bug) in a function, from the contents of a check's output. The
    verdict is REFUSED if a goal of the function is open, LET_THROUGH if the function is proved, and otherwise
    UNDECIDED."""
    if function in told.open_goals:
        return REFUSED
    return LET_THROUGH if function in told.proved else UNDECIDED


def prove_crate(tree: Tree, crate: str, plants: list[Plant], kept: str, running: Running) -> Iterator[tuple[Plant, str]]:
    """Yields each of these plants of a crate that names its function, and the prover's verdict on it. `kept` is the
    name of the folder in which the prover saves checked modules, or an empty text if it isn't known. `running` runs the
    checks. Raises `PlantFault` if a library below the crate isn't built, or if a check doesn't finish or has an error
    that belongs to no goal."""
    if missing := tree.missing(crate):
        raise PlantFault(f"{crate}: these libraries aren't built: {', '.join(dict.fromkeys(missing))}. `rt ci` or `rt check` builds them")
    named = {plant.edit.name: plant for plant in plants if plant.function}
    edits = [replace(plant.edit, wanted=(Refusal(plant.function, ANY),)) for plant in named.values()]
    with tempfile.TemporaryDirectory(prefix="mml-plant-") as room:
        for tried in rounds_of(edits, tree.folder(crate)):
            if kept:  # Then modules that were checked for the library aren't checked again.
                hand_on(tree.library(crate), Path(room) / "kept" / kept)
            told = read_output(crate, try_round(tree, crate, tried, Path(room), running).output)
            if told.errors or told.ending is None:
                raise PlantFault(f"{crate}: the check of {', '.join(it.name for it in tried.edits)} says: {(told.errors or [told.last])[0]}")
            for edit in tried.edits:
                yield named[edit.name], verdict(edit.wanted[0].function, told)


def prove_all(tree: Tree, plants: list[Plant]) -> Iterator[tuple[Plant, str]]:
    """Yields each plant that names its function, and the prover's verdict on it, crate by crate. Leaves out other
    plants. Raises `PlantFault` if a library isn't built, or if a check doesn't finish or has an error that belongs to
    no goal."""
    running, kept = Running(), find_name(tree)
    for crate in dict.fromkeys(plant.crate for plant in plants if plant.function):
        yield from prove_crate(tree, crate, [plant for plant in plants if plant.crate == crate], kept, running)
