"""Draws random plants, and asks the prover about them. A *plant* is a bug in the body of a function, here one small
change. The same seed draws the same plants. If a change doesn't compile, or the prover can't decide about it, the next
change of the same function is tried. A *round* is what one check tries at once: edits, and the changed texts of the
crate's files. In all functions here, `tree` is the copy of the repository, and `running` runs the checks."""
from __future__ import annotations

import random
import re
import shutil
import tempfile
from collections.abc import Iterator
from concurrent.futures import ThreadPoolExecutor
from dataclasses import replace
from pathlib import Path

from tools.plant.bodies import Body, bodies_of
from tools.plant.changes import changes_of, variants_of
from tools.plant.plants import Plant, PlantFault
from tools.plant.proving import ANY, UNDECIDED, verdict
from tools.wrong.checks import Running, copy_crate, lane_count, try_round
from tools.wrong.edits import Edit, Pair, Refusal, Round, apply_edit
from tools.wrong.libraries import Tree, check_words
from tools.wrong.outputs import Told, read_output
from tools.wrong.saved import find_name, hand_on

NO_PROGRAM = "no program"
TRIES = 4  # changes of a function at most, of which the first that compiles counts
AT = re.compile(r"(?:\./)?(src/\S+?):(\d+):\d+: error")


def candidates(body: Body, lines: list[str], variants: dict[str, list[str]]) -> list[tuple[str, str]]:
    """Returns the possible changes of a body in a file with these lines. `variants` has the variants without values of
    each enum, by the enum's name. Each change is a line that occurs once in the file, and its replacement, which is
    empty or doesn't occur there. So several bodies of a file can be changed at once."""
    text = "\n".join(lines)
    once = [line for line in lines[body.first : body.end] if line.strip() and text.count(line) == 1]
    return [(line, changed) for line in once for changed in changes_of(line, variants) if not changed or changed not in text]


def drawn_in(crate: str, folder: Path, chance: random.Random) -> list[list[Plant]]:
    """Returns up to TRIES plants for each function of a crate that can be changed, a list for each function, in random
    order. `folder` is the crate's folder, and `chance` makes the random choices."""
    texts = {body.file: (folder / body.file).read_text(encoding="utf-8") for body in bodies_of(folder)}
    variants = {name: kinds for text in texts.values() for name, kinds in variants_of(text).items()}
    drawn = []
    for body in bodies_of(folder):
        if found := candidates(body, texts[body.file].splitlines(), variants):
            name = f"{body.function.replace('::', '_')}.edit"
            pairs = [Pair(body.file, old, new) for old, new in chance.sample(found, min(TRIES, len(found)))]
            drawn.append([Plant(crate, Edit(name, (), (pair,)), body.function) for pair in pairs])
    chance.shuffle(drawn)
    return drawn


def draw(tree: Tree, crates: list[str], number: int, seed: int) -> list[list[Plant]]:
    """Returns plants for at most `number` functions, a list for each function. The functions are chosen at random, by
    the seed, from all functions of these crates that can be changed."""
    chance = random.Random(seed)
    every = [plants for crate in crates for plants in drawn_in(crate, tree.folder(crate), chance)]
    chosen = set(chance.sample(range(len(every)), min(number, len(every))))
    return [plants for at, plants in enumerate(every) if at in chosen]


def culprits(plants: list[Plant], bodies: list[Body], errors: list[str]) -> list[Plant]:
    """Returns the plants (planted bugs) in whose functions the errors of a check are. Returns all plants if the errors
    don't show which. Plants don't change the number of lines, so the lines in the errors are those of `bodies`, the
    functions without plants."""
    places = [(found[1], int(found[2]) - 1) for error in errors if (found := AT.match(error))]
    guilty = {body.function for body in bodies for file, number in places if body.file == file and body.first - 1 <= number <= body.end}
    return [plant for plant in plants if plant.function in guilty] or plants


def sift(tree: Tree, crate: str, plants: list[Plant], running: Running) -> Iterator[tuple[Plant, bool]]:
    """Yields each of these plants of a crate, and whether the crate with this plant passes the check of names and
    types. Checks all plants together. After an error, checks the others without those that caused it, or each half if
    it isn't known which did."""
    todo, bodies = [plants], bodies_of(tree.folder(crate))
    while todo:
        tried = todo.pop()
        texts: dict[str, str] = {}
        for plant in tried:
            texts = apply_edit(plant.edit, texts, tree.folder(crate))
        errors = read_output(crate, check_types(tree, crate, texts, running)).errors
        if not errors:
            yield from ((plant, True) for plant in tried)
        elif len(tried) == 1:
            yield tried[0], False
        else:
            guilty = culprits(tried, bodies, errors)
            if guilty == tried:
                todo += [tried[: len(tried) // 2], tried[len(tried) // 2 :]]
            else:
                yield from ((plant, False) for plant in guilty)
                todo.append([plant for plant in tried if plant not in guilty])


def plants_that_compile(tree: Tree, crate: str, drawn: list[list[Plant]], running: Running) -> Iterator[tuple[Plant, bool]]:
    """Yields for each function its first plant with which the crate passes the check of names and types, and True. If
    there is none, yields its last plant and False. `drawn` has the plants of each function."""
    todo = drawn
    while todo:
        passed = dict(sift(tree, crate, [plants[0] for plants in todo], running))
        last = [plants for plants in todo if passed[plants[0]] or len(plants) == 1]
        yield from ((plants[0], passed[plants[0]]) for plants in last)
        todo = [plants[1:] for plants in todo if plants not in last]


def check_types(tree: Tree, crate: str, texts: dict[str, str], running: Running) -> str:
    """Checks the names and types in a copy of a crate, and proves nothing. Returns the output of the check. `texts` has
    the new texts of changed files, by their paths in the crate."""
    with tempfile.TemporaryDirectory(prefix="mml-plant-") as room:
        copy, kept = Path(room) / "copy", Path(room) / "kept"
        kept.mkdir()
        copy_crate(tree.folder(crate), copy, texts)
        try:
            # With an empty name after `--only`, the prover proves no function.
            return running.run([*check_words(tree, crate, set(), kept), "--only", ""], copy).output
        finally:
            shutil.rmtree(copy, ignore_errors=True)


def ask_crate(tree: Tree, crate: str, drawn: list[list[Plant]], kept: str, running: Running) -> Iterator[tuple[Plant, str]]:
    """Yields for each function of a crate its first plant about which the prover decides, and the verdict on it. If the
    prover decides about none of them, yields the first one that compiles, or the last one if none does. `drawn` has the
    plants of each function, and `kept` the name of the folder in which the prover saves checked modules."""
    todo, undecided = drawn, dict[str, Plant]()
    while todo:
        left = {plants[0].function: plants for plants in todo}
        todo = []
        for plant, answer in ask_once(tree, crate, [*left.values()], kept, running):
            plants = left[plant.function]
            following = plants[plants.index(plant) + 1 :]
            if answer == UNDECIDED:
                undecided.setdefault(plant.function, plant)
            if answer == UNDECIDED and following:
                todo.append(following)
            elif answer in (UNDECIDED, NO_PROGRAM) and plant.function in undecided:
                yield undecided[plant.function], UNDECIDED
            else:
                yield plant, answer


def ask_once(tree: Tree, crate: str, drawn: list[list[Plant]], kept: str, running: Running) -> Iterator[tuple[Plant, str]]:
    """Yields for each function of a crate its first plant that compiles, or its last one, and the prover's verdict on
    it. `drawn` has the plants of each function, and `kept` the name of the folder in which the prover saves checked
    modules. One check of names and types and one proof are enough if each plant compiles, and none hinders another."""
    sifted = [*plants_that_compile(tree, crate, drawn, running)]
    yield from ((plant, NO_PROGRAM) for plant, is_program in sifted if not is_program)
    todo = [[plant for plant, is_program in sifted if is_program]]
    while todo:
        if not (tried := todo.pop()):
            continue
        told = ask_prover(tree, crate, tried, kept, running)
        # The check didn't finish, so one of these plants hinders the others.
        if told.ending is None and len(tried) > 1:
            todo += [tried[: len(tried) // 2], tried[len(tried) // 2 :]]
            continue
        # These plants are asked about again, because their functions call functions that other plants change. If that is
        # so of all, another check would say the same.
        resting = [plant for plant in tried if plant.function in told.resting and verdict(plant.function, told) == UNDECIDED]
        again = resting if len(resting) < len(tried) else []
        todo.append(again)
        yield from ((plant, verdict(plant.function, told)) for plant in tried if plant not in again)


def ask_prover(tree: Tree, crate: str, plants: list[Plant], kept: str, running: Running) -> Told:
    """Returns what the prover says about the functions with these plants, which are all in one copy of the crate.
    `kept` is the name of the folder in which the prover saves checked modules, and `running` runs the check."""
    edits = [replace(plant.edit, wanted=(Refusal(plant.function, ANY),)) for plant in plants]
    texts: dict[str, str] = {}
    for edit in edits:
        texts = apply_edit(edit, texts, tree.folder(crate))
    with tempfile.TemporaryDirectory(prefix="mml-plant-") as room:
        if kept:  # Then modules that were checked for the library aren't checked again.
            hand_on(tree.library(crate), Path(room) / "kept" / kept)
        return read_output(crate, try_round(tree, crate, Round(edits, texts), Path(room), running).output)


def ask_all(tree: Tree, drawn: list[list[Plant]]) -> Iterator[tuple[Plant, str]]:
    """Yields for each function one of its plants, and the prover's verdict on it, crate by crate. `drawn` has the
    plants of each function. Raises `PlantFault` at the beginning if a library isn't built."""
    crates = list(dict.fromkeys(plants[0].crate for plants in drawn))
    if missing := list(dict.fromkeys(name for crate in crates for name in tree.missing(crate))):
        raise PlantFault(f"these libraries aren't built: {', '.join(missing)}. `rt ci` or `rt check` builds them")
    running, kept = Running(), find_name(tree)

    def verdicts(crate: str) -> list[tuple[Plant, str]]:
        """Returns, for each function of the crate for which plants were drawn, one of these plants and the prover's
        verdict on it."""
        return [*ask_crate(tree, crate, [plants for plants in drawn if plants[0].crate == crate], kept, running)]

    with ThreadPoolExecutor(lane_count(None)) as pool:
        try:
            for answers in pool.map(verdicts, crates):
                yield from answers
        finally:
            running.stop()
            pool.shutdown(cancel_futures=True)
