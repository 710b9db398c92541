"""Tries plants: bugs in the crates' bodies that the prover has to refuse, or a test to see.

    python3 -B -m tools.plant [PLANT..]                     builds the program with each in turn, and runs its test
    python3 -B -m tools.plant --prove [PLANT..]             asks the prover about those that name their function
    python3 -B -m tools.plant --build TO [PLANT..]          builds the program once with all of these, and puts it there
    python3 -B -m tools.plant --draw N [--seed S] [CRATE..] draws N small bugs, one for each function, and asks the prover about them
    python3 -B -m tools.plant --list                        prints all plants

A PLANT is CRATE or CRATE/NAME. A plant is seen if its test fails with the program that has the plant; `./check` shows that the
test passes otherwise. A program with a plant isn't proved: its build takes two minutes, and needs no library of `rt`. The
prover is asked by one check for each crate, with the libraries that `rt ci` or `rt check` left. The same seed and sources give
the same random bugs. If the prover accepts a bug, a person has to find out why: it may change nothing, a test may see it, or a
clause of a contract may be missing.
"""
from __future__ import annotations

import argparse
import os
import subprocess
import sys
import tempfile
from collections import Counter
from pathlib import Path

from tools.plant.building import build
from tools.plant.drawing import NO_PROGRAM, ask_all, draw
from tools.plant.plants import Plant, PlantFault, plants_of
from tools.plant.proving import LET_THROUGH, REFUSED, UNDECIDED, prove_all
from tools.wrong.libraries import LibraryFault, Tree, tree_at

TOP = Path(__file__).resolve().parents[2]
PROGRAM = "mml_host"
TESTS = ("mml_tests", "mml_fakes")  # the beginnings of the names of crates that are tests
LIMIT = 900.0  # seconds that a test may take
LAST = 300  # the most characters of a line of a test's output that are printed


def words() -> argparse.Namespace:
    """Returns the parsed arguments of the command line."""
    parser = argparse.ArgumentParser(prog="tools.plant", description=__doc__, formatter_class=argparse.RawDescriptionHelpFormatter)
    parser.add_argument("plants", nargs="*", metavar="PLANT", help="try only these")
    parser.add_argument("--prove", action="store_true", help="ask the prover, and run no test")
    parser.add_argument("--build", type=Path, metavar="TO", help="build the program with all of them at this path, and try nothing")
    parser.add_argument("--draw", type=int, metavar="N", help="draw N bugs from these crates, or from all but test crates, and ask the prover")
    parser.add_argument("--seed", type=int, default=1, metavar="S", help="draw the bugs from this seed (1)")
    parser.add_argument("--list", action="store_true", help="print all plants")
    return parser.parse_args()


def all_plants(tree: Tree) -> list[Plant]:
    """Returns the plants of all crates of `tree`, the copy of the repository, in the order of `crates.txt`. Raises
    `PlantFault` if a file isn't a plant or doesn't fit the sources."""
    return [plant for crate in tree.uses for plant in plants_of(crate, tree.folder(crate))]


def chosen(every: list[Plant], names: list[str]) -> list[Plant]:
    """Returns those of the plants (planted bugs) in `every` that have these names. A name is that of a plant, or of a
    crate, if all its plants are meant. Raises `PlantFault` if a name is neither."""
    for name in names:
        if not any(name in (it.name, it.crate) for it in every):
            raise PlantFault(f"{name}: there is no plant of this name, and no crate of this name has a plant; --list prints all plants")
    return [it for it in every if it.name in names or it.crate in names]


def run_test(plant: Plant, program: Path) -> tuple[bool, str]:
    """Runs the test of a plant (a planted bug) with the program that has the plant. Returns whether the test fails with
    a line `FAILED: ..`, as it should. Also returns the last such line, or the last line of all if there is none. Raises
    `TimeoutExpired` after LIMIT seconds."""
    given = {**os.environ, "MML_HOST": str(program)}  # The tests run the program that MML_HOST names.
    done = subprocess.run([sys.executable, "-B", "-m", plant.module, plant.test], cwd=TOP, env=given, stdin=subprocess.DEVNULL,
                          stdout=subprocess.PIPE, stderr=subprocess.STDOUT, text=True, errors="replace", timeout=LIMIT, check=False)
    told = [line for line in done.stdout.splitlines() if line.startswith("FAILED: ")]
    return done.returncode != 0 and bool(told), (told or done.stdout.strip().splitlines() or [""])[-1][:LAST]


def try_each(tree: Tree, plants: list[Plant]) -> int:
    """Builds the program with each plant in turn that names a test, runs the test, and prints the result. Returns the
    exit status: 1 if a test doesn't fail. `tree` is the copy of the repository. Raises `PlantFault` if a program
    doesn't compile, and `TimeoutExpired` if a test takes too long."""
    missed, tested = 0, [plant for plant in plants if plant.test]
    with tempfile.TemporaryDirectory(prefix="mml-plant-") as room:
        for plant in tested:
            program = Path(room) / PROGRAM
            build(tree, PROGRAM, [plant], program)
            is_seen, told = run_test(plant, program)
            missed += not is_seen
            print(f"{'seen' if is_seen else 'MISSED'}: {plant.name}: {told}", flush=True)
    print(f"{len(tested) - missed} seen, {missed} missed")
    return 1 if missed else 0


def try_proofs(tree: Tree, plants: list[Plant]) -> int:
    """Asks the prover about each plant that names its function, and prints its verdict. `tree` is the copy of the
    repository. Returns the exit status: 1 if the prover accepts one or doesn't decide. Raises `PlantFault` if one can't
    be tried."""
    counts = Counter[str]()
    for plant, verdict in prove_all(tree, plants):
        counts[verdict] += 1
        print(f"{verdict}: {plant.name}: {plant.function}", flush=True)
    print(", ".join(f"{counts[verdict]} {verdict}" for verdict in (REFUSED, LET_THROUGH, UNDECIDED)))
    return 1 if counts[LET_THROUGH] + counts[UNDECIDED] else 0


def try_drawn(tree: Tree, crates: list[str], number: int, seed: int) -> int:
    """Draws plants in `number` functions of these crates of `tree`, the copy of the repository, by the seed. If
    `crates` is empty, draws them in all crates that aren't tests. Prints the prover's verdict on each function. Returns
    the exit status: 1 if the prover accepts a plant or doesn't decide. Raises `PlantFault` if there is no such crate,
    or a library isn't built."""
    if unknown := [crate for crate in crates if crate not in tree.uses]:
        raise PlantFault(f"{unknown[0]}: there is no such crate")
    counts = Counter[str]()
    for plant, verdict in ask_all(tree, draw(tree, crates or [crate for crate in tree.uses if not crate.startswith(TESTS)], number, seed)):
        counts[verdict] += 1
        pair = plant.edit.pairs[0]
        print(f"{verdict}: {plant.crate}::{plant.function}: {pair.old.strip()} -> {pair.new.strip()}", flush=True)
    print(", ".join(f"{counts[verdict]} {verdict}" for verdict in (REFUSED, LET_THROUGH, UNDECIDED, NO_PROGRAM)))
    return 1 if counts[LET_THROUGH] + counts[UNDECIDED] else 0


def main() -> int:
    """Does what the arguments ask for. Returns the status. Exits with an error line if the toolchain isn't found, if
    there is no such plant or crate, or if a plant can't be tried."""
    asked = words()
    try:
        tree = tree_at(TOP)
        if asked.draw is not None:
            return try_drawn(tree, asked.plants, asked.draw, asked.seed)
        every = all_plants(tree)
        if asked.list:
            print("\n".join(" ".join(filter(None, (f"{it.name}:", it.function, it.module, it.test))) for it in every))
            return 0
        plants = chosen(every, asked.plants) if asked.plants else every
        if asked.prove:
            return try_proofs(tree, plants)
        if asked.build:
            # If no plants are named, the program is built without any, and not with all.
            build(tree, PROGRAM, chosen(every, asked.plants), asked.build)
            return 0
        return try_each(tree, plants)
    except (PlantFault, LibraryFault) as fault:
        sys.exit(f"tools.plant: {fault}")


if __name__ == "__main__":
    sys.exit(main())
