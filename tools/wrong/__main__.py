"""Tries the wrong bodies of the crates, many at once. The prover has to refuse each in its own function, at its own goal.

    python3 -B -m tools.wrong [CRATE..]             tries them with the libraries that `rt ci` or `rt check` left
    python3 -B -m tools.wrong --rounds [CRATE..]    prints only which of them are tried together
    python3 -B -m tools.wrong --as-proved           reads the names of proved crates from standard input, and tries each
                                                    crate after it and those below it are named, on idle processors;
                                                    at the end of the input tries the others, on all processors

Edits of one crate that change different texts and functions are put into one copy of the crate, which is called a
round. A single check proves the functions that the edits of a round name. A function is proved from the contracts of
the functions that it calls, so a refused function leaves no goal of its callers open. Each round starts from the proofs
in the crate's library, if the library has any. Crates are tried side by side. A round that was refused in an earlier run
on this machine, with the same files, isn't tried again (`tools.wrong.kept`).

The following is a failure: an edit that can't be applied; a function that isn't refused at its goal; an error that
belongs to no goal (a text that doesn't compile, or a name that a proof doesn't find); a function that is refused though
no edit names it; and counts of the check that don't match its lines.
"""
from __future__ import annotations

import argparse
import os
import signal
import sys
import tempfile
from collections.abc import Iterator
from dataclasses import replace
from pathlib import Path

from tools.wrong.beside import as_proved, give_way
from tools.wrong.checks import Running, lane_count
from tools.wrong.edits import read_edits, rounds_of
from tools.wrong.kept import Kept, folder_of_user
from tools.wrong.libraries import LibraryFault, Tree, tree_at
from tools.wrong.trying import Results, Tried, try_crates

TOP = Path(__file__).resolve().parents[2]


def words() -> argparse.Namespace:
    """Returns the parsed arguments of the command line."""
    parser = argparse.ArgumentParser(prog="tools.wrong", description=__doc__, formatter_class=argparse.RawDescriptionHelpFormatter)
    parser.add_argument("crates", nargs="*", metavar="CRATE", help="try only the wrong bodies of these crates")
    parser.add_argument("--jobs", type=int, metavar="N", help="run at most N checks side by side (by default RT_JOBS, or the number of processors)")
    parser.add_argument("--times", action="store_true", help="print the processor seconds of each crate and of all")
    parser.add_argument("--logs", type=Path, metavar="FOLDER", help="keep what each check prints")
    parser.add_argument("--anew", action="store_true", help="try also what was refused in an earlier run")
    parser.add_argument("--rounds", action="store_true", help="print only which of them are tried together")
    parser.add_argument("--as-proved", action="store_true", help="run beside an rt ci, and read the names of the crates that it has proved from standard input")
    return parser.parse_args()


def crates_of(tree: Tree, names: list[str]) -> list[str]:
    """Returns the crates of `tree` with these names, or all that have wrong bodies if there are no names. `tree` is the
    copy of the repository. The one that is expected to take longest is first. Exits with an error line if a name isn't
    that of a crate with wrong bodies."""
    for name in names:
        if name not in tree.uses or not tree.has_edits(name):
            sys.exit(f"tools.wrong: there is no crate {name} with wrong bodies")
    chosen = [it for it in tree.uses if tree.has_edits(it) and (not names or it in names)]
    rounds = {it: len(rounds_of(read_edits(tree.folder(it))[0], tree.folder(it))) for it in chosen}
    return sorted(chosen, key=lambda it: -rounds[it] * tree.size(it))


def say_rounds(tree: Tree, crates: list[str]) -> None:
    """Prints for these crates of `tree`, the copy of the repository, which edits are tried together, and which files
    can't be applied as edits."""
    for crate in crates:
        edits, faults = read_edits(tree.folder(crate))
        for number, it in enumerate(rounds_of(edits, tree.folder(crate)), 1):
            print(f"{crate} {number}: {' '.join(edit.name for edit in it.edits)}")
        for fault in faults:
            print(f"FAILED: {crate}: {fault}")


def tried_of(tree: Tree, crates: list[str], asked: argparse.Namespace) -> Iterator[Tried]:
    """Yields the result of each of these crates of `tree`, the copy of the repository. If `asked`, the arguments of the
    command line, has `--as-proved`, a crate is tried once it is proved, and otherwise at once."""
    lanes, results = lane_count(asked.jobs), Results(asked.logs, Kept(None if asked.anew else folder_of_user()))
    if not asked.as_proved:
        yield from try_crates(tree, crates, lanes, results, Running())
        return
    give_way()
    running = Running(beside=len(os.sched_getaffinity(0)) // 2)
    with tempfile.TemporaryDirectory(prefix="mml-wrong-") as room:
        over = replace(tree, libraries=Path(room))
        yield from try_crates(over, as_proved(over, crates, sys.stdin, running), lanes, results, running)


def try_all(tree: Tree, crates: list[str], asked: argparse.Namespace) -> int:
    """Tries the edits of these crates of `tree`, the copy of the repository. Prints a line for each crate, its faults,
    and how many edits passed. `asked` are the arguments of the command line. Returns the exit status: 1 if an edit
    failed."""
    done = []
    if asked.logs:
        asked.logs.mkdir(parents=True, exist_ok=True)
    for tried in tried_of(tree, crates, asked):
        done.append(tried)
        print(tried.line(asked.times), flush=True)
        for fault in tried.faults:
            print(f"FAILED: {tried.crate}: {fault}", flush=True)
    if asked.times:
        print(f"processor seconds in all: {sum(it.seconds for it in done):.0f}, of {sum(it.checks for it in done)} checks")
    failed = sum(it.failed for it in done)
    print(f"{sum(it.passed for it in done)} passed, {failed} failed")
    return 1 if failed else 0


def main() -> int:
    """Prints which edits are tried together, or tries them, as the arguments say. Returns the status. Exits with an
    error line if the toolchain isn't found."""
    asked = words()
    for it in (signal.SIGINT, signal.SIGTERM, signal.SIGHUP):
        signal.signal(it, lambda number, _: sys.exit(128 + number))
    try:
        tree = tree_at(TOP)
        crates = crates_of(tree, asked.crates)
    except LibraryFault as fault:
        sys.exit(f"tools.wrong: {fault}")
    if asked.rounds:
        say_rounds(tree, crates)
        return 0
    return try_all(tree, crates, asked)


if __name__ == "__main__":
    sys.exit(main())
