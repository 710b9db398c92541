"""The command line of `./check`. A check has *stages*, which run one after another, and a stage has *parts*, which run
side by side."""
from __future__ import annotations

import argparse
import math
import sys
from functools import partial

from tools.check import chain
from tools.check.checking import Stages, check
from tools.check.guard import run_guarded
from tools.check.lock import Taken, alone
from tools.check.parts import PROOFS, QUICK, WRONG, minutes, minutes_of, proofs_of, uses, wrong_beside, wrong_of

TAKEN = 3  # the status if another check runs in this tree
LEFT_OUT = {  # texts about the parts that `./check quick` leaves out
    "proofs": "proofs and the tests inside the crates: ./check proofs",
    "wrong": "wrong bodies: ./check wrong",
}


def taking(least: float) -> str:
    """Returns a text that says how long a subcommand runs: `least` minutes on four processors, rounded up."""
    return f"about {math.ceil(least)} minutes on four processors"


def parser() -> argparse.ArgumentParser:
    """Returns the parser of the command line with all subcommands."""
    whole = sum(minutes_of([[PROOFS], QUICK, [wrong_beside()]], 4))
    every = argparse.ArgumentParser(
        prog="check", description=f"Checks everything: proofs, tests and wrong bodies. Takes {taking(whole)}.",
        epilog="The last line is 'N passed, M failed'. The status is 0 if all passed, 1 if a part failed, "
        f"2 if the command line is wrong, {TAKEN} if another check runs in this tree.",
    )
    each = every.add_subparsers(title="words that select a part of the check", dest="word", metavar="WORD")
    quick = each.add_parser("quick", help=f"run the tests that need no proof, with the built program: {taking(minutes(QUICK, 4))}")
    quick.add_argument("names", nargs="*", metavar="PART", help="run only these parts: " + ", ".join(it.name for it in QUICK))
    proofs = each.add_parser("proofs", help=f"run rt ci, that is, all proofs and the tests inside the crates: {taking(minutes([PROOFS], 4))}")
    proofs.add_argument("names", nargs="*", metavar="CRATE", help="prove only these crates and those below them")
    wrong = each.add_parser("wrong", help=f"try the bodies that the prover must refuse: {taking(minutes([WRONG], 4))}")
    wrong.add_argument("names", nargs="*", metavar="CRATE", help="try only those of these crates")
    longest = each.add_parser("chain", help="print the longest chain of proofs, with times, of the last run in this tree that proved something")
    longest.add_argument("names", nargs="*", metavar="CRATE", help="print the chains to these crates instead of the one that was proved last")
    longest.add_argument("--table", action="store_true", help="print the time of each proof, as tools/build/seconds.txt has it")
    return every


def tell_chain(names: list[str], is_table: bool) -> int:
    """Prints the tables of the chains of proofs to these crates in the last run that proved something, or to the crate
    that was proved last. If `is_table` is set, prints the text of `tools/build/seconds.txt` instead, the time of each
    proof. Returns the exit status, which is 1 if no run has proved anything."""
    spans = chain.saved_spans()
    if not spans:
        print("check: no ./check has proved anything in this tree", file=sys.stderr)
        return 1
    print(chain.table(spans) if is_table else chain.chain_tables(spans, names))
    return 0


def unknown(word: str | None, names: list[str]) -> str:
    """Returns an error text about the first of these names that isn't known, or an empty text if all are. `word` is the
    subcommand, or None. With `quick` the names have to be those of parts, and otherwise those of crates."""
    known = [it.name for it in QUICK] if word == "quick" else [*uses()] if names else []
    wrong = [it for it in names if it not in known]
    return f"there is no {'part' if word == 'quick' else 'crate'} {wrong[0]}; there are: {', '.join(known)}" if wrong else ""


def stages_of(word: str | None, names: list[str]) -> tuple[Stages, list[str]]:
    """Returns the stages for the subcommand `word` with the names after it, and texts about the parts that they leave
    out. If `word` is None, the stages are those of a whole check."""
    if word == "quick":
        return [[it for it in QUICK if not names or it.name in names]], [] if names else [*LEFT_OUT.values()]
    if word == "proofs":
        return [[proofs_of(names)]], []
    if word == "wrong":
        return [[wrong_of(names)]], []
    return [[PROOFS], QUICK, [wrong_beside()]], []


def main(words: list[str] | None = None) -> int:
    """Runs the subcommand that the arguments name, those of the command line if `words` is None. Returns the status,
    which is TAKEN if another check runs in this tree. Exits with status 2 if the command line is wrong."""
    every = parser()
    asked = every.parse_args(words)
    names: list[str] = getattr(asked, "names", [])
    if fault := unknown(asked.word, names):
        every.error(fault)
    if asked.word == "chain":
        return tell_chain(names, asked.table)
    try:
        with alone():
            return run_guarded(partial(check, *stages_of(asked.word, names)))
    except Taken:
        print("check: another ./check runs in this tree; this one did nothing", file=sys.stderr)
        return TAKEN
