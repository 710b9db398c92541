"""Sharing cases or runs among several machines, and joining the results: `--part K/N`, `--merge FILE..`.

Part K of N has every N-th of all cases or runs, from the K-th on.
"""
from __future__ import annotations

import argparse
import json
import re
from collections.abc import Iterable, Sequence
from pathlib import Path
from typing import TypeVar

from classroom.bots import graded
from classroom.bots.trial import Result
from classroom.core import plain
from classroom.core.counts import plural
from classroom.core.printable import printable
from classroom.core.program import Fault
from classroom.core.statuses import FAILED, WARNED

Part = tuple[int, int]  # the number of a part, and the number of parts
Case = tuple[str, str]  # a bot's name and a case's
Each = TypeVar("Each")
MOST = 64 << 20  # bytes of the file with a part's results
MOST_NAMED = 3  # missing cases that are named


def part(word: str) -> Part:
    """Returns the part that an argument such as `2/8` names: its number, and the number of parts. Raises
    `ArgumentTypeError` for any other text."""
    found = re.fullmatch(r"(\d{1,6})/(\d{1,6})", word, re.ASCII)
    if not found or not 1 <= int(found[1]) <= int(found[2]):
        raise argparse.ArgumentTypeError(f"{word} isn't a part: write K/N with K from 1 to N, such as 2/8")
    return int(found[1]), int(found[2])


def add_words(words: argparse.ArgumentParser, what: str, files: str) -> None:
    """Adds the arguments `--part` and `--merge` to a parser. For the help, `what` names what is shared (cases or runs),
    and `files` the files with the results."""
    either = words.add_mutually_exclusive_group()
    either.add_argument("--part", type=part, metavar="K/N", help=f"do only each N-th of the {what}, from the K-th on, so that N machines can share the work")
    either.add_argument("--merge", nargs="+", metavar="FILE", help=f"join the {files} of all parts, as if one run had made them, and run nothing")


def of(every: Sequence[Each], which: Part | None) -> list[Each]:
    """Returns the items of the part `which`: each N-th one from the K-th on. Returns all items if it is None."""
    if which is None:
        return list(every)
    number, count = which
    return list(every[number - 1::count])


def results_in(file: Path) -> list[Result]:
    """Returns the results in a file that `grade --json` has written. Raises `Fault` if the file can't be read or has
    another form."""
    try:
        cases = json.loads(plain.read(file, MOST))
        return [Result(**each) for each in cases]
    except (ValueError, TypeError, RecursionError):
        raise Fault(f"{file}: this file doesn't have the results of a part, which grade --json writes", FAILED) from None


def joined(files: Iterable[Path], order: Sequence[Case]) -> tuple[list[Result], list[Case]]:
    """Returns the results of all files in the order of these cases, and the cases that no file has. Raises `Fault` if a
    file can't be read, if a case in it isn't one of these cases, or if two files have different results of a case."""
    found: dict[Case, tuple[Result, Path]] = {}
    for file in files:
        for result in results_in(file):
            case = result.bot, graded.case_name(result)
            if case not in order:
                raise Fault(f"{file}: the case {' '.join(case)} isn't a case of this command: name the same bots and options as for the parts", FAILED)
            first, where = found.setdefault(case, (result, file))
            if first != result:
                raise Fault(f"{file}: the case {' '.join(case)} has a different result in {where}: leave out one of the two files", FAILED)
    return [found[case][0] for case in order if case in found], [case for case in order if case not in found]


def merge(words: argparse.Namespace, order: Sequence[Case]) -> int:
    """Joins the results in the files that `--merge` names, and writes and prints them. `order` has all cases of the
    grade. Returns the exit status, which is WARNED if the result of a case is missing, or if a case wasn't passed.
    Raises `Fault` if a file can't be read or written, or if the files contradict each other or the cases."""
    results, missing = joined(map(Path, words.merge), order)
    for form in graded.FORMS:
        if getattr(words, form):
            graded.write(form, Path(getattr(words, form)), results)
    for result in results:
        print(graded.result_line(result))
    print(graded.table(results))
    if missing:
        some = ", ".join(" ".join(case) for case in missing[:MOST_NAMED])
        print(printable(f"class: no file has a result of {plural(len(missing), 'case')} (bot, lab, daemon and seed): {some}"
                        f"{' ..' if len(missing) > MOST_NAMED else ''}. Name the files of all parts after --merge"))
    return WARNED if missing or not all(result.passed for result in results) else 0
