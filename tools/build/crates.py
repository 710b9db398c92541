"""The crates that a program is built from, and how long their proofs are expected to take. A crate is *below* another
one if that crate uses it, directly or by other crates."""
from __future__ import annotations

import re
from pathlib import Path

TOP = Path(__file__).resolve().parents[2]
SECONDS = Path(__file__).with_name("seconds.txt")
UNKNOWN = 60.0  # seconds of a crate's proof if the table has no crate at all

Uses = dict[str, list[str]]


def lines(top: Path = TOP) -> dict[str, str]:
    """Returns the line of each crate in the file `crates.txt` in the folder `top`, in the file's order: each crate
    comes after those that it uses."""
    text = (top / "crates.txt").read_text(encoding="utf-8")
    return {found[2]: found[1] for found in re.finditer(r"(?m)^((\w+)[^:\n#]*:.*)$", text)}


def needed(programs: list[str]) -> Uses:
    """Returns the crates of these programs and all crates below them, each with the crates that it uses, in the order
    of `crates.txt`."""
    every = lines()
    return with_those_below(programs, {crate: [it for it in line.partition(":")[2].split() if it in every] for crate, line in every.items()})


def with_those_below(crates: list[str], uses: Uses) -> Uses:
    """Returns these crates and all crates below them, each with the crates that it uses, in the order of `uses`."""
    found, near = set[str](), [*crates]
    while near:
        crate = near.pop()
        if crate not in found:
            found.add(crate)
            near += uses[crate]
    return {crate: used for crate, used in uses.items() if crate in found}


def expected(crates: Uses) -> dict[str, float]:
    """Returns the expected seconds of each crate's proof, from the table in seconds.txt. A crate that the table lacks
    gets the average of the table."""
    table = {}
    for line in SECONDS.read_text(encoding="utf-8").splitlines():
        if line and not line.startswith("#"):
            crate, seconds = line.split()
            table[crate] = float(seconds)
    average = sum(table.values()) / len(table) if table else UNKNOWN
    return {crate: table.get(crate, average) for crate in crates}
