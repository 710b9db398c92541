"""The order of proofs, the progress of a build, and an estimate of the time that is left. A proof comes after those of
the crates below it. The proof with the longest chain of proofs above it comes first."""
from __future__ import annotations

import math

from tools.build.crates import Uses

TRUST = 120.0  # after this many measured seconds of work, the measured pace counts as much as the table
NEAR = 0.9  # a chain is as urgent as the longest one if it takes at least this share of its time
OVERRUN = 0.1  # if a proof takes longer than in the table, this share of its time so far is still expected


def chains(crates: Uses, seconds: dict[str, float]) -> dict[str, float]:
    """Returns for each crate the length, in seconds, of the longest chain of proofs that begins with the crate's proof.
    `seconds` has the expected time of each proof."""
    longest = {crate: 0.0 for crate in crates}
    # Each crate comes after those below it. So in reverse order, the chains of all crates above a crate are known.
    for crate in reversed([*crates]):
        longest[crate] += seconds[crate]
        for below in crates[crate]:
            longest[below] = max(longest[below], longest[crate])
    return longest


class Progress:
    """The crates that are proved, and those whose proofs are running."""

    def __init__(self, crates: Uses, seconds: dict[str, float], at_once: int) -> None:
        """Begins with no crate proved. `crates` are to be proved, `seconds` has the expected time of each proof, and
        `at_once` is the number of proofs that are expected to run side by side."""
        self.crates, self.seconds, self.at_once = crates, seconds, at_once
        self.longest = chains(crates, seconds)
        self.proved, self.kept = set[str](), set[str]()  # the proved crates, and those of them that an earlier run proved
        self.begun: dict[str, float] = {}  # when each running proof began
        self.took, self.planned = TRUST, TRUST  # the seconds that the ended proofs took, and those that were expected of them

    def can_begin(self, proved: set[str], begun: set[str]) -> list[str]:
        """Returns the crates whose proofs can begin if the crates in `proved` are proved, and the proofs of those in
        `begun` have begun. The crate with the longest chain is first."""
        left = [crate for crate in self.crates if crate not in proved and crate not in begun]
        return sorted([crate for crate in left if proved.issuperset(self.crates[crate])], key=lambda crate: -self.longest[crate])

    def next(self) -> list[str]:
        """Returns the crates whose proofs can begin now. The crate with the longest chain is first."""
        return self.can_begin(self.proved, {*self.begun})

    def is_first(self, crate: str) -> bool:
        """Returns whether the chain that begins with this crate is the longest of the remaining ones, or nearly as
        long."""
        return all(self.longest[crate] >= NEAR * self.longest[it] for it in self.crates if it not in self.proved)

    def note(self, crate: str, is_kept: bool, now: float) -> None:
        """Notes at the time `now` that a crate is proved: by a proof that ended now, or by an earlier run if `is_kept`
        is set. Does nothing if the crate was noted before, or isn't one of this build."""
        if crate not in self.crates or crate in self.proved:
            return
        begun = self.begun.pop(crate, None)
        if is_kept:
            self.kept.add(crate)
        elif begun is not None:
            self.took += now - begun
            self.planned += self.seconds[crate]
        self.proved.add(crate)

    def left(self, now: float) -> float:
        """Returns the seconds from `now` on until all crates are proved, as estimated from the pace of this machine so
        far. Simulates the rest of the build: whenever a proof ends, the next ones begin."""
        pace = self.took / self.planned
        ends = {crate: max(self.seconds[crate] * pace - (now - begun), OVERRUN * (now - begun)) for crate, begun in self.begun.items()}
        proved, at = {*self.proved}, 0.0
        while len(proved) < len(self.crates):
            for more in self.can_begin(proved, {*ends})[:self.at_once - len(ends)]:
                ends[more] = at + self.seconds[more] * pace
            crate = min(ends, key=lambda it: ends[it])
            at = ends.pop(crate)
            proved.add(crate)
        return at

    def line(self, now: float) -> str:
        """Returns the progress line at the time `now`."""
        count = f"{len(self.proved)} of {len(self.crates)} crates proved"
        count += f", {len(self.kept)} of them earlier" if self.kept else ""
        return f"{count}; {duration_text(self.left(now))} left" if len(self.proved) < len(self.crates) else count


def duration_text(seconds: float) -> str:
    """Returns a duration as a text, in minutes."""
    return f"about {math.ceil(seconds / 60)} minutes" if seconds > 60 else "about a minute"
