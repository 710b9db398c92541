"""Measures the processor time of a check: for each part, and for the checks of `rattle` by crate and kind.

The system counts the time of each part, with all processes that the part waited for. The time of each check (a process
`rattle --crate-name C`, with those that it started) is read twice a second, and counted for its crate. There are three
kinds of checks. A check is of the kind `wrong` if the part `wrong` started it, or if it runs in a folder `rt-edit-..`,
in which `rt` tries an edit. Any other check is of the kind `tests` if it has the option --test, and otherwise of
the kind `proof`. The remaining time is `the rest`: linking, programs that `rt ci` ran, the rt command itself, and the
last half second of each check.
"""
from __future__ import annotations

import os
import time

from tools.check.processes import TICKS, Process, processes

KINDS = ("proof", "tests", "wrong")
PROVING = ("proofs", "wrong")  # The parts whose checks are listed by crate; all others are scripts.
PAUSE = 0.5

Check = tuple[int, str]  # what identifies a check: the number and the start of its process
Work = tuple[str, str]  # a crate, and a kind of check


def work_of(pid: int, part: str) -> Work | None:
    """Returns the crate and the kind of the check that the process `pid` does. `part` is the name of its part of the
    check. Returns None if its command line names no crate yet. Raises `OSError` or `ValueError` if the process has
    ended."""
    with open(f"/proc/{pid}/cmdline", encoding="utf-8", errors="replace") as it:
        words = it.read().split("\0")
    if "--crate-name" not in words:
        return None
    crate = words[words.index("--crate-name") + 1]
    if part == "wrong" or os.path.basename(os.readlink(f"/proc/{pid}/cwd")).startswith("rt-edit-"):
        return crate, "wrong"
    return crate, "tests" if "--test" in words else "proof"


class Checks:
    """The processes that check a crate in the running parts, with the processor time that each has used."""

    def __init__(self) -> None:
        self.works: dict[Check, Work] = {}  # the crate and the kind of each check
        self.used: dict[Check, float] = {}  # the processor seconds of each check so far
        self.seen: dict[Check, float] = {}  # when each check was last seen, in seconds since the machine was started
        self.most_held, self.most_held_in_all = 0, 0  # the most bytes of memory of one check, and of all together
        self.looked = 0.0  # the time of the last look

    def look(self, parts: dict[int, str]) -> None:
        """Reads the processor times and the memory of all checks. Does nothing if they were last read less than PAUSE
        seconds ago. `parts` has the name of each running part, by its process."""
        if time.monotonic() < self.looked + PAUSE:
            return
        self.looked = time.monotonic()
        found = processes()
        sums: dict[Check, float] = {}
        held: dict[Check, int] = {}
        part_of: dict[Check, str] = {}
        for pid, it in found.items():
            check, part = check_above(pid, found, parts)
            if check:
                sums[check] = sums.get(check, 0) + it.used
                held[check] = held.get(check, 0) + it.held
                part_of[check] = part
        self.most_held = max([self.most_held, *held.values()])
        self.most_held_in_all = max(self.most_held_in_all, sum(held.values()))
        for check, used in sums.items():
            self.note(check, used, part_of[check])

    def note(self, check: Check, used: float, part: str) -> None:
        """Notes the processor time that a check in the part with this name has used, if the check's crate is known."""
        try:
            work = self.works.get(check) or work_of(check[0], part)
        except (OSError, ValueError):
            return
        if work:
            self.works[check] = work
            self.used[check] = max(used, self.used.get(check, 0))
            self.seen[check] = time.clock_gettime(time.CLOCK_BOOTTIME)

    @staticmethod
    def begin_of(check: Check) -> float:
        """Returns when a check began, in seconds since the machine was started."""
        return int(check[1]) / TICKS

    def minutes(self) -> dict[Work, float]:
        """Returns the processor minutes of all checks, by crate and kind."""
        sums: dict[Work, float] = {}
        for check, used in self.used.items():
            work = self.works[check]
            sums[work] = sums.get(work, 0) + used / 60
        return sums


def check_above(pid: int, found: dict[int, Process], parts: dict[int, str]) -> tuple[Check | None, str]:
    """Returns the check to which the process `pid` belongs, and the name of its part. A check is the topmost process
    called `rattle` above `pid`, or `pid` itself. The check is None if the process is in a part but in no check. Returns
    None and an empty text if it belongs to no part. `found` has the data of all processes, and `parts` the name of each
    part, by its process."""
    check = None
    while pid in found and pid not in parts:
        if found[pid].name == "rattle":
            check = pid, found[pid].start
        pid = found[pid].parent
    return (check, parts[pid]) if pid in parts else (None, "")


def figures(checks: Checks, parts: dict[str, float]) -> str:
    """Returns a text about processor minutes: a table of crates and kinds of checks, the most expensive checks and the
    memory, a line about the scripts, and a line with the sums. If no crate was checked, the table and the lines about
    checks are left out. `checks` has the times of the checks, and `parts` that of each part."""
    sums = checks.minutes()
    crates = sorted({crate for crate, _ in sums})
    of_kind = {kind: sum(it for (_, its), it in sums.items() if its == kind) for kind in KINDS}
    lines = []
    if crates:
        lines.append(f"{'processor minutes':24}" + "".join(f"{kind:>8}" for kind in KINDS))
        for crate in crates:
            lines.append(f"{crate:24}" + "".join(f"{sums.get((crate, kind), 0):8.1f}" for kind in KINDS))
        lines.append(f"{'sum':24}" + "".join(f"{of_kind[kind]:8.1f}" for kind in KINDS))
        dearest = sorted(sums.items(), key=lambda it: -it[1])[:3]
        lines.append("most processor time: " + ", ".join(f"{crate} {kind} {it:.1f}" for (crate, kind), it in dearest))
        held = checks.most_held / 1e9, checks.most_held_in_all / 1e9
        lines.append(f"memory: at most {held[0]:.1f} GB in one check, {held[1]:.1f} GB in those side by side")
        if ("mml_rules", "proof") in sums:
            rules = sums["mml_rules", "proof"]
            lines.append(f"the speed of this machine: the proof of mml_rules took {rules:.2f} processor minutes")
    scripts = {name: it for name, it in parts.items() if name not in PROVING}
    whole = sum(parts.values())
    of_scripts = sum(scripts.values())
    rest = max(0.0, whole - sum(of_kind.values()) - of_scripts)
    if scripts:
        lines.append("scripts: " + ", ".join(f"{name} {it:.1f}" for name, it in scripts.items()))
    told = ", ".join(f"{kind} {it:.1f}" for kind, it in [*of_kind.items(), ("scripts", of_scripts), ("the rest", rest)])
    lines.append(f"processor minutes in all: {whole:.1f}: {told}")
    return "".join(f"{it}\n" for it in lines)
