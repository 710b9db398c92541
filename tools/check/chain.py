"""The longest chain of proofs of a run. Each proof waits for those of the crates below it, so a run takes at least the
time of this chain, however many processors there are.

A run of `./check` that proves something keeps the times of its proofs in `out/proofs.txt`. `./check chain` prints the
chain to a crate, with how long each proof waited for a free processor and how long it took.
"""
from __future__ import annotations

import time
from dataclasses import dataclass
from pathlib import Path

from tools.check.measure import Checks
from tools.check.parts import TOP, uses

KEPT = TOP / "out/proofs.txt"
HEAD = "# The proofs of a run of ./check that ended on {}: crate, seconds at which it began and ended, seconds of processor\n"
TABLE = "# Seconds of processor that the proof of each crate took: `./check chain --table` printed them\n"


@dataclass(frozen=True)
class Span:
    """The beginning and the end of a crate's proof, in seconds since the run began, and the processor time that the
    proof used."""

    begin: float
    end: float
    used: float


Spans = dict[str, Span]


def spans_of(checks: Checks) -> Spans:
    """Returns the beginning, end and processor time of each crate's proof in a run of a check, in the order in which
    the proofs ended. Leaves out crates that weren't proved again."""
    found: Spans = {}
    for check, (crate, kind) in checks.works.items():
        if kind == "proof":
            begin, end, used = checks.begin_of(check), checks.seen[check], checks.used[check]
            so_far = found.get(crate, Span(begin, end, 0))
            found[crate] = Span(min(begin, so_far.begin), max(end, so_far.end), used + so_far.used)
    start = min((it.begin for it in found.values()), default=0.0)
    moved = {crate: Span(it.begin - start, it.end - start, it.used) for crate, it in found.items()}
    return dict(sorted(moved.items(), key=lambda it: it[1].end))


def save_spans(spans: Spans, file: Path = KEPT) -> None:
    """Saves `spans`, the times of a run's proofs, in a file, from which `./check chain` reads them."""
    file.parent.mkdir(exist_ok=True)
    lines = [f"{crate} {it.begin:.0f} {it.end:.0f} {it.used:.0f}\n" for crate, it in spans.items()]
    file.write_text(HEAD.format(time.strftime("%Y-%m-%d")) + "".join(lines), encoding="utf-8")


def saved_spans(file: Path = KEPT) -> Spans:
    """Returns the times of the proofs of the last run that proved something, by crate. Returns none if there is no such
    file."""
    text = file.read_text(encoding="utf-8") if file.exists() else ""
    rows = [line.split() for line in text.splitlines() if not line.startswith("#")]
    return {crate: Span(float(begin), float(end), float(used)) for crate, begin, end, used in rows}


def chain(spans: Spans, crate: str) -> list[str]:
    """Returns the chain of crates for which a crate waited, the first one first, and the crate itself at the end. Each
    crate of the chain waited for the one before it: of the crates that it uses, the one whose proof ended last. `spans`
    has the times of the proofs."""
    found, every = [crate], uses()
    while below := [it for it in every.get(found[0], []) if it in spans]:
        found.insert(0, max(below, key=lambda it: spans[it].end))
    return found


def lines_of(spans: Spans, crate: str) -> list[str]:
    """Returns the lines of the table of the chain to a crate. `spans` has the times of the proofs. Each line has a
    crate of the chain, how long its proof waited, how long it took, when it ended, and its processor time."""
    crates = chain(spans, crate)
    lines = [f"the chain to {crate}, in seconds{'':12}waits   takes    ends processor"]
    before = 0.0
    for it in crates:
        span = spans[it]
        lines.append(f"{it:36} {span.begin - before:8.0f}{span.end - span.begin:8.0f}{span.end:8.0f}{span.used:10.0f}")
        before = span.end
    takes, used = (sum(values) for values in zip(*((spans[it].end - spans[it].begin, spans[it].used) for it in crates)))
    lines.append(f"{'sum':36} {before - takes:8.0f}{takes:8.0f}{before:8.0f}{used:10.0f}")
    return lines


def chain_tables(spans: Spans, crates: list[str]) -> str:
    """Returns the tables of the chains to these crates as a text. `spans` has the times of a run's proofs. Leaves out
    crates that weren't proved in the run. If none of them was, returns the table of the chain to the crate that was
    proved last."""
    wanted = [it for it in crates if it in spans] or [*spans][-1:]
    return "\n\n".join("\n".join(lines_of(spans, it)) for it in wanted)


def short(spans: Spans) -> str:
    """Returns one line about the chain to the crate that was proved last, with the seconds of each proof of the chain.
    `spans` has the times of the proofs."""
    crates = chain(spans, [*spans][-1])
    each = ", ".join(f"{it} {spans[it].end - spans[it].begin:.0f}" for it in crates)
    return f"the longest chain, in seconds: {each}; it ended after {spans[crates[-1]].end:.0f}: ./check chain prints each proof"


def table(spans: Spans) -> str:
    """Returns the text of `tools/build/seconds.txt`, which has the processor seconds of each proof in `spans`."""
    return TABLE + "\n".join(f"{crate} {max(1, round(spans[crate].used))}" for crate in uses() if crate in spans)
