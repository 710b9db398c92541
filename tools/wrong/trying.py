"""Tries the wrong bodies of crates: crates side by side, and the rounds of each crate one after another. A *round* is
one check of a crate with several of its wrong bodies, the edits. In all functions here, `tree` is the copy of the
repository, and `running` runs the checks."""
from __future__ import annotations

import tempfile
from collections.abc import Iterable, Iterator
from concurrent.futures import Future, ThreadPoolExecutor, as_completed
from dataclasses import dataclass, field
from pathlib import Path

from tools.wrong.checks import Running, try_round
from tools.wrong.edits import Round, read_edits, rounds_of
from tools.wrong.judging import judge
from tools.wrong.kept import Kept, name_of
from tools.wrong.libraries import Tree
from tools.wrong.outputs import read_output
from tools.wrong.saved import find_name, hand_on


@dataclass
class Tried:
    """The result of trying a crate's edits. `passed` is the number of edits that were refused as they should be,
    `known` of which an earlier run tried. `failed` is the number of the others. `checks` is the number of checks, and
    `seconds` their processor time."""

    crate: str
    checks: int = 0
    passed: int = 0
    known: int = 0
    failed: int = 0
    faults: list[str] = field(default_factory=list)
    seconds: float = 0.0

    def line(self, with_times: bool) -> str:
        """Returns the line about the crate, with its processor time if `with_times` is set."""
        failed = f", {self.failed} failed" if self.failed else ""
        known = f", {self.known} of them in an earlier run" if self.known else ""
        times = f", {self.seconds:.0f} processor seconds" if with_times else ""
        return f"{self.crate}: {self.passed} wrong bodies refused{failed}, in {self.checks} checks{known}{times}"

    def add_known(self, tried: Round) -> None:
        """Adds a round whose edits were refused in an earlier run."""
        self.passed += len(tried.edits)
        self.known += len(tried.edits)

    def add_round(self, tried: Round, status: int, output: str) -> bool:
        """Adds the result of a round, from the status and the output of its check. Returns whether the round has no
        fault."""
        judged = judge(tried.edits, status, read_output(self.crate, output))
        failed = judged.failed(tried.edits)
        self.passed += len(tried.edits) - len(failed)
        self.failed += len(failed)
        self.faults += [f"check {self.checks} ({len(tried.edits)} edits): {fault}" for fault in judged.of_round]
        self.faults += [f"{name}: {fault}" for name, faults in judged.of_edit.items() for fault in faults]
        return not (failed or judged.of_round or any(judged.of_edit.values()))


@dataclass(frozen=True)
class Results:
    """The folder for the outputs of the checks, or None if they aren't kept, and the rounds that were refused in
    earlier runs."""

    logs: Path | None = None
    kept: Kept = Kept(None)


def try_crate(tree: Tree, crate: str, running: Running, results: Results = Results(), saved: Future[str] | None = None) -> Tried:
    """Tries the edits of a crate, except for rounds that were refused in earlier runs. Returns the result. All edits
    fail if a library below the crate isn't built. The result of `saved` is the name of the folder for saved modules. If
    that name is known, copies the library's modules there before each round."""
    folder, tried = tree.folder(crate), Tried(crate)
    edits, tried.faults = read_edits(folder)
    tried.failed = len(tried.faults)
    missing = tree.missing(crate)
    if missing:
        tried.failed += len(edits)
        tried.faults.append(f"these libraries aren't built: {', '.join(dict.fromkeys(missing))}. `rt ci` or `rt check` builds them")
        return tried
    with tempfile.TemporaryDirectory(prefix="mml-wrong-") as room:
        name = saved.result() if saved else ""
        for it in rounds_of(edits, folder):
            key = name_of(tree, crate, it)
            if results.kept.has(key):
                tried.add_known(it)
                continue
            # The last round replaced the kept proofs by those of its wrong bodies. So the library's proofs are put there
            # before each round, because otherwise the right bodies would be proved anew.
            if name:
                hand_on(tree.library(crate), Path(room) / "kept" / name)
            ended = try_round(tree, crate, it, Path(room), running)
            tried.checks += 1
            tried.seconds += ended.seconds
            # If a file has changed meanwhile, it isn't known which content was checked, so nothing is kept.
            if tried.add_round(it, ended.status, ended.output) and key == name_of(tree, crate, it):
                results.kept.keep(key)
            if results.logs:
                (results.logs / f"{crate}.{tried.checks}").write_text(ended.output, encoding="utf-8")
    return tried


def try_crates(tree: Tree, crates: Iterable[str], lanes: int, results: Results, running: Running) -> Iterator[Tried]:
    """Tries the edits of crates, at most `lanes` crates side by side, and yields the result of each as it is done. Ends
    all checks if the caller stops or an error is raised."""
    with ThreadPoolExecutor(lanes) as pool:
        try:
            saved = pool.submit(find_name, tree)
            for future in as_completed([pool.submit(try_crate, tree, it, running, results, saved) for it in crates]):
                yield future.result()
        finally:
            running.stop()
            pool.shutdown(cancel_futures=True)
