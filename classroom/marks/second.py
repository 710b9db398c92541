"""A second opinion on marks: the plain model (`model/`) computes them from the same journals and records as the proved
program. A *record* has the lines that the connections of a run sent, with their replies."""
from __future__ import annotations

import subprocess
import sys
import tempfile
from itertools import zip_longest
from pathlib import Path

from classroom.core import record
from classroom.core.printable import printable
from classroom.core.program import TOP, Answer, host_call
from classroom.marks.vouched import vouched


def model_call(word: str, *files: Path) -> Answer:
    """Runs the command `word` of the plain model with these files. Returns its output and exit status."""
    call: list[str | Path] = [sys.executable, "-B", "-m", "model", word, *(file.absolute() for file in files)]
    done = subprocess.run(call, cwd=TOP, stdin=subprocess.DEVNULL, capture_output=True, text=True, check=False)
    return Answer(done.returncode, done.stdout, done.stderr.strip())


def difference(word: str, *files: Path) -> str:
    """Returns a text with the first line in which the proved program and the model differ for the command `word` and
    its files. Returns an empty text if their output and status are the same. Raises `Fault` if the proved program isn't
    built."""
    proved, plain = host_call(word, *files), model_call(word, *files)
    if proved == plain:
        return ""
    lines = zip_longest((proved.output + proved.error).splitlines(), (plain.output + plain.error).splitlines())
    first, second = next((pair for pair in lines if pair[0] != pair[1]), (f"status {proved.status}", f"status {plain.status}"))
    return (f"the two programs disagree about `{word}`: mml prints {'nothing' if first is None else repr(first)}, and the plain model prints "
            f"{'nothing' if second is None else repr(second)}. One of them has an error: report this to the developers")


def differences(lab: Path, journal: Path) -> list[str]:
    """Returns a line for each difference in a run: in its tally, and in each record in its folder.

    Copies the journal first, since both programs must read the same bytes while the run continues. Leaves out a record
    that can't be copied. Raises `Fault` if the proved program isn't built, or if a file of the run can't be read."""
    found = []
    with tempfile.TemporaryDirectory() as room:
        copy = Path(room) / "journal"
        copy.write_bytes(journal.read_bytes())
        found.append((journal, difference("tally", lab, copy)))
    if journal.name == "journal" and record.kept(journal.parent):
        with vouched(journal.parent) as parts:
            found += [(part.record, difference(word, part.lab, part.journal, part.copy)) for part in parts if part.is_copied
                      for word in ("verify", "tally")]
    return [f"{of}: {text}" for of, text in found if text]


def compare(runs: list[tuple[Path, Path]]) -> bool:
    """Prints on standard error whether the proved program and the model agree about these runs, each a lab and a
    journal. Returns whether they differ. Raises `Fault` if the proved program isn't built, or if a file of a run can't
    be read."""
    lines = [line for lab, journal in runs for line in differences(lab, journal)]
    for line in lines or ["the plain model gets the same counts"]:
        print(printable(f"class: {line}"), file=sys.stderr)
    return bool(lines)
