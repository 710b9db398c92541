"""Compares the output of the program with that of the plain model for the same arguments."""
from __future__ import annotations

import subprocess
from pathlib import Path

from model import Ended, run_command
from tests.common.hosting import HOST
from tests.common.preload import LIMIT, PROGRAM, fail

# The commands for which the tests call the program HOST. For all others they call PROGRAM. Both are the same program,
# unless environment variables name others.
OF_HOST = ("verify", "tally")


def run_program(*words: str | Path) -> Ended:
    """Runs a program with the arguments `words`, of which the first is the command: HOST for the commands OF_HOST, and
    PROGRAM for all others. Returns its status and output."""
    call: list[str | Path] = [HOST if words[0] in OF_HOST else PROGRAM, *words]
    done = subprocess.run(call, stdin=subprocess.DEVNULL, capture_output=True, env=dict[str, str](), timeout=LIMIT, check=False)
    return Ended(done.returncode, done.stdout, done.stderr)


def first_other(found: bytes, wanted: bytes) -> str:
    """Returns a text about the first line in which two outputs differ: its number, the line of `found`, and the one of
    `wanted`. The end of an output counts as an empty line. If no such line differs, returns a text that says that there
    are more lines or fewer."""
    pairs = list(zip(found.splitlines() + [b""], wanted.splitlines() + [b""]))
    return next((f"line {k}: {a!r}, not {b!r}" for k, (a, b) in enumerate(pairs, 1) if a != b), "more lines or fewer")


def compare(what: str, found: Ended, wanted: Ended) -> None:
    """Fails, and prints the first difference, if the program's result `found` isn't `wanted`, the model's. `what` names
    the call."""
    if found.out != wanted.out:
        fail(f"{what}: another output than the model's: {first_other(found.out, wanted.out)}")
    if found != wanted:
        fail(f"{what}: {found.status}, {found.error!r}; the model: {wanted.status}, {wanted.error!r}")


def agreed(what: str, *words: str | Path) -> Ended:
    """Runs the program and the model with these arguments, and returns the result. Fails if the two results differ.
    `what` names the call in the error."""
    found = run_program(*words)
    compare(what, found, run_command([str(word) for word in words]))
    return found


def agreed_script(what: str, lab: Path, script: Path, journal: Path) -> Ended:
    """Runs a script by the program and by the model, and returns the result. Fails if their results or journals differ.
    `what` names the call in the error."""
    found = run_program("script", lab, script, journal)
    second = journal.with_suffix(".second")
    second.unlink(missing_ok=True)
    compare(what, found, run_command(["script", str(lab), str(script), str(second)]))
    if journal.read_bytes() != second.read_bytes():
        fail(f"{what}: another journal than the model's: {first_other(journal.read_bytes(), second.read_bytes())}")
    return found


def said(line: str) -> Ended:
    """Returns the result of a call that prints this line and nothing else. A line that begins with `ok: ` is the
    output, with status 0. Any other line is an error, whose status is 2 if the error is about a lab, and otherwise
    3."""
    text = f"{line}\n".encode()
    if line.startswith("ok: "):
        return Ended(0, text, b"")
    return Ended(2 if line.startswith("lab: ") else 3, b"", text)
