"""Explanations of denied moves by the plain model (`model/`), which decides nothing. Without the model there are none."""
from __future__ import annotations

import subprocess
import sys
import tempfile
from pathlib import Path

from classroom.core import lab as labs
from classroom.core.processes import run
from classroom.core.program import TOP

MARK = "a second program with the same rules, which doesn't decide the result, explains: "
LIMIT = 60.0  # seconds after which a search for an explanation is given up


def lines_of(made: labs.Lab, script: bytes) -> list[list[str]]:
    """Returns the explanations of the model for a script, a list of request lines for the lab `made`. Each is a list of
    three texts. For each denied move they are the number of its line in the script, its node and the reason. For each
    node that could move at the end they are `now`, the node and the line that a bot should send. Returns an empty list
    if there is no model, or if it hasn't answered after LIMIT seconds."""
    with tempfile.TemporaryDirectory() as room:
        lab, lines = Path(room, "lab.toml"), Path(room, "script")
        lab.write_text(labs.text(made), encoding="utf-8")
        lines.write_bytes(script)
        call: list[str | Path] = [sys.executable, "-B", "-m", "model.explain", lab, lines]
        try:
            done = run(call, seconds=LIMIT, cwd=TOP)
        except (OSError, subprocess.TimeoutExpired):
            return []
    return [line.split(" ", 2) for line in done.stdout.decode(errors="replace").splitlines()]
