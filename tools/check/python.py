"""Checks all Python sources of the repository: strict types, and the rules of a linter.

    python3 -B -m tools.check.python

The settings are in `pyproject.toml` and `.flake8`, so the tools give the same results when they are called by hand
or by an editor.
"""
from __future__ import annotations

import os
import subprocess
import sys
import tempfile

from tools.check.parts import TOP

EXAMPLES_PYTHON = "3.10"  # the oldest version of Python on which a student's client and bot run
# The arguments of each call of mypy. Modules of the same name need separate calls, and so do programs that aren't
# modules of this tree.
CALLS = (("class", "bench", "classroom", "model", "tests", "tools"), ("check",), ("examples",), ("--python-version", EXAMPLES_PYTHON, "examples/bot.py"),
         ("--python-version", EXAMPLES_PYTHON, "student/bot.py"), ("--python-version", EXAMPLES_PYTHON, "classroom-client/building.py"))


def python_files() -> list[str]:
    """Returns the Python files that Git tracks or would track."""
    listed = subprocess.run(["git", "ls-files", "-co", "--exclude-standard"], cwd=TOP, capture_output=True, text=True, check=True)
    files = [file for file in listed.stdout.splitlines() if (TOP / file).is_file()]
    return [file for file in files if file.endswith(".py") or file in ("class", "check")]


def faults_of(command: list[str]) -> list[str]:
    """Runs the command line of a tool. Returns the lines that it has printed if it failed, and none if it succeeded."""
    # Bots import the client as the module `client`, as if it were beside them.
    environment = {**os.environ, "MYPYPATH": "classroom"} if command[-1].startswith(("examples", "student")) else None
    done = subprocess.run(command, cwd=TOP, capture_output=True, text=True, check=False, env=environment)
    return [line for line in (done.stdout + done.stderr).splitlines() if line] if done.returncode else []


def main() -> None:
    """Runs the checkers of types and of style. Exits with status 1 if one of them finds a fault."""
    files = python_files()
    with tempfile.TemporaryDirectory() as kept:
        mypy = ["mypy", "--config-file", "pyproject.toml", "--cache-dir", kept]
        faults = [fault for call in CALLS for fault in faults_of([*mypy, *call])]
    faults += faults_of(["flake8", "--config", ".flake8", *files])
    for fault in faults:
        print(f"FAILED: {fault}")
    if faults:
        sys.exit(1)
    print(f"{len(files)} files of Python: no error of types or style")


if __name__ == "__main__":
    main()
