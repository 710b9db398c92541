"""What the measurements share: the programs, the lab that is built in, and callgrind's counts."""
import os
import re
import shutil
import subprocess
import sys
from collections.abc import Sequence
from pathlib import Path
from typing import NoReturn, Union

TOP = Path(__file__).resolve().parents[1]
PROGRAM = Path(os.environ.get("MML_PROGRAM") or TOP / "crates/mml_host/out/mml_host")
HOST = Path(os.environ.get("MML_HOST") or TOP / "crates/mml_host/out/mml_host")
# The program that is written by hand, without proofs, to which this one is compared.
TYPED = Path(os.environ.get("MML_TYPED") or TOP / "bench/typed/out/typed")
BUILT_IN = TOP / "crates/mml_program/src/built_in.rt"
Words = Sequence[Union[str, Path]]  # a command line


def refuse(why: str) -> NoReturn:
    """Prints the reason why nothing is measured, and exits."""
    sys.exit(f"bench: {why}")


def built(program: Path) -> Path:
    """Returns the path of a program. Exits with an error line if it isn't built."""
    return program if program.exists() else refuse(f"{program} isn't built: bench/README.md says how")


def built_in(sessions: int = 4, events: int = 100) -> str:
    """Returns the text of the lab that the program uses without arguments, with these limits of sessions and events in
    place of its own. Exits with an error line if the sources have no such lab."""
    found = re.search(r'r#"(.*?)"#', BUILT_IN.read_text(encoding="utf-8"), re.DOTALL)
    if found is None:
        refuse(f"{BUILT_IN}: the text of the lab isn't found in this file")
    text = re.sub(r"^sessions = \d+$", f"sessions = {sessions}", found[1], flags=re.MULTILINE)
    return re.sub(r"^events = \d+$", f"events = {events}", text, flags=re.MULTILINE)


def stripped(program: Path, path: Path) -> Path:
    """Writes a copy of a program to `path`, without its debugging information, which valgrind may not be able to read.
    Returns the path of the copy. Exits with an error line if the program isn't built."""
    subprocess.run(["strip", "--strip-debug", "-o", path, built(program)], check=True)
    return path


def require_valgrind() -> None:
    """Exits with an error line if valgrind or strip isn't on the path."""
    for tool in "valgrind", "strip":
        if shutil.which(tool) is None:
            refuse(f"the command {tool} isn't on the path; bench/README.md says what to install")


def output_of(words: Words, stdin: Path) -> bytes:
    """Returns the standard output of a command line, with a file as standard input. Raises `CalledProcessError` if the
    command fails."""
    with stdin.open("rb") as lines:
        return subprocess.run(words, stdin=lines, stdout=subprocess.PIPE, check=True).stdout


def count_instructions(words: Words, stdin: Path) -> int:
    """Returns the number of instructions in a run of a command line, with a file as standard input. The number doesn't
    depend on what else runs on the machine. Raises `CalledProcessError` if the command fails. Exits with an error line
    if callgrind prints no number."""
    call = ["valgrind", "--tool=callgrind", "--callgrind-out-file=/dev/null", *words]
    with stdin.open("rb") as lines:
        run = subprocess.run(call, stdin=lines, stdout=subprocess.DEVNULL, stderr=subprocess.PIPE, check=True)
    found = re.search(rb"Collected : (\d+)", run.stderr)
    if found is None:
        refuse("callgrind printed no count")
    return int(found[1])
