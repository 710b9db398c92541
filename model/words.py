"""The command line: those commands of the proved program that start no server, and their output."""
from collections.abc import Callable
from pathlib import Path
from typing import NamedTuple

from model.fault import Fault, read_file
from model.journal import audit, audited
from model.lab import Lab, read_lab
from model.record import read_record, verified
from model.run import play
from model.tally import tally

MOST_FILE, MOST_JOURNAL = 2**20, 2**24


class Ended(NamedTuple):
    """The result of a call: its exit status, and the bytes of standard output and standard error."""

    status: int
    out: bytes
    error: bytes


def check(lab: Lab) -> bytes:
    """Returns what the command `check` prints: the line about a lab's size."""
    links = sum(map(len, lab.world.links.values())) // 2
    return f"ok: {len(lab.owners)} nodes, {links} links, {len(lab.students())} students\n".encode()


def script(lab: Lab, file: str, journal: str | None = None) -> bytes:
    """Returns what the command `script` prints: the replies to the script in a file. If a journal's file is named, writes it. Raises `Fault` at a wrong line,
    or if a file can't be read or written. Also raises it if the journal's file has content, which the proved program would keep under another name."""
    kept = None if journal is None else Path(journal)
    if kept is not None and kept.exists() and (not kept.is_file() or kept.stat().st_size > 0):
        raise Fault("journal fault", 4)
    run, bad_line = play(lab, read_file(Path(file), "script", MOST_FILE))
    if kept is not None:
        try:
            kept.write_bytes(run.written())
        except OSError:
            raise Fault("journal fault", 4) from None
    if bad_line is not None:
        raise Fault(f"script: line {bad_line}: bad line", 2, run.printed())
    return run.printed()


def print_audit(lab: Lab, journal: str) -> bytes:
    """Returns what the command `audit` prints for the journal in a file. Raises `Fault` if the journal can't be read or doesn't pass."""
    world, _ = audit(lab, read_file(Path(journal), "journal", MOST_JOURNAL))
    return audited(world).encode()


def print_tally(lab: Lab, journal: str, record: str | None = None) -> bytes:
    """Returns what the command `tally` prints for the journal in a file, and for the record in a folder if one is named. Raises `Fault` if they don't pass."""
    world, events = audit(lab, read_file(Path(journal), "journal", MOST_JOURNAL))
    found = None if record is None else read_record(lab, events, Path(record))
    return tally(lab, world, events, found).encode()


def verify(lab: Lab, journal: str, record: str) -> bytes:
    """Returns what the command `verify` prints for the record in a folder with the journal in a file. Raises `Fault` if they don't pass."""
    _, events = audit(lab, read_file(Path(journal), "journal", MOST_JOURNAL))
    return verified(lab, read_record(lab, events, Path(record)), events).encode()


class Word(NamedTuple):
    """A command: the function that returns its output, and the allowed numbers of files, including the lab."""

    work: Callable[..., bytes]
    counts: tuple[int, ...]


WORDS = {
    "check": Word(check, (1,)),
    "script": Word(script, (2, 3)),
    "audit": Word(print_audit, (2,)),
    "verify": Word(verify, (3,)),
    "tally": Word(print_tally, (2, 3)),
}


def run_command(words: list[str]) -> Ended:
    """Runs the command that the arguments name. Returns its result, which is the same as that of the proved program."""
    name, *files = words or [""]
    if name not in WORDS or len(files) not in WORDS[name].counts or any(file.startswith("-") for file in files):
        return Ended(1, b"", b"command line: not understood\n")
    try:
        lab = read_lab(read_file(Path(files[0]), "lab", MOST_FILE))
        return Ended(0, WORDS[name].work(lab, *files[1:]), b"")
    except Fault as fault:
        return Ended(fault.status, fault.out, f"{fault.line}\n".encode())
