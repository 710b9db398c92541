"""Tests that `resume` opens each file only once, and audits the journal before it makes or changes a record."""
from pathlib import Path

from tests.common.hosting import Host, lab_of, let_in
from tests.common.lines import hello, seduction
from tests.common.preload import Ended, build_library, fail
from tests.common.side_by_side import Test

LONG = 102  # bytes after the last newline that are too many for a line that broke off


def play(lab: Path, journal: Path, record: Path) -> None:
    """Plays a class with one event, and kills its host. Leaves the journal and the record of this class."""
    with Host(lab, 0, 0, journal, record) as host:
        if b'"place":1' not in let_in(host.port, hello("ana"))[0].ask(seduction(0)):
            fail("resume: the class before a resume has no event")
        host.kill()


def files_are_read_once(room: Path) -> None:
    """A class that goes on with its record opens the lab's file, its copies and the journal once each."""
    lab, journal, record, log = lab_of(room, 4), room / "journal", room / "record", room / "opened"
    play(lab, journal, record)
    variables = {"LD_PRELOAD": str(build_library("resume/opens.c", room)), "OPENED": str(log)}
    with Host(lab, 0, 0, journal, record, word="resume", variables=variables) as host:
        if not host.listens:
            fail(f"resume: while opened files are noted it ends with {host.end()}")
        opened = log.read_text(encoding="utf-8").splitlines()
    for path in (lab, room / "journal.lab", record / "lab", journal):
        if (count := opened.count(str(path))) != 1:
            fail(f"resume: {path.name} is opened {count} times, of {opened}")


def refused_before_the_record(room: Path) -> None:
    """A journal that the audit refuses is refused before the record's folder is made or changed, also because of the
    bytes after its last line."""
    lab, journal, record = lab_of(room, 4), room / "journal", room / "record"
    play(lab, journal, record)
    whole, was = journal.read_bytes(), {file.name: file.read_bytes() for file in record.iterdir()}
    for tail, error in ((b"x" * LONG, b"audit: line 2: torn\n"), (b"2 0 clos\n", b"audit: line 2: not an event\n")):
        journal.write_bytes(whole + tail)
        for folder in (record, room / "new"):
            with Host(lab, 0, 0, journal, folder, word="resume") as host:
                ended = None if host.listens else host.end()
            if ended != Ended(3, b"", error):
                fail(f"resume: after {tail!r}, with a record, it ends with {ended}")
        if (room / "new").exists() or {file.name: file.read_bytes() for file in record.iterdir()} != was:
            fail(f"resume: after {tail!r} the record's folder isn't as it was")


TESTS: list[Test] = [files_are_read_once, refused_before_the_record]
