"""The files that a host has synced when it listens, after its replies, and at its end. A power cut would lose the
rest."""
import time
from pathlib import Path

from tests.common.hosting import Caller, Host, lab_of, let_in
from tests.common.lines import BID, BYE, CLOSE, hello, look, seduction
from tests.common.preload import Ended, Preloaded, build_library, fail

SOON = 60.0  # seconds until a record is synced on a slow machine
EAGAIN = 11  # the error of a thread that can't be started
LOOKS = 4  # threads that a host starts before it listens, to check that it can
MOVE = seduction(0)
DONE = Ended(0, b"done: 2 events, configuration 1\n", b"")


class Changes:
    """The changes that a host makes to files and folders, and its syncs."""

    def __init__(self, room: Path) -> None:
        """Builds the library that notes changes and syncs, in the folder `room`."""
        self.library, self.log = build_library("resume/changes.c", room), room / "changes"

    def variables(self) -> dict[str, str]:
        """Returns the environment of a host, and forgets earlier changes."""
        self.log.unlink(missing_ok=True)
        return {"LD_PRELOAD": str(self.library), "CHANGES": str(self.log)}

    def unsynced(self) -> set[str]:
        """Returns the files and folders with changes after their last sync."""
        found = set[str]()
        for line in self.log.read_text(encoding="utf-8").splitlines():
            what, _, path = line.partition(" ")
            (found.add if what == "changed" else found.discard)(path)
        return found

    def check_synced(self, when: str) -> None:
        """Checks that all changes are synced. `when` names the moment, for the error."""
        if left := self.unsynced():
            fail(f"resume: {when} a host hasn't synced {sorted(left)}")

    def check_synced_soon(self, when: str) -> None:
        """Checks that all changes are synced within a time limit, without further requests. `when` names the moment,
        for the error."""
        end = time.monotonic() + SOON
        while self.unsynced() and time.monotonic() < end:
            time.sleep(0.1)
        self.check_synced(when)


def plays(host: Host, changes: Changes, journal: Path) -> tuple[Caller, Caller]:
    """Connects as ana and as the teacher, and plays a move and its close. Checks that each event is synced in the
    journal when its reply comes. Returns both connections."""
    ana, tess = let_in(host.port, hello("ana"))[0], let_in(host.desk, hello("tess"))[0]
    for who, line in ((ana, MOVE), (tess, CLOSE)):
        if b'"place":' not in who.ask(line):
            fail("resume: while changes are noted nothing is granted")
        if str(journal) in changes.unsynced():
            fail("resume: an event is answered whose line isn't synced")
    return ana, tess


def leaves(host: Host, ana: Caller, tess: Caller) -> Ended:
    """Sends a look and a bye of ana's, and the teacher's bye, which ends the class. Returns the host's end."""
    ana.ask(look("ana"))
    if (ana.ask(BYE), ana.line()) != (BID, b""):
        fail("resume: another reply to a student's bye")
    return host.dismiss(tess)


def all_is_synced(room: Path) -> None:
    """When a host listens, the names and contents of all files that it made are synced. The host syncs new entries of
    the record after a while, and everything at its end. The same holds if it finds the files of an older class."""
    changes, lab, folder = Changes(room), lab_of(room, 4), room / "class"
    folder.mkdir()
    journal, record = folder / "journal", folder / "record"
    for when in ("in an empty folder", "beside an older class"):
        with Host(lab, 0, 0, journal, record, variables=changes.variables()) as host:
            changes.check_synced(f"when it listens {when}")
            ana, tess = plays(host, changes, journal)
            if not changes.log.read_text(encoding="utf-8").count(f"changed {record}/"):
                fail("resume: while changes are noted nothing is recorded")
            changes.check_synced_soon(f"a while after what was said {when}")
            if leaves(host, ana, tess) != DONE:
                fail(f"resume: another end {when}, while changes are noted")
        changes.check_synced(f"at its end {when}")


def last_words_are_synced(room: Path) -> None:
    """The last entries of a class are synced when the host ends, although the next regular sync isn't due yet. It isn't
    due because the host's clock runs a thousand times slower."""
    changes, slow, lab, folder = Changes(room), build_library("outsiders/slow.c", room), lab_of(room, 4), room / "class"
    folder.mkdir()
    journal = folder / "journal"
    variables = changes.variables() | {"LD_PRELOAD": f"{changes.library} {slow}", "SLOW": "1000"}
    with Host(lab, 0, 0, journal, folder / "record", variables=variables) as host:
        if (ended := leaves(host, *plays(host, changes, journal))) != DONE:
            fail(f"resume: with a slow clock a recorded class ends with {ended}")
    changes.check_synced("at its end, with a slow clock,")


def resumes_are_synced(room: Path) -> None:
    """When a host listens after a resume that removed incomplete lines from the journal and the record, all files are
    synced."""
    changes, lab, folder = Changes(room), lab_of(room, 4), room / "class"
    folder.mkdir()
    journal, record = folder / "journal", folder / "record"
    with Host(lab, 0, 0, journal, record) as host:
        let_in(host.desk, hello("tess"))
        host.kill()
    for path, torn in ((journal, b"1 0 gra"), (record / "1.record", b'1 0 > {"do":"clo')):
        with path.open("ab") as it:
            it.write(torn)
    with Host(lab, 0, 0, journal, record, word="resume", variables=changes.variables()) as host:
        if not host.listens:
            fail(f"resume: while changes are noted it ends with {host.end()}")
        assert host.process.stdout is not None
        host.process.stdout.readline()
        changes.check_synced("when it goes on")
        kept = changes.log.read_text(encoding="utf-8").splitlines()
        if any(f"changed {path}" not in kept for path in (journal, record / "1.record", record / "4.record")):
            fail(f"resume: while changes are noted what is torn isn't taken off: {kept}")
        ended = leaves(host, *plays(host, changes, journal))
    if (ended.status, ended.out) != (DONE.status, DONE.out):
        fail(f"resume: while changes are noted a class that goes on ends with {ended}")
    changes.check_synced("at the end of a class that went on")


def synced_without_threads(room: Path) -> None:
    """If the thread that watches the journal or the one that syncs the record can't be started, the class goes on. At
    its end everything is synced."""
    changes, threads, lab = Changes(room), Preloaded("faults/fail.c", room, "FAIL_COUNTS"), lab_of(room, 4)
    for at in (LOOKS + 1, LOOKS + 2):  # the thread that watches the journal, and the one that syncs the record
        folder = room / str(at)
        folder.mkdir()
        journal = folder / "journal"
        variables = threads.variables({"FAIL": "thread", "FAIL_AT": str(at), "FAIL_WITH": str(EAGAIN)}) | changes.variables()
        variables["LD_PRELOAD"] = f"{changes.library} {threads.library}"
        with Host(lab, 0, 0, journal, folder / "record", variables=variables) as host:
            ended = leaves(host, *plays(host, changes, journal))
        if threads.counts()[1] != 1 or ended != DONE:
            fail(f"resume: without thread {at} a recorded class ends with {ended}")
        changes.check_synced(f"at the end, without thread {at},")


TESTS = [all_is_synced, last_words_are_synced, resumes_are_synced, synced_without_threads]
