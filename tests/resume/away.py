"""A journal's file is removed, moved, replaced or changed while its class is running. The host notices that within a
second or two, and grants nothing more. Each way to change the file is a function of the journal's path. Its name says in
errors what has happened to the journal, for example `removed`."""
import os
import select
import shutil
import time
from collections.abc import Callable
from pathlib import Path

from tests.common.hosting import Caller, Host, audit, lab_of, let_in
from tests.common.lines import CLOSE, fault_at, hello, refusal_of, seduction
from tests.common.preload import Ended, fail

NOTICED = 60.0  # seconds that a host may need to notice it on a slow machine
GONE = b"host: the journal's file was removed, moved or replaced: nothing more is granted\n"
CHANGED = b"host: the journal's file was changed: nothing more is granted\n"
FAULT = b"journal fault\n"
REFUSED = refusal_of("journal")
MOVE = seduction(0)


def removed(journal: Path) -> None:
    """Removes the file."""
    journal.unlink()


def moved(journal: Path) -> None:
    """Moves the file."""
    journal.rename(journal.with_name("moved"))


def replaced(journal: Path) -> None:
    """Replaces the file by a copy, as an editor does it."""
    shutil.copy(journal, journal.with_name("copy"))
    journal.with_name("copy").replace(journal)


def with_folder(journal: Path) -> None:
    """Moves the folder of the file."""
    journal.parent.rename(journal.parent.with_name("elsewhere"))


def cut(journal: Path) -> None:
    """Cuts the last line off the file."""
    os.truncate(journal, journal.read_bytes()[:-1].rfind(b"\n") + 1)


def emptied(journal: Path) -> None:
    """Empties the file, like `>` in a shell."""
    journal.write_bytes(b"")


def longer(journal: Path) -> None:
    """Appends a line to the file."""
    with journal.open("ab") as it:
        it.write(b"3 1 close\n")


# Each way, with the line about it on the host's standard error.
WAYS: list[tuple[Callable[[Path], None], bytes]] = [
    (removed, GONE), (moved, GONE), (replaced, GONE), (with_folder, GONE), (cut, CHANGED), (emptied, CHANGED), (longer, CHANGED),
]


def name_of(way: Callable[[Path], None]) -> str:
    """Returns a text for errors that names a way to change the file."""
    return f"a journal that is {way.__name__}"


def cause_faults_until_refused(ana: Caller, tess: Caller, way: str) -> int:
    """Causes faults until one is refused, which has to happen within a time limit. Checks that then a close isn't
    granted, and that a look is answered. Returns the number of granted faults. `way` names the change of the journal,
    for an error."""
    end, events = time.monotonic() + NOTICED, 0
    while (said := tess.ask(fault_at(2))) != REFUSED:
        if b'"place":' not in said or time.monotonic() > end:
            fail(f"resume: {way}: a fault is answered {said!r}")
        events += 1
        time.sleep(0.05)
    # If no node is chosen, a close is denied, and not refused.
    if tess.ask(CLOSE) != REFUSED and b'"deny":"empty"' not in tess.ask(CLOSE):
        fail(f"resume: {way}: a step is closed after a fault was refused")
    if b'"ok":"look"' not in ana.ask(b'{"do":"look","node":1}\n'):
        fail(f"resume: {way}: a look isn't answered once nothing is granted")
    return events


def taken_away(room: Path) -> None:
    """After each change of the file, the host soon grants nothing more. Its standard error has the reason, and its
    status is that of the error `journal fault`. If the file was moved, it passes the audit, with all granted events."""
    lab = lab_of(room, 4)
    for way, line in WAYS:
        folder = room / "class"
        folder.mkdir()
        journal = folder / "journal"
        with Host(lab, 0, 0, journal) as host:
            ana, tess = let_in(host.port, hello("ana"))[0], let_in(host.desk, hello("tess"))[0]
            for who, asked in ((ana, MOVE), (tess, CLOSE)):
                if b'"place":' not in who.ask(asked):
                    fail(f"resume: before {name_of(way)} nothing is granted")
            way(journal)
            events = 2 + cause_faults_until_refused(ana, tess, name_of(way))
            ended = host.dismiss(tess)
        if ended != Ended(4, b"", line + FAULT):
            fail(f"resume: with {name_of(way)} a host ends with {ended}")
        if way is moved:
            audit(lab, folder / "moved", events)
        shutil.rmtree(room / "elsewhere" if way is with_folder else folder)


def taken_away_in_silence(room: Path) -> None:
    """The host notices that the journal's file was removed or emptied even if nobody sends a request, and prints the
    reason. Then it refuses each event, and it ends with status 4 and the error `journal fault`."""
    lab, journal = lab_of(room, 4), room / "journal"
    for way, line in ((removed, GONE), (emptied, CHANGED)):
        with Host(lab, 0, 0, journal) as host:
            ana, tess = let_in(host.port, hello("ana"))[0], let_in(host.desk, hello("tess"))[0]
            ana.ask(MOVE)
            way(journal)
            assert host.process.stderr is not None
            if not select.select([host.process.stderr], [], [], NOTICED)[0]:
                fail(f"resume: in silence, with {name_of(way)}, a host says nothing")
            said = host.process.stderr.readline()
            # The reply to ana isn't compared: her second move is denied anyway, since the first one is still chosen.
            replies = ana.ask(MOVE), tess.ask(CLOSE), tess.ask(fault_at(1))
            ended = host.dismiss(tess)
        if said != line or replies[1:] != (REFUSED, REFUSED) or ended != Ended(4, b"", FAULT):
            fail(f"resume: in silence, with {name_of(way)}, a host says {said!r}, replies {replies}, and ends with {ended}")
        journal.unlink(missing_ok=True)


def link_touch_and_read(journal: Path) -> None:
    """Makes a second link to the file, changes its mode and its times, and reads it. A host mustn't take this for a
    change of the journal."""
    os.link(journal, journal.with_name("link"))
    journal.chmod(0o640)
    os.utime(journal)
    journal.read_bytes()


def left_alone(room: Path) -> None:
    """A host goes on if its journal gets a second link, another mode or other times, or is read, thirty times."""
    lab, journal = lab_of(room, 4), room / "journal"
    with Host(lab, 0, 0, journal) as host:
        ana, tess = let_in(host.port, hello("ana"))[0], let_in(host.desk, hello("tess"))[0]
        for turn in range(30):
            link_touch_and_read(journal)
            journal.with_name("link").unlink()
            time.sleep(0.1)
            if b'"place":' not in tess.ask(fault_at(1)):
                fail("resume: a journal that is where it was is taken for one that is gone")
        ana.close()
        ended = host.dismiss(tess)
    if ended.status != 0 or ended.error:
        fail(f"resume: with a journal that is left alone a host ends with {ended}")
    audit(lab, journal, 30)


def gone_after_a_resume(room: Path) -> None:
    """After a resume that removed an incomplete line, events are granted until the file of the journal is moved."""
    lab, journal = lab_of(room, 4), room / "journal"
    journal.write_bytes(b"1 0 grant ana 1 seduction\n2 0 cl")
    with Host(lab, 0, 0, journal, word="resume") as host:
        ana, tess = let_in(host.port, hello("ana"))[0], let_in(host.desk, hello("tess"))[0]
        if b'"place":2' not in tess.ask(CLOSE):
            fail("resume: after a torn line was taken off nothing is granted")
        time.sleep(3)  # The journal is checked several times.
        if b'"place":3' not in tess.ask(fault_at(1)):
            fail("resume: after a torn line was taken off nothing is granted after a while")
        moved(journal)
        events = 3 + cause_faults_until_refused(ana, tess, "a journal that is moved after a resume")
        ended = host.dismiss(tess)
    if ended.status != 4 or not ended.error.endswith(GONE + FAULT):
        fail(f"resume: with a journal that is moved after a resume a host ends with {ended}")
    audit(lab, journal.with_name("moved"), events)


TESTS = [taken_away, taken_away_in_silence, left_alone, gone_after_a_resume]
