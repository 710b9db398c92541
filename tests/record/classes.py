"""Tests of classes that a host (the server of a class) records: the contents of the files, also after a kill or a
failed write.

Students connect to the host's port, and the teacher tess to its desk. A record has a file for each seat, which serves
one connection (a session) after another. The mark `.` ends a session, and `!` says that lines may be missing up to the
session's end.
"""
import resource
import subprocess
import sys
from collections.abc import Sequence
from pathlib import Path

from model import read_lab
from tests.common.hosting import HOST, Caller, Host, lab_of, let_in
from tests.common.lines import BID, BYE, CLOSE, REPORT, UNKNOWN, hello, look, seduction
from tests.common.preload import LIMIT, Ended, fail
from tests.record.floods import flooded, outsiders_first
from tests.record.places import TESTS as PLACES
from tests.record.recording import whole_line

SEATS = 4
STUDENT = SEATS  # the first connection to the port gets the last seat
# The members of this object aren't in the order of their keys. The record has to keep the order of the line.
WRONG = b'{"do":"hello","name":"ana","key":"wrong"}\n'
MOVE = seduction(0)
OTHER = seduction(1, node=2)
# What ana at the port and tess at the desk say and are answered, in the class that is played first.
ANA = b"""\
4 0 > {"do":"hello","name":"ana","key":"wrong"}
4 0 < {"clause":2,"deny":"unknown","text":"name and key do not match"}
4 0 > {"do":"hello","key":"a-key","name":"ana"}
4 0 < {"ok":"hello","who":"ana"}
4 0 > {"at":0,"do":"move","node":1,"rule":"seduction"}
4 0 < {"at":0,"node":1,"ok":"move","place":1,"rule":"seduction"}
4 1 > {"at":0,"do":"move","node":1,"rule":"seduction"}
4 1 < {"clause":3,"deny":"chosen","text":"this node is already chosen"}
4 2 > {"do":"bye"}
4 2 < {"ok":"bye"}
4 2 .
"""
TESS = b"""\
1 0 > {"do":"hello","key":"chalk","name":"tess"}
1 0 < {"ok":"hello","who":"tess"}
1 1 > {"do":"close"}
1 1 < {"at":1,"moved":[1],"ok":"close","place":2}
1 2 > {"do":"bye"}
1 2 < {"ok":"bye"}
1 2 .
"""


def check_verified(lab: Path, journal: Path, record: Path, line: bytes) -> None:
    """Fails unless `verify` accepts a record, and prints `line` first. Then it must print the names of those whose
    lines are all recorded, and the number in the file `begun`. If `line` says `not whole`, it must name nobody."""
    begun = int((record / "begun").read_bytes())
    line += f"{whole_line(read_lab(lab.read_bytes()), b'not whole' in line, begun=begun)}\n".encode("ascii")
    call: list[str | Path] = [HOST, "verify", lab, journal, record]
    done = subprocess.run(call, stdin=subprocess.DEVNULL, capture_output=True, env=dict[str, str](), timeout=LIMIT, check=False)
    if (done.returncode, done.stdout, done.stderr) != (0, line, b""):
        fail(f"record: a class's record is verified as {done}, not {line!r}")


def texts(record: Path) -> dict[str, bytes]:
    """Returns the contents of a record's files, by their names. Fails unless the permissions are 700 for the folder and
    600 for each file, since other users mustn't read them."""
    found = {file.name: file.read_bytes() for file in record.iterdir()}
    modes = {file.stat().st_mode & 0o777 for file in record.iterdir()}
    if record.stat().st_mode & 0o777 != 0o700 or modes != {0o600}:
        fail(f"record: others may use it: {modes}")
    return found


def wants(record: Path, lab: Path, said: dict[int, bytes]) -> None:
    """Fails unless a record has exactly its usual files. These seats must have the texts in `said`, and all other seats
    an empty file. `begun` must contain 0, and `lab` a copy of the lab."""
    wanted = {f"{seat}.record": said.get(seat, b"") for seat in range(1, SEATS + 1)}
    found = texts(record)
    if found != {**wanted, "begun": b"0\n", "lab": lab.read_bytes()}:
        fail(f"record: the class's files hold {found}")


def begin(host: Host) -> tuple[Caller, Caller]:
    """Connects ana, whose wrong hello is denied, whose hello and move are granted, and whose second move is denied.
    Then connects the teacher tess, who says hello. Returns both connections. Fails if ana's replies are wrong."""
    ana, reply = let_in(host.port, WRONG)
    said = [reply, ana.ask(hello("ana")), ana.ask(MOVE), ana.ask(MOVE)]
    tess, _ = let_in(host.desk, hello("tess"))
    if said[0] != UNKNOWN or b'"place":1' not in said[2] or b'"chosen"' not in said[3]:
        fail(f"record: a student is answered {said}")
    return ana, tess


def whole_class(room: Path) -> tuple[Path, Path, Path]:
    """Checks that a class is recorded from beginning to end, except for granted views, which have no entry. Returns the
    paths of its lab, journal and record."""
    lab, journal, record = lab_of(room, SEATS), room / "whole.journal", room / "whole record"
    with Host(lab, 0, 0, journal, record) as host:
        tess, _ = let_in(host.desk, hello("tess"))
        ana, _ = let_in(host.port, WRONG)
        for line in (hello("ana"), MOVE, MOVE, look("ana")):
            ana.ask(line)
        tess.ask(REPORT)
        tess.ask(CLOSE)
        ana.ask(look("ana"))
        if (ana.ask(BYE), ana.line()) != (BID, b""):
            fail("record: another reply to a student's bye")
        ended = host.dismiss(tess)
    if ended != Ended(0, b"done: 2 events, configuration 1\n", b""):
        fail(f"record: a recorded class ends with {ended}")
    wants(record, lab, {1: TESS, STUDENT: ANA})
    check_verified(lab, journal, record, b"ok: 2 sessions, 8 lines, 2 events\n")
    return lab, journal, record


def killed_and_resumed(room: Path) -> None:
    """Checks that the record of a killed class has all its replies. When the class is resumed, the record must go on,
    and mark each seat as possibly incomplete."""
    lab, journal, record = lab_of(room, SEATS), room / "killed.journal", room / "killed"
    with Host(lab, 0, 0, journal, record) as host:
        callers = begin(host)
        host.kill()
    for caller in callers:
        caller.close()
    # Each entry has two lines: here are the first one of tess, and the first four of ana.
    before = {1: b"".join(TESS.splitlines(True)[:2]), STUDENT: b"".join(ANA.splitlines(True)[:8])}
    wants(record, lab, before)
    with Host(lab, 0, 0, journal, record, word="resume") as host:
        tess, _ = let_in(host.desk, hello("tess"))
        tess.ask(CLOSE)
        ended = host.dismiss(tess)
    if ended.status != 0 or ended.error or b"done: 2 events, configuration 1\n" not in ended.out:
        fail(f"record: a class that goes on ends with {ended}")
    after = {seat: before.get(seat, b"") + b"%d 1 !\n%d 1 .\n" % (seat, seat) for seat in range(1, SEATS + 1)}
    after[1] += TESS.replace(b"1 0 ", b"1 1 ")
    wants(record, lab, after)
    # Of the five sessions, four end with the mark of their seat, and one with the bye of tess.
    check_verified(lab, journal, record, b"ok: 5 sessions, 8 lines, 2 events, not whole\n")


def torn_entries(room: Path) -> None:
    """Checks that an incomplete entry at the end of a seat's file is removed and reported when the class is resumed. It
    is a line without its reply, or the beginning of a line or a reply. Nothing else may be removed."""
    lab, journal, record = lab_of(room, SEATS), room / "torn.journal", room / "torn"
    with Host(lab, 0, 0, journal, record) as host:
        callers = begin(host)
        host.kill()
    for caller in callers:
        caller.close()
    # Each entry has two lines: here are the first one of tess, and the first four of ana.
    whole = {1: b"".join(TESS.splitlines(True)[:2]), STUDENT: b"".join(ANA.splitlines(True)[:8])}
    torn = {1: b'1 1 > {"do":"close"}\n', 2: b'2 0 > {"do"', STUDENT: b'4 1 > {"do":"bye"}\n4 1 < {"ok":"b'}
    for seat, content in torn.items():
        with (record / f"{seat}.record").open("ab") as it:
            it.write(content)
    with Host(lab, 0, 0, journal, record, word="resume") as host:
        ended = host.dismiss(let_in(host.desk, hello("tess"))[0]) if host.listens else host.end()
    wanted = b"".join(b"resume: a torn entry of %d bytes is taken off %d.record\n" % (len(content), seat) for seat, content in torn.items())
    if ended.status != 0 or ended.error != wanted:
        fail(f"record: with torn entries a class that goes on ends with {ended}")
    after = {seat: whole.get(seat, b"") + b"%d 1 !\n%d 1 .\n" % (seat, seat) for seat in range(1, SEATS + 1)}
    after[1] += b"".join(line for line in TESS.replace(b"1 0 ", b"1 1 ").replace(b"1 2 ", b"1 1 ").splitlines(True) if b"close" not in line)
    wants(record, lab, after)
    check_verified(lab, journal, record, b"ok: 5 sessions, 7 lines, 1 events, not whole\n")


def full_disk(room: Path) -> None:
    """Checks a class in which no file can have more than 1 kB, as on a full disk. The class must go on, and the host
    must report the fault at its end. This limit is set before the host starts, or when it already listens."""
    lab = lab_of(room, SEATS)
    for name, start in (("before", "ulimit -f 1"), ("later", 'trap "" XFSZ')):
        journal, record = room / f"{name}.journal", room / f"full {name}"
        with Host(lab, 0, 0, journal, record, before=["bash", "-c", f'{start} && exec "$@"', "bash"]) as host:
            resource.prlimit(host.process.pid, resource.RLIMIT_FSIZE, (1024, 1024))
            fills(host, name)
        check_cut(lab, journal, record)


def fills(host: Host, name: str) -> None:
    """Plays a class to its end, in which the file of ana's seat gets full. Fails if a reply, or the end of the host, is
    wrong. `name` is that of the limit, for errors."""
    ana, tess = begin(host)
    for _ in range(20):
        if b'"chosen"' not in ana.ask(MOVE):
            fail(f"record: a student isn't answered where a disk is full, {name}")
    tess.ask(CLOSE)
    reply = ana.ask(OTHER)  # a move of a node that isn't hers
    if b'"deny"' not in reply or ana.ask(BYE) != BID:
        fail(f"record: after a disk is full, {name}, a student is answered {reply!r}")
    ended = host.dismiss(tess)
    if ended != Ended(4, b"done: 2 events, configuration 1\n", b"record fault\n"):
        fail(f"record: where a record is cut, {name}, the host ends with {ended}")


def check_cut(lab: Path, journal: Path, record: Path) -> None:
    """Fails unless the file of the full seat begins with ana's entries and ends with the mark `!`, and `verify` reports
    the record as incomplete."""
    text = texts(record)[f"{STUDENT}.record"]
    entries = text.splitlines(keepends=True)
    if len(text) > 1024 or b"".join(entries[:8]) != b"".join(ANA.splitlines(True)[:8]) or entries[-1] != b"%d 1 !\n" % STUDENT:
        fail(f"record: a seat's file that is full has {text!r}")
    found = sum(b" < " in entry for entry in entries)
    # Since nothing follows the mark, only the session of tess has an end.
    check_verified(lab, journal, record, b"ok: 1 sessions, %d lines, 2 events, not whole\n" % (found + 3))


def kept_and_held(room: Path) -> None:
    """Checks that an older record is kept beside the next one, and that only one host at a time can write a record.
    When a class is resumed with another lab, its record must not be continued, but kept."""
    lab, journal, record = whole_class(room)
    before = texts(record)
    with Host(lab, 0, 0, room / "next.journal", record) as host:
        with Host(lab, 0, 0, room / "other.journal", record) as second:
            if second.listens or second.end() != Ended(4, b"", b"record fault\n"):
                fail("record: two hosts write one record")
        ended = host.dismiss(let_in(host.desk, hello("tess"))[0])
    greeted = b"".join(TESS.splitlines(True)[:2])
    bid = b"".join(TESS.splitlines(True)[-3:])
    if ended != Ended(0, b"done: 0 events, configuration 0\n", b"") or texts(record.with_name("whole record.~1~")) != before:
        fail(f"record: the host that goes on after another ends with {ended}, or the older record isn't kept")
    wants(record, lab, {1: greeted + bid.replace(b"1 2 ", b"1 0 ")})
    other = room / "other.toml"
    other.write_bytes(lab.read_bytes() + b"# another text\n")
    with Host(other, 0, 0, journal, record, word="resume") as host:
        ended = host.dismiss(let_in(host.desk, hello("tess"))[0])
    if ended.status != 0 or texts(record)["begun"] != b"2\n" or not record.with_name("whole record.~2~").is_dir():
        fail(f"record: a record of another lab is gone on with: {ended}")
    check_verified(other, journal, record, b"ok: 1 sessions, 2 lines, 2 events\n")


def run_classes(room: Path, words: Sequence[str] = ()) -> int:
    """Runs all tests of classes, or only those whose names contain one of `words`. `room` is a folder for their files.
    Returns the number of tests. Exits with status 1 if there is no such test."""
    tests = [kept_and_held, killed_and_resumed, torn_entries, full_disk, flooded, outsiders_first, *PLACES]
    chosen = [test for test in tests if not words or any(word in test.__name__ for word in words)]
    if not chosen:
        sys.exit(f"no test has {' or '.join(words)} in its name. The tests are: {', '.join(test.__name__ for test in tests)}")
    for test in chosen:
        test(room)
    return len(chosen)
