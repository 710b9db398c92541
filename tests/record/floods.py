"""Tests of floods: clients that send very many lines. A host records the lines of each account up to a number of bytes,
its *budget*, and so it does for all connections without a granted hello together. So a flood doesn't use up the record
of others."""
import subprocess
from dataclasses import dataclass
from pathlib import Path

from tests.common.hosting import HOST, Caller, Host, lab_of, let_in
from tests.common.lines import BID, BYE, CLOSE, MALFORMED, hello, look, seduction
from tests.common.preload import LIMIT, Ended, fail
from model import read_lab
from tests.record.recording import whole_line

SEATS = 4
BUDGET = 8 << 20
STRANGER = 64 << 10  # the bytes of the budget of a connection without a hello
LONG = b'{"do":"dance"%s}\n' % (b" " * 4000)
ENTRY = 2 * len(b"4 0 > ") + len(LONG) + len(MALFORMED)
VISIT = 200  # the least number of bytes that the record of a visit has
LINES = BUDGET // ENTRY + 50  # a number of lines that is more than a budget has room for
BATCH = 25
OUTSIDERS = 2600  # lines without a hello that come before anybody greets
AT_ONCE = 20  # the number of such lines on one connection, for which its budget has no room
DENIED = 50
MOVE = seduction(0)
MARKS = (b"!\n", b"-\n", b"+", b".\n")


@dataclass
class Session:
    """A session in the record. `said` has its lines and replies in turn, and `marks` its marks. `missed` is the number
    of lines that weren't recorded."""

    said: list[bytes]
    marks: list[bytes]
    missed: int = 0

    def is_of(self, name: str) -> bool:
        """Returns whether the session begins with the hello of this name."""
        return bool(self.said) and b'"ok":"hello","who":"%s"' % name.encode() in self.said[1]

    def size(self) -> int:
        """Returns the number of bytes of its lines and replies."""
        return sum(map(len, self.said))


def sessions_in(record: Path) -> list[Session]:
    """Returns the sessions in the files of all seats. Fails if the last one of a seat has no end."""
    found = []
    for seat in range(1, SEATS + 1):
        session = Session([], [])
        for line in (record / f"{seat}.record").read_bytes().splitlines(keepends=True):
            mark = line.split(b" ")[2]  # the third word, which is `>` or `<` if the line isn't a mark
            (session.marks if mark in MARKS else session.said).append(mark if mark in MARKS else line)
            session.missed += int(line.split(b" ")[3]) if mark == b"+" else 0
            if mark == b".\n":
                found.append(session)
                session = Session([], [])
        if session.said or session.marks:
            fail(f"record: seat {seat} has no end after a flood, but {session.marks}")
    return found


def flood(caller: Caller, count: int) -> int:
    """Sends `count` long malformed lines on a connection. Returns how many were answered before the connection
    ended."""
    done = 0
    while done < count:
        batch = min(BATCH, count - done)
        caller.send(LONG * batch)
        for _ in range(batch):
            if not caller.line():
                return done
            done += 1
    return done


def leave(caller: Caller) -> None:
    """Says bye on a connection, and waits until the host has closed it. Fails if the bye gets another reply than
    usual."""
    if (caller.ask(BYE), caller.line()) != (BID, b""):
        fail("record: another reply to a bye after a flood")


def whole_visit(host: Host, name: str) -> None:
    """Connects as the student `name`, asks for a close, which is denied, and says bye. Fails if the replies are
    wrong."""
    caller, reply = let_in(host.port, hello(name))
    said = caller.ask(CLOSE)
    if b'"ok":"hello"' not in reply or b'"deny"' not in said:
        fail(f"record: after a flood {name} is answered {reply!r} and {said!r}")
    leave(caller)


def unknown_flood(host: Host, lines: int, at_once: int) -> int:
    """Sends long malformed lines without a hello, on one connection after another, and at most `at_once` on each. Goes
    on until `lines` lines are answered. Returns the number of answered lines."""
    done = 0
    while done < lines:
        caller, reply = let_in(host.port, LONG)
        done += 1 + flood(caller, min(lines - done, at_once) - 1) if reply else 0
        caller.close()
    return done


def wants_budget(who: str, sessions: list[Session]) -> None:
    """Fails unless these sessions of `who` together fill the budget, up to two entries, and don't exceed it."""
    size = sum(session.size() for session in sessions)
    if not BUDGET - 2 * ENTRY < size <= BUDGET:
        fail(f"record: {size} bytes are recorded of {who}, who may have {BUDGET}")


def wants_whole(name: str, found: list[Session], count: int) -> None:
    """Fails unless `found` has exactly `count` sessions of a student who doesn't flood, each with all its lines,
    replies and its end."""
    visits = [session for session in found if session.is_of(name)]
    if len(visits) != count or any((len(v.said), v.marks) != (6, [b".\n"]) for v in visits):
        fail(f"record: beside a flood {name}'s visits are recorded as {[(len(v.said), v.marks) for v in visits]}")


def check_verified(lab: Path, journal: Path, record: Path, found: list[Session], lacking: tuple[str, ...] = ()) -> None:
    """Fails unless `verify` accepts the record, as one that isn't complete. It must count the sessions in `found` with
    their lines, and one event. Only the lines of the names in `lacking` may be missing."""
    lines = sum(len(session.said) // 2 for session in found)
    call: list[str | Path] = [HOST, "verify", lab, journal, record]
    done = subprocess.run(
        call, stdin=subprocess.DEVNULL, capture_output=True, env=dict[str, str](), timeout=LIMIT, check=False,
    )
    first = f"ok: {len(found)} sessions, {lines} lines, 1 events, not whole"
    wanted = f"{first}\n{whole_line(read_lab(lab.read_bytes()), lacking=lacking)}\n".encode("ascii")
    if (done.returncode, done.stdout, done.stderr) != (0, wanted, b""):
        fail(f"record: after a flood the record is verified as {done}, not {wanted!r}")


def flooded(room: Path) -> None:
    """Checks a class in which a student floods, and then a client without a hello. Each has one budget for all seats
    together, and a mark must show that recording paused when it was used up. The lines of others must all be recorded,
    in the same seats too."""
    lab, journal, record = lab_of(room, SEATS), room / "flood.journal", room / "flood"
    with Host(lab, 0, 0, journal, record) as host:
        tess, _ = let_in(host.desk, hello("tess"))
        ana, _ = let_in(host.port, hello("ana"))
        if flood(ana, LINES) < LINES or b'"place":1' not in ana.ask(MOVE) or b'"ok":"look"' not in ana.ask(look("ana")):
            fail("record: who floods isn't served on")
        whole_visit(host, "ben")
        # The rest of her budget after the flood is smaller than an entry.
        for _ in range(ENTRY // VISIT + 2):
            whole_visit(host, "ana")
        leave(ana)
        whole_visit(host, "ben")
        unknown_flood(host, LINES, LINES)
        whole_visit(host, "cyd")
        ended = host.dismiss(tess)
    if ended != Ended(0, b"done: 1 events, configuration 0\n", b""):
        fail(f"record: a class that was flooded ends with {ended}")
    found = sessions_in(record)
    floods = [session for session in found if session.is_of("ana")]
    unknown = [session for session in found if session.said and b'"ok":"hello"' not in session.said[1]]
    cut = [session for session in found if session.marks == [b"-\n", b"+", b".\n"]]
    large = [session for session in cut if session.is_of("ana") and session.size() > BUDGET // 2]
    # The flood is cut after many lines, and at least one session is cut before its first line.
    if len(large) != 1 or all(session.said for session in cut) or any(b"!\n" in session.marks for session in found):
        fail(f"record: beside a flood these are cut: {[(len(session.said), session.marks) for session in cut]}")
    if sum(session.missed for session in found if session in large) < LINES - BUDGET // ENTRY:
        fail(f"record: a flood of {LINES} lines is recorded as having missed {large[0].missed}")
    wants_budget("ana", floods)
    if not unknown or any(session.size() > STRANGER for session in unknown):
        fail(f"record: of a connection before a hello {[session.size() for session in unknown]} bytes are recorded")
    wants_whole("ben", found, 2)
    wants_whole("cyd", found, 1)
    check_verified(lab, journal, record, found, ("ana",))


def asks_in_vain(caller: Caller) -> None:
    """Asks `DENIED` times for a move in a configuration that isn't the current one, and then for a move that is
    granted. Fails if a reply is wrong."""
    said = [caller.ask(seduction(7)) for _ in range(DENIED)]
    if any(b'"deny":"stale"' not in reply for reply in said) or b'"place":1' not in caller.ask(MOVE):
        fail(f"record: after outsiders a student is answered {said[-1]!r}")


def outsiders_first(room: Path) -> None:
    """Checks a class in which clients without a hello use up their common budget. Then a student's session begins with
    a malformed line, which isn't recorded. From the hello on all lines must be recorded, and the record must count the
    missing ones. No name may lack a line."""
    lab, journal, record = lab_of(room, SEATS), room / "outsiders.journal", room / "outsiders"
    with Host(lab, 0, 0, journal, record) as host:
        tess, _ = let_in(host.desk, hello("tess"))
        asked = unknown_flood(host, OUTSIDERS, AT_ONCE)
        ana, _ = let_in(host.port, LONG)
        if b'"ok":"hello"' not in ana.ask(hello("ana")):
            fail("record: after outsiders a student isn't greeted")
        asks_in_vain(ana)
        leave(ana)
        ended = host.dismiss(tess)
    if ended != Ended(0, b"done: 1 events, configuration 0\n", b""):
        fail(f"record: a class after outsiders ends with {ended}")
    found = sessions_in(record)
    unknown = [session for session in found if session.said and b'"refuse"' in session.said[1]]
    recorded = sum(len(session.said) // 2 for session in unknown)
    wants_budget("outsiders", unknown)
    (own,) = [session for session in found if session.is_of("ana")] or [Session([], [])]
    # The hello, the denied moves, the granted move and the bye, each with its reply.
    if len(own.said) != 2 * (1 + DENIED + 1 + 1) or b'"place":1' not in own.said[-3] or own.marks[-2:] != [b"+", b".\n"]:
        fail(f"record: after outsiders a student's session has {len(own.said)} lines, and {own.marks}")
    if sum(session.missed for session in found) != asked + 1 - recorded:
        fail(f"record: of {asked + 1} lines of outsiders {recorded} are recorded, and {[session.missed for session in found]} missed")
    check_verified(lab, journal, record, found)
