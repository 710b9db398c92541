"""Kills hosts (servers of classes) and resumes their classes from the journals, as a user does.

    python3 -m tests.resume [WORD..]

With arguments, only the tests whose names contain one of them are run. The tests run side by side, because most of
them wait.
"""
import os
import shutil
import threading
import time
from collections.abc import Sequence
from errno import EINVAL, EIO, errorcode
from pathlib import Path

from tests.common.hosting import Caller, Host, audit, connect, lab_of, let_in
from tests.common.lines import CLOSE, closed, denial_of, fault_at, greeted, hello, refusal_of, seduction
from tests.common.preload import Ended, Preloaded, fail
from tests.common.side_by_side import Test, try_all
from tests.resume import away, once, synced
from tests.resume.players import Players

NO_COPY = b"resume: no copy of the lab beside the journal, the audit alone vouches for it\n"
OTHER = Ended(2, b"", b"resume: another lab\n")
FAULT = Ended(4, b"", b"journal fault\n")
BREAK = fault_at(1)
SEDUCES = seduction(0)
# The first line of a journal of the built-in lab, its first two lines, and a third line without its end.
ONE = b"1 0 grant ana 1 seduction\n"
FIRST = ONE + b"2 0 close\n"
THIRD = b"3 1 grant ben 2 marriage 1"
LONGEST = 101  # the most bytes after the last newline that `resume` takes for the beginning of a line
PACE = 0.1  # seconds that the class in `slowness` took on the machine for which the times of kills were chosen
TURNS = 200  # the most turns, each of three requests, in which a full disk has to halt the journal
KILLS = 80  # the number of kills of hosts alone; tests/classroom/test_resume.py kills `run`, and both, ten times each


def kept(journal: Path) -> dict[str, bytes]:
    """Returns the contents of a journal and of the files beside it, by their names."""
    return {file.name: file.read_bytes() for file in journal.parent.glob(f"{journal.name}*")}


def read_resumed(host: Host) -> bytes:
    """Reads the host's second line of output, and returns it. In this line the host says at which place, configuration
    and number of chosen moves the class goes on."""
    assert host.process.stdout is not None
    return host.process.stdout.readline()


def place_of(line: bytes) -> int:
    """Returns the place in a line that `read_resumed` has returned: the number of events that the class already has.
    Fails if the line names no place."""
    if not line.startswith(b"resumed at place "):
        fail(f"resume: another line after that on the ports: {line!r}")
    return int(line[17:line.index(b",")])


def check_refused(lab: Path, journal: Path, wanted: Ended, why: str, before: Sequence[str] = ()) -> None:
    """Checks that `resume` of a journal of a lab has this end, and that no file is changed. `why` names the
    situation, for the error, and `before` are words to put before the command."""
    was = kept(journal) if journal.is_file() else {}
    with Host(lab, 0, 0, journal, word="resume", before=before) as host:
        ended = None if host.listens else host.end()
    if ended != wanted:
        fail(f"resume: {why}: it ends with {ended}")
    if was != (kept(journal) if journal.is_file() else {}):
        fail(f"resume: {why}: the journal isn't as it was")


def check_resumed(lab: Path, journal: Path, line: bytes, error: bytes, why: str) -> None:
    """Resumes a class from its journal, and ends it at once. Checks that the host's second line is `line`, that it prints
    `error` on standard error, and that its last line has the same place and configuration as `line`. `why` names the
    situation, for the error."""
    with Host(lab, 0, 0, journal, word="resume") as host:
        said = read_resumed(host) if host.listens else b""
        ended = host.dismiss(let_in(host.desk, hello("tess"))[0]) if host.listens else host.end()
    configuration = line.split()[5][:-1]  # the number after the word `configuration`, without its comma
    wanted = Ended(0, b"done: %d events, configuration %s\n" % (place_of(line), configuration), error)
    if (said, ended) != (line, wanted):
        fail(f"resume: {why}: {said!r} and {ended}, not {line!r} and {wanted}")


def kill_after(host: Host, seconds: float) -> threading.Timer:
    """Starts a timer that kills a host after so many seconds. Returns the timer."""
    timer = threading.Timer(seconds, host.process.kill)
    timer.start()
    return timer


def slowness(lab: Path, room: Path) -> float:
    """Plays a class with three steps. Returns how many times as long as PACE this takes here, but at least 1."""
    begun = time.monotonic()
    with Host(lab, 0, 0, room / "pace.journal") as host:
        players = Players(1)
        players.come(host)
        for _ in range(3):
            players.step()
        players.leave()
    return max(1.0, (time.monotonic() - begun) / PACE)


def kills(room: Path) -> None:
    """A host is killed at random times, and resumed each time. Each time it goes on with at least all events whose
    replies were read. At last the class is played to a stable end."""
    lab, journal = lab_of(room, 4, 100_000), room / "journal"
    players, pace = Players(47), slowness(lab, room)
    for turn in range(KILLS):
        with Host(lab, 0, 0, journal, word="resume" if turn else "host") as host:
            if not host.listens:
                fail(f"resume: after {turn} kills it ends with {host.end()}")
            at = place_of(read_resumed(host)) if turn else 0
            if at < players.told:
                fail(f"resume: after {turn} kills it goes on at place {at}, and place {players.told} was reported")
            timer = kill_after(host, pace * players.random.uniform(0.02, 0.4))
            players.play_on(host)
            timer.join()
    with Host(lab, 0, 0, journal, word="resume") as host:
        at = place_of(read_resumed(host))
        ended = host.dismiss(players.play_out(host))
    last = max(at, players.told)  # A host may have been killed between the last event and its reply.
    # Of the last line, only the number of events is compared.
    if ended.status != 0 or ended.out != b"done: %d events, " % last + ended.out.split(b"events, ")[-1]:
        fail(f"resume: after {KILLS} kills it ends with {ended}, and place {last} was last")
    if b", stable" not in audit(lab, journal, last) or players.told < 50:
        fail(f"resume: after {KILLS} kills and {players.told} events the run isn't stable")


def power_cuts(room: Path) -> None:
    """If the power fails, only what was synced is left of the journal. This is all events whose replies were read. In a
    second class the syncs do nothing, and then events are lost. So the test would notice if the host didn't sync."""
    library = Preloaded("resume/power.c", room, "POWER_COUNTS")
    lab, lost = lab_of(room, 4, 100_000), 0
    pace = slowness(lab, room)
    for is_ignored in (False, True):
        journal, players = room / f"{is_ignored}.journal", Players(7)
        told = library.variables({"POWER_IGNORED": "1"} if is_ignored else {})
        for turn in range(8):
            with Host(lab, 0, 0, journal, word="resume" if turn else "host", variables=told) as host:
                if turn and place_of(read_resumed(host)) < players.told:
                    fail("resume: a power cut takes an event whose reply went out")
                timer = kill_after(host, pace * players.random.uniform(0.1, 0.5))
                players.play_on(host)
                timer.join()
            # A power cut is simulated: the journal is cut to the bytes that were synced.
            durable, syncs = library.counts()
            os.truncate(journal, durable)
            there = journal.read_bytes().count(b"\n")
            lost += max(players.told - there, 0) if is_ignored else 0
            if not is_ignored and (there < players.told or syncs < there // 8):
                fail(f"resume: of {players.told} events {there} are there after a power cut, and {syncs} syncs")
            players.told = there if is_ignored else players.told
    if lost == 0:
        fail("resume: no event is lost without the sync")


def failed_sync(room: Path) -> None:
    """If a line can't be synced, it is removed, its event is refused, and the journal is halted. The class can be
    resumed later."""
    library = Preloaded("resume/power.c", room, "POWER_COUNTS")
    lab, journal = lab_of(room, 4), room / "journal"
    with Host(lab, 0, 0, journal, variables=library.variables({"POWER_FAIL_AT": "2"})) as host:
        ana, tess = let_in(host.port, hello("ana"))[0], let_in(host.desk, hello("tess"))[0]
        said = ana.ask(SEDUCES), tess.ask(CLOSE), tess.ask(CLOSE)
        ended = host.dismiss(tess)
    refusal = refusal_of("journal")
    if b'"place":1' not in said[0] or said[1:] != (refusal, refusal) or ended != FAULT:
        fail(f"resume: where a sync fails: {said} and {ended}")
    if journal.read_bytes() != ONE:
        fail("resume: a line that wasn't synced isn't taken back")
    check_resumed(lab, journal, b"resumed at place 1, configuration 0, 1 chosen\n", b"", "after a sync that failed")


def failed_sync_after_a_resume(room: Path) -> None:
    """If a line can't be synced after a resume, the file is cut to its complete lines, with or without an incomplete
    line at the resume."""
    library = Preloaded("resume/power.c", room, "POWER_COUNTS")
    lab, journal = lab_of(room, 4), room / "journal"
    for torn in (b"", b"3 1 gr"):
        journal.write_bytes(FIRST + torn)
        # The first sync is that of the journal's old lines, so the second is that of a new line, and fails.
        with Host(lab, 0, 0, journal, word="resume", variables=library.variables({"POWER_FAIL_AT": "2"})) as host:
            line, tess = read_resumed(host), let_in(host.desk, hello("tess"))[0]
            said = tess.ask(BREAK), tess.ask(BREAK)
            ended = host.dismiss(tess)
        if place_of(line) != 2 or said != (refusal_of("journal"),) * 2 or library.counts()[1] != 2:
            fail(f"resume: when the first sync after a resume fails: {line!r}, {said}, {library.counts()[1]} syncs")
        if (ended.status, ended.out) != (4, b"") or not ended.error.endswith(FAULT.error) or journal.read_bytes() != FIRST:
            fail(f"resume: when the first sync after a resume fails it ends with {ended}, and leaves {journal.read_bytes()!r}")
    check_resumed(lab, journal, b"resumed at place 2, configuration 1, 0 chosen\n", NO_COPY, "after a sync that failed after a resume")


def folders_that_fail(room: Path) -> None:
    """If the folder of a journal can't be synced, no class begins. If the system syncs no folders at all, one does."""
    library = Preloaded("resume/power.c", room, "POWER_COUNTS")
    lab = lab_of(room, 4)
    for error, status, words in ((EIO, FAULT.status, FAULT.error), (EINVAL, 0, b"")):
        with Host(lab, 0, 0, room / str(error), variables=library.variables({"POWER_FOLDERS": str(error)})) as host:
            ended = host.dismiss(let_in(host.desk, hello("tess"))[0]) if host.listens else host.end()
        if (ended.status, ended.error) != (status, words):
            fail(f"resume: when the sync of a folder fails with {errorcode[error]}, a host ends with {ended}")


def play_until_halted(ana: Caller, tess: Caller) -> int:
    """Repeats a move, its close and a fault, on the connections of ana and the teacher, until the journal is halted and
    such a fault is refused. Returns the number of granted events. Fails if the journal isn't halted after TURNS
    turns."""
    told = 0
    for turn in range(TURNS):
        move = seduction(2 * turn)
        replies = [ana.ask(move), tess.ask(CLOSE), tess.ask(BREAK)]
        told += sum(b'"place":' in reply for reply in replies)
        if replies[2] == refusal_of("journal"):
            return told
    fail(f"resume: after {TURNS} turns and {told} events no line is refused, though the disk is full")


def resume_for_a_fault(lab: Path, journal: Path) -> tuple[int, bytes, Ended]:
    """Resumes a class for one event, a fault, and ends it. Returns the place at which it went on, the reply to the
    fault, and the end of the host."""
    with Host(lab, 0, 0, journal, word="resume") as host:
        place = place_of(read_resumed(host))
        tess = let_in(host.desk, hello("tess"))[0]
        return place, tess.ask(BREAK), host.dismiss(tess)


def full_disk(room: Path) -> None:
    """If the journal's file can't take another complete line, further events are refused. The class can be resumed when
    there is room. The disk is simulated by a limit of 1024 bytes on the size of files."""
    lab, journal = lab_of(room, 4), room / "journal"
    limited = ["bash", "-c", 'trap "" XFSZ && ulimit -f 1 && exec "$@"', "bash"]
    with Host(lab, 0, 0, journal, before=limited) as host:
        ana, tess = let_in(host.port, hello("ana"))[0], let_in(host.desk, hello("tess"))[0]
        told = play_until_halted(ana, tess)
        ended = host.dismiss(tess)
    content = journal.read_bytes()
    is_full = len(content) <= 1024 < len(content) + LONGEST
    if ended != FAULT or not is_full or not content.endswith(b"\n") or content.count(b"\n") != told:
        fail(f"resume: on a full disk it ends with {ended}, {len(content)} bytes, {told} events reported")
    place, reply, ended = resume_for_a_fault(lab, journal)
    if place != told or b'"place":%d' % (told + 1) not in reply or ended.status != 0:
        fail(f"resume: after a full disk it goes on at {place}, not {told}: {reply!r}, {ended}")
    if ended.error or not journal.read_bytes().startswith(content) or sorted(kept(journal)) != ["journal", "journal.lab"]:
        fail(f"resume: after a full disk {sorted(kept(journal))} are kept, and it prints {ended.error!r}")
    audit(lab, journal, told + 1)


def in_mid_line(room: Path) -> None:
    """On a full disk of two pages the journal ends with the beginning of a line. The class is resumed from a copy of
    the journal on another disk: the incomplete line is removed, and the complete ones stay. Only root can mount the
    disk, so the test does nothing for other users. The disk is mounted for the host alone."""
    if os.geteuid() != 0:
        return
    lab, disk, journal = lab_of(room, 4), room / "disk", room / "journal"
    disk.mkdir()
    mounts = ["unshare", "--mount", "bash", "-c", 'mount -t tmpfs -o size=8k none "$0" && exec "$@"', str(disk)]
    with Host(lab, 0, 0, disk / "journal", before=mounts) as host:
        ana, tess = let_in(host.port, hello("ana"))[0], let_in(host.desk, hello("tess"))[0]
        told = play_until_halted(ana, tess)
        for file in Path(f"/proc/{host.process.pid}/root{disk}").iterdir():
            shutil.copy(file, room / file.name)
        ended = host.dismiss(tess)
    content = journal.read_bytes()
    whole, found, torn = content.rpartition(b"\n")
    if ended != FAULT or len(content) != 4096 or not torn or content.count(b"\n") != told:
        fail(f"resume: on a full disk it ends with {ended}, {len(content)} bytes, {told} events reported")
    place, reply, ended = resume_for_a_fault(lab, journal)
    if place != told or b'"place":%d' % (told + 1) not in reply or not journal.read_bytes().startswith(whole + found):
        fail(f"resume: after a line that broke off it goes on at {place}, not {told}: {reply!r}")
    if ended.status != 0 or ended.error != b"resume: a torn line of %d bytes is taken off\n" % len(torn):
        fail(f"resume: after a line that broke off it ends with {ended}")
    audit(lab, journal, told + 1)


def torn_tails(room: Path) -> None:
    """If a journal ends with an incomplete line, of whatever length, `resume` removes it, and keeps a copy of the whole
    file with the same mode. A journal with an error in another place, or with too many bytes after its last newline, is
    refused."""
    lab, journal = lab_of(room, 4), room / "journal"
    tails = [THIRD[:length] for length in range(len(THIRD) + 1)] + [b"x" * LONGEST]
    for tail in tails:
        for file in room.glob("journal*"):
            file.unlink()
        journal.write_bytes(FIRST + tail)
        journal.chmod(0o640)
        error = NO_COPY + (b"resume: a torn line of %d bytes is taken off\n" % len(tail) if tail else b"")
        check_resumed(lab, journal, b"resumed at place 2, configuration 1, 0 chosen\n", error, f"a tail of {len(tail)} bytes")
        wanted = {"journal": FIRST, **({"journal.~1~": FIRST + tail} if tail else {})}
        if kept(journal) != wanted:
            fail(f"resume: after a tail of {len(tail)} bytes there are {kept(journal)}")
        if tail and (room / "journal.~1~").stat().st_mode & 0o777 != 0o640:
            fail("resume: what is kept may be read by others")
    # A copy gets the next number that is free.
    (room / "journal.~1~").write_bytes(b"another's")
    journal.write_bytes(FIRST + b"3")
    check_resumed(lab, journal, b"resumed at place 2, configuration 1, 0 chosen\n", NO_COPY + b"resume: a torn line of 1 bytes is taken off\n", "a tail")
    if kept(journal) != {"journal": FIRST, "journal.~1~": b"another's", "journal.~2~": FIRST + b"3"}:
        fail("resume: a file was kept under the name of another one")
    for content, line in [
        (FIRST + b"x" * (LONGEST + 1), b"audit: line 3: torn\n"), (b"x" * (LONGEST + 1), b"audit: line 1: torn\n"),
        (ONE + b"2 0 clos\n", b"audit: line 2: not an event\n"), (b"1 0 close\n2", b"audit: line 1: illegal, empty\n"),
        (b"2 0 close\n", b"audit: line 1: wrong place or configuration\n"),
        (ONE + b"\n" + b"2", b"audit: line 2: not an event\n"),
    ]:
        journal.write_bytes(content)
        check_refused(lab, journal, Ended(3, b"", NO_COPY + line), f"a journal {content!r}")


def other_labs(room: Path) -> None:
    """A journal of another lab is refused. A changed key or limit doesn't make it another lab."""
    lab, journal = lab_of(room, 4), room / "journal"
    with Host(lab, 0, 0, journal) as host:
        let_in(host.port, hello("ana"))[0].ask(SEDUCES)
        host.kill()
    copy = room / "journal.lab"
    if copy.read_bytes() != lab.read_bytes() or copy.stat().st_mode & 0o777 != 0o600:
        fail("resume: the copy of the lab beside a journal is another, or others may read it")
    text = lab.read_text(encoding="utf-8")
    line = b"resumed at place 1, configuration 0, 1 chosen\n"
    for old, new in [
        ("id = 3", "id = 4"), ("[[1, 2], [2, 3]]", "[[1, 2], [2, 3], [1, 3]]"), ("[[1, 2], [2, 3]]", "[[1, 2]]"),
        ("id = 3", "id = 3\np = 2"), ("id = 3", "id = 3\nm = true"), ('"cyd"', '"cys"'), ('"tess"', '"tessa"'),
        ('owner = "cyd"', 'owner = "ben"'), ('owner = "cyd"', 'owners = ["cyd", "ben"]'),
    ]:
        other = room / "other.toml"
        # If node 3 gets another identifier, its link has to name that.
        other.write_text(text.replace(old, new).replace("[2, 3]", "[2, 4]" if new == "id = 4" else "[2, 3]"), encoding="utf-8")
        check_refused(other, journal, OTHER, f"a lab with {new}")
    for old, new in [("c-key", "another-key"), ("sessions = 4", "sessions = 7"), ("events = 1000", "events = 1"), ("\n", "\n# a comment\n")]:
        same = room / "same.toml"
        same.write_text(text.replace(old, new, 1), encoding="utf-8")
        check_resumed(same, journal, line, b"", f"a lab with {new}")
    copy.write_bytes(b"no lab")
    check_refused(lab, journal, OTHER, "a copy that is no lab")
    copy.unlink()
    check_resumed(lab, journal, line, NO_COPY, "no copy of the lab")
    # A journal with as many events as the lab allows is continued, and one with more isn't.
    journal.write_bytes(FIRST)
    check_resumed(lab_of(room, 4, 2), journal, b"resumed at place 2, configuration 1, 0 chosen\n", NO_COPY, "a limit that is reached")
    check_refused(lab_of(room, 4, 1), journal, Ended(3, b"", NO_COPY + b"audit: line 2: over the limit of events\n"), "a limit that is passed")


def copies_through_links(room: Path) -> None:
    """The copy of a lab is beside the journal's real file, also if a link leads there."""
    lab, folder = lab_of(room, 4), room / "class"
    folder.mkdir()
    with Host(lab, 0, 0, folder / "journal") as host:
        let_in(host.port, hello("ana"))[0].ask(SEDUCES)
        host.kill()
    link, other = room / "link", room / "other.toml"
    link.symlink_to(folder / "journal")
    other.write_text(lab.read_text(encoding="utf-8").replace('owner = "cyd"', 'owner = "ben"'), encoding="utf-8")
    shutil.copy(other, room / "link.lab")
    check_refused(other, link, OTHER, "another lab, if a link leads to the journal")
    check_resumed(lab, link, b"resumed at place 1, configuration 0, 1 chosen\n", b"", "a link, and a copy beside the journal")


def numbers_of_both(room: Path) -> None:
    """An older journal and its copy of the lab are renamed with a number that is free for both."""
    lab, journal = lab_of(room, 4), room / "journal"
    with Host(lab, 0, 0, journal) as host:
        let_in(host.port, hello("ana"))[0].ask(SEDUCES)
        host.kill()
    others = {"journal.~1~": b"a journal's name", "journal.~2~.lab": b"a copy's name"}
    for name, content in others.items():
        (room / name).write_bytes(content)
    with Host(lab, 0, 0, journal) as host:
        ended = host.dismiss(let_in(host.desk, hello("tess"))[0]) if host.listens else host.end()
    copy = lab.read_bytes()
    if ended.status != 0 or kept(journal) != {
        "journal": b"", "journal.lab": copy, "journal.~3~": ONE, "journal.~3~.lab": copy, **others,
    }:
        fail(f"resume: beside names that are taken a host ends with {ended}, and there are {sorted(kept(journal))}")


def copies_are_kept(room: Path) -> None:
    """A host keeps an older journal together with the copy of its lab. If the copy would have the name of the lab's own
    file, no class begins. A journal that isn't a plain file gets no copy."""
    lab, journal = lab_of(room, 4), room / "journal"
    contents = []
    for turn in range(3):
        lab.write_text(lab.read_text(encoding="utf-8") + f"# {turn}\n", encoding="utf-8")
        contents.append(lab.read_bytes())
        with Host(lab, 0, 0, journal) as host:
            let_in(host.port, hello("ana"))[0].ask(SEDUCES)
            host.kill()
    line = ONE
    wanted = {"journal": line, "journal.lab": contents[2]}
    wanted |= {"journal.~1~": line, "journal.~1~.lab": contents[0], "journal.~2~": line, "journal.~2~.lab": contents[1]}
    if kept(journal) != wanted:
        fail(f"resume: after three hosts there are {sorted(kept(journal))}, or other bytes")
    named = room / "class.lab"
    shutil.copy(lab, named)
    with Host(named, 0, 0, room / "class") as host:
        if host.listens or host.end() != FAULT or sorted(kept(room / "class")) != ["class.lab"]:
            fail("resume: a lab's own file is taken for its copy")
    with Host(lab, 0, 0, "/dev/null") as host:
        if b'"place":1' not in let_in(host.port, hello("ana"))[0].ask(SEDUCES) or Path("/dev/null.lab").exists():
            fail("resume: a journal that isn't plain isn't taken as it is")


def asks_again(room: Path) -> None:
    """If a client asks again for a move that was granted before the host was killed, it gets the denial `chosen`, or
    `stale` once the step is closed. It has to say hello again first."""
    lab, journal = lab_of(room, 4), room / "journal"
    journal.write_bytes(ONE)
    with Host(lab, 0, 0, journal, word="resume") as host:
        line = read_resumed(host)
        ana, tess = connect(host.port), connect(host.desk)
        replies = [ana.ask(SEDUCES), ana.ask(hello("ana")), ana.ask(SEDUCES), tess.ask(hello("tess")), tess.ask(CLOSE), ana.ask(SEDUCES)]
        ended = host.dismiss(tess)
    wanted = [
        denial_of("not-greeted"), greeted("ana"), denial_of("chosen"), greeted("tess"), closed(1, 2, 1),
        denial_of("stale", at=1),
    ]
    if replies != wanted or line != b"resumed at place 1, configuration 0, 1 chosen\n" or journal.read_bytes() != FIRST:
        fail(f"resume: who asks again is answered {replies}")
    if ended != Ended(0, b"done: 2 events, configuration 1\n", NO_COPY):
        fail(f"resume: after who asks again it ends with {ended}")


def held_by_a_host(room: Path) -> None:
    """`resume` refuses a journal that a running host uses, whether this host began the class or resumed it."""
    lab, journal = lab_of(room, 4), room / "journal"
    with Host(lab, 0, 0, journal) as host:
        ana, tess = let_in(host.port, hello("ana"))[0], let_in(host.desk, hello("tess"))[0]
        ana.ask(SEDUCES)
        check_refused(lab, journal, FAULT, "a journal that a host holds")
        if b'"place":2' not in tess.ask(CLOSE):
            fail("resume: a host doesn't go on whose journal another wanted")
        host.kill()
    with Host(lab, 0, 0, journal, word="resume") as one:
        read_resumed(one)
        check_refused(lab, journal, FAULT, "a journal in which another goes on")
        ended = one.dismiss(let_in(one.desk, hello("tess"))[0])
    if ended.status != 0 or journal.read_bytes() != FIRST:
        fail(f"resume: the first of two ends with {ended}")


def wrong_files(room: Path) -> None:
    """A path that isn't a readable and writable plain file is refused, and no file is made. A link to such a file and
    an empty journal are accepted."""
    lab, journal = lab_of(room, 4), room / "journal"
    check_refused(lab, journal, FAULT, "no journal")
    if journal.exists():
        fail("resume: a journal is made")
    os.mkfifo(room / "pipe")
    os.symlink("none", room / "nowhere")
    for other in (room, room / "pipe", room / "nowhere", Path("/dev/null"), lab):
        check_refused(lab, other, FAULT, f"the journal {other.name}")
    journal.write_bytes(FIRST)
    journal.chmod(0o444)
    room.chmod(0o755)
    lab.chmod(0o644)
    as_nobody = ["setpriv", "--reuid", "65534", "--regid", "65534", "--clear-groups"] if os.geteuid() == 0 else []
    check_refused(lab, journal, FAULT, "a journal that may only be read", as_nobody)
    journal.chmod(0o644)
    os.symlink("journal", room / "other-name")
    check_resumed(lab, room / "other-name", b"resumed at place 2, configuration 1, 0 chosen\n", NO_COPY, "a symlink")
    journal.write_bytes(b"")
    check_resumed(lab, journal, b"resumed at place 0, configuration 0, 0 chosen\n", NO_COPY, "an empty journal")


TESTS: list[Test] = [
    kills, power_cuts, torn_tails, other_labs, full_disk, in_mid_line, failed_sync, copies_are_kept, asks_again,
    held_by_a_host, wrong_files, failed_sync_after_a_resume, folders_that_fail, copies_through_links, numbers_of_both,
    *away.TESTS, *once.TESTS, *synced.TESTS,
]


if __name__ == "__main__":
    try_all("classes that go on from their journals", TESTS)
