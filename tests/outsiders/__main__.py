"""Plays outsiders (clients without a key) against a host, and takes resources of the system away from the host.

    python3 -m tests.outsiders [WORD..]

With arguments, only the tests whose names contain one of them are run. The tests run side by side, because most of them
wait.

A host has a port for students, and a port for the teacher, the desk. A connection that is served has a *seat*. A lab of
N sessions has N - 1 seats for students, and one at the desk. Until its hello is granted, a connection is a *stranger*,
who has to leave its seat if others need it. A *newcomer* is a connection that needs a seat.
"""
import os
import socket
import subprocess
import threading
import time
from collections.abc import Callable
from pathlib import Path

from tests.common.hosting import HOST, Caller, Host, audit, lab_of, let_in
from tests.common.lines import (
    BID, BUSY, BYE, CLOSE, LATE, LONG, MALFORMED, NODES, OVER, UNKNOWN, WRONG, fault_at, hello, line_of, look, refusal_of,
    seduction,
)
from tests.common.preload import LIMIT, PROGRAM, TOP, Ended, Preloaded, Server, fail
from tests.common.side_by_side import Test, try_all
from tests.outsiders import byes, contested, crowded, edges, parting, segments, strangers

NO_EVENTS = Ended(0, b"done: 0 events, configuration 0\n", b"")
FAULT = Ended(4, b"", b"journal fault\n")
EAGAIN = 11  # the error of a thread that can't be started
LINE_TIME = 600.0  # the seconds in which a line of a student has to arrive
PAUSE = 5.0  # the seconds between two pieces of a student's lines
LAST_LINE = 2  # the index of the last whole line among these pieces
LOOKS = 4  # threads that a host starts before it listens, to check that it can
MOVE = seduction(0)
# Words before a command that runs it as the user nobody, since limits on threads don't hold for root.
NOBODY = ["setpriv", "--reuid", "65534", "--regid", "65534", "--clear-groups"] if os.geteuid() == 0 else []


def ends(host: Host, teacher: Caller, wanted: Ended = NO_EVENTS) -> None:
    """Checks that the teacher's bye ends a host with the status and output in `wanted`. Standard error may differ."""
    ended = host.dismiss(teacher)
    if (ended.status, ended.out) != (wanted.status, wanted.out):
        fail(f"outsiders: a host ends with {ended}")


def run_to_end(words: list[str | Path]) -> Ended:
    """Runs a command, which has to end by itself within a minute. Returns its status and output."""
    try:
        done = subprocess.run(words, stdin=subprocess.DEVNULL, capture_output=True, timeout=60, check=False)
    except subprocess.TimeoutExpired:
        fail(f"outsiders: it goes on: {words}")
    return Ended(done.returncode, done.stdout, done.stderr)


def refused_threads(room: Path) -> None:
    """A student is answered `busy` at once if no thread can be made. The teacher is served without a thread, and
    the teacher's bye ends the class."""
    library = Preloaded("faults/fail.c", room, "FAIL_COUNTS")
    lab = lab_of(room, 5)
    # After the threads of the start and the one of the students' port, the next three threads are those of the teacher
    # and of the first two students. Only a student can't be served without a thread.
    for at in range(LOOKS + 2, LOOKS + 5):
        variables = library.variables({"FAIL": "thread", "FAIL_AT": str(at), "FAIL_WITH": str(EAGAIN)})
        with Host(lab, 0, 0, variables=variables) as host:
            teacher = Caller(host.desk)
            if b'"who":"tess"' not in teacher.ask(hello("tess")):
                fail(f"outsiders: without thread {at} the teacher isn't served")
            said, students = [], []
            for name in ("ana", "ben", "cyd"):
                caller = Caller(host.port)
                said.append(caller.ask(hello(name)))
                students += [caller] if said[-1] not in (b"", BUSY) else []
            if library.counts()[1] != 1 or said.count(BUSY) != (at > LOOKS + 2) or b"" in said:
                fail(f"outsiders: without thread {at} students are answered {said}")
            students.append(let_in(host.port, hello("ana"))[0])
            ends(host, teacher)
            if any((caller.line(), caller.line()) != (OVER, b"") for caller in students):
                fail(f"outsiders: without thread {at} the class's end isn't reported")


def asks_after_the_bye(room: Path) -> None:
    """Nothing is granted after the teacher has the reply to the bye, even if the teacher's connection stays open."""
    lab, journal = lab_of(room, 5), room / "journal"
    with Host(lab, 0, 0, journal) as host:
        teacher = let_in(host.desk, hello("tess"))[0]
        students = [let_in(host.port, hello(name))[0] for name in NODES]
        # A teacher's bye at the students' port ends only that connection, and so does a student's.
        for name in ("tess", "cyd"):
            if let_in(host.port, hello(name))[0].ask(BYE) != BID or b'"ok":"look"' not in students[0].ask(look("ana")):
                fail(f"outsiders: a bye of {name} at the students' port ends the class")
        moves = [MOVE.replace(b'"node":1', b'"node":%d' % node) for node in NODES.values()]
        if b'"place":1' not in students[0].ask(moves[0]):
            fail("outsiders: a move before the bye isn't granted")
        if teacher.ask(BYE) != BID:
            fail("outsiders: another reply to the teacher's bye")
        said = [caller.ask(line) for caller, line in zip(students[1:], moves[1:])]
        if said != [OVER] * 2 or host.end() != Ended(0, b"done: 1 events, configuration 0\n", b""):
            fail(f"outsiders: moves after the teacher's bye are answered {said}")
    audit(lab, journal, 1)


def too_few_files_or_threads(room: Path) -> None:
    """If a host may open too few files or start too few threads, it prints an error, ends, and makes no file. The same
    holds for the command `resume`."""
    lab, folder, program = lab_of(room, 4), room / "made", room / "host"
    folder.mkdir()
    program.write_bytes(HOST.read_bytes())
    journal = folder / "journal"
    for begins in (True, False):
        if not begins:
            journal.touch()
        # Everybody may use the files, so that only the limits keep the user nobody from running the host.
        for path, mode in ((room, 0o755), (lab, 0o644), (folder, 0o777), (program, 0o755), (journal, 0o666)):
            if path.exists():
                path.chmod(mode)
        for limit, line in (("nofile=7", b"files can be opened"), ("nproc=1", b"threads can be started")):
            word = "host" if begins else "resume"
            words: list[str | Path] = [*NOBODY, "prlimit", f"--{limit}", program, word, lab, "0", "0", journal]
            if (said := run_to_end(words)) != Ended(5, b"", b"host: not enough " + line + b"\n"):
                fail(f"outsiders: with {limit} a host says {said}")
            if [*folder.iterdir()] != ([] if begins else [journal]):
                fail(f"outsiders: with {limit} a host makes a file")


def comes_again(room: Path) -> None:
    """A client that closes its connection and connects again at once gets the only seat, at either port. Only a slow
    machine may answer `busy`, thirty times of 300 at most."""
    lab, told = lab_of(room, 2), 0
    with Host(lab, 0, 0) as host:
        for port, name in [(host.desk, "tess"), (host.port, "ana")] * 150:
            caller = Caller(port)
            if b'"ok":"hello"' not in (said := caller.ask(hello(name))) and said not in (b"", BUSY):
                fail(f"outsiders: who comes again at once is answered {said!r}")
            told += said in (b"", BUSY)
            caller.close()
        if told > 30:
            fail(f"outsiders: who comes again at once is answered `busy` {told} times of 300")
        ends(host, let_in(host.desk, hello("tess"))[0])


def a_web_form(room: Path) -> None:
    """The first line of a browser's POST is answered as malformed, and ends the connection. So the hello and the bye in
    its body have no effect."""
    lab = lab_of(room, 4)
    with Host(lab, 0, 0) as host:
        for port in (host.port, host.desk):
            caller = Caller(port)
            caller.send(b"POST / HTTP/1.1\r\nHost: 127.0.0.1\r\nContent-Type: text/plain\r\n\r\n" + hello("tess") + BYE)
            said = caller.line(), caller.line()
            if said != (MALFORMED, b""):
                fail(f"outsiders: a web form is answered {said}")
            caller.close()
        # A first line that is an object, but no request, doesn't end the connection.
        caller = Caller(host.port)
        if caller.ask(line_of(do="dance")) != MALFORMED or b'"ok":"hello"' not in caller.ask(hello("ana")):
            fail("outsiders: a first line that is no request ends a connection")
        ends(host, let_in(host.desk, hello("tess"))[0])


def words_at_the_end(room: Path) -> None:
    """The host sends the reason before it closes a connection: `long` after a line that is too long, and `over` at the
    end of the class."""
    lab = lab_of(room, 4)
    with Host(lab, 0, 0) as host:
        for first in (b"", hello("ana")):
            caller = Caller(host.port)
            if first:
                caller.ask(first)
            caller.send(b" " * 5000)
            if (caller.line(), caller.line()) != (LONG, b""):
                fail("outsiders: a line that is too long gets no such line")
        greeted, silent = let_in(host.port, hello("ana"))[0], Caller(host.port)
        ends(host, let_in(host.desk, hello("tess"))[0])
        # On a slow machine the ten seconds for a hello may be over already.
        if (told := greeted.line()) != OVER or (told := silent.line()) not in (OVER, LATE):
            fail(f"outsiders: the class's end is answered {told!r}")


def three_hellos(room: Path) -> None:
    """The third hello with a wrong key ends a connection. After two of them, a right one is granted."""
    lab = lab_of(room, 4)
    with Host(lab, 0, 0) as host:
        for port in (host.port, host.desk):
            caller = Caller(port)
            caller.send(WRONG * 5)
            if [caller.line() for _ in range(4)] != [UNKNOWN] * 3 + [b""]:
                fail("outsiders: more than three hellos are answered")
            caller.close()
            caller, first = let_in(port, WRONG)
            said = [first, *(caller.ask(line) for line in (WRONG, hello("tess"), look("ana")))]
            if said[:2] != [UNKNOWN] * 2 or b'"ok":"hello"' not in said[2] or b'"ok":"look"' not in said[3]:
                fail(f"outsiders: two hellos without success and a right one are answered {said}")
            caller.close()
        ends(host, let_in(host.desk, hello("tess"))[0])


def comes(port: int, line: bytes, taken: list[float]) -> Caller:
    """Connects to a port with the hello `line`, and again as long as there is no seat. Appends the seconds that it took
    to `taken`, and returns the connection. Fails if another reply comes, or after a time limit."""
    begun = time.monotonic()
    while True:
        caller = Caller(port)
        said = caller.ask(line)
        if b'"ok":"hello"' in said:
            break
        if said not in (BUSY, b""):
            fail(f"outsiders: an honest hello is answered {said!r}")
        caller.close()
        if time.monotonic() - begun > LIMIT:
            fail("outsiders: an honest client isn't let in")
    taken.append(time.monotonic() - begun)
    return caller


def longest_alone(host: Host) -> float:
    """Returns the longest of the times that five honest hellos take without outsiders, in seconds."""
    taken: list[float] = []
    for _ in range(5):
        comes(host.port, hello("ana"), taken).close()
    return max(taken)


def waits_little(taken: list[float], quiet: float, most: float = 2.0) -> None:
    """Checks that the median of the times in `taken` is at most `most` seconds plus 20 times `quiet`, the time without
    outsiders. So the limit is higher on a slow machine."""
    if sorted(taken)[len(taken) // 2] > most + 20 * quiet:
        fail(f"outsiders: honest clients wait for a seat: {taken} seconds, alone {quiet}")


def repeating(stop: threading.Event, act: Callable[[], None]) -> list[threading.Thread]:
    """Starts a thread that calls a function again and again until `stop` is set. Returns a list with this thread, by
    which callers can extend their lists of threads."""
    def work() -> None:
        """Calls the function until `stop` is set. Waits a moment after each `OSError`."""
        while not stop.is_set():
            try:
                act()
            except OSError:
                time.sleep(0.01)

    thread = threading.Thread(target=work, daemon=True)  # A daemon thread, so that a test that fails ends too.
    thread.start()
    return [thread]


def silent_ones(room: Path) -> None:
    """Fifteen connections that send `{}`, and forty silent ones a second at both ports, keep nobody out."""
    lab = lab_of(room, 16)
    with Host(lab, 0, 0) as host:
        quiet = longest_alone(host)
        held = [Caller(host.port) for _ in range(15)] + [Caller(host.desk)]
        for caller in held:
            caller.send(b"{}\n")
        taken: list[float] = []
        teacher = comes(host.desk, hello("tess"), taken)
        students = [comes(host.port, hello(name), taken) for name in NODES]
        stop = threading.Event()
        kept: list[socket.socket] = []

        def knock(port: int) -> None:
            """Opens a connection that sends nothing, keeps it, and waits a moment."""
            kept.append(socket.create_connection(("127.0.0.1", port), LIMIT))
            time.sleep(0.05)

        threads = [*repeating(stop, lambda: knock(host.port)), *repeating(stop, lambda: knock(host.port))]
        for _ in range(15):
            caller = comes(host.port, hello("ben"), taken)
            caller.ask(BYE)
            caller.close()
        for name, caller in zip(NODES, students):
            if b'"ok":"look"' not in caller.ask(look(name)):
                fail("outsiders: a student with a seat loses it to those without a key")
        stop.set()
        for thread in threads:
            thread.join()
        waits_little(taken, quiet)
        ends(host, teacher)
        for each in kept:
            each.close()


def a_third(room: Path) -> None:
    """Strangers get at most a third of the fifteen seats at the students' port, and the one at the desk. If there are
    so many, the next stranger gets the seat of the one that came first."""
    lab = lab_of(room, 16)
    with Host(lab, 0, 0) as host:
        for port, share in ((host.port, 5), (host.desk, 1)):
            strangers = [Caller(port) for _ in range(share)]
            # When a second reply has come, the host has recorded that the first line came without a hello.
            if any(caller.ask(b"{}\n") != MALFORMED for caller in strangers * 2):
                fail("outsiders: who hasn't greeted isn't answered")
            for turn in range(3):
                newcomer, reply = let_in(port, b"{}\n")
                strangers.append(newcomer)
                said = reply, strangers[turn].line(), strangers[turn].line()
                # If a reply still isn't sent after a tenth of a second, the host closes the connection without the line
                # `busy`.
                if said not in ((MALFORMED, BUSY, b""), (MALFORMED, b"", b"")):
                    fail(f"outsiders: {share + 1} who haven't greeted are answered {said}")
            if any(caller.ask(b"{}\n") != MALFORMED for caller in strangers[3:]):
                fail("outsiders: another than the first who hasn't greeted leaves")
            for caller in strangers:
                caller.close()
        ends(host, let_in(host.desk, hello("tess"))[0])


def check_busy(port: int, count: int) -> float:
    """Opens `count` connections to a full port at the same time, and says hello on each. Checks that all of them are
    answered `busy` and closed. Returns the seconds until then."""
    begun = time.monotonic()
    callers = [Caller(port) for _ in range(count)]
    for caller in callers:
        caller.send(hello("cyd"))
    if any((caller.line(), caller.line()) != (BUSY, b"") for caller in callers):
        fail("outsiders: who comes to a full port gets no such line")
    return time.monotonic() - begun


def nobody_behind(room: Path) -> None:
    """Twelve simultaneous connections to a full port wait for a seat together, and not one after another. A newcomer
    waits half a second before it is answered `busy`. Twelve of them wait less than six times as long as one."""
    lab = lab_of(room, 3)
    with Host(lab, 0, 0) as host:
        held = [let_in(host.port, hello(name))[0] for name in ("ana", "ben")]
        one, twelve = check_busy(host.port, 1), check_busy(host.port, 12)
        if one < 0.4 or twelve > 6 * one:
            fail(f"outsiders: who comes to a full port waits {one} seconds, and twelve wait {twelve}")
        if any(b'"ok":"look"' not in caller.ask(look(name)) for name, caller in zip(("ana", "ben"), held)):
            fail("outsiders: a newcomer to a full port takes a seat")
        ends(host, let_in(host.desk, hello("tess"))[0])


def guesses(host: Host, quiet: float) -> tuple[int, int, float]:
    """Checks that hellos with a key are granted in time at both ports, while other clients guess keys. The median of
    their times may be a tenth of a second plus 20 times `quiet`, the time of a hello without outsiders. Five clients
    guess at the students' port, then fifteen, and then also fourteen at the desk. Returns the number of denied guesses,
    the number of connections on which no guess was denied, and the seconds that all this took."""
    stop, denied, others = threading.Event(), [0] * 29, [0] * 29

    def guess(at: int) -> None:
        """Sends ten wrong hellos on a new connection of the client with the number `at`, and counts the denials. The
        first fifteen clients connect to the students' port, and the others to the desk."""
        port = host.port if at < 15 else host.desk
        with socket.create_connection(("127.0.0.1", port), LIMIT) as it, it.makefile("rb") as replies:
            it.sendall(WRONG * 10)
            told = [*replies]
            denied[at] += told.count(UNKNOWN)
            others[at] += UNKNOWN not in told

    begun = time.monotonic()
    threads: list[threading.Thread] = []
    for count in (5, 15, 29):
        for at in range(len(threads), count):
            threads += repeating(stop, lambda at=at: guess(at))  # type: ignore[misc]
        for port, name in ((host.port, "ana"), (host.desk, "tess")):
            taken: list[float] = []
            for _ in range(20):
                caller = comes(port, hello(name), taken)
                if b'"ok":"look"' not in caller.ask(look("ana")):
                    fail(f"outsiders: {name} loses a seat to those who guess")
                caller.close()
            waits_little(taken, quiet, 0.1)
    # Denials are delayed, so it takes a while until there are as many as `guessed_keys` requires.
    while sum(denied) < 100 and time.monotonic() - begun < LIMIT:
        time.sleep(0.05)
    stop.set()
    for thread in threads:
        thread.join()
    return sum(denied), sum(others), time.monotonic() - begun


def guessed_keys(room: Path) -> None:
    """Clients that guess keys get at least a hundred denials in total, but at most a hundred a second. Honest clients are
    answered in time meanwhile (`guesses`). The number of connections without a denial is at most a quarter of the number
    of denials. A line on the host's standard error reports the guesses."""
    with Host(lab_of(room, 16), 0, 0) as host:
        denied, others, seconds = guesses(host, longest_alone(host))
        if denied / seconds > 100 or denied < 100:
            fail(f"outsiders: {denied} keys are guessed in {seconds} seconds")
        if others * 4 > denied:
            fail(f"outsiders: {others} who guess aren't answered that they are wrong, and {denied} are")
        ended = host.dismiss(let_in(host.desk, hello("tess"))[0])
        if ended.out != NO_EVENTS.out or b"hellos had no right key" not in ended.error:
            fail(f"outsiders: nobody hears of guesses: {ended}")


def one_of_many(room: Path) -> None:
    """If a name has more than four seats and none is free, a newcomer gets the seat of the name's latest connection. If
    each name has at most four, the newcomer is answered `busy`."""
    lab = lab_of(room, 7)
    with Host(lab, 0, 0) as host:
        # All six seats are ana's. Then ben and cyd get the seats of her last two connections.
        many = [let_in(host.port, hello("ana"))[0] for _ in range(6)]
        ben, cyd = (comes(host.port, hello(name), []) for name in ("ben", "cyd"))
        if [caller.line() for caller in many[4:]] != [BUSY] * 2:
            fail("outsiders: the last connections of a name with six seats keep them")
        if any(b'"ok":"look"' not in caller.ask(look("ana")) for caller in many[:4]):
            fail("outsiders: a name doesn't keep four seats")
        more = Caller(host.port)
        if more.ask(hello("ben")) != BUSY:
            fail("outsiders: a name with four seats loses one")
        if any(b'"ok":"look"' not in caller.ask(look(name)) for name, caller in (("ben", ben), ("cyd", cyd))):
            fail("outsiders: a newcomer loses its seat")
        ends(host, let_in(host.desk, hello("tess"))[0])


def queues(host: Host, caller: Caller) -> str:
    """Returns a text with the numbers of bytes that wait at the host's end of a connection, to be sent and to be read.
    Returns an empty text if the host has no such end."""
    ends = f":{host.port:04X}", f":{caller.socket.getsockname()[1]:04X}"
    for line in Path("/proc/net/tcp").read_text(encoding="ascii").splitlines()[1:]:
        # The second and the third word of a row are the two ends' addresses, each with its port at the end. The fifth one
        # has both numbers of bytes.
        words = line.split()
        if (words[1][-5:], words[2][-5:]) == ends:
            return words[4]
    return ""


def never_reads(room: Path) -> None:
    """A client that reads none of its replies is disconnected about ten seconds after the last change of the queues of
    bytes at the host's end of the connection. This may be neither sooner than five seconds after that change, nor later
    than 500 polls of the queues."""
    lab = lab_of(room, 4)
    with Host(lab, 0, 0) as host:
        deaf = let_in(host.port, hello("ana"))[0]
        deaf.socket.setblocking(False)
        queued, last_change, polls = "", time.monotonic(), 0
        change_before = last_change
        while polls < 500:
            try:
                deaf.socket.send(look("ana") * 1000)
            except BlockingIOError:
                pass
            except ConnectionError:
                # If the last poll saw a change, this may have been the end of the connection itself. Then the change
                # before it counts.
                last_change = change_before if polls == 1 else last_change
                break
            if (now := queues(host, deaf)) != queued:
                change_before, queued, last_change, polls = last_change, now, time.monotonic(), 0
            time.sleep(0.05)
            polls += 1
        # 500 polls take 25 seconds or more, and still longer on a slow machine.
        if time.monotonic() - last_change < 5 or polls == 500:
            fail(f"outsiders: who never reads is cut off after {time.monotonic() - last_change} seconds")
        ends(host, let_in(host.desk, hello("tess"))[0])


def next_wait(library: Preloaded, caller: Caller, piece: bytes) -> float:
    """Sends a piece on a connection, and returns for how many seconds the host's next read may wait (0 if there is no
    limit). `library` records the reads. If the piece is a line, its reply must be granted, and is waited for first."""
    before, end = library.counts()[0], time.monotonic() + LIMIT
    caller.send(piece)
    if piece.endswith(b"\n") and b'"ok"' not in (said := caller.line()):
        fail(f"outsiders: {piece!r} is answered {said!r}")
    while True:
        count, wait = library.counts()  # the number of reads, and the milliseconds for which the last one may wait
        # Ignores reads that began before the hello was granted, which wait for at most ten seconds.
        if count > before and not 0 < wait <= 10_000:
            return wait / 1000
        if time.monotonic() > end:
            fail(f"outsiders: what comes after {piece!r} isn't waited for")
        time.sleep(0.01)


def a_line_has_ten_minutes(room: Path) -> None:
    """After a student's hello, each line has to arrive within LINE_TIME of the line before it, even if its bytes arrive
    one by one. Checks how long the server is ready to wait after each of five pieces, which are sent PAUSE apart: three
    whole lines, and two bytes of a fourth line. At the desk the server waits without a limit."""
    library, lab = Preloaded("outsiders/waits.c", room, "WAITS"), lab_of(room, 4)
    with Host(lab, 0, 0, variables=library.variables({})) as host:
        student, sent = Caller(host.port), 0.0
        for number, piece in enumerate((hello("ana"), look("ana"), look("ana"), b" ", b" ")):
            is_line = piece.endswith(b"\n")
            sent = time.monotonic() if is_line else sent
            wait = next_wait(library, student, piece)
            # A whole line restarts the time. Only a part of PAUSE may be gone when the server begins to wait again.
            if is_line and not LINE_TIME - PAUSE + 0.1 < wait <= LINE_TIME:
                fail(f"outsiders: after a student's line the next one has {wait} seconds")
            # A byte of the fourth line doesn't restart the time, which is counted from the third line.
            pauses = number - LAST_LINE
            left = LINE_TIME - (time.monotonic() - sent)
            if not is_line and not left - 1 < wait <= LINE_TIME - pauses * PAUSE:
                fail(f"outsiders: after byte {pauses} of a student's line its rest has {wait} seconds")
            time.sleep(PAUSE)
        teacher = Caller(host.desk)
        if next_wait(library, teacher, hello("tess")) != 0:
            fail("outsiders: at the desk the time for a line is limited")
        ends(host, teacher)


def journals(room: Path) -> None:
    """A host refuses a journal that is its own output or standard error, or a pipe without a reader. Only its owner can
    read a new journal. A journal that takes the place of an older one has the older one's mode."""
    lab, journal = lab_of(room, 4), room / "journal"
    for stream in ("", "2"):
        journal.unlink(missing_ok=True)
        words: list[str | Path] = ["bash", "-c", f'exec "$@" {stream}> {journal}', "bash", HOST, "host", lab, "0", "0", journal]
        # If standard error is the journal, the error line is in the journal's file.
        wanted = b"" if stream else b"journal fault\n"
        if (said := run_to_end(words)) != Ended(4, b"", wanted) or journal.read_bytes() not in (b"", b"journal fault\n"):
            fail(f"outsiders: a host whose journal is its own output ends with {said}")
    journal.unlink()
    os.mkfifo(room / "pipe")
    if (said := run_to_end([HOST, "host", lab, "0", "0", room / "pipe"])) != FAULT:
        fail(f"outsiders: a host whose journal is a pipe that nobody reads ends with {said}")
    for mode in (0o600, 0o640, 0o604):
        if mode != 0o600:  # The first journal is new, and gets this mode from the host.
            journal.chmod(mode)
        with Host(lab, 0, 0, journal) as host:
            student = let_in(host.port, hello("ana"))[0]
            student.ask(MOVE)
            ends(host, let_in(host.desk, hello("tess"))[0], Ended(0, b"done: 1 events, configuration 0\n", b""))
        if journal.stat().st_mode & 0o777 != mode:
            fail(f"outsiders: a journal's mode is {journal.stat().st_mode:o} after {mode:o}")
        audit(lab, journal, 1)


def limits_of_files(room: Path) -> None:
    """If the system's limit on file sizes is reached, the host refuses events, goes on with the class, and ends with
    `journal fault`. The same holds if `./mml` starts it, and for a script that `./mml` runs."""
    lab = lab_of(room, 4)
    # The limit is 1024 bytes (`ulimit -f 1`). If a soft limit and a hard one differ, the soft one is what counts.
    for name, limit, start in (("program", "-f", 'exec "$@"'), ("soft", "-S -f", 'exec "$@"'), ("mml", "-f", 'shift && exec "$0" "$@"')):
        words = ["bash", "-c", f"ulimit {limit} 1 && {start}", str(TOP / "mml")]
        with Host(lab, 0, 0, room / f"{name}.journal", before=words) as host:
            teacher, student = let_in(host.desk, hello("tess"))[0], let_in(host.port, hello("ana"))[0]
            for turn in range(100):
                move = MOVE.replace(b'"at":0', b'"at":%d' % (2 * turn))
                said = [student.ask(move), teacher.ask(CLOSE),
                        teacher.ask(fault_at(1))]
                if refusal_of("journal") in said:
                    break
            else:
                fail(f"outsiders: a host whose journal can't grow says {said}")
            if b'"ok":"look"' not in student.ask(look("ana")):
                fail("outsiders: a host whose journal can't grow doesn't go on")
            ended = host.dismiss(teacher)
            if ended != Ended(4, b"", b"journal fault\n"):
                fail(f"outsiders: a host whose journal can't grow ends with {ended}")
    # A command that ignores the limit is killed by the signal, unless `./mml` ignores the signal.
    script, fault = room / "script", b'1 {"do":"fault","m":false,"node":1,"p":null}\n'
    script.write_bytes(b"1 " + hello("tess") + fault * 100)
    words = ["bash", "-c", 'ulimit -f 1 && exec "$@"', "bash", str(TOP / "mml"), "script", str(lab), str(script), str(room / "script.journal")]
    done = run_to_end([*words])
    if (done.status, done.error) != (4, b"journal fault\n") or not done.out.endswith(b'1 {"refuse":"journal"}\n'):
        fail(f"outsiders: a script whose journal can't grow ends with {done.status}, {done.error!r}")


def limited(kilobytes: int, limit: str = "-s") -> list[str]:
    """Returns the words to put before a command, so that the program runs with a limit on its stacks in kilobytes, and
    has 64 MB of address space. `limit` is the option of `ulimit`: `-s`, or `-S -s` for a soft limit alone."""
    return ["bash", "-c", f'ulimit {limit} {kilobytes} && ulimit -v 65536 && exec "$@"', "bash"]


def check_nesting(port: int, count: int) -> None:
    """Sends, on each of `count` connections at once, lines whose values are nested as deep as allowed, and deeper ones.
    Checks that the former are answered, and the latter are refused."""
    # The request is an object itself, so 126 levels in it are as deep as allowed.
    arrays, objects = b"[" * 126 + b"]" * 126, b'{"a":' * 126 + b"0" + b"}" * 126
    deep = [look("ana").replace(b"}", b',"x":%s}' % nest) for nest in (arrays, objects, arrays.replace(b"[]", b"[[]]"), b"[" * 4000)]
    callers = [Caller(port) for _ in range(count)]
    for caller in callers:
        caller.send(hello("ana") + b"".join(deep) + BYE)
    for caller in callers:
        said = [caller.line() for _ in range(6)]
        if [b'"ok":"look"' in line for line in said] != [False, True, True, False, False, False]:
            fail(f"outsiders: nested lines over small stacks are answered {said}")
        if said[3:] != [MALFORMED, MALFORMED, BID]:
            fail(f"outsiders: lines that are nested too deep are answered {said}")


def small_stacks(room: Path) -> None:
    """Stacks of 256 kB are enough for the deepest line, even with little address space. With smaller ones no
    program starts."""
    lab = lab_of(room, 16)
    with Host(lab, 0, 0, before=limited(256)) as host:
        teacher = let_in(host.desk, hello("tess"))[0]
        check_nesting(host.port, 15)
        ends(host, teacher)
    server = Server(lambda port: ["serve", str(lab), str(port), "16"], {}, limited(256))
    if not server.listens:
        fail(f"outsiders: over small stacks a server ends with {server.end()}")
    check_nesting(server.port, 16)
    if server.end() != NO_EVENTS:
        fail(f"outsiders: over small stacks a server ends with {server.end()}")
    script = room / "script"
    script.write_bytes(b"1 " + BYE)
    calls: list[list[str | Path]] = [[HOST, "host", lab, "0", "0"], [PROGRAM, "script", lab, script]]
    for call, limit in [(call, limit) for call in calls for limit in ("-s", "-S -s")]:
        if (said := run_to_end([*limited(255, limit), *call])) != Ended(5, b"", b"out of memory\n"):
            fail(f"outsiders: over stacks that are too small a program ends with {said}")


TESTS: list[Test] = [
    never_reads, a_line_has_ten_minutes, silent_ones, guessed_keys, refused_threads, comes_again, one_of_many, a_third, nobody_behind, journals,
    limits_of_files, too_few_files_or_threads, small_stacks,
    three_hellos, a_web_form, words_at_the_end, asks_after_the_bye,
    *byes.TESTS, *contested.TESTS, *crowded.TESTS, *segments.TESTS, *strangers.TESTS, *parting.TESTS, *edges.TESTS,
]


if __name__ == "__main__":
    try_all("a host among outsiders", TESTS)
