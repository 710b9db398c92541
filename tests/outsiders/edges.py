"""Limits at which a host changes its behaviour: the length of a line, guessed keys, and the pause after failures."""
import resource
import select
import time
from pathlib import Path

from tests.common.hosting import Caller, Host, connect, lab_of, let_in
from tests.common.lines import BUSY, LONG, OVER, UNKNOWN, WRONG, hello, look
from tests.common.preload import Ended, Preloaded, fail
from tests.common.side_by_side import Test

MOST = 4096  # the most bytes of a line without its newline
NO_EVENTS = b"done: 0 events, configuration 0\n"
TOLD = (30, 300)  # the numbers of wrong guesses at which the host prints their number
TELLING = 20.0  # seconds that the host may need to print that on a slow machine
SECONDS = 3.0  # seconds for which the tries to accept a connection are counted
# The seconds between a failed `accept` and the next one: SHORT while somebody waits for a seat, and otherwise PAUSE.
SHORT, PAUSE = 0.005, 0.1


def padded(line: bytes, size: int) -> bytes:
    """Returns a request with spaces inserted before its last brace, so that it has `size` bytes without its newline."""
    return line[:-2] + b" " * (size + 1 - len(line)) + line[-2:]


def longest_lines(room: Path) -> None:
    """A line of 4,096 bytes is answered, as the first line or a later one, sent in one or two pieces. A line of one
    byte more is too long. At the class's end, the client that has sent lines of 4,096 bytes gets only the line
    `over`."""
    with Host(lab_of(room, 4), 0, 0) as host:
        longest, longer = padded(look("ana"), MOST), padded(look("ana"), MOST + 1)
        ana, reply = let_in(host.port, padded(hello("ana"), MOST))
        said = [reply, ana.ask(longest)]
        ana.send(longest[:2000])
        time.sleep(0.1)
        said += [ana.ask(longest[2000:]), ana.ask(longest + longest), ana.line(), ana.ask(look("ana"))]
        if [b'"ok"' in line for line in said] != [True] * 6:
            fail(f"outsiders: lines of {MOST} bytes read {said}")
        for first in (b"", hello("ben")):
            caller = connect(host.port)
            if first:
                caller.ask(first)
            caller.send(longer)
            if (found := (caller.line(), caller.line())) != (LONG, b""):
                fail(f"outsiders: a line of {MOST + 1} bytes reads {found}")
            caller.close()
        ended = host.dismiss(let_in(host.desk, hello("tess"))[0])
        if ended != Ended(0, NO_EVENTS, b"") or (found := (ana.line(), ana.line())) != (OVER, b""):
            fail(f"outsiders: who sent lines of {MOST} bytes reads {found} at the end, which is {ended}")


def guess(host: Host, count: int) -> None:
    """Sends `count` hellos with a wrong key, at most three on a connection, and checks that each is denied."""
    while count > 0:
        caller, reply = let_in(host.port, WRONG)
        said = [reply] + [caller.ask(WRONG) for _ in range(min(count, 3) - 1)]
        if said != [UNKNOWN] * len(said):
            fail(f"outsiders: who guesses reads {said}")
        count -= len(said)
        caller.close()


def told_guesses(room: Path) -> None:
    """A host prints the number of wrong hellos on standard error when there are thirty, and then at each tenfold
    number."""
    with Host(lab_of(room, 4), 0, 0) as host:
        assert host.process.stderr is not None
        made = 0
        for count in TOLD:
            guess(host, count - 1 - made)
            if select.select([host.process.stderr], [], [], 0)[0]:
                fail(f"outsiders: before {count} guesses a host says {host.process.stderr.readline()!r}")
            guess(host, 1)
            made, is_told = count, select.select([host.process.stderr], [], [], TELLING)[0]
            said = host.process.stderr.readline() if is_told else b""
            if said != b"host: %d hellos had no right key: somebody may be guessing\n" % count:
                fail(f"outsiders: after {count} guesses a host says {said!r}")
        if (ended := host.dismiss(let_in(host.desk, hello("tess"))[0])) != Ended(0, NO_EVENTS, b""):
            fail(f"outsiders: after {made} guesses a host ends with {ended}")


def check_tries(host: Host, library: Preloaded, pause: float, when: str) -> None:
    """Checks that a host waits about `pause` seconds after each `accept` that fails. For this it counts, with
    `library`, the calls of `accept` in some seconds. Twice as many calls as expected are allowed, and 20 more. `when`
    names the situation, for the error."""
    begun, before = time.monotonic(), library.counts()[0]
    time.sleep(SECONDS)
    tries, seconds = library.counts()[0] - before, time.monotonic() - begun
    if not 0 < tries < 2 * seconds / pause + 20:
        fail(f"outsiders: {when} a host accepts {tries} times in {seconds:.1f} seconds")


def no_busy_loop(room: Path) -> None:
    """If no connection can be accepted, the host waits before it tries again. In the first case it can open no further
    file. In the second case its port is full, and a client waits for a seat."""
    library = Preloaded("faults/fail.c", room, "FAIL_COUNTS")  # Without FAIL_AT it only counts the calls of `accept`.
    with Host(lab_of(room, 2), 0, 0, variables=library.variables({"FAIL": "accept"})) as host:
        teacher, ana = let_in(host.desk, hello("tess"))[0], let_in(host.port, hello("ana"))[0]
        # From here on the host can open no further file.
        resource.prlimit(host.process.pid, resource.RLIMIT_NOFILE, (host.files(), 4096))
        kept = [connect(host.port) for _ in range(3)]
        check_tries(host, library, PAUSE, "with no descriptor left")
        resource.prlimit(host.process.pid, resource.RLIMIT_NOFILE, (4096, 4096))
        if any(caller.line() != BUSY for caller in kept):
            fail("outsiders: who came while there was no descriptor doesn't read that there is no seat")
        begun, before = time.monotonic(), library.counts()[0]
        for _ in range(3):
            if (said := Caller(host.port).line()) != BUSY:
                fail(f"outsiders: who comes to a full port reads {said!r}")
        tries, seconds = library.counts()[0] - before, time.monotonic() - begun
        if not 0 < tries < 2 * seconds / SHORT + 20:
            fail(f"outsiders: while somebody waits for a seat a host accepts {tries} times in {seconds:.1f} seconds")
        if b'"ok":"look"' not in ana.ask(look("ana")) or host.dismiss(teacher) != Ended(0, NO_EVENTS, b""):
            fail("outsiders: another end after accepts that failed")


TESTS: list[Test] = [longest_lines, told_guesses, no_busy_loop]
