"""The lines that a host sends to clients that wait for a seat or had to leave one, and their order. The hosts' clock is
slowed down, so that some milliseconds are visible on a slow machine too. After a wrong hello a host waits before it
denies it, 12 milliseconds after its last denial."""
import select
import time
from pathlib import Path

from tests.common.hosting import Caller, Host, lab_of, let_in
from tests.common.lines import BUSY, BYE, OVER, UNKNOWN, WRONG, hello, look
from tests.common.preload import LIMIT, Ended, build_library, fail
from tests.common.side_by_side import Test

NO_EVENTS = Ended(0, b"done: 0 events, configuration 0\n", b"")
SLOW = 100  # how many times slower the clock is: 1.2 seconds lie between two denials
GUESSES = 8  # the number of connections that guess a key, each of which takes the seat of the one before it


def slowed(room: Path) -> dict[str, str]:
    """Builds a library that slows down the clock, and returns the environment of a host with it."""
    return {"LD_PRELOAD": str(build_library("outsiders/slow.c", room)), "SLOW": str(SLOW)}


def wait_until_accepted(host: Host, files: int, more: int) -> None:
    """Waits until a host has accepted `more` connections since the time when it had `files` open files."""
    end = time.monotonic() + LIMIT
    while host.files() < files + more:
        if time.monotonic() > end:
            fail(f"outsiders: a host takes {host.files() - files} of {more} connections")
        time.sleep(0.02)


def end_well(host: Host, teacher: Caller) -> None:
    """Checks that the teacher's bye ends a host with status 0, no event and no error."""
    if (found := host.dismiss(teacher)) != NO_EVENTS:
        fail(f"outsiders: with a slow clock a host ends with {found}")


def guessing(host: Host) -> list[Caller]:
    """Opens GUESSES connections, sends a hello with a wrong key on each, and returns them. Waits until the host has
    accepted them. Each newcomer takes the seat of the one before it. So all but the first and the last have lost their
    seats before the denials of their hellos are due."""
    files = host.files()
    callers = [Caller(host.port) for _ in range(GUESSES)]
    for caller in callers:
        caller.send(WRONG)
    wait_until_accepted(host, files, GUESSES - 1)  # The first connection may be closed already.
    return callers


def denied_in_turn(room: Path) -> None:
    """A connection that loses its seat before its denial is due gets the denial later, and then the line that
    there is no seat."""
    with Host(lab_of(room, 3), 0, 0, variables=slowed(room)) as host:
        teacher = let_in(host.desk, hello("tess"))[0]
        callers = guessing(host)
        said = [(caller.line(), caller.line()) for caller in callers[:-1]]
        if said != [(UNKNOWN, BUSY)] * (GUESSES - 1) or callers[-1].line() != UNKNOWN:
            fail(f"outsiders: who guesses and leaves for another reads {said}")
        end_well(host, teacher)


def over_for_all(room: Path) -> None:
    """At the class's end, every client that waits for a denial or for a seat gets the line that the class is over."""
    variables = slowed(room)
    with Host(lab_of(room, 3), 0, 0, variables=variables) as host:
        teacher = let_in(host.desk, hello("tess"))[0]
        callers = guessing(host)
        told = [(caller.line(), caller.line()) for caller in callers[:2]]  # By then the other connections wait for their turns.
        end_well(host, teacher)
        said = [(caller.line(), caller.line()) for caller in callers[2:]]
        # Before the class's end one or two more may have got their denials.
        if told != [(UNKNOWN, BUSY)] * 2 or said[-4:] != [(OVER, b"")] * 4:
            fail(f"outsiders: of those who guess before the class's end the host prints {told}, and at its end {said}")
    with Host(lab_of(room, 3), 0, 0, variables=variables) as host:
        teacher = let_in(host.desk, hello("tess"))[0]
        held = [let_in(host.port, hello(name))[0] for name in ("ana", "ben")]
        files = host.files()
        waiting = [Caller(host.port) for _ in range(5)]
        for caller in waiting[:2]:
            caller.send(hello("cyd"))
        wait_until_accepted(host, files, len(waiting))
        end_well(host, teacher)
        said = [(caller.line(), caller.line()) for caller in [*held, *waiting]]
        if said != [(OVER, b"")] * 7:
            fail(f"outsiders: at the class's end those who wait for a seat read {said[2:]}")


def first_to_speak(room: Path) -> None:
    """The first waiting client that has sent a line gets the seat that becomes free. A silent one waits on."""
    with Host(lab_of(room, 3), 0, 0, variables=slowed(room)) as host:
        teacher = let_in(host.desk, hello("tess"))[0]
        ana, ben = (let_in(host.port, hello(name))[0] for name in ("ana", "ben"))
        files = host.files()
        silent, speaker = Caller(host.port), Caller(host.port)
        wait_until_accepted(host, files, 2)
        speaker.send(hello("cyd"))
        ana.ask(BYE)
        if b'"ok":"hello"' not in (said := speaker.line()) or b'"ok":"look"' not in speaker.ask(look("cyd")):
            fail(f"outsiders: who has sent a line and waits reads {said!r}")
        if select.select([silent.socket], [], [], 0)[0]:
            fail(f"outsiders: who waits in silence reads {silent.line()!r} before another has the seat")
        ben.ask(BYE)
        silent.send(hello("ana"))
        if b'"ok":"hello"' not in (said := silent.line()):
            fail(f"outsiders: who waited in silence reads {said!r}")
        end_well(host, teacher)


TESTS: list[Test] = [denied_in_turn, over_for_all, first_to_speak]
