"""Tests of the last free seats of a port. All other seats have students after their hello. A *stranger* is a connection
whose hello isn't granted yet. It has to leave its seat if a newcomer needs it."""
import select
import time
from pathlib import Path

from tests.common.hosting import Caller, Host, lab_of, let_in
from tests.common.lines import BYE, LATE, MALFORMED, NODES, UNKNOWN, WRONG, hello, look
from tests.common.preload import fail
from tests.common.side_by_side import Test
from tests.outsiders.crowded import AGAIN, HELLOS, RATE, SETTLED, SLOWER, WAIT, alive, greeted_within, nine_in_ten
from tests.outsiders.load import Outsiders
from tests.outsiders.parting import end_well, slowed, wait_until_accepted

OWN = 4  # the number of seats that a name keeps
SEATS = OWN * len(NODES) + 1  # the number of the students' seats: those that the names keep, and one more
SEATED = 0.5  # seconds that a stranger may need to get that seat


def seat_students(host: Host) -> list[tuple[str, Caller]]:
    """Connects OWN times as each student, which takes all seats of the students' port except one. Returns the
    connections after their hellos, each with the student's name."""
    return [(name, let_in(host.port, hello(name))[0]) for name in NODES for _ in range(OWN)]


def ends_with_all_seated(host: Host, seated: list[tuple[str, Caller]]) -> None:
    """Checks that all connections in `seated` still have their seats, and that the teacher's bye ends the host well."""
    for name in NODES:
        if len(alive([caller for owner, caller in seated if owner == name], name)) != OWN:
            fail(f"outsiders: beside strangers on the last seat {name} loses one")
    end_well(host, let_in(host.desk, hello("tess"))[0])


def the_last_seat(room: Path) -> None:
    """A stranger on the last free seat has to leave if a client with a key comes. This holds although strangers have
    less than a third of the seats, which they may keep while other seats are free. The client with a key is the
    teacher, who may say hello at the students' port too."""
    with Host(lab_of(room, SEATS + 1), 0, 0) as host:
        seated = seat_students(host)
        for line in (b"", b'{"do":"hel', b"{}\n", WRONG):
            stranger = Caller(host.port)
            stranger.send(line)
            time.sleep(SEATED)
            newcomer, reply = let_in(host.port, hello("tess"))
            if b'"ok":"hello"' not in reply:
                fail(f"outsiders: who comes to the last seat reads {reply!r}")
            # The stranger may read a reply to its line, and then that there is no seat. Its time isn't over, so it isn't `late`.
            said = [*iter(stranger.line, b"")]
            if said[:-1] not in ([], [MALFORMED], [UNKNOWN]) or said[-1:] == [LATE]:
                fail(f"outsiders: after {line!r} a stranger on the last seat reads {said}")
            if newcomer.ask(BYE) == b"" or newcomer.line() != b"":
                fail("outsiders: who has got the last seat loses it")
            newcomer.close()
            stranger.close()
        ends_with_all_seated(host, seated)


def a_hello_first(room: Path) -> None:
    """If several clients wait for a seat, one that has sent a hello gets it, although another one came before it and
    has sent another line. The host's clock is slowed down, so that neither is answered `busy` meanwhile."""
    with Host(lab_of(room, 3), 0, 0, variables=slowed(room)) as host:
        teacher = let_in(host.desk, hello("tess"))[0]
        ana, ben = (let_in(host.port, hello(name))[0] for name in ("ana", "ben"))
        files = host.files()
        other = Caller(host.port)
        other.send(b"{}\n")
        wait_until_accepted(host, files, 1)
        speaker = Caller(host.port)
        speaker.send(hello("cyd"))
        wait_until_accepted(host, files, 2)
        ana.ask(BYE)
        if b'"ok":"hello"' not in (said := speaker.line()) or b'"ok":"look"' not in speaker.ask(look("cyd")):
            fail(f"outsiders: who has sent a hello and waits reads {said!r}")
        if select.select([other.socket], [], [], 0)[0]:
            fail(f"outsiders: who has sent another line reads {other.line()!r} before a hello is answered")
        ben.ask(BYE)
        if (said := other.line()) != MALFORMED:
            fail(f"outsiders: who has sent another line and waits reads {said!r}")
        end_well(host, teacher)


def a_flooded_seat(room: Path) -> None:
    """A client with a key, here the teacher, gets the last seat in time, although a thousand outsiders come each
    second."""
    with Host(lab_of(room, SEATS + 1), 0, 0) as host:
        seated = seat_students(host)
        quiet = max(greeted_within(host.port, "tess", SETTLED) for _ in range(HELLOS))
        with Outsiders("all", RATE, [host.port]):
            nine_in_ten(host.port, "tess", SLOWER * WAIT + AGAIN * quiet, "mixed")
        ends_with_all_seated(host, seated)


TESTS: list[Test] = [the_last_seat, a_hello_first, a_flooded_seat]
