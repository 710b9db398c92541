"""Hellos beside crowds of outsiders, that is, of clients without a key that come at a constant rate (`Outsiders`). One
test is about the number of seats that a name keeps beside other students."""
import socket
import time
from pathlib import Path

from tests.common.hosting import Caller, Host, lab_of, let_in
from tests.common.lines import BUSY, hello, look
from tests.common.preload import fail
from tests.outsiders.load import Outsiders

RATE = 1000  # the number of outsiders a second, fewer on a slow machine
HELLOS = 10  # the number of hellos, of which nine have to be in time
WAIT = 1.0  # seconds that a hello takes on this project's usual machine, beside outsiders
SLOWER = 10  # how many times as long a hello may take on other machines
AGAIN = 20  # how many times as long as without outsiders a hello may take, in addition
SETTLED = 60.0  # seconds after which a name has given up its seats, on a slow machine
OWN = 4  # the number of seats that a name keeps
NAMED = 150  # the number of other clients a second, so that more than sixteen come in a quarter of a second


def reply_to(port: int, line: bytes, seconds: float) -> bytes:
    """Connects to a port, sends a line, and closes after the reply. Returns the reply, or no bytes if there is none
    within `seconds` seconds or the connection fails."""
    try:
        with socket.create_connection(("127.0.0.1", port), seconds) as it, it.makefile("rb") as replies:
            it.sendall(line)
            return replies.readline()
    except OSError:
        return b""


def greeted_within(port: int, name: str, most: float) -> float:
    """Connects to a port with the hello of the person `name`, and again as long as the reply is `busy` or is missing.
    Returns the seconds until the hello is granted, or infinity if they are more than `most`. Fails if another reply
    comes."""
    begun = time.monotonic()
    while (left := begun + most - time.monotonic()) > 0:
        said = reply_to(port, hello(name), left)
        if b'"ok":"hello"' in said:
            return time.monotonic() - begun
        if said not in (b"", BUSY):
            fail(f"outsiders: an honest hello is answered {said!r}")
    return float("inf")


def nine_in_ten(port: int, name: str, most: float, beside: str) -> None:
    """Checks that at least nine of ten hellos of the person `name` are granted within `most` seconds. `beside` names
    the crowd, for the error."""
    late: list[float] = []
    for _ in range(HELLOS):
        taken = greeted_within(port, name, most)
        if taken > most:
            late.append(taken)
        if len(late) * 10 > HELLOS:
            fail(f"outsiders: beside {RATE} {beside} connections a second hellos of {name} take more than {most:.1f} seconds: {late}")


def check_flood(kind: str, room: Path) -> None:
    """Lets outsiders of a kind (a key of `load.PIECES`) come to the students' port, and then to the desk. Checks that
    beside them nine of ten hellos with a key are granted in time. The limit depends on the time that a hello takes
    without outsiders."""
    with Host(lab_of(room, 16), 0, 0) as host:
        for port, name in ((host.port, "ana"), (host.desk, "tess")):
            quiet = max(greeted_within(port, name, SETTLED) for _ in range(HELLOS))
            with Outsiders(kind, RATE, [port]):
                nine_in_ten(port, name, SLOWER * WAIT + AGAIN * quiet, kind)
        teacher = let_in(host.desk, hello("tess"))[0]
        if host.dismiss(teacher).out != b"done: 0 events, configuration 0\n":
            fail(f"outsiders: beside {kind} connections a host ends otherwise")


def idle_crowds(room: Path) -> None:
    """Connections that send nothing keep nobody out."""
    check_flood("idle", room)


def closing_crowds(room: Path) -> None:
    """Connections that close at once keep nobody out."""
    check_flood("closing", room)


def half_a_line(room: Path) -> None:
    """Connections that send half a line keep nobody out."""
    check_flood("half", room)


def crowds_of_braces(room: Path) -> None:
    """Connections that send a line which is no request keep nobody out."""
    check_flood("braces", room)


def alive(callers: list[Caller], name: str) -> list[Caller]:
    """Returns those of these connections of a student that still have their seat."""
    return [caller for caller in callers if b'"ok":"look"' in caller.ask(look(name))]


def four_of_a_name(room: Path) -> None:
    """A name that has all fifteen seats loses seats to other students who come, one after another, until it has four
    left. It keeps these four."""
    with Host(lab_of(room, 16), 0, 0) as host:
        callers = [let_in(host.port, hello("ana"))[0] for _ in range(15)]
        with Outsiders("names", NAMED, [host.port]):
            end = time.monotonic() + SETTLED
            while len(callers) > OWN:
                time.sleep(0.1)
                callers = alive(callers, "ana")
                if time.monotonic() > end:
                    fail(f"outsiders: beside {NAMED} others a second a name keeps {len(callers)} seats")
            time.sleep(2)
            if len(alive(callers, "ana")) != OWN:
                fail("outsiders: beside others a name doesn't keep four seats")
        host.dismiss(let_in(host.desk, hello("tess"))[0])


TESTS = [idle_crowds, closing_crowds, half_a_line, crowds_of_braces, four_of_a_name]
