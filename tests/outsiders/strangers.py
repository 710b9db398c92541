"""At the desk everybody except the teacher is a stranger, also a student after the hello. A stranger has to leave when
another client comes, and after five seconds in any case."""
import time
from pathlib import Path

from tests.common.hosting import Caller, Host, lab_of, let_in
from tests.common.lines import BUSY, LATE, WRONG, hello, look
from tests.common.preload import fail

STAYS = 5.0  # seconds that a stranger has at the desk
SLOW = 60.0  # seconds more, on a slow machine
HELLO = b'"ok":"hello"'
LOOK = b'"ok":"look"'


def a_student_at_the_desk(room: Path) -> None:
    """A student after a hello at the desk, or a client that sends something else, has to leave at once when
    another one comes."""
    with Host(lab_of(room, 4), 0, 0) as host:
        for line in (hello("ana"), b"{}\n", WRONG):
            student, _ = let_in(host.desk, line)
            if line == hello("ana") and LOOK not in student.ask(look("ana")):
                fail("outsiders: a student at the desk isn't answered")
            begun = time.monotonic()
            teacher = Caller(host.desk)
            if HELLO not in (said := teacher.ask(hello("tess"))):
                fail(f"outsiders: after {line!r} at the desk the teacher is answered {said!r}")
            if time.monotonic() - begun > STAYS / 2 + SLOW:
                fail("outsiders: a student at the desk has the teacher wait")
            if (told := student.line()) not in (BUSY, b"") or student.line() != b"":
                fail(f"outsiders: a student who leaves the desk is answered {told!r}")
            student.close()
            teacher.close()
        host.dismiss(let_in(host.desk, hello("tess"))[0])


def five_seconds_at_the_desk(room: Path) -> None:
    """If nobody else comes, a client other than the teacher gets the line `late` after five seconds."""
    with Host(lab_of(room, 4), 0, 0) as host:
        for line in (hello("ana"), b"", b'{"do":"hel'):
            begun = time.monotonic()
            if line == hello("ana"):
                stranger, reply = let_in(host.desk, line)
                if HELLO not in reply:
                    fail(f"outsiders: a student who greets at the desk is answered {reply!r}")
            else:
                stranger = Caller(host.desk)
                stranger.send(line)
            said, passed = stranger.line(), time.monotonic() - begun
            if said != LATE or not STAYS - 0.5 <= passed <= STAYS + SLOW:
                fail(f"outsiders: after {line!r} at the desk {said!r} is told in {passed:.1f} seconds")
            stranger.close()
        host.dismiss(let_in(host.desk, hello("tess"))[0])


def a_busy_student_at_the_desk(room: Path) -> None:
    """A student who sends requests at the desk without a pause has only the same five seconds."""
    with Host(lab_of(room, 4), 0, 0) as host:
        student, _ = let_in(host.desk, hello("ana"))
        begun = time.monotonic()
        while LOOK in (said := student.ask(look("ana"))):
            if time.monotonic() - begun > STAYS + SLOW:
                fail("outsiders: a student who asks without pause keeps the desk")
        if said not in (LATE, b""):
            fail(f"outsiders: a student who asks at the desk without pause is answered {said!r}")
        host.dismiss(let_in(host.desk, hello("tess"))[0])


def the_teacher_stays(room: Path) -> None:
    """The teacher keeps the desk however long it is silent, and newcomers are answered `busy`."""
    with Host(lab_of(room, 4), 0, 0) as host:
        teacher, _ = let_in(host.desk, hello("tess"))
        for line in (hello("tess"), hello("ana"), b"{}\n"):
            newcomer = Caller(host.desk)
            if (said := newcomer.ask(line)) != BUSY:
                fail(f"outsiders: beside the teacher {line!r} at the desk is answered {said!r}")
            newcomer.close()
        time.sleep(STAYS + 2)
        if LOOK not in teacher.ask(look("ana")):
            fail("outsiders: the teacher loses the desk")
        host.dismiss(teacher)


TESTS = [a_student_at_the_desk, five_seconds_at_the_desk, a_busy_student_at_the_desk, the_teacher_stays]
