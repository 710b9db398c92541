"""The replies to lines are the same in whatever segments the bytes come, at the students' port and at the desk."""
import time
from collections.abc import Callable
from concurrent.futures import ThreadPoolExecutor
from dataclasses import dataclass
from pathlib import Path

from tests.common.hosting import Caller, Host, lab_of
from tests.common.lines import BID, BYE, CLOSE, REPORT, WRONG, fault_at, hello, line_of, look, seduction
from tests.common.preload import fail

SOON = 60.0  # seconds that a host may need to end on a slow machine
BETWEEN = 0.002  # seconds between two parts, so that the host reads most parts separately
SIDE_BY_SIDE = 4  # the number of hosts at the same time
MALFORMED_LINE = b'{"do":"look","node":}\n'
STUDENTS = [look("ana"), WRONG, hello("ana"), look("ana"), hello("ben"), seduction(0), MALFORMED_LINE, seduction(0), REPORT, BYE]
TEACHERS = [REPORT, hello("tess"), REPORT, fault_at(2), CLOSE, line_of(do="see", node=1), line_of(a=1, b=3, do="link"), BYE]

Split = Callable[[list[bytes]], list[bytes]]


@dataclass(frozen=True)
class Way:
    """A way to split the bytes of lines into parts, with its name for errors."""

    name: str
    split: Split


def in_groups(size: int) -> Split:
    """Returns the function that splits lines into parts of `size` lines."""
    return lambda lines: [b"".join(lines[at:at + size]) for at in range(0, len(lines), size)]


def in_bytes(lines: list[bytes]) -> list[bytes]:
    """Returns the bytes of these lines one by one."""
    return [bytes([byte]) for byte in b"".join(lines)]


def cut_near(line: int, off: int) -> Split:
    """Returns the way to split lines into two parts, `off` bytes after the end of the line with this number."""
    def split(lines: list[bytes]) -> list[bytes]:
        """Returns the two parts."""
        whole, end = b"".join(lines), len(b"".join(lines[:line])) + off
        return [part for part in (whole[:end], whole[end:]) if part]
    return split


def ways() -> list[Way]:
    """Returns all ways to split lines."""
    longest = max(len(STUDENTS), len(TEACHERS))
    groups = [Way(f"in parts of {size} lines", in_groups(size)) for size in (2, 3, longest)]
    cuts = [Way(f"cut {off} bytes after line {line}", cut_near(line, off)) for line in range(1, longest) for off in (-1, 0, 1)]
    return [Way("byte by byte", in_bytes), *groups, *cuts]


def replies_on(port: int, lines: list[bytes], parts: list[bytes] | None) -> list[bytes]:
    """Returns all replies on a connection on which these parts are sent. Without parts, sends the lines, each after the
    reply to the one before."""
    caller = Caller(port)
    replies: list[bytes] = []
    if parts is None:
        replies += [caller.ask(line) for line in lines]
    for at, part in enumerate(parts or []):
        time.sleep(BETWEEN if at else 0)
        caller.send(part)
    while reply := caller.line():
        replies.append(reply)
    caller.close()
    return replies


def replies_by(lab: Path, split: Split | None) -> tuple[list[bytes], list[bytes], bytes]:
    """Returns the replies to the lines of a student and then of the teacher, and the output of the host at its end. The
    lines are split in this way, or sent one by one if it is None."""
    with Host(lab, 0, 0) as host:
        student = replies_on(host.port, STUDENTS, split(STUDENTS) if split else None)
        teacher = replies_on(host.desk, TEACHERS, split(TEACHERS) if split else None)
        ended = host.end(SOON)
        if ended.status != 0:
            fail(f"outsiders: a host ends with {ended}")
        return student, teacher, ended.out


def lines_in_segments(room: Path) -> None:
    """The replies of a host are the same whether lines are sent one by one, byte by byte, several at once, or in two
    parts that are cut at the end of a line or a byte beside it."""
    lab = lab_of(room, 5)
    wanted = replies_by(lab, None)
    for lines, replies in ((STUDENTS, wanted[0]), (TEACHERS, wanted[1])):
        if len(replies) != len(lines) or replies[-1] != BID:
            fail(f"outsiders: {len(lines)} whole lines are answered {replies}")
    with ThreadPoolExecutor(SIDE_BY_SIDE) as pool:
        for way, found in zip(ways(), pool.map(lambda way: replies_by(lab, way.split), ways())):
            if found != wanted:
                fail(f"outsiders: lines sent {way.name} are answered {found}, not {wanted}")


TESTS = [lines_in_segments]
