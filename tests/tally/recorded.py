"""The output of `tally` for a run with a record: one run by hand, and random runs compared with the plain model."""
from __future__ import annotations

import re
from collections.abc import Iterable
from pathlib import Path
from random import Random

from model import Ended, read_lab
from tests.common.preload import fail
from tests.common.second import agreed, said
from tests.random.labs import drawn_lab
from tests.record.drawn import drawn_run
from tests.record.recording import Recording

COUNTED = ("denied", "refused", "denials")  # the first words of the lines that count what students got from a record
# What is said in the seats one after the other, with the number of the clause that denies it in the comment.
TALK = (
    (1, b'{"do":"hello","key":"a-key","name":"ana"}'),
    (1, b'{"do":"hello","key":"a-key","name":"ana"}'),  # greeted, 1
    (1, b'{"do":"see","node":99}'),  # hidden, 1
    (1, b'{"do":"move","node":2,"rule":"update","at":0}'),  # guard, 4
    (1, b'{"do":"move","node":2,"rule":"seduction","at":7}'),  # stale, 2
    (1, b'{"do":"move","node":3,"rule":"seduction","at":0}'),  # not-owner, 1
    (1, b'{"do":"move","node":2,"rule":"seduction","at":0}'),
    (1, b'{"do":"move","node":2,"rule":"seduction","at":0}'),  # chosen, 3
    (1, b"no request"),
    (2, b'{"do":"see","node":1}'),  # not-greeted, by nobody
    (2, b'{"do":"hello","key":"wrong","name":"ben"}'),  # unknown, by nobody
    (2, b'{"do":"hello","key":"b-key","name":"ben"}'),
    (2, b'{"do":"move","node":2,"rule":"marriage","with":1,"at":0}'),  # chosen, 3
    (2, b'{"do":"move","node":99,"rule":"marriage","with":1,"at":0}'),  # not-owner, 1
    (2, b'{"do":"close"}'),  # not-teacher, 1
    (3, b'{"do":"hello","key":"chalk","name":"tess"}'),
    (3, b'{"do":"close"}'),
    (3, b'{"do":"close"}'),  # empty, by the teacher
    (3, b"no request"),
    *((seat, b'{"do":"bye"}') for seat in (1, 2, 3)),
)
TOLD = """denied ana 3 1 1 1 1
denied ben 2 0 1 0 0
asked 2 ana 1 0 3 0 ben 0 1 0 0
record 3 22 whole
"""
WHOLE = "whole tess ana ben\n"
REFUSED = "refused ana 0 0 0\nrefused ben 0 0 0\ndenials ana 1 1 1 0 1 1 1\ndenials ben 0 0 1 1 0 1 0\n"
# A move of ana's own node, which no clause denies.
MORE = b'1 1 > {"do":"move","node":1,"rule":"seduction","at":0}\n1 1 < %s\n'
# A session in which ben asks for a move after the run's two events. No clause denies it, and it is refused only if the
# journal can't be written.
HALTED = b"""\
1 1 > {"do":"hello","key":"b-key","name":"ben"}
1 1 < {"ok":"hello","who":"ben"}
1 2 > {"do":"move","node":3,"rule":"marriage","with":2,"at":1}
1 2 < {"refuse":"journal"}
1 2 > {"do":"move","node":3,"rule":"marriage","with":2,"at":1}
1 2 < {"refuse":"journal"}
1 2 .
"""
GUARD = b'{"clause":4,"deny":"guard","text":"the guard of this rule does not hold"}'
# In a lab of one event all later moves and closes are refused, if no clause denies them.
FULL = (
    (1, b'{"do":"hello","key":"a-key","name":"ana"}'),
    (1, b'{"do":"move","node":1,"rule":"seduction","at":0}'),
    (1, b'{"do":"move","node":2,"rule":"seduction","at":0}'),  # full
    (1, b'{"do":"move","node":2,"rule":"seduction","at":0}'),  # full
    (1, b'{"do":"move","node":3,"rule":"seduction","at":0}'),  # not-owner
    (1, b'{"do":"close"}'),  # not-teacher
    (2, b'{"do":"hello","key":"b-key","name":"ben"}'),
    (2, b'{"do":"move","node":3,"rule":"seduction","at":0}'),  # guard
    (2, b'{"do":"move","node":2,"rule":"seduction","at":0}'),  # full
    (2, b"no request"),
    (3, b'{"do":"hello","key":"chalk","name":"tess"}'),
    (3, b'{"do":"close"}'),  # full, to the teacher
    *((seat, b'{"do":"bye"}') for seat in (1, 2, 3)),
)
TOLD_FULL = """denied ana 2 0 0 0 0
denied ben 0 0 0 1 1
asked 2 ana 0 0 2 0 ben 0 0 1 0
record 3 15 whole
"""
REFUSED_FULL = "refused ana 0 0 2\nrefused ben 0 0 1\ndenials ana 0 0 1 1 0 0 0\ndenials ben 0 0 0 0 0 0 1\n"
# Two lines of a record: a request, and a reply that denies it. `seen` is the number of events that the connection had seen.
DENIED_IN = re.compile(rb"(?P<front>\d+ (?P<seen>\d+) > [^\n]*\n\d+ \d+ < )(?P<reply>\{\"(?:at\":\d+,\"|)clause\"[^\n]*)\n")


class Files:
    """A lab, a journal and a record in a folder."""

    def __init__(self, room: Path, lab: str, run: Recording) -> None:
        """Writes the lab, and the journal and the record of a run, into the folder `room`."""
        self.lab, self.journal, self.folder = room / "recorded.toml", room / "recorded.journal", room / "record"
        self.folder.mkdir(exist_ok=True)
        for old in self.folder.iterdir():
            old.unlink()
        self.lab.write_text(lab, encoding="ascii")
        self.journal.write_bytes(run.journal)
        (self.folder / "begun").write_text("0\n", encoding="ascii")
        for seat, text in run.texts.items():
            (self.folder / f"{seat}.record").write_bytes(text)

    def run_tally(self, what: str) -> Ended:
        """Runs `tally` for these files, and returns its result. Fails if the model's result differs. `what` names the run
        in the error."""
        return agreed(what, "tally", self.lab, self.journal, self.folder)

    def bare(self) -> str:
        """Returns the tally without the record, as the program prints it."""
        return agreed("without a record", "tally", self.lab, self.journal).out.decode()


def with_record(tally: str, told: str, refused: str) -> str:
    """Returns the output of a tally into which lines about the record are inserted: `told` before the bounds. Before
    the rounds come the line with the names of those whose record is complete, and `refused`."""
    front, bounds, end = tally.partition("bounds ")
    end, rounds, number = end.partition("rounds ")
    return front + told + bounds + end + WHOLE + refused + rounds + number


def recorded(document: str, talk: Iterable[tuple[int, bytes]]) -> Recording:
    """Returns the run of the lab with the text `document`, with its record. `talk` has the lines of the run, each with
    the number of its seat."""
    run = Recording(read_lab(document.encode()))
    for seat, line in talk:
        run.answer(seat, line)
    return run


def check_full(room: Path, document: str) -> int:
    """Checks the tally of a run in which the lab's only event has happened, so that further events are refused. Returns
    the number of checks."""
    document = document.replace("events = 100", "events = 1")
    files = Files(room, document, recorded(document, FULL))
    wanted = Ended(0, with_record(files.bare(), TOLD_FULL, REFUSED_FULL).encode(), b"")
    if (found := files.run_tally("a full lab")) != wanted:
        fail(f"a full lab: {found}")
    return 1


def by_hand(room: Path, document: str) -> int:
    """Checks the tally of the run TALK, and of the same run with changes in the record of ana's seat, such as refusals
    for memory, a pause, or a wrong reply. Returns the number of checks."""
    run = recorded(document, TALK)
    files = Files(room, document, run)
    wanted = with_record(files.bare(), TOLD, REFUSED)
    end = b'1 1 > {"do":"bye"}'
    first = files.folder / "1.record"
    text = first.read_bytes()
    changed = (
        ("as it came", text, wanted),
        # A malformed line is counted as one, whatever its reply was.
        ("memory", text.replace(b'{"refuse":"malformed"}', b'{"refuse":"memory"}'), wanted.replace("refused ana 0 0 0", "refused ana 0 1 0")),
        ("no memory for a line that is denied", text.replace(GUARD, b'{"refuse":"memory"}'),
         wanted.replace("denied ana 3 1 1 1 1", "denied ana 3 1 1 0 1").replace("refused ana 0 0 0", "refused ana 0 1 0")
         .replace("denials ana 1 1 1 0 1 1 1", "denials ana 1 1 1 0 1 1 0")),
        ("a halted journal", text + HALTED, wanted.replace("record 3 22", "record 4 25").replace("refused ben 0 0 0", "refused ben 2 0 0")),
        ("a halted journal with a later event", text.replace(end, MORE % b'{"refuse":"journal"}' + end),
         "verify: seat 1: refused with journal after 1 events, but more events follow"),
        ("no memory for a move", text.replace(end, MORE % b'{"refuse":"memory"}' + end),
         wanted.replace("record 3 22", "record 3 23").replace("refused ana 0 0 0", "refused ana 0 1 0")),
        ("a full lab that isn't full", text.replace(end, MORE % b'{"refuse":"full"}' + end), "verify: seat 1, line 19: not the reply of the rules at place 1"),
        # A hello that is refused with `memory` changes nothing. So the connection has no name, and the next hello is
        # granted.
        ("an unheard hello", text.replace(b'{"ok":"hello","who":"ana"}', b'{"refuse":"memory"}').replace(
            b'{"clause":1,"deny":"greeted","text":"this connection has a name already"}', b'{"ok":"hello","who":"ana"}'),
         wanted.replace("denied ana 3 ", "denied ana 2 ").replace("denials ana 1 ", "denials ana 0 ")),
        ("a cut", text + b"1 2 !\n1 2 .\n", wanted.replace("record 3 22 whole", "record 4 22 cut").replace(WHOLE, "whole\n")),
        ("a pause", text + b"1 1 -\n1 1 + 3\n1 1 .\n", wanted.replace("record 3 22 whole", "record 4 22 cut")),
        ("a pause for ana", text.replace(b'1 1 > {"do":"bye"}', b'1 1 -\n1 1 + 1\n1 1 .\n1 1 > {"do":"bye"}'),
         wanted.replace("record 3 22 whole", "record 4 22 cut").replace(WHOLE, "whole tess ben\n")),
        ("another clause", text.replace(b'"clause":4', b'"clause":3'), "verify: seat 1, line 7: not the reply of the rules at place 0"),
    )
    for name, hurt, told in changed:
        if hurt == text and name != "as it came":
            fail(f"{name}: nothing is changed")
        first.write_bytes(hurt)
        found = files.run_tally(name)
        if found != (said(told) if told.startswith("verify") else Ended(0, told.encode(), b"")):
            fail(f"{name}: {found}")
    first.unlink()
    if files.run_tally("a seat without a file") != Ended(4, b"", b"read fault: record\n"):
        fail("the record of a seat without a file is read")
    first.write_bytes(text)
    files.journal.write_bytes(run.journal[:-1])
    if files.run_tally("a torn journal") != said("audit: line 2: torn"):
        fail("a torn journal has a tally")
    return len(changed) + 2 + check_full(room, document)


def forgetful(rng: Random, text: bytes) -> bytes:
    """Returns the record of a seat in which some denied lines, drawn at random, are refused for memory instead. A reply
    that refuses for memory shows the connection no new events. So a line is only changed if the connection had seen as
    many events at this line as at the denied line before."""
    seen = b""

    def refused(found: re.Match[bytes]) -> bytes:
        """Returns the denied entry in a match, or the same line with a refusal for memory."""
        nonlocal seen
        before, seen = seen, found["seen"]
        is_refused = before == seen and rng.random() < 0.3
        return found["front"] + (b'{"refuse":"memory"}' if is_refused else found["reply"]) + b"\n"

    return DENIED_IN.sub(refused, text)


def check_drawn(room: Path, seed: int) -> set[str]:
    """Checks the tally of a random run. Its record may have a cut, a pause or refusals for memory. Returns those words
    of COUNTED whose lines in the tally have a count that isn't 0."""
    rng = Random(seed)
    document = drawn_lab(rng)
    run = drawn_run(rng, read_lab(document.encode("ascii")))
    draw = rng.random()
    if draw < 0.2:
        run.cut(1)
        run.leave(1)
    elif draw < 0.4:
        run.pause(1)
        run.resume(1, rng.randrange(100))
        run.leave(1)
    if rng.random() < 0.5:
        run.texts = {seat: forgetful(rng, text) for seat, text in run.texts.items()}
    found = Files(room, document, run).run_tally(f"seed {seed}, with a record")
    if found.status:
        fail(f"seed {seed}, with a record: {found}")
    lines = [line.split(" ") for line in found.out.decode().splitlines()]
    return {word for word, _, *counts in (line for line in lines if line[0] in COUNTED) if any(map(int, counts))}
