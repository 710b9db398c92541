"""Verifies records by the program and by the plain model, and compares the two verdicts.

    python3 -B -m tests.record [SEED | WORD..]

Some records are written by hand, with each reason to refuse one. Others are a short record with one byte changed, at
each position in turn. All others are those of random runs of many clients: unchanged, changed, cut off, or with a
journal that lacks its last event. Some of these have an impossible entry that a careless verifier would accept. Then a
host (the server of a class) records classes: one is killed, and one meets a full disk.

A record has a text for each *seat* of the server, which serves one connection after another. An *entry* is a line with
its reply, or a mark. The mark `.` ends a session, and `!` says that lines may be missing up to the session's end. The
mark `-` says that recording pauses, and `+ N` that it resumes after N lines. Each line of an entry begins with the
number of its seat, and the number of events that the seat had read before. The *verdict* on a record is what `verify`
prints about it.

With a number, only the run of that seed is verified, and its files are left in the working folder. With words, only the
classes whose tests' names contain one of them are recorded.
"""
import os
import re
import subprocess
import sys
from collections import Counter
from pathlib import Path
from random import Random
from time import sleep

from model import Lab, read_lab
from model.run import answer
from tests.common.hosting import HOST, lab_of
from tests.common.limits import MOST
from tests.common.preload import Ended, fail, in_room
from tests.common.second import agreed, said
from tests.random.labs import drawn_lab
from tests.record.classes import run_classes
from tests.record.drawn import drawn_run
from tests.record.recording import Recording, whole_line
from tests.record.slips import check_kinds, drawn_hurts, shared_lab

SEEDS = range(1, 201)  # the seeds of the random runs whose records are changed at random
SLIPS = range(1, 61)  # the seeds of the random runs whose records get impossible entries
HURTS = 6  # the number of random changes of each record
BYTES = b" 03-eA\n\xff>.!<+"  # the bytes that replace others
# The lines of the short run in their order, each with its seat. Only the two faults become events.
TALK = [
    (1, b'{"do":"hello","name":"tess","key":"chalk"}'),
    (2, b'{"do":"hello","name":"ana","key":"wrong"}'),
    (2, b'{"do":"hello","name":"ana","key":"a-key"}'),
    (2, b'{"do":"see","node":1}'),
    (2, b'{"do":"move","node":1,"rule":"update","at":7}'),
    (2, b"no request"),
    (1, b'{"do":"fault","node":2,"p":null,"m":true}'),
    (2, b'{"do":"close"}'),
    (2, b'{"do":"bye"}'),
    (1, b'{"do":"fault","node":1,"p":2,"m":false}'),
]


class Files:
    """A lab, a journal and a record in a folder. Methods return the verdict of the program and of the model on them."""

    def __init__(self, room: Path, lab: str) -> None:
        """Writes the lab with the text `lab` into the folder `room`, with an empty journal and a folder for the
        record."""
        self.lab, self.journal, self.folder = room / "lab.toml", room / "run.journal", room / "record"
        self.lab.write_text(lab, encoding="ascii")
        self.folder.mkdir(exist_ok=True)
        self.journal.write_bytes(b"")

    def write(self, journal: bytes, texts: dict[int, bytes], begun: int = 0) -> None:
        """Writes a journal, and the texts of these seats into the record. The files of other seats stay as they are.
        `begun` is the number of events before the record."""
        self.journal.write_bytes(journal)
        (self.folder / "begun").write_text(f"{begun}\n", encoding="ascii")
        for seat, text in texts.items():
            (self.folder / f"{seat}.record").write_bytes(text)

    def verdict(self, what: str) -> Ended:
        """Returns the program's verdict on the files. Fails if the model's verdict differs. `what` names the files in
        an error."""
        return agreed(what, "verify", self.lab, self.journal, self.folder)

    def write_and_verify(self, what: str, journal: bytes, texts: dict[int, bytes], begun: int = 0) -> Ended:
        """Writes a journal and a record, and returns the program's verdict on them. Fails if the model's verdict
        differs. `texts` has the texts of seats, and `begun` is the number of events before the record. `what` names the
        files in an error."""
        self.write(journal, texts, begun)
        return self.verdict(what)

    def wants(self, what: str, journal: bytes, texts: dict[int, bytes], line: str, begun: int = 0) -> None:
        """Writes a journal and a record. Fails if the verdict of the program or of the model on them isn't `line`. If
        `line` begins with `ok: `, it is the output, and otherwise the error line. `texts` has the texts of seats, and
        `begun` is the number of events before the record. `what` names the files in an error."""
        found = self.write_and_verify(what, journal, texts, begun)
        if found != said(line):
            fail(f"{what}: {found}, not {line!r}")


def short_run(lab: Lab) -> Recording:
    """Returns a run in which two seats get the lines of `TALK`. It has two events, both of them faults by the teacher.
    The session in seat 2 ends by a bye, and that in seat 1 without one."""
    run = Recording(lab)
    for seat, line in TALK:
        run.answer(seat, line)
    run.leave(1)
    return run


def see_reply(lab: Lab) -> str:
    """Returns the reply to ana's `see` of node 1 at the beginning of a run."""
    return answer(lab, lab.opening(), "ana", b'{"do":"see","node":1}').reply


def replaced(text: bytes, old: bytes, new: bytes) -> bytes:
    """Returns a text in which `new` replaces `old`. Fails if `old` doesn't occur exactly once in the text."""
    if text.count(old) != 1:
        fail(f"{old!r} stands {text.count(old)} times in the short record")
    return text.replace(old, new)


def in_seat(seat: int, other: int, text: bytes) -> bytes:
    """Returns the text of the seat `seat` as if it were that of the seat `other`, with this number at the beginning of
    each line."""
    return re.sub(rb"(?m)^%d " % seat, b"%d " % other, text)


def pauses(lab: Lab, run: Recording) -> list[tuple[str, dict[int, bytes], str]]:
    """Returns rows about pauses. In each, seats 1 and 2 have their texts of the short run `run`, and seat 3 pauses or
    resumes. A row has a name, the text of each seat, and the verdict: the output, or the error without `verify: `."""
    ana = b'3 2 > {"do":"hello","name":"ana","key":"a-key"}\n3 2 < {"ok":"hello","who":"ana"}\n'
    again = ana.replace(b'{"ok":"hello","who":"ana"}', b'{"clause":1,"deny":"greeted","text":"this connection has a name already"}')
    noise = b'3 2 > x\n3 2 < {"refuse":"malformed"}\n'

    def told(sessions: int, lines: int, *lacking: str) -> str:
        """Returns the output about a record that has `sessions` sessions and `lines` lines more than the short one.
        Lines of the names in `lacking` are missing in it."""
        first = f"ok: {run.sessions + sessions} sessions, {run.lines + lines} lines, 2 events, not whole"
        return f"{first}\n{whole_line(lab, lacking=lacking)}"

    found: list[tuple[str, bytes, str]] = [
        ("paused for nobody", noise + b"3 2 -\n3 2 + 7\n3 2 .\n", told(1, 1)),
        ("paused to the end", b"3 2 -\n", told(0, 0)),
        ("paused after a bye", b'3 2 > {"do":"bye"}\n3 2 < {"ok":"bye"}\n3 2 -\n3 2 + 0\n3 2 .\n', told(1, 1)),
        ("resumed at a hello", noise + b"3 2 -\n3 2 + 2600\n" + ana + noise + b"3 2 .\n" + noise, told(1, 4)),
        ("paused for ana", ana + b"3 2 -\n3 2 + 5\n3 2 .\n" + noise, told(1, 2, "ana")),
        ("paused and cut", ana + b"3 2 -\n3 2 !\n3 2 .\n", told(1, 1, *lab.keys)),
        ("resumed without a hello", b"3 2 -\n3 2 + 1\n" + noise, "seat 3, line 3: not a hello that is granted"),
        ("resumed at a hello without success", b"3 2 -\n3 2 + 1\n" + ana.replace(b"a-key", b"b-key"),
         "seat 3, line 3: not a hello that is granted"),
        ("resumed at a second hello", ana + b"3 2 -\n3 2 + 1\n" + again, "seat 3, line 5: not a hello that is granted"),
        ("resumed without a pause", noise + b"3 2 + 1\n3 2 .\n", "seat 3, line 3: not after a pause"),
        ("resumed twice", b"3 2 -\n3 2 + 1\n3 2 + 1\n", "seat 3, line 3: not after a pause"),
        ("resumed after a cut", b"3 2 !\n3 2 + 1\n", "seat 3, line 2: not after a pause"),
        ("said in a pause", b"3 2 -\n" + noise, "seat 3, line 2: not the session's end"),
        ("greeted in a pause", b"3 2 -\n" + ana, "seat 3, line 2: not the session's end"),
        ("a count with a zero", b"3 2 -\n3 2 + 01\n", "seat 3, line 2: not an entry"),
        ("a count of 65 bits", b"3 2 -\n3 2 + 18446744073709551616\n", "seat 3, line 2: not an entry"),
        ("no count", b"3 2 -\n3 2 +\n", "seat 3, line 2: not an entry"),
        ("a torn count", b"3 2 -\n3 2 + 1", "seat 3, line 2: torn"),
    ]
    return [(what, {1: run.texts[1], 2: run.texts[2], 3: text}, line) for what, text, line in found]


def risen(run: Recording) -> list[tuple[str, dict[int, bytes], str]]:
    """Returns rows about the number of events that a seat has read. In each, seats 1 and 2 have their texts of the
    short run `run`. In seat 3 the number rises from 0 to 2, which is possible only at some entries. A row has a name,
    the text of each seat, and the verdict: the output, or the error without `verify: `."""
    ana = b'3 %d > {"do":"hello","name":"ana","key":"a-key"}\n3 %d < {"ok":"hello","who":"ana"}\n'
    noise, bye = b'3 %d > x\n3 %d < {"refuse":"malformed"}\n', b'3 %d > {"do":"bye"}\n3 %d < {"ok":"bye"}\n'
    first, later = (0, 0), (2, 2)
    ahead = "seat 3, line %d: goes ahead"

    def told(sessions: int, lines: int, rest: str = f"\n{whole_line(run.lab)}") -> str:
        """Returns the output about a record that has `sessions` sessions and `lines` lines more than the short one.
        `rest` is what follows the number of events."""
        return f"ok: {run.sessions + sessions} sessions, {run.lines + lines} lines, 2 events{rest}"

    cut, paused = f", not whole\n{whole_line(run.lab, cut=True)}", f", not whole\n{whole_line(run.lab)}"
    found: list[tuple[str, bytes, str]] = [
        ("begun later, at a line", noise % later + b"3 2 .\n", told(1, 1)),
        ("begun later, at an end", b"3 2 .\n", told(1, 0)),
        ("more at a line of nobody", noise % first + noise % later, ahead % 3),
        ("more at a hello", noise % first + ana % later, ahead % 3),
        ("more at an end of nobody", noise % first + b"3 2 .\n", ahead % 3),
        ("more between sessions", b"3 0 .\n3 2 .\n", ahead % 2),
        ("more at a bye of nobody", b"3 0 .\n" + bye % later, ahead % 2),
        ("more after a bye", bye % first + b"3 2 .\n", ahead % 3),
        ("more at a pause of nobody", noise % first + b"3 2 -\n3 2 + 1\n3 2 .\n", ahead % 3),
        ("more at a line of ana", ana % first + noise % later + b"3 2 .\n", told(1, 2)),
        ("more at ana's bye", ana % first + bye % later + b"3 2 .\n", told(1, 2)),
        ("more at ana's end", ana % first + b"3 2 .\n", told(1, 1)),
        ("more at ana's pause", ana % first + b"3 2 -\n3 2 + 1\n3 2 .\n", told(1, 1, paused.replace(" ana", ""))),
        ("more in a pause", noise % first + b"3 0 -\n3 2 + 1\n3 2 .\n", told(1, 1, paused)),
        ("more at a cut", b"3 0 .\n3 2 !\n3 2 .\n", told(2, 0, cut)),
        ("more after a cut", b"3 0 !\n3 2 .\n", told(1, 0, cut)),
    ]
    return [(what, {1: run.texts[1], 2: run.texts[2], 3: text}, line) for what, text, line in found]


def halted(lab: Lab, run: Recording) -> list[tuple[str, dict[int, bytes], str]]:
    """Returns rows in which a line of seat 1 is refused with `journal`. After this refusal a server grants nothing
    more. So events that follow it make a record impossible, unless a mark `!` is between. `run` is the short run. A row
    has a name, the text of each seat, and the verdict: the output, or the error without `verify: `."""
    lines = run.texts[1].splitlines(keepends=True)
    hello, first, rest, end = (b"".join(it) for it in (lines[:2], lines[:4], lines[4:-1], lines[-1:]))  # `first` ends with a fault, `rest` is one
    halt = b'1 1 > {"do":"fault","node":1,"p":2,"m":false}\n1 1 < {"refuse":"journal"}\n'
    again = halt.replace(b"1 1 ", b"1 2 ")
    greeted = hello.replace(b"1 0 ", b"1 1 ")
    refused = "seat 1, line %d: granted after the refusal journal"
    cut = f"ok: 3 sessions, {run.lines + 2} lines, 2 events, not whole\n{whole_line(lab, cut=True)}"
    # The later event is granted in another seat, or in none.
    outlived, lost = "seat 1: refused with journal after %d events, but more events follow", b"1 1 .\n"
    twice = cut.replace(f"{run.lines + 2} lines", f"{run.lines + 3} lines")
    found = [
        ("granted after journal", first + halt + rest + end, refused % 7),
        ("granted after journal, in the next session", first + halt + b"1 1 .\n" + greeted + rest + end, refused % 10),
        ("granted after journal, after a pause", first + halt + b"1 1 -\n1 1 + 3\n1 1 .\n" + greeted + rest + end, refused % 12),
        ("granted after journal and a cut", first + halt + b"1 1 !\n1 1 .\n" + greeted + rest + end, cut),
        ("granted before journal", first + rest + again + end, run.verify_output().replace(f"{run.lines} lines", f"{run.lines + 1} lines")),
        ("events follow journal", first + halt + lost, outlived % 1),
        ("events follow journal, before a cut", first + halt + b"1 1 .\n1 2 !\n1 2 .\n", outlived % 1),
        ("events follow journal, after a cut", first + b"1 1 !\n1 1 .\n" + greeted + halt + lost, outlived % 1),
        ("events follow journal twice", first + halt + halt + b"1 2 !\n1 2 .\n" + hello.replace(b"1 0 ", b"1 2 ") + again + end, outlived % 1),
        ("events follow the later of two refusals", first + halt + b"1 1 !\n1 1 .\n" + greeted + halt + b"1 1 .\n1 2 !\n1 2 .\n",
         outlived % 1),
        ("journal twice, and no events follow", first + halt + b"1 1 !\n1 1 .\n" + greeted + rest + again + end, twice),
        ("a bad entry after journal", first + halt + lost + b"1 1 ?\n", "seat 1, line 8: not an entry"),
        ("another event after journal", first + halt + replaced(rest, b'"p":2,"m":false', b'"p":2,"m":true') + end,
         "seat 1, line 7: not the journal's event at place 2"),
    ]
    rows = [(what, {1: text, 2: run.texts[2]}, line) for what, text, line in found]
    other = {2: run.texts[2], 3: in_seat(1, 3, greeted + rest + end)}
    resumed = cut.replace("ok: 3 ", "ok: 4 ")
    return [
        *rows,
        ("granted in another seat after journal", {1: first + halt + lost, **other}, outlived % 1),
        ("granted in another seat after journal and a cut", {1: first + halt + lost + b"1 1 !\n1 1 .\n", **other}, resumed),
    ]


def without_a_node(room: Path, lab: str) -> int:
    """Checks records of eve, a student who owns no node and so is never granted a view. Therefore the number of events
    that her seat has read may rise only at a command (a request other than a hello or a bye). `lab` is the text of the
    lab to which she is added. Fails if a verdict is wrong. Returns the number of records."""
    lab += '\n[[student]]\nname = "eve"\nkey = "e-key"\n'
    files, run = Files(room, lab), short_run(read_lab(lab.encode("ascii")))
    eve = b'3 0 > {"do":"hello","name":"eve","key":"e-key"}\n3 0 < {"ok":"hello","who":"eve"}\n'
    asked = [b'{"do":"look","node":1}', b'{"clause":1,"deny":"not-owner","text":"you do not own this node"}']
    look, noise = (b"3 2 > %s\n3 2 < %s\n" % tuple(it) for it in (asked, (b"x", b'{"refuse":"malformed"}')))
    ahead = "verify: seat 3, line 3: goes ahead"
    cases = [
        (look + noise, f"ok: {run.sessions + 1} sessions, {run.lines + 3} lines, 2 events\n{whole_line(run.lab)}"),
        (look.replace(asked[1], b'{"refuse":"memory"}'), ahead), (noise, ahead), (b"", ahead),
    ]
    for text, line in cases:
        files.wants(f"eve: {text!r}", run.journal, {**run.texts, 3: eve + text + b"3 2 .\n"}, line)
    return len(cases)


def by_hand(files: Files, lab: Lab) -> int:
    """Checks the short record, complete and with one change each, and the rows of `halted`, `pauses` and `risen`. Fails
    if a verdict isn't the expected one. Returns the number of records."""
    run = short_run(lab)
    journal, one, two = run.journal, run.texts[1], run.texts[2]
    rest = {seat: b"" for seat in run.texts}
    place = run.model.world.place
    cases = [
        ("whole", {1: one, 2: two}, run.verify_output()),
        ("two sessions more", {1: one + b"1 2 .\n1 2 .\n", 2: two}, run.verify_output().replace("ok: 2 ", "ok: 4 ")),
        ("torn", {1: one, 2: two[:-1]}, "seat 2, line 13: torn"),
        ("torn in a reply", {1: one, 2: two[: two.index(b'{"ok":"bye"}') + 5]}, "seat 2, line 11: torn"),
        ("not an entry", {1: one, 2: b"2 0 ?\n" + two}, "seat 2, line 1: not an entry"),
        ("goes back", {1: one + b"1 1 .\n", 2: two}, "seat 1, line 8: goes back"),
        ("goes back after a grant", {1: replaced(one, b"1 2 .\n", b"1 1 .\n"), 2: two}, "seat 1, line 7: goes back"),
        ("past the end", {1: one + b"1 3 .\n", 2: two}, "seat 1, line 8: past the journal's end"),
        ("after a bye", {1: one, 2: replaced(two, b'2 1 .\n', b'2 1 > x\n2 1 < {"refuse":"malformed"}\n')},
         "seat 2, line 13: not the session's end"),
        ("after a cut", {1: one + b'1 2 !\n1 2 > x\n1 2 < {"refuse":"malformed"}\n', 2: two},
         "seat 1, line 9: not the session's end"),
        ("another denial", {1: one, 2: replaced(two, b'"deny":"stale"', b'"deny":"owner"')},
         "seat 2, line 5: not the reply of the rules at place 0"),
        ("another key", {1: one, 2: replaced(two, b'"key":"a-key"', b'"key":"b-key"')},
         "seat 2, line 3: not the reply of the rules at place 0"),
        ("another name", {1: one, 2: replaced(two, b'"who":"ana"', b'"who":"ben"')},
         "seat 2, line 3: not the reply of the rules at place 0"),
        ("another text", {1: one, 2: replaced(two, b"not the current", b"not the latest")},
         "seat 2, line 5: not the reply of the rules at place 0"),
        ("a refusal", {1: one, 2: replaced(two, b'{"refuse":"malformed"}', b'{"refuse":"full"}')},
         "seat 2, line 7: not the reply of the rules at place 0"),
        ("memory", {1: one, 2: replaced(two, b'{"refuse":"malformed"}', b'{"refuse":"memory"}')}, run.verify_output()),
        ("another event", {1: replaced(replaced(one, b'"p":2,"m":false', b'"p":2,"m":true'), b"1 2 .\n", b""), 2: two},
         "seat 1, line 5: not the journal's event at place 2"),
        ("exchanged", {1: two, 2: one}, "seat 1, line 1: not an entry"),
        ("a lost grant", {1: b"".join(one.splitlines(keepends=True)[:4]) + b"1 2 .\n", 2: two},
         "place 2: granted in no record"),
        ("a lost grant, cut", {1: b"".join(one.splitlines(keepends=True)[:4]) + b"1 2 !\n1 2 .\n", 2: two},
         f"ok: 2 sessions, {run.lines - 1} lines, 2 events, not whole\n{whole_line(lab, cut=True)}"),
        ("a grant repeated by its seat", {1: one + replaced(one, b"1 2 .\n", b"").replace(b"1 0 ", b"1 2 "), 2: two},
         "seat 1, line 10: not the reply of the rules at place 2"),
        ("a grant repeated", {1: one, 2: two, 3: in_seat(1, 3, one)}, "place 1: granted twice"),
        ("cut twice", {1: one + b"1 2 !\n1 2 !\n1 2 .\n", 2: two}, run.verify_output(False).replace("ok: 2 ", "ok: 3 ")),
    ]
    cases += halted(lab, run)
    shown = b'2 0 > {"do":"see","node":1}\n2 0 < %s\n' % see_reply(lab).encode()
    hello = b'2 0 < {"ok":"hello","who":"ana"}\n'
    cases += [("a view", {1: one, 2: replaced(two, hello, hello + shown)}, "seat 2, line 5: not the reply of the rules at place 0")]
    cases += pauses(lab, run)
    cases += risen(run)
    assert place == 2
    for what, texts, line in cases:
        files.wants(what, journal, {**rest, **texts}, line if line.startswith("ok: ") else f"verify: {line}")
    files.wants("begun later", journal, {**rest, 1: one, 2: two}, "verify: place 1: granted before the record began", 1)
    files.wants("begun where it ends", journal, rest, f"ok: 0 sessions, 0 lines, 2 events\n{whole_line(lab, begun=2)}", 2)
    return len(cases) + 2


def other_files(files: Files, lab: Lab) -> None:
    """Checks records with wrong, missing or too large files, and a call that names no record. Fails unless each gets
    its error. A file `begun` without a newline at its end must be accepted."""
    run = short_run(lab)
    fault = Ended(4, b"", b"read fault: record\n")
    files.wants("a torn journal", run.journal[:-1], run.texts, "audit: line 2: torn")
    files.wants("another journal", run.journal.replace(b"2 1 fault", b"2 0 fault"), run.texts,
                "audit: line 2: wrong place or configuration")
    begun, seat = files.folder / "begun", files.folder / "3.record"
    files.journal.write_bytes(run.journal)
    for text in (b"", b"x\n", b"-1\n", b"1 \n", b"0\n\n", b"1" * 20):
        begun.write_bytes(text)
        if files.verdict(f"begun {text!r}") != fault:
            fail(f"a record is read that begins at {text!r}")
    begun.write_bytes(b"0")
    if files.verdict("begun without a newline") != said(run.verify_output()):
        fail("a record isn't read whose beginning has no newline")
    # (The model has no such limit. The program may read a piece of 64 kB more before it notices.)
    content = seat.read_bytes()
    seat.write_bytes(content + b"3 2 > " + b"x" * (MOST["entry"] + (1 << 17)) + b"\n")
    done = subprocess.run([HOST, "verify", files.lab, files.journal, files.folder], stdin=subprocess.DEVNULL, capture_output=True, check=False)
    if Ended(done.returncode, done.stdout, done.stderr) != fault:
        fail("a record is read that has an entry of more than 8 MB")
    seat.write_bytes(content)
    for file in (begun, seat):
        content = file.read_bytes()
        file.unlink()
        if files.verdict(f"without {file.name}") != fault:
            fail(f"a record is read without {file.name}")
        file.write_bytes(content)
    if agreed("no record", "verify", files.lab, files.journal) != Ended(1, b"", b"command line: not understood\n"):
        fail("words are understood that name no record")


def most_held(files: Files) -> int:
    """Verifies the files, and returns the greatest memory of the program in kB. The output goes to a full pipe, so the
    program waits before it prints, and its memory can be read while it runs. Fails if the record doesn't pass."""
    call: list[str | Path] = [HOST, "verify", files.lab, files.journal, files.folder]
    reader, writer = os.pipe()
    os.set_blocking(writer, False)
    held = 0
    try:
        while True:
            held += os.write(writer, bytes(1 << 16))
    except BlockingIOError:
        os.set_blocking(writer, True)
    with subprocess.Popen(call, stdin=subprocess.DEVNULL, stdout=writer, stderr=subprocess.DEVNULL, env=dict[str, str]()) as process:
        os.close(writer)
        while process.poll() is None and not waits(process.pid):
            sleep(0.02)
        status = Path(f"/proc/{process.pid}/status").read_text(encoding="ascii")
        with open(reader, "rb") as it:
            told = it.read()[held:]
    found = re.search(r"VmHWM:\s+(\d+) kB", status)
    if process.returncode or not told.startswith(b"ok: ") or found is None:
        fail(f"the program ends with {process.returncode} before it may print its line, and prints {told!r}")
    return int(found[1])


def waits(process: int) -> bool:
    """Returns whether the process with this number sleeps, and has no file of a record open. Then it has read its whole
    record, and waits until it can write to a full pipe."""
    stat = Path(f"/proc/{process}/stat").read_text(encoding="ascii", errors="replace")
    files = {os.readlink(it) for it in Path(f"/proc/{process}/fd").iterdir() if it.is_symlink()}
    return stat.rpartition(") ")[2][:1] == "S" and not any(it.endswith(".record") for it in files)


def by_pieces(files: Files, lab: Lab) -> None:
    """Checks a record of 5 MB, complete, torn at its end and changed in its middle. Fails if a verdict is wrong. The
    program has to read records in pieces, so it also fails if this record needs over 4 MB more memory than the short
    one."""
    run = short_run(lab)
    entries = [b'1 2 > %s\n1 2 < {"refuse":"malformed"}\n' % (b"x" * (at % 3000)) for at in range(4000)]
    last, middle = run.texts[1].count(b"\n"), 2500
    long = {**run.texts, 1: run.texts[1] + b"".join(entries) + b"1 2 .\n"}
    other = entries[middle].replace(b"malformed", b"full")
    changed = {**long, 1: run.texts[1] + b"".join([*entries[:middle], other, *entries[middle + 1 :]])}
    told = f"ok: {run.sessions + 1} sessions, {run.lines + len(entries)} lines, 2 events\n{whole_line(lab)}"
    # Each of the 4,000 entries has two lines.
    files.wants("in pieces", run.journal, {**long, 1: long[1][:-1]}, f"verify: seat 1, line {last + 8001}: torn")
    files.wants("changed in a piece", run.journal, changed, f"verify: seat 1, line {last + 2 * middle + 1}: not the reply of the rules at place 2")
    files.write(run.journal, run.texts)
    short = most_held(files)
    files.wants("long", run.journal, long, told)
    if most_held(files) > short + 4096:
        fail("a record of 5 MB needs 4 MB more than a short one")


def at_each_byte(files: Files, lab: Lab) -> int:
    """Checks the short record with each byte of seats 1 and 2 replaced in turn. Fails if the program and the model
    disagree. Returns the number of records."""
    run = short_run(lab)
    texts = dict(run.texts)
    count = 0
    for seat in (1, 2):
        whole = texts[seat]
        for at in range(len(whole)):
            byte = BYTES[(at + seat) % len(BYTES)]
            hurt = whole[:at] + bytes([byte if byte != whole[at] else byte ^ 1]) + whole[at + 1 :]
            texts[seat] = hurt
            files.write_and_verify(f"seat {seat}, byte {at}", run.journal, texts)
            count += 1
        texts[seat] = whole
    return count


def hurt(rng: Random, run: Recording) -> dict[int, bytes]:
    """Returns the texts of a run's seats after one random change. It exchanges two texts or copies one to another seat,
    leaves out or doubles lines, cuts a text off, or replaces a byte. The change may have no effect."""
    texts = dict(run.texts)
    seat = rng.choice([seat for seat, text in texts.items() if text])
    text = texts[seat]
    lines = text.splitlines(keepends=True)
    at = rng.randrange(len(text))
    line = rng.randrange(len(lines))
    kind = rng.randrange(7)
    other = rng.choice(list(texts))
    if kind == 0:
        texts[seat], texts[other] = texts[other], texts[seat]
    elif kind == 6:
        texts[other] = in_seat(seat, other, text)
    elif kind == 1:
        texts[seat] = b"".join(lines[:line] + lines[line + rng.choice([1, 2]) :])
    elif kind == 2:
        texts[seat] = b"".join(lines[:line] + lines[line : line + 2] + lines[line:])
    elif kind == 3:
        texts[seat] = text[:at]
    else:
        digit = rng.choice(b"0123456789") if text[at] in b"0123456789" else rng.choice(BYTES)
        texts[seat] = text[:at] + bytes([digit]) + text[at + 1 :]
    return texts


def compare(room: Path, seed: int) -> Counter[str]:
    """Checks the record of a seed's random run: unchanged, with `HURTS` random changes, and with a journal that lacks
    its last event. Fails if the unchanged record doesn't pass, or the program and the model disagree. Returns how often
    each verdict occurred, `ok` or the reason of an error, without the verdict on the shorter journal. The files are
    written into `room`."""
    rng = Random(seed)
    document = drawn_lab(rng)
    lab = read_lab(document.encode("ascii"))
    run = drawn_run(rng, lab)
    files = Files(room, document)
    files.wants(f"seed {seed}", run.journal, run.texts, run.verify_output())
    told = Counter(["ok"])
    for k in range(HURTS):
        found = files.write_and_verify(f"seed {seed}, hurt {k}", run.journal, hurt(rng, run))
        told[found.error.decode().strip().rpartition(": ")[2].partition(" at place")[0] or "ok"] += 1
    last = run.journal.splitlines(keepends=True)[:-1]
    if last:
        files.write_and_verify(f"seed {seed}, an event less", b"".join(last), run.texts)
    return told


def check_drawn(room: Path) -> Counter[str]:
    """Checks the random runs of all `SEEDS`, with files in the folder `room`. Fails if one of four usual reasons to
    refuse a changed record never occurs. Returns how often each verdict occurred."""
    told: Counter[str] = Counter()
    for seed in SEEDS:
        told += compare(room, seed)
    reasons = ["torn", "not an entry", "not the reply of the rules", "granted twice"]
    missing = [reason for reason in reasons if not told[reason]]
    if missing:
        fail(f"no drawn record is refused as {missing}")
    return told


def check_slips(room: Path) -> int:
    """Checks records of the random runs of `SLIPS`, with one impossible entry in each. Fails if one isn't refused for
    its own reason, or if a kind of entry occurs fewer times than a quarter of the runs. Returns the number of
    records."""
    count: Counter[str] = Counter()
    for seed in SLIPS:
        rng = Random(seed)
        document, lab = shared_lab(rng)
        run, hurts = drawn_hurts(rng, lab)
        files = Files(room, document)
        for kind, hurt in hurts:
            count[kind] += 1
            files.wants(f"seed {seed}, {kind}", run.journal, {**run.texts, hurt.seat: hurt.text}, hurt.why)
    check_kinds(count, len(SLIPS) // 4)
    return sum(count.values())


def work(room: Path) -> str:
    """Compares the verdicts of the program and of the model on records. They are written by hand, incomplete, long,
    changed in one byte, or those of random runs, some with an impossible entry. Then checks classes that a host
    records. Returns a line with the numbers of records and classes. `room` is a folder for files."""
    lab_file = lab_of(room, 4, 100)
    document = lab_file.read_text(encoding="ascii")
    lab = read_lab(document.encode("ascii"))
    files = Files(room, document)
    hand = by_hand(files, lab) + without_a_node(room, document)
    files = Files(room, document)  # since `without_a_node` has written another lab into the same file
    other_files(files, lab)
    by_pieces(files, lab)
    bytes_hurt = at_each_byte(files, lab)
    told, slips = check_drawn(room), check_slips(room)
    counts = f"{hand} records by hand, {bytes_hurt} with a byte hurt, {sum(told.values())} of drawn runs and {slips} of what can't be said"
    return f"{counts}, as the model has them; classes of a host: {run_classes(room)}"


if __name__ == "__main__":
    if sys.argv[1:] and sys.argv[1].isdecimal():
        compare(Path.cwd(), int(sys.argv[1]))
        sys.exit(0)
    in_room(lambda room: f"{run_classes(room, sys.argv[1:])} classes of a host" if sys.argv[1:] else work(room))
