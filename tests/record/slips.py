"""Records with one impossible entry, in each of the ways that a careless verifier would accept."""
import json
from collections.abc import Callable, Iterator
from dataclasses import dataclass
from random import Random

from model import Lab, read_lab
from model.journal import Event, audit
from model.record import NO_JOURNAL, Entry, Record, Seat
from model.run import Answer, answer
from tests.common.preload import fail
from tests.random.labs import drawn_lab
from tests.record.drawn import drawn_run
from tests.record.recording import Recording

FULL, MALFORMED = b'{"refuse":"full"}', b'{"refuse":"malformed"}'
OTHER_REPLY, OTHER_EVENT, BACK = "not the reply of the rules at place %d", "not the journal's event at place %d", "goes back"


@dataclass(frozen=True)
class Told:
    """An entry in the text of a seat. It begins at the offset `start`, and `known` is the name that its connection had
    before. `found` is the answer of the rules to the entry's line, or `None` for a mark."""

    seat: int
    start: int
    entry: Entry
    known: str | None
    found: Answer | None


@dataclass(frozen=True)
class Drawn:
    """A random run with the events of its journal and the entries of all seats."""

    run: Recording
    events: list[Event]
    told: list[Told]

    def before(self, it: Told) -> list[Told]:
        """Returns the entries of the same seat that come before an entry."""
        return [other for other in self.told if other.seat == it.seat and other.start < it.start]


@dataclass(frozen=True)
class Hurt:
    """A record with an impossible entry: the seat, the seat's text with this entry, and the error line with which the
    record must be refused."""

    seat: int
    text: bytes
    why: str


def stamped(seat: int, seen: int, line: bytes, reply: bytes) -> bytes:
    """Returns the text of the entry of a line with its reply. `seen` is the number of events before it."""
    return b"%d %d > %s\n%d %d < %s\n" % (seat, seen, line, seat, seen, reply)


def read(run: Recording) -> Drawn:
    """Returns a run with the events of its journal and its entries, each with the answer of the rules to its line."""
    _, events = audit(run.lab, run.journal)
    told = []
    for number, text in run.texts.items():
        seat, at = Seat(run.lab, events, number, Record()), 0
        while at < len(text):
            entry = seat.entry(text, at)
            assert isinstance(entry, Entry)
            known = seat.known
            while seat.world.place < entry.seen:
                seat.advance()
            found = answer(run.lab, seat.world, known, entry.line) if entry.mark == b">" else None
            told.append(Told(number, at, entry, known, found))
            assert seat.take(entry) is None
            at = entry.end
    return Drawn(run, events, told)


def changed(drawn: Drawn, it: Told, text: bytes, why: str) -> Hurt:
    """Returns the record in which `text` replaces the text of the entry `it`. `why` is the reason for which it has to
    be refused at this entry."""
    whole = drawn.run.texts[it.seat]
    line = 1 + whole.count(b"\n", 0, it.start)
    return Hurt(it.seat, whole[: it.start] + text + whole[it.entry.end :], f"verify: seat {it.seat}, line {line}: {why}")


def is_denied(it: Told) -> bool:
    """Returns whether the line of an entry was denied."""
    return it.found is not None and b'"deny":' in it.entry.reply


def has_event(it: Told) -> bool:
    """Returns whether the line of an entry was granted as an event."""
    return it.found is not None and it.found.event is not None


def replied(reply: bytes, is_granted: bool) -> Callable[[Drawn, Told], Iterator[Hurt]]:
    """Returns a function for `KINDS`. It yields a record in which the refusal `reply` replaces the reply of an entry.
    It does so for granted events if `is_granted` is set, and otherwise for denials."""
    def hurts(drawn: Drawn, it: Told) -> Iterator[Hurt]:
        """Yields the record in which the refusal replaces the reply of the entry `it`. Yields nothing if the
        entry isn't a granted event or, if `is_granted` isn't set, a denial."""
        if it.found is not None and it.found.event is not None if is_granted else is_denied(it):
            yield changed(drawn, it, stamped(it.seat, it.entry.seen, it.entry.line, reply), OTHER_REPLY % it.entry.seen)
    return hurts


def of_other_owner(drawn: Drawn, it: Told) -> Iterator[Hurt]:
    """Yields records in which the hello before the entry `it` is that of another owner of a node. The entry must be a
    move of this node, right after the hello. The rules grant it to each owner, but the journal names another one."""
    before = drawn.before(it)[-2:]
    # Whether only one entry of the session is before this one. If the entry is a granted move, that one is the hello.
    is_first = len(before) == 1 or len(before) == 2 and before[0].entry.mark == b"."
    if not is_first or it.found is None or it.found.event is None or it.found.event.do != "move":
        return
    lab, hello, whole = drawn.run.lab, before[-1], drawn.run.texts[it.seat]
    for owner in lab.owners[it.found.event.node]:
        if owner != it.known:
            line = json.dumps({"do": "hello", "name": owner, "key": lab.keys[owner]}).encode()
            told = stamped(it.seat, hello.entry.seen, line, b'{"ok":"hello","who":"%s"}' % owner.encode())
            number = 1 + whole.count(b"\n", 0, it.start)
            yield Hurt(it.seat, whole[: hello.start] + told + whole[hello.entry.end :],
                       f"verify: seat {it.seat}, line {number}: {OTHER_EVENT % (it.entry.seen + 1)}")


def of_other_event(drawn: Drawn, it: Told) -> Iterator[Hurt]:
    """Yields records in which the teacher's event in the entry `it` is replaced by a close or a release. The rules
    would grant it there, but it isn't the event that the journal has at this place."""
    lab = drawn.run.lab
    if it.found is None or it.found.event is None or it.known != lab.teacher:
        return
    seat = Seat(lab, drawn.events, it.seat, Record())
    while seat.world.place < it.entry.seen:
        seat.advance()
    for asked in [{"do": "close"}, *({"do": "release", "node": node} for node in seat.world.chosen)]:
        line = json.dumps(asked).encode()
        found = answer(lab, seat.world, it.known, line)
        if found.event is not None and found.event != it.found.event:
            text = stamped(it.seat, it.entry.seen, line, found.reply.encode())
            yield changed(drawn, it, text, OTHER_EVENT % (it.entry.seen + 1))


def earlier(drawn: Drawn, it: Told) -> Iterator[Hurt]:
    """Yields the record in which the entry `it` has a number of events that is less by one than in the entry before.
    The entry is a malformed line or a session's end, and comes after a denial or a session's end."""
    # Whether the entry is possible after any number of events.
    is_same = it.entry.mark == b"." or it.entry.reply == MALFORMED
    last = drawn.before(it)[-1:]
    if is_same and it.entry.seen and last and last[0].entry.seen == it.entry.seen and (last[0].entry.mark == b"." or is_denied(last[0])):
        seen = it.entry.seen - 1
        text = b"%d %d .\n" % (it.seat, seen) if it.entry.mark == b"." else stamped(it.seat, seen, it.entry.line, it.entry.reply)
        yield changed(drawn, it, text, BACK)


def after_halt(drawn: Drawn, it: Told) -> Iterator[Hurt]:
    """Yields the record in which the last grant before the entry `it`, in the same seat, is a refusal with `journal`.
    The entry must be a grant too, and after this refusal a server grants nothing."""
    granted = [other for other in (*drawn.before(it), it) if has_event(other)]
    if len(granted) > 1 and granted[-1] is it:
        last, whole = granted[-2], drawn.run.texts[it.seat]
        text = stamped(it.seat, last.entry.seen, last.entry.line, NO_JOURNAL)
        number = 1 + whole.count(b"\n", 0, it.start)
        yield Hurt(it.seat, whole[: last.start] + text + whole[last.entry.end :],
                   f"verify: seat {it.seat}, line {number}: granted after the refusal journal")


def before_others(drawn: Drawn, it: Told) -> Iterator[Hurt]:
    """Yields the record with one more entry before `it`: a fault by the teacher that is refused with `journal`. The
    entry `it` must be after the last grant in its seat, while other seats are granted events later."""
    lab, seen = drawn.run.lab, it.entry.seen
    rest = [other for other in drawn.told if other.seat == it.seat and other.start >= it.start]
    if it.known == lab.teacher and it.found is not None and seen < len(drawn.events) and not any(has_event(other) for other in rest):
        seat = Seat(lab, drawn.events, it.seat, Record())
        while seat.world.place < seen:
            seat.advance()
        line = json.dumps({"do": "fault", "node": min(seat.world.links), "p": None, "m": False}).encode()
        if answer(lab, seat.world, it.known, line).event is not None:
            whole = drawn.run.texts[it.seat]
            yield Hurt(it.seat, whole[: it.start] + stamped(it.seat, seen, line, NO_JOURNAL) + whole[it.start :],
                       f"verify: seat {it.seat}: refused with journal after {seen} events, but more events follow")


KINDS: dict[str, Callable[[Drawn, Told], Iterator[Hurt]]] = {
    "a denial as a halted journal": replied(NO_JOURNAL, is_granted=False),
    "a grant as a full journal": replied(FULL, is_granted=True),
    "a denial as no request": replied(MALFORMED, is_granted=False),
    "a move as another owner's": of_other_owner,
    "an event as another": of_other_event,
    "an earlier entry": earlier,
    "a grant after a halted journal": after_halt,
    "a grant in another seat after a halted journal": before_others,
}


def shared_lab(rng: Random) -> tuple[str, Lab]:
    """Returns the text of a random lab, and the lab. It allows at least ten events, and has at most eight nodes, of
    which at least one has two owners."""
    while True:
        document = drawn_lab(rng)
        lab = read_lab(document.encode("ascii"))
        if lab.events >= 10 and len(lab.owners) <= 8 and any(len(owners) > 1 for owners in lab.owners.values()):
            return document, lab


def drawn_hurts(rng: Random, lab: Lab) -> tuple[Recording, list[tuple[str, Hurt]]]:
    """Returns a random run of a lab. Also returns the names of the kinds of impossible entries that fit it, each with
    one record."""
    drawn, found = read(drawn_run(rng, lab)), []
    for kind, hurts in KINDS.items():
        some = [hurt for it in drawn.told for hurt in hurts(drawn, it)]
        found += [(kind, rng.choice(some))] if some else []
    return drawn.run, found


def check_kinds(count: dict[str, int], least: int) -> None:
    """Fails if a kind of impossible entry occurs fewer than `least` times. `count` says how often each kind occurs."""
    missing = [kind for kind in KINDS if count.get(kind, 0) < least]
    if missing:
        fail(f"too few records are drawn in which there is {missing}: {count}")
