"""Classes that are refused memory: the commands `host` and `resume`, from their first request for memory to the last
one at their end.

In each run one request for memory is refused, while a teacher and a student send their lines. A line that isn't
answered for that reason is sent again. A run may end with a status and a line that `docs/LAB.md` gives, or continue.
Then each other reply is that of the rules, the journal has all granted events and passes the audit, and the record
passes too.
"""
import copy
import select
import shutil
from collections.abc import Sequence
from concurrent.futures import ThreadPoolExecutor
from dataclasses import dataclass
from pathlib import Path
from typing import Optional

from tests.common.hosting import HOST, Caller, Host, lab_of
from tests.common.lines import BID, BUSY, BYE, CLOSE, OVER, REPORT, fault_at, hello, look, refusal_of, seduction
from tests.common.preload import Ended, Preloaded, fail, good, held_port
from tests.memory.refusing import OUT_OF_MEMORY, done_line

# The persons of a class, by the numbers of their connections in a script: the teacher is at the desk, and a student at
# the other port.
TEACHER, STUDENT = b"1 ", b"2 "
ASKED = [
    (TEACHER, hello("tess")), (STUDENT, hello("ana")), (STUDENT, look("ana")), (TEACHER, fault_at(1)), (STUDENT, seduction(1)), (TEACHER, REPORT),
    (STUDENT, look("ana")),
]
# The lines of both in the resumed class, which begins at configuration 1 with a chosen move.
ASKED_LATER = [
    (TEACHER, hello("tess")), (STUDENT, hello("ana")), (TEACHER, CLOSE), (STUDENT, look("ana")), (STUDENT, seduction(2)), (TEACHER, CLOSE),
    (TEACHER, REPORT),
]
FEW_THREADS = Ended(5, b"", b"host: not enough threads can be started\n")
AT_ONCE = 8  # the number of runs at the same time, since they mostly wait
TRIES = 4  # tries to send a line: one may be refused, and some more are lost if the host is ending
MORE = 12  # requests for memory by which a run may exceed the first one, since threads make some of them
PATIENCE = 30.0  # seconds for the reply to a first line, which a host without a thread for the students never gives
LAST = 100.0  # seconds for a host's end
# The most runs in which only the desk is served, because a thread can't be started. Starting a thread takes one or two
# requests for memory, and their numbers may differ from run to run.
MOST_ALONE = 4


@dataclass(frozen=True)
class Begun:
    """The state from which a class is resumed: a folder with its journal, record and copy of the lab, and the
    lines that were sent."""

    folder: Optional[Path]
    script: tuple[bytes, ...]


@dataclass(frozen=True)
class Outcome:
    """The result of a run: its end, the numbers of requests for memory and of refused ones, and what is wrong."""

    ended: Ended
    counts: tuple[int, int]
    fault: str
    lacks: int = 0  # how often a line was answered by `memory` or `busy`, or its connection was closed
    is_desk_alone: bool = False  # whether the students' port wasn't served

    @property
    def is_refused(self) -> bool:
        """Returns whether a request for memory was refused."""
        return self.counts[1] > 0


class Play:
    """The lines of a class and their replies."""

    def __init__(self, host: Host, begun: Begun) -> None:
        """Begins without a reply. `host` is the running host, and `begun` the state from which its class continues."""
        self.host = host
        self.script = list(begun.script)
        self.known = len(self.script)  # lines of the class before, whose replies nobody compares
        self.replies: list[bytes] = []
        self.callers: dict[bytes, Caller] = {}
        self.lacks = 0
        # Whether the class is over, the students' port isn't served, or a connection ended after its hello was granted.
        self.is_over = self.is_desk_alone = self.is_lost = False

    def reply_to(self, caller: Caller, line: bytes) -> Optional[bytes]:
        """Sends a line on a connection, and returns its reply. Returns no bytes if the connection is closed, and None
        if the students' port isn't served."""
        caller.send(line)
        # A student's hello is the first line at the students' port. If it is answered, the port is served.
        if line == hello("ana") and not select.select([caller.socket], [], [], PATIENCE)[0]:
            return None
        return caller.line()

    def ask(self, who: bytes, line: bytes) -> str:
        """Sends a line of the person `who`, on a new connection if there is none. Sends the line again if it gets no
        reply of the rules, TRIES times at most. Notes the line and its reply. Does nothing if the class is over, or if
        the person's port isn't served. Returns what is wrong, or an empty text."""
        for _ in range(TRIES):
            if self.is_over or (who == STUDENT and self.is_desk_alone):
                return ""
            try:
                if who not in self.callers:
                    self.callers[who] = Caller(self.host.desk if who == TEACHER else self.host.port)
            except ConnectionError:
                self.is_over = True
                return ""
            reply = self.reply_to(self.callers[who], line)
            if reply is None:
                self.is_desk_alone = True
            elif reply in (b"", BUSY):
                self.lacks += 1
                # If the person's hello is in the script, it was granted before the connection ended.
                self.is_lost |= who + hello("tess" if who == TEACHER else "ana") in self.script[self.known:]
                self.callers.pop(who).close()
            elif reply == OVER:
                self.is_over = True
            elif reply == refusal_of("memory"):
                self.lacks += 1
            else:
                self.script.append(who + line)
                self.replies.append(who + reply)
                return ""
        return "" if self.is_desk_alone else f"{line!r} was asked {TRIES} times, and not answered"

    def ask_all(self, asked: Sequence[tuple[bytes, bytes]]) -> str:
        """Sends these lines, each after its person, and the teacher's bye. Checks how the connections end after the
        bye. Returns what is wrong, or an empty text."""
        for who, line in [*asked, (TEACHER, BYE)]:
            if fault := self.ask(who, line):
                return fault
        if self.is_over:
            return ""
        if self.replies[-1] != TEACHER + BID:
            return f"{self.replies[-1]!r} to the teacher's bye"
        # The teacher's connection is closed, and a student's may get the line `over` before.
        for who, caller in self.callers.items():
            if (last := caller.line()) not in (b"", OVER) or (who == TEACHER and last):
                return f"{last!r} to a connection after the teacher's bye"
        return ""

    def close(self) -> None:
        """Closes the connections."""
        for caller in self.callers.values():
            caller.close()


class Class:
    """The runs of the command `host` or `resume`, each in its own folder, in which the same lines are sent."""

    def __init__(self, word: str, lab: Path, asked: Sequence[tuple[bytes, bytes]], begun: Begun) -> None:
        """Keeps what all runs have in common. `word` is the command of the host, and `lab` is its lab. `asked` has the
        lines, each after its person, and `begun` is the state from which the class continues."""
        self.word, self.lab, self.asked, self.begun = word, lab, asked, begun

    def run(self, room: Path, library: Preloaded, nth: int) -> Outcome:
        """Runs the command in the new folder `room` with a refusal of the nth request for memory, or with none if `nth`
        is 0. Returns the outcome."""
        if self.begun.folder is None:
            room.mkdir()
        else:
            shutil.copytree(self.begun.folder, room)
        journal, record = room / "journal", room / "record"
        before = journal.read_bytes() if journal.exists() else b""
        # Runs are side by side, so each has its own file for the library's counts.
        library = copy.copy(library)
        library.file = room / "counts"
        variables = library.variables({"REFUSE": str(nth)})
        # While the ports are held, the system gives them to no other run, nor to a connection after the host's end.
        with (
            held_port() as port, held_port() as desk,
            Host(self.lab, *(it.getsockname()[1] for it in (port, desk)), journal, record, word=self.word, variables=variables) as host,
        ):
            if not host.listens:
                ended = host.end(LAST)
                is_same = (journal.read_bytes() if journal.exists() else b"") == before
                fault = "another end" if ended not in (OUT_OF_MEMORY, FEW_THREADS) else "" if is_same else "another journal than before"
                return Outcome(ended, library.counts(), fault)
            assert host.process.stdout is not None
            gone_on = host.process.stdout.readline() if self.word == "resume" else b""
            play = Play(host, self.begun)
            fault = play.ask_all(self.asked)
            ended = host.kill() if fault else host.end(LAST)
            play.close()
        counts = library.counts()
        if self.word == "resume" and not gone_on.startswith(b"resumed at place "):
            fault = fault or f"{gone_on!r} after the line of the ports"
        fault = fault or self.fault_of(play, ended, counts[1] > 0, room)
        return Outcome(ended, counts, fault, play.lacks, play.is_desk_alone)

    def fault_of(self, play: Play, ended: Ended, is_refused: bool, room: Path) -> str:
        """Returns the first thing that is wrong with a class that has begun and ended, or an empty text. The replies
        must be those of a script of the same lines. The journal must have the events that these replies granted, and
        may have one more if the host ended during the run. If no request for memory was refused, every line must have
        got its reply, and the host must have ended well. If one was refused, one line may have been sent again, and the
        host may have ended because memory ran out. No session may have been lost after its greeting, unless the host
        ended during the run. The replies to lines of the class before a resumed one, `play.known` in number, aren't
        compared. Fails if the journal doesn't pass the audit, or the record doesn't pass `verify`. `play` has the lines
        and replies, `ended` is the end of the host, `is_refused` says whether a request for memory was refused, and the
        class's files are in `room`."""
        script, plain, journal = room / "script", room / "plain", room / "journal"
        script.write_bytes(b"".join(play.script))
        wanted = good(["script", str(self.lab), str(script), str(plain)]).splitlines(keepends=True)[play.known:]
        for line, reply, rule in zip(play.script[play.known:], play.replies, wanted, strict=True):
            if reply != rule:
                return f"another reply to {line!r}: {reply!r}, not {rule!r}"
        kept, granted = journal.read_bytes(), plain.read_bytes()
        # If the host ended during the run, the reply to the last granted line may be lost.
        if not kept.startswith(granted) or kept.count(b"\n") - granted.count(b"\n") > play.is_over:
            return "another journal than that of the replies"
        done = done_line(good(["audit", str(self.lab), str(journal)]))
        good(["verify", str(self.lab), str(journal), str(room / "record")], program=HOST)
        well = Ended(0, done, b"")
        if play.is_over:
            return "" if is_refused and ended == OUT_OF_MEMORY else "another end"
        # One refused request for memory can leave at most one line without a reply of the rules.
        if play.is_lost or play.lacks > is_refused:
            return "more than one line was refused, or a session lost after its greeting"
        # If a session or the end ran out of memory, the last line says so. Without memory for the end it is the only
        # line.
        ends = (well, Ended(5, done, b"out of memory\n"), OUT_OF_MEMORY) if is_refused else (well,)
        return "" if ended in ends else "another end"


def fault_of_all(outcomes: Sequence[Outcome]) -> str:
    """Returns what is wrong with all runs of a class together, or an empty text. `outcomes` are in the order of the
    requests that were refused. `docs/DECISIONS.md` explains why some runs end with `too few threads`, and why one or
    two runs serve only the desk."""
    few = [at for at, it in enumerate(outcomes) if it.ended == FEW_THREADS]
    if few and few[-1] - few[0] >= len(few):
        return "the runs that end with `too few threads` aren't those of consecutive requests"
    if sum(it.is_desk_alone for it in outcomes) > MOST_ALONE:
        return f"students get no reply in more than {MOST_ALONE} classes, though their port has one thread"
    if not any(it.ended.status == 5 and it.ended.out.startswith(b"done: ") for it in outcomes):
        return "no class says after its last line that a session ran out of memory"
    if not any(it.lacks and it.ended.status == 0 for it in outcomes):
        return "no class serves on after a line that was refused"
    return "" if not outcomes[-1].is_refused else "the last run still refused a request, so there are more requests than these"


def refuse_class(tried: Class, library: Preloaded, room: Path) -> str:
    """Runs a class with a refusal of each request for memory in turn. Fails if something is wrong with a run. Returns a
    text with the number of refusals."""
    room.mkdir()
    plain = tried.run(room / "plain", library, 0)
    if plain.fault or plain.lacks:
        fail(f"{tried.word}, refused nothing: {plain.fault}: {plain.ended}")

    def run(nth: int) -> Outcome:
        """Runs the class with a refusal of the nth request for memory. Returns the outcome. Fails if something is wrong
        with it."""
        outcome = tried.run(room / str(nth), library, nth)
        if outcome.fault:
            fail(f"{tried.word}, REFUSE={nth}: {outcome.fault}: {outcome.ended}")
        return outcome

    with ThreadPoolExecutor(AT_ONCE) as pool:
        outcomes = list(pool.map(run, range(1, plain.counts[0] + MORE)))
    if fault := fault_of_all(outcomes):
        fail(f"{tried.word}: {fault}")
    few, alone = sum(it.ended == FEW_THREADS for it in outcomes), sum(it.is_desk_alone for it in outcomes)
    return f"{tried.word} {sum(it.is_refused for it in outcomes)} ({few} said as too few threads, {alone} with the desk alone)"


def begun_by(first: Class, room: Path, library: Preloaded) -> Begun:
    """Runs the class `first` without refusals. Returns the state that it leaves."""
    if fault := first.run(room, library, 0).fault:
        fail(f"{first.word}, refused nothing: {fault}")
    script = [who + line for who, line in first.asked]
    # These files are of the check of this run, and don't belong to the class.
    for name in ("script", "plain", "counts"):
        (room / name).unlink()
    # In a script a connection ends only by a bye. The connections of the resumed class have the same numbers.
    return Begun(room, (*script, TEACHER + BYE, STUDENT + BYE))


def classes(library: Preloaded, room: Path) -> str:
    """Refuses memory to the commands `host` and `resume`. Returns a text with the number of refusals in each."""
    lab = lab_of(room, 4)
    hosted = Class("host", lab, ASKED, Begun(None, ()))
    again = Class("resume", lab, ASKED_LATER, begun_by(hosted, room / "begun", library))
    return "by a class: " + ", ".join(refuse_class(it, library, room / it.word) for it in (hosted, again))
