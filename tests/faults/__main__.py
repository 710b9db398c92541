"""Makes the program's reads, writes, openings, accepts and thread starts fail, each call in turn.

    python3 -m tests.faults

A *use* of the program is a command with its arguments and its input. Each use is run several times. In the first run
the first call of a kind, such as the first read, is disturbed, in the next one the second call, and so on, until a run
has no such call. The *effect* on the call is that it fails, is interrupted by a signal, does nothing, or transfers only
one byte. A preloaded library (`fail.c`) has this effect. The output, the status and the error line are those of
`docs/LAB.md`. An interrupted call changes nothing. A call without memory is reported as out of memory, except for a
write of the journal. The replies before the failure are those of a plain run, and so is the journal, whose complete
lines pass the audit. A server that is ended by a signal leaves such a journal, too.
"""
import signal
from collections.abc import Callable
from dataclasses import dataclass
from pathlib import Path

from tests.common.preload import TOP, Ended, Preloaded, Server, Story, built_in, fail, good, in_room, play, run
from tests.faults.halted import check_halted

MOST = 1000  # more calls of one kind than any run makes
EINTR, EIO, EAGAIN, ENOMEM, EACCES, EMFILE, ENOSPC = 4, 5, 11, 12, 13, 24, 28


@dataclass(frozen=True)
class Effect:
    """An effect on one call of a kind: the call fails with an error, does nothing (error 0), or transfers one byte."""

    of: str  # the kind of the call: `read`, `write`, `open`, `accept` or `thread`
    error: int = 0
    is_short: bool = False  # whether the call transfers one byte

    def variables(self, nth: int) -> dict[str, str]:
        """Returns the environment variables with which the library has this effect on the nth call."""
        wanted = {"FAIL": self.of, "FAIL_AT": str(nth), "FAIL_WITH": str(self.error)}
        return {**wanted, "FAIL_SHORT": "1"} if self.is_short else wanted

    @property
    def is_harmless(self) -> bool:
        """Returns whether a run with the effect has to be like a run without it."""
        return self.is_short or self.error == EINTR

    def expected_end(self, line: str, out: bytes = b"") -> Ended:
        """Returns the expected end of a run with this effect and this output. The error line is `out of memory` if the
        error is ENOMEM, and `line` otherwise."""
        return end_with("out of memory", 5, out) if self.error == ENOMEM else end_with(line, 4, out)

    def __str__(self) -> str:
        """Returns a text that names the effect."""
        how = "cut short" if self.is_short else f"failed with {self.error}" if self.error else "took nothing"
        return f"{self.of} {how}"


READS = [Effect("read", EIO), Effect("read", ENOMEM), Effect("read", EINTR), Effect("read", is_short=True)]
WRITES = [Effect("write", error) for error in (EIO, ENOSPC, ENOMEM, EINTR, 0)] + [Effect("write", is_short=True)]
OPENS = [Effect("open", ENOMEM)]
ACCEPTS = [Effect("accept", EMFILE), Effect("accept", ENOMEM)]
THREADS = [Effect("thread", EAGAIN)]

# A function that runs one use of the program with an effect on the nth call. Its parameters are the effect, n, and the
# environment variables by which the library has this effect. It returns what is wrong with the run, or an empty text.
Use = Callable[[Effect, int, dict[str, str]], str]


def end_with(line: str, status: int = 4, out: bytes = b"") -> Ended:
    """Returns the expected end of a run with this error line, status and output."""
    return Ended(status, out, line.encode() + b"\n")


def fault_of_end(ended: Ended, wanted: Ended) -> str:
    """Returns how the end of a run differs from the wanted one, or an empty text if it doesn't."""
    return "" if ended == wanted else f"{ended}, not {wanted}"


def fault_of_output(effect: Effect, ended: Ended, out: bytes) -> str:
    """Returns what is wrong with the end of a run in which a write of the output `out` had the effect `effect`, or an
    empty text."""
    if ended.out == out or not out.startswith(ended.out):
        return f"not a proper prefix of the output without an effect: {ended.out!r}"
    return fault_of_end(ended, effect.expected_end("write fault", ended.out))


class Reads:
    """The number of reads of the lab's file. Each use reads this file first, until it has no more bytes."""

    def __init__(self, library: Preloaded, lab: Path) -> None:
        """Counts the reads of a lab's file, by a run with the library."""
        run(["check", str(lab)], b"", library.variables({"FAIL": "read"}))
        self.of_lab = library.counts()[0]

    def error_line(self, nth: int, then: str) -> str:
        """Returns the error line for an effect on the nth read. `then` names the file that is read after the lab."""
        return "read fault: lab" if nth <= self.of_lab else f"read fault: {then}"


def shown(words: list[str], then: str, reads: Reads) -> Use:
    """Returns a use of the program that prints one line: `check`, or `audit`, which also reads a journal. `words` are
    the arguments, `then` names the file that is read last, and `reads` has the number of reads of the lab."""
    out = good(words)

    def run_with(effect: Effect, nth: int, variables: dict[str, str]) -> str:
        """Runs the command with this effect on the nth call, which `variables` ask the library for. Returns what is
        wrong, or an empty text."""
        ended = run(words, b"", variables)
        if effect.is_harmless:
            return fault_of_end(ended, Ended(0, out, b""))
        if effect.of == "open":
            # The program first opens `/dev/null` for each of the three standard streams, in case it is closed.
            return fault_of_end(ended, effect.expected_end("write fault" if nth <= 3 else f"read fault: {then}"))
        if effect.of == "read":
            return fault_of_end(ended, effect.expected_end(reads.error_line(nth, then)))
        return fault_of_output(effect, ended, out)

    return run_with


def fault_of_journal(story: Story, ended: Ended, journal: bytes, nth: int) -> str:
    """Returns what is wrong with the run of a story's script whose nth write to the journal failed, or an empty text.
    `ended` is its end, and `journal` the journal that it left."""
    replies = ended.out.splitlines(keepends=True)
    granted = [b'"place":' in reply for reply in replies]
    return (
        ("" if (ended.status, ended.error) == (4, b"journal fault\n") else f"another end: {ended}")
        or ("" if len(replies) == len(story.lines) else "a line without a reply")
        or story.fault_in(replies, frozenset())
        or ("" if sum(granted) == nth - 1 else "an event after a write that failed, or a lost one")
        or ("" if journal == story.journal_of(replies, frozenset()) else "another journal")
    )


def answered(story: Story, ended: Ended) -> tuple[list[bytes], frozenset[int]]:
    """Returns the replies to a story's script of which only the first lines were answered, and the numbers of the other
    lines, which have empty replies. `ended` is the end of the run."""
    replies = ended.out.splitlines(keepends=True)
    unread = frozenset(range(len(replies), len(story.lines)))
    return replies + [b""] * len(unread), unread


def fault_of_cut_script(story: Story, ended: Ended, journal: bytes, wanted: Ended) -> str:
    """Returns what is wrong with the run of a story's script of which only the first lines were read, or an empty text.
    `ended` is the end of the run, `wanted` is the expected one, and `journal` is the journal that it left."""
    replies, unread = answered(story, ended)
    return (
        fault_of_end(Ended(ended.status, b"", ended.error), wanted)
        or story.fault_in(replies, unread)
        or ("" if journal == story.journal_of(replies, unread) else "another journal")
    )


def scripted(story: Story, room: Path, reads: Reads) -> Use:
    """Returns the use of the program that runs a script and writes its journal. `reads` has the number of reads of the
    lab."""
    script, journal = room / "faulty.script", room / "faulty.journal"
    script.write_bytes(story.script())
    words = ["script", str(story.lab), str(script), str(journal)]
    replies, kept = story.plain(frozenset())
    out = b"".join(replies)
    lines = kept.count(b"\n")  # each line of the journal is a write, and they all come before those of the output

    def run_with(effect: Effect, nth: int, variables: dict[str, str]) -> str:
        """Runs the script with this effect on the nth call, which `variables` ask the library for. Returns what is
        wrong, or an empty text."""
        journal.unlink(missing_ok=True)
        ended = run(words, b"", variables)
        found = journal.read_bytes() if journal.exists() else b""
        story.audit(found)
        if effect.is_harmless:
            return fault_of_end(ended, Ended(0, out, b"")) or ("" if found == kept else "another journal")
        if effect.of == "open":  # The only effect on an opening is ENOMEM, which has its own error line.
            return fault_of_end(ended, effect.expected_end("")) or ("an event" if found else "")
        if effect.of == "read" and nth <= reads.of_lab:
            return fault_of_end(ended, effect.expected_end("read fault: lab"))
        if effect.of == "read":
            return fault_of_cut_script(story, ended, found, effect.expected_end("read fault: script"))
        if nth <= lines:
            return fault_of_journal(story, ended, found, nth)
        return fault_of_output(effect, ended, out) or ("" if found == kept else "another journal")

    return run_with


def given(story: Story) -> Use:
    """Returns the use of the program that runs a script on standard input, which is read as it comes."""
    replies, _ = story.plain(frozenset())
    out = b"".join(replies)

    def run_with(effect: Effect, nth: int, variables: dict[str, str]) -> str:
        """Runs the script with this effect on the nth call, which `variables` ask the library for. Returns what is
        wrong, or an empty text."""
        ended = run([], story.script(), variables)
        if effect.is_harmless:
            return fault_of_end(ended, Ended(0, out, b""))
        if effect.of == "read":
            # This use writes no journal, so the expected one takes its place.
            return fault_of_cut_script(story, ended, story.journal_of(*answered(story, ended)), effect.expected_end("read fault: script"))
        return fault_of_output(effect, ended, out)

    return run_with


@dataclass(frozen=True)
class Talk:
    """The replies that two clients got, and the end of their server."""

    replies: list[bytes]
    unasked: frozenset[int]  # the numbers of the lines without a reply
    ended: Ended
    journal: bytes


class Served:
    """The use of the program that serves two clients and writes a journal. It is called like a function `Use`."""

    def __init__(self, story: Story, room: Path, library: Preloaded) -> None:
        """Runs the server once without an effect, to learn its writes. The clients send the lines of `story`, `room` is
        the folder for the journal, and `library` counts calls."""
        self.story = story
        self.journal = room / "faulty-served.journal"
        replies, self.kept = story.plain(frozenset())
        server = self.server(library.variables({"FAIL": "write"}))
        # The writes in their order. First come those of the server's first line, which the library counts before a
        # client comes. Then each request has a write of its line in the journal, if there is one, and one of its reply.
        self.writes = ["first line"] * library.counts()[0]
        play(story, server.port)
        server.end()
        for at, reply in enumerate(replies):
            self.writes += [f"journal {at}"] * (b'"place":' in reply) + [f"reply {at}"]
        self.writes += ["last line"] * (library.counts()[0] - len(self.writes))

    def server(self, variables: dict[str, str]) -> Server:
        """Starts a server with a new journal and these environment variables, and returns it."""
        self.journal.unlink(missing_ok=True)
        words = ["serve", str(self.story.lab)]
        return Server(lambda port: [*words, str(port), "2", str(self.journal)], variables)

    def __call__(self, effect: Effect, nth: int, variables: dict[str, str]) -> str:
        """Runs the server with this effect on the nth call, which `variables` ask the library for. Returns what is
        wrong, or an empty text."""
        server = self.server(variables)
        if not server.listens:
            return self.fault_of_start(effect, nth, server.end())
        # If a connection can't be served, those before it must be served to their ends. So they send in turn.
        replies, unasked = play(self.story, server.port, effect.of in ("accept", "thread"))
        talk = Talk(replies, unasked, server.end(), self.journal.read_bytes())
        self.story.audit(talk.journal)
        # If there are fewer than n writes, the library had no effect.
        if effect.is_harmless or (effect.of == "write" and nth > len(self.writes)):
            return self.fault_of_plain(talk)
        if effect.of == "open":  # The server opens files only before it listens.
            return "it serves"
        if effect.of == "read":
            return self.fault_of_hang_up(effect, talk, frozenset())
        if effect.of == "write":
            return self.fault_of_write(effect, talk, self.writes[nth - 1])
        wanted = end_with("out of memory", 5) if effect.of == "thread" else effect.expected_end("serve: cannot accept")
        return self.fault_of_accept(talk, nth, wanted)

    def fault_of_start(self, effect: Effect, nth: int, ended: Ended) -> str:
        """Returns what is wrong with a server that ended before it listened, because of this effect on the nth call, or
        an empty text."""
        if effect.of in ("open", "read"):
            return fault_of_end(ended, effect.expected_end("read fault: lab"))
        if effect.of == "write" and self.writes[nth - 1] == "first line":
            return fault_of_end(ended, effect.expected_end("write fault"))
        return f"it doesn't serve: {ended}"

    def done(self, journal: bytes) -> bytes:
        """Returns the expected last line of a run with that journal. It has the numbers in the output of the audit."""
        return b"done:" + self.story.audit(journal).split(b":", 1)[1].rsplit(b",", 1)[0] + b"\n"

    def fault_of_plain(self, talk: Talk) -> str:
        """Returns what is wrong with a run in which nothing is lost, or an empty text."""
        return (
            ("a connection was closed" if talk.unasked else "")
            or self.story.fault_in(talk.replies, frozenset())
            or fault_of_end(talk.ended, Ended(0, self.done(self.kept), b""))
            or ("" if talk.journal == self.kept else "another journal")
        )

    def fault_of_hang_up(self, effect: Effect, talk: Talk, lost: frozenset[int]) -> str:
        """Returns what is wrong with a run in which a connection ended with an error because of this effect, or an
        empty text. The server answered the lines with the numbers in `lost`, but their replies didn't arrive."""
        closed = {self.story.lines[at].split(b" ", 1)[0] for at in talk.unasked}
        unasked = talk.unasked - lost
        done = self.done(talk.journal)
        # ENOMEM is reported at the end, unless it happened in a read after the session's end, whose bytes aren't used.
        well = effect.error != ENOMEM or (not closed and talk.ended.status == 0)
        return (
            ("two connections were closed" if len(closed) > 1 else "")
            or self.story.fault_in(talk.replies, unasked, lost)
            or fault_of_end(talk.ended, Ended(0, done, b"") if well else effect.expected_end("", done))
            or ("" if talk.journal == self.story.journal_of(talk.replies, unasked) else "another journal")
        )

    def fault_of_write(self, effect: Effect, talk: Talk, write: str) -> str:
        """Returns what is wrong with a run in which the write with the name `write` had this effect, or an empty
        text."""
        if write == "last line":
            return fault_of_output(effect, talk.ended, self.done(self.kept))
        what, at = write.split()
        if what == "reply":
            arrived = "" if int(at) in talk.unasked else "a reply that wasn't written arrived"
            return arrived or self.fault_of_hang_up(effect, talk, frozenset({int(at)}))
        return (
            ("a connection was closed" if talk.unasked else "")
            or self.story.fault_in(talk.replies, frozenset())
            or fault_of_end(talk.ended, end_with("journal fault"))
            or ("" if b'{"refuse":"journal"}' in talk.replies[int(at)] else "another line than the one that wasn't kept")
            or ("" if talk.journal == self.story.journal_of(talk.replies, frozenset()) else "another journal")
        )

    def fault_of_accept(self, talk: Talk, nth: int, wanted: Ended) -> str:
        """Returns what is wrong with a run in which the nth connection couldn't be accepted or got no thread, or an
        empty text. The connections before it must be served to their ends. `wanted` is the expected end of the
        server."""
        first = {line.split(b" ", 1)[0] for at, line in enumerate(self.story.lines) if at not in talk.unasked}
        return (
            fault_of_end(talk.ended, wanted)
            or ("" if len(first) == nth - 1 else "another number of connections was served")
            or self.story.fault_in(talk.replies, talk.unasked)
            or ("" if talk.journal == self.story.journal_of(talk.replies, talk.unasked) else "another journal")
        )


def fail_all(name: str, use: Use, effects: list[Effect], library: Preloaded) -> str:
    """Runs a use with each of these effects on the first call of its kind, on the second one and so on, until a run has
    no such call. Fails if a run isn't as expected, or if no run has such a call. Returns a text with `name` and the
    number of calls that were disturbed."""
    met = 0
    for effect in effects:
        for nth in range(1, MOST):
            fault = use(effect, nth, library.variables(effect.variables(nth)))
            failed = library.counts()[1]
            if failed == 0:
                break
            if fault:
                fail(f"{name}, {effect} at call {nth}: {fault}")
            met += failed
        if nth == 1:  # Even the first run had no such call.
            fail(f"{name}: no {effect}")
    return f"{name} {met}"


def check_stopped(story: Story, room: Path) -> str:
    """Checks a server that a signal ends while it waits for a further client: it prints no last line, and its journal
    is complete. Returns a text about these checks."""
    # A job in a shell's background ignores SIGINT, and so would the processes that it starts.
    signal.signal(signal.SIGINT, signal.default_int_handler)
    journal = room / "stopped.journal"
    for number in (signal.SIGTERM, signal.SIGINT):
        words = ["serve", str(story.lab)]
        # Three connections are one more than the story has, so the server doesn't end by itself.
        server = Server(lambda port: [*words, str(port), "3", str(journal)], {})
        replies, unasked = play(story, server.port)
        server.process.send_signal(number)
        ended = server.end()
        fault = (
            fault_of_end(ended, Ended(-number, b"", b""))
            or ("a line without a reply" if unasked else story.fault_in(replies, unasked))
            or ("" if journal.read_bytes() == story.plain(frozenset())[1] else "another journal")
        )
        if fault:
            fail(f"serve, {number.name}: {fault}")
        story.audit(journal.read_bytes())
    return "stopped by 2 signals"


def work(room: Path) -> str:
    """Tries all uses of the program with all effects on their calls, and then a server that a signal ends and journals
    that fail. Returns a line with the numbers of calls that were disturbed, and of the further checks."""
    library = Preloaded("faults/fail.c", room, "FAIL_COUNTS")
    lab = built_in(room)
    journal = TOP / "examples/whole-run.journal"
    lines = (TOP / "examples/whole-run.script").read_bytes().splitlines(keepends=True)
    story = Story(lab, b"".join(lines), room)
    # The lines of ana and of the teacher alone, for a server of two connections. The teacher's is the second one.
    pair = Story(lab, b"".join(line.replace(b"4 ", b"2 ", 1) for line in lines if line[:1] in b"14"), room)
    reads = Reads(library, lab)
    uses: list[tuple[str, Use, list[Effect]]] = [
        ("no words", given(story), READS + WRITES),
        ("check", shown(["check", str(lab)], "lab", reads), READS + WRITES + OPENS + [Effect("open", EACCES)]),
        ("audit", shown(["audit", str(lab), str(journal)], "journal", reads), READS + WRITES + OPENS),
        ("script", scripted(story, room, reads), READS + WRITES + OPENS),
        ("serve", Served(pair, room, library), READS + WRITES + OPENS + ACCEPTS + THREADS),
    ]
    met = ", ".join(fail_all(*use, library) for use in uses)
    return f"faults met: {met}; {check_stopped(pair, room)}; {check_halted(lab, room, library)}"


if __name__ == "__main__":
    in_room(work)
